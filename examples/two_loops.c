void two(int64_t n, int64_t m, uint64_t b[n], uint64_t d[m])
{
  for (int64_t i = 0; i < n; i++)
    b[i] = 1;
  for (int64_t i = 0; i < m; i++)
    d[i] = 2;
}
