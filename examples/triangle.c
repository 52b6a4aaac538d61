void g(int64_t n, uint64_t b[n][n], uint64_t c[n])
{
  for (int64_t i = 0; i < n; i++)
    for (int64_t j = i; j < n; j++)
      b[i][j] = c[j];
}
