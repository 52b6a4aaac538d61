void f(int64_t n, int64_t m, uint64_t b[n][m])
{
  for (int64_t i = 1; i < n; i++)
    for (int64_t j = 0; j < m-1; j++)
      b[i][j] = b[i-1][j+1];
}
