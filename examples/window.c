void window(int64_t n, uint64_t c[n+4], uint64_t d[n])
{
  for (int64_t i = 0; i < n; i++)
    for (int64_t j = 0; j < 4; j++)
      d[i] += c[i+j];
}
