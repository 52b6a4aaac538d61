/* An inspector that makes an index array, and an executor that reads it. */
void g(int64_t n, uint64_t y[1])
{
#pragma sparse inspector
  INDEX1(c);
  GROW(c, n);
  for (int64_t i = 0; i < n; i++)
    c[i] = 2*i;
#pragma sparse executor
  for (int64_t i = 0; i < n; i++)
    if (c[i] >= 4)
      y[0] += 1;
}
