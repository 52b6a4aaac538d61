#pragma sparse csr(index, col, a, n, m, nnz)
void sums(int64_t n, int64_t m, int64_t nnz, int64_t index[n+1], int64_t col[nnz], uint64_t a[nnz], uint64_t x[m], uint64_t s[n], uint64_t y[n])
{
  for (int64_t i = 0; i < n; i++)
    for (int64_t k = index[i]; k < index[i+1]; k++) {
      s[i] += a[k];
      y[i] += a[k] * x[col[k]];
    }
}
