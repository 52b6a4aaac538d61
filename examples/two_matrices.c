#pragma sparse csr(ap, ac, av, n, m, na)
#pragma sparse csr(bp, bc, bv, n, m, nb)
void two(int64_t n, int64_t m, int64_t na, int64_t nb, int64_t ap[n+1], int64_t ac[na], uint64_t av[na], int64_t bp[n+1], int64_t bc[nb], uint64_t bv[nb], uint64_t x[m], uint64_t y[n])
{
  for (int64_t i = 0; i < n; i++) {
    for (int64_t k = ap[i]; k < ap[i+1]; k++)
      y[i] += av[k] * x[ac[k]];
    for (int64_t k = bp[i]; k < bp[i+1]; k++)
      y[i] += bv[k] * x[bc[k]];
  }
}
