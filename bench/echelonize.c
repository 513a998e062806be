/* M4RI's echelon form of m rows over n atoms: the pivots alone, without constants, units or index. */
#include <m4ri/m4ri.h>
#include <stddef.h>
#include <stdint.h>

mzd_t *m4ri_made(size_t n, size_t m, const uint64_t *rows) {
    mzd_t *matrix = mzd_init((rci_t)m, (rci_t)n);
    for (size_t r = 0; r < m; r++)
        for (size_t a = 0; a < n; a++)
            mzd_write_bit(matrix, (rci_t)r, (rci_t)a, rows[r * ((n + 63) / 64) + a / 64] >> (a % 64) & 1);
    return matrix;
}

void m4ri_restore(mzd_t *matrix, const mzd_t *original) { mzd_copy(matrix, original); }

size_t m4ri_rank(mzd_t *matrix) { return (size_t)mzd_echelonize(matrix, 0); }
