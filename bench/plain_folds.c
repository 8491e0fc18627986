/* The n-fold spread and trim in plain C: n times the element's bounds, and their sums and differences, are worked out in 64 bits.
 * The eight are written out: of a loop gcc makes vector products, which take longer. */
#include "plain_octagons.h"

static int64_t sum(int32_t a, int64_t n, int32_t b) { return a + n * b; }

/* The n-fold dilation and erosion of normal forms. */
static uint32_t dilate_forms_n(const int32_t a[8], const int32_t b[8], int64_t n, int32_t out[8], uint32_t *mark) {
    const int64_t sums[8] = {sum(a[0], n, b[0]), sum(a[1], n, b[1]), sum(a[2], n, b[2]), sum(a[3], n, b[3]),
                             sum(a[4], n, b[4]), sum(a[5], n, b[5]), sum(a[6], n, b[6]), sum(a[7], n, b[7])};
    if (sums[0] > LIMIT || sums[2] > LIMIT || sums[4] > LIMIT || sums[6] > LIMIT)
        return OFF_MAP;
    for (int k = 0; k < 8; k++)
        out[k] = (int32_t)sums[k];
    *mark = n && are_opposed(a, b) ? FILLED : EXACT;
    return 0;
}

static uint32_t erode_forms_n(const int32_t a[8], const int32_t b[8], int64_t n, int32_t out[8]) {
    const int64_t differences[8] = {sum(a[0], -n, b[0]), sum(a[1], -n, b[1]), sum(a[2], -n, b[2]), sum(a[3], -n, b[3]),
                                    sum(a[4], -n, b[4]), sum(a[5], -n, b[5]), sum(a[6], -n, b[6]), sum(a[7], -n, b[7])};
    uint32_t refused = normalise_wide(differences, out);
    return refused == NO_CELL ? NOTHING_LEFT : refused;
}

uint32_t plain_dilate_n(const int32_t *plot, size_t plot_len, const int32_t *element, size_t element_len, uint32_t n, int32_t *out, size_t out_len, uint32_t *mark) {
    int32_t a[8], b[8];
    if (plot_len != 8 || element_len != 8 || out_len != 8)
        return WRONG_LENGTH;
    if (n > FOLD_LIMIT)
        return TOO_MANY_FOLDS;
    uint32_t refused = normalise_both(plot, element, a, b);
    return refused ? refused : dilate_forms_n(a, b, n, out, mark);
}

uint32_t plain_erode_n(const int32_t *plot, size_t plot_len, const int32_t *element, size_t element_len, uint32_t n, int32_t *out, size_t out_len) {
    int32_t a[8], b[8];
    if (plot_len != 8 || element_len != 8 || out_len != 8)
        return WRONG_LENGTH;
    if (n > FOLD_LIMIT)
        return TOO_MANY_FOLDS;
    uint32_t refused = normalise_both(plot, element, a, b);
    return refused ? refused : erode_forms_n(a, b, n, out);
}
