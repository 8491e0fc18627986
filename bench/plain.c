/* The calls on octagons of bindings/koxirmeta.h in plain C, by the same formulas; plain_folds.c has the n-fold ones, plain_outlines.c those on
 * outlines, plain_spectra.c the spectrum. */
#include "plain_octagons.h"
#include <string.h>

/* The dilation and the erosion of normal forms. */
static uint32_t dilate_forms(const int32_t a[8], const int32_t b[8], int32_t out[8], uint32_t *mark) {
    int32_t sums[8];
    for (int k = 0; k < 8; k++)
        sums[k] = a[k] + b[k];
    if (sums[0] > LIMIT || sums[2] > LIMIT || sums[4] > LIMIT || sums[6] > LIMIT)
        return OFF_MAP;
    memcpy(out, sums, sizeof sums);
    *mark = are_opposed(a, b) ? FILLED : EXACT;
    return 0;
}

static uint32_t erode_forms(const int32_t a[8], const int32_t b[8], int32_t out[8]) {
    int32_t differences[8];
    for (int k = 0; k < 8; k++)
        differences[k] = a[k] - b[k];
    uint32_t refused = normalise(differences, out);
    return refused == NO_CELL ? NOTHING_LEFT : refused;
}

static uint32_t dilate(const int32_t p[8], const int32_t f[8], int32_t out[8], uint32_t *mark) {
    int32_t a[8], b[8];
    uint32_t refused = normalise_both(p, f, a, b);
    return refused ? refused : dilate_forms(a, b, out, mark);
}

static uint32_t erode(const int32_t p[8], const int32_t f[8], int32_t out[8]) {
    int32_t a[8], b[8];
    uint32_t refused = normalise_both(p, f, a, b);
    return refused ? refused : erode_forms(a, b, out);
}

uint32_t plain_normalise(const int32_t *bounds, size_t bounds_len, int32_t *out, size_t out_len) {
    if (bounds_len != 8 || out_len != 8)
        return WRONG_LENGTH;
    return normalise(bounds, out);
}

uint32_t plain_cells(const int32_t bounds[8], uint64_t *cells) {
    int32_t a[8];
    uint32_t refused = normalise(bounds, a);
    if (refused)
        return refused;
    *cells = area(a);
    return 0;
}

uint32_t plain_count(const int32_t *bounds, size_t bounds_len, uint64_t *cells) {
    if (bounds_len != 8)
        return WRONG_LENGTH;
    return plain_cells(bounds, cells);
}

static uint32_t opening(const int32_t p[8], const int32_t f[8], int32_t out[8], uint32_t *mark) {
    int32_t a[8], b[8], left[8];
    uint32_t refused = normalise_both(p, f, a, b);
    if (!refused)
        refused = erode_forms(a, b, left);
    return refused ? refused : dilate_forms(left, b, out, mark);
}

/* What was dilated can be eroded again, so that the mark is written where the call is accepted. */
static uint32_t closing(const int32_t p[8], const int32_t f[8], int32_t out[8], uint32_t *mark) {
    int32_t a[8], b[8], spread[8];
    uint32_t refused = normalise_both(p, f, a, b);
    if (!refused)
        refused = dilate_forms(a, b, spread, mark);
    return refused ? refused : erode_forms(spread, b, out);
}

uint32_t plain_erode(const int32_t *plot, size_t plot_len, const int32_t *element, size_t element_len, int32_t *out, size_t out_len) {
    if (plot_len != 8 || element_len != 8 || out_len != 8)
        return WRONG_LENGTH;
    return erode(plot, element, out);
}

/* A call with a spread in it, where the lengths of its slices are right. */
#define SPREADING(operation)                                                                                           \
    uint32_t plain_##operation(const int32_t *plot, size_t plot_len, const int32_t *element, size_t element_len, int32_t *out, size_t out_len, uint32_t *mark) { \
        if (plot_len != 8 || element_len != 8 || out_len != 8)                                                         \
            return WRONG_LENGTH;                                                                                       \
        return operation(plot, element, out, mark);                                                                    \
    }

SPREADING(dilate)
SPREADING(opening)
SPREADING(closing)

static uint32_t smaller(uint32_t a, uint32_t b) { return a < b ? a : b; }

/* What a has above b, or nought. */
static uint32_t surplus(uint32_t a, uint32_t b) { return a < b ? 0 : a - b; }

/* Whether a of one kind and b of another make a rest: the sides that both have are a + b and a + 2 b, and it has no others. */
static int fits(uint64_t a, uint64_t b, uint32_t sum, uint32_t twice, uint32_t others) { return (a + b == sum) & (a + 2 * b == twice) & !others; }

/* The cases (i) to (viii) of source document 000. */
static void count_triangles(uint32_t k[13], const uint32_t r[8]) {
    for (int m = 4; m < 12; m++)
        k[m] = 0;
    if (fits(r[0], r[1], r[3], r[6], r[2] | r[4] | r[5] | r[7]))
        k[5] = r[0], k[10] = r[1];
    if (fits(r[2], r[1], r[7], r[4], r[0] | r[3] | r[5] | r[6]))
        k[7] = r[2], k[9] = r[1];
    if (fits(r[2], r[3], r[5], r[0], r[1] | r[4] | r[6] | r[7]))
        k[4] = r[2], k[8] = r[3];
    if (fits(r[4], r[3], r[1], r[6], r[0] | r[2] | r[5] | r[7]))
        k[6] = r[4], k[10] = r[3];
    if (fits(r[4], r[5], r[7], r[2], r[0] | r[1] | r[3] | r[6]))
        k[7] = r[4], k[11] = r[5];
    if (fits(r[6], r[5], r[3], r[0], r[1] | r[2] | r[4] | r[7]))
        k[5] = r[6], k[8] = r[5];
    if (fits(r[6], r[7], r[1], r[4], r[0] | r[2] | r[3] | r[5]))
        k[6] = r[6], k[9] = r[7];
    if (fits(r[0], r[7], r[5], r[2], r[1] | r[3] | r[4] | r[6]))
        k[4] = r[0], k[11] = r[7];
}

static void split(const uint32_t n[8], uint32_t k[13]) {
    uint32_t r[8];
    for (int m = 0; m < 8; m++)
        r[m] = surplus(n[m], n[(m + 4) % 8]);
    for (int m = 0; m < 4; m++)
        k[m] = smaller(n[m], n[m + 4]);
    count_triangles(k, r);
    k[12] = 0;
    uint64_t others = (uint64_t)k[0] + k[2] + k[4] + k[5] + k[6] + k[7] + k[8] + k[9] + k[10] + k[11];
    if (k[1] > 0 && k[3] > 0 && others == 0) {
        k[1]--;
        k[3]--;
        k[12] = 1;
    }
}

uint32_t plain_decompose(const int32_t *bounds, size_t bounds_len, int32_t *start, size_t start_len, uint32_t *counts, size_t counts_len) {
    int32_t a[8];
    uint32_t n[8];
    if (bounds_len != 8 || start_len != 2 || counts_len != 13)
        return WRONG_LENGTH;
    uint32_t refused = normalise(bounds, a);
    if (refused)
        return refused;
    outline_of(a, start, n);
    split(n, counts);
    return 0;
}
