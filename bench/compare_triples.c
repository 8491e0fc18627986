/* A plot opened by one element spread with another (U8): each call beside sets of cells or searches, and the opening inside that by either
 * element, where both are accepted. */
#include "compare.h"
#include <stdio.h>

/* Whether every cell of one octagon is a cell of another: cell by cell where both are small, else by bounds, which are normalised: each of
 * the one is at most the other's. */
static int lies_inside(const int32_t less[8], const int32_t more[8]) {
    cells a, b;
    if (cells_of(less, &a) && cells_of(more, &b))
        return is_inside(&a, &b);
    for (int k = 0; k < 8; k++)
        if (less[k] > more[k])
            return 0;
    return 1;
}

static int has_no_more(const int32_t less[8], const int32_t more[8]) {
    uint64_t m, n;
    return !kx_count(less, 8, &m) && !kx_count(more, 8, &n) && m <= n;
}

/* The plot opened by a spread, which has its mark, beside the plot opened by one of the two elements: the first opening gave `less`, with its
 * own mark. */
static void check_less(const int32_t p[8], const int32_t f[8], const int32_t both[8], uint32_t spread, const int32_t less[8], uint32_t mark) {
    int32_t more[8];
    uint32_t alone, number = kx_opening(p, 8, f, 8, more, 8, &alone);
    if (number == 2) {
        opened_off_map++;
        return;
    }
    if (number || !lies_inside(less, more) || !has_no_more(less, more)) {
        printf("the plot opened by an element is refused with %u, or does not hold the plot opened by a spread of it, which has the bounds", number);
        for (int k = 0; k < 8; k++)
            printf(" %d", both[k]);
        printf("\n");
        differ("kx_opening", p, f, number, 0);
    }
    opened_less++;
    opened_by_filled += spread == KX_FILLED;
    opened_unlike += mark != alone;
}

void compare_triple(void) {
    int32_t p[8], f[8], g[8], both[8], less[8];
    uint32_t spread, mark;
    random_triple(p, f, g);
    compare_two(f, g, 1);
    compare_two(p, f, 1);
    compare_two(p, g, 1);
    if (kx_dilate(f, 8, g, 8, both, 8, &spread))
        return;
    compare_two(p, both, 1);
    if (kx_opening(p, 8, both, 8, less, 8, &mark))
        return;
    check_less(p, f, both, spread, less, mark);
    check_less(p, g, both, spread, less, mark);
}
