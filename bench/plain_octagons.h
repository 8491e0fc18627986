/* The normal form of eight bounds, the cells and the outline of one, and opposed rows: what the calls on octagons in plain C share. */
#ifndef PLAIN_OCTAGONS_H
#define PLAIN_OCTAGONS_H
#include "plain.h"

/* A function that not every file which includes this needs. */
#define SHARED __attribute__((unused)) static

static int64_t min(int64_t a, int64_t b) { return b < a ? b : a; }

static int64_t even_bound(int64_t far_before, int64_t before, int64_t own, int64_t after, int64_t far_after) {
    return min(min(own, far_before + after), min(before + far_after, (before + after) >> 1));
}

/* The normal form of c in e, or the number of the refusal: of bounds of either width, each by a function of its own. */
#define NORMAL_FORM(name, bound)                                                                                       \
    SHARED uint32_t name(const bound c[8], int32_t e[8]) {                                                             \
        int64_t e0 = even_bound(c[6], c[7], c[0], c[1], c[2]);                                                         \
        int64_t e2 = even_bound(c[0], c[1], c[2], c[3], c[4]);                                                         \
        int64_t e4 = even_bound(c[2], c[3], c[4], c[5], c[6]);                                                         \
        int64_t e6 = even_bound(c[4], c[5], c[6], c[7], c[0]);                                                         \
        int64_t e1 = min(c[1], e0 + e2);                                                                               \
        int64_t e3 = min(c[3], e2 + e4);                                                                               \
        int64_t e5 = min(c[5], e4 + e6);                                                                               \
        int64_t e7 = min(c[7], e6 + e0);                                                                               \
        if (e0 + e4 < 0 || e1 + e5 < 0 || e2 + e6 < 0 || e3 + e7 < 0)                                                  \
            return NO_CELL;                                                                                            \
        if (e0 > LIMIT || e2 > LIMIT || e4 > LIMIT || e6 > LIMIT)                                                      \
            return OFF_MAP;                                                                                            \
        e[0] = (int32_t)e0;                                                                                            \
        e[1] = (int32_t)e1;                                                                                            \
        e[2] = (int32_t)e2;                                                                                            \
        e[3] = (int32_t)e3;                                                                                            \
        e[4] = (int32_t)e4;                                                                                            \
        e[5] = (int32_t)e5;                                                                                            \
        e[6] = (int32_t)e6;                                                                                            \
        e[7] = (int32_t)e7;                                                                                            \
        return 0;                                                                                                      \
    }

NORMAL_FORM(normalise, int32_t)
NORMAL_FORM(normalise_wide, int64_t)

SHARED uint64_t triangle(int64_t n) { return (uint64_t)n * ((uint64_t)n + 1) / 2; }

/* The cells within normalised bounds. */
SHARED uint64_t area(const int32_t a[8]) {
    uint64_t height = (uint64_t)(a[0] + a[4] + 1), width = (uint64_t)(a[6] + a[2] + 1);
    return height * width - triangle(a[0] + a[2] - a[1]) - triangle(a[2] + a[4] - a[3]) - triangle(a[4] + a[6] - a[5]) - triangle(a[6] + a[0] - a[7]);
}

/* The outline of normalised bounds: its start, and its sides. */
SHARED void outline_of(const int32_t a[8], int32_t start[2], uint32_t n[8]) {
    for (int k = 0; k < 8; k++)
        n[k] = (uint32_t)(a[(k + 7) % 8] + a[(k + 1) % 8] - (k % 2 ? a[k] : 2 * a[k]));
    start[0] = a[0] - a[7];
    start[1] = -a[0];
}

/* The normal forms of both operands, or the number of the refusal: all of the first's come before the second's. */
SHARED uint32_t normalise_both(const int32_t p[8], const int32_t f[8], int32_t a[8], int32_t b[8]) {
    uint32_t refused = normalise(p, a);
    return refused ? refused : normalise(f, b);
}

SHARED int is_rising(const int32_t c[8]) { return c[1] + c[5] <= 0 && 1 <= c[3] + c[7]; }

SHARED int is_falling(const int32_t c[8]) { return c[3] + c[7] <= 0 && 1 <= c[1] + c[5]; }

/* Whether two normal forms are opposed rows. */
SHARED int are_opposed(const int32_t a[8], const int32_t b[8]) { return (is_rising(a) && is_falling(b)) || (is_falling(a) && is_rising(b)); }

#endif
