/* Any eight bounds, by searching their rows and columns: no sum of bounds is halved, and none is tightened by another. */
#include "oracle.h"
#include <stdlib.h>
#include <string.h>

typedef __int128 wide;

static int64_t most(int64_t a, int64_t b) { return a > b ? a : b; }

static int64_t least(int64_t a, int64_t b) { return a < b ? a : b; }

/* the ends of row y, and of column x */
static int64_t row_low(const int64_t c[8], int64_t y) { return most(-c[6], most(y - c[5], -c[7] - y)); }

static int64_t row_high(const int64_t c[8], int64_t y) { return least(c[2], least(c[1] + y, c[3] - y)); }

static int64_t column_low(const int64_t c[8], int64_t x) { return most(-c[0], most(x - c[1], -c[7] - x)); }

static int64_t column_high(const int64_t c[8], int64_t x) { return least(c[4], least(c[5] + x, c[3] - x)); }

typedef int64_t end(const int64_t c[8], int64_t at);

/* how long the line at t is, less one, plus a slope times t: first up, then down */
typedef struct {
    const int64_t *c;
    end *low, *high;
    int lows, highs;
    int64_t slope;
} hill;

static wide height(const hill *h, int64_t t) { return (wide)h->highs * h->high(h->c, t) - (wide)h->lows * h->low(h->c, t) + (wide)h->slope * t; }

/* the first t from a to b at which a hill is as high as it gets */
static int64_t top(const hill *h, int64_t a, int64_t b) {
    while (a < b) {
        int64_t m = a + (b - a) / 2;
        if (height(h, m) < height(h, m + 1))
            a = m + 1;
        else
            b = m;
    }
    return a;
}

/* the first and the last line from a to b that has a cell; 0 where none has */
static int lines(const int64_t c[8], end *low, end *high, int64_t a, int64_t b, int64_t *first, int64_t *last) {
    hill length = {c, low, high, 1, 1, 0};
    int64_t m = top(&length, a, b), p, q;
    if (a > b || height(&length, m) < 0)
        return 0;
    for (p = a, q = m; p < q;) {
        int64_t t = p + (q - p) / 2;
        if (height(&length, t) < 0)
            p = t + 1;
        else
            q = t;
    }
    *first = p;
    for (p = m, q = b; p < q;) {
        int64_t t = p + (q - p) / 2 + 1;
        if (height(&length, t) < 0)
            q = t - 1;
        else
            p = t;
    }
    *last = p;
    return 1;
}

answer normal_by_search(const int64_t c[8]) {
    answer r = {.number = 1};
    int64_t y0, y1, x0, x1;
    if (!lines(c, row_low, row_high, -c[0], c[4], &y0, &y1) || !lines(c, column_low, column_high, -c[6], c[2], &x0, &x1))
        return r;
    /* the furthest along each diagonal is at the end of a row */
    hill h1 = {c, row_low, row_high, 0, 1, -1}, h3 = {c, row_low, row_high, 0, 1, 1};
    hill h5 = {c, row_low, row_high, 1, 0, 1}, h7 = {c, row_low, row_high, 1, 0, -1};
    r.c[0] = -y0;
    r.c[1] = (int64_t)height(&h1, top(&h1, y0, y1));
    r.c[2] = x1;
    r.c[3] = (int64_t)height(&h3, top(&h3, y0, y1));
    r.c[4] = y1;
    r.c[5] = (int64_t)height(&h5, top(&h5, y0, y1));
    r.c[6] = -x0;
    r.c[7] = (int64_t)height(&h7, top(&h7, y0, y1));
    r.number = x0 < -LIMIT || x1 > LIMIT || y0 < -LIMIT || y1 > LIMIT ? 2 : 0;
    return r;
}

static answer of_bounds(const int32_t c[8]) {
    int64_t d[8];
    for (int k = 0; k < 8; k++)
        d[k] = c[k];
    return normal_by_search(d);
}

/* one line along a diagonal, and more than one cell on it */
static int is_row(const int64_t c[8], int k) { return c[k] == -c[(k + 4) % 8] && c[2] != -c[6]; }

int are_opposed_bounds(const int64_t a[8], const int64_t b[8]) { return (is_row(a, 1) && is_row(b, 3)) || (is_row(a, 3) && is_row(b, 1)); }

/* The normal form of the first operand, with the first refusal of the two. */
static answer of_both(const int32_t p[8], const int32_t f[8], answer *b) {
    answer a = of_bounds(p);
    *b = of_bounds(f);
    if (!a.number)
        a.number = b->number;
    return a;
}

answer dilation_by_search(const int32_t p[8], const int32_t f[8], uint32_t n) {
    answer b, a = of_both(p, f, &b);
    if (a.number)
        return a;
    a.filled = n > 0 && are_opposed_bounds(a.c, b.c);
    for (int k = 0; k < 8; k++)
        a.c[k] += (int64_t)n * b.c[k];
    if (a.c[0] > LIMIT || a.c[2] > LIMIT || a.c[4] > LIMIT || a.c[6] > LIMIT)
        a.number = 2;
    return a;
}

answer erosion_by_search(const int32_t p[8], const int32_t f[8], uint32_t n) {
    answer b, a = of_both(p, f, &b);
    if (a.number)
        return a;
    for (int k = 0; k < 8; k++)
        a.c[k] -= (int64_t)n * b.c[k];
    a = normal_by_search(a.c);
    if (a.number == 1)
        a.number = 5;
    return a;
}

answer opening_by_search(const int32_t p[8], const int32_t f[8]) {
    answer left = erosion_by_search(p, f, 1);
    int32_t c[8];
    if (left.number)
        return left;
    for (int k = 0; k < 8; k++)
        c[k] = (int32_t)left.c[k];
    return dilation_by_search(c, f, 1);
}

answer closing_by_search(const int32_t p[8], const int32_t f[8]) {
    answer plot = of_bounds(p), r = dilation_by_search(p, f, 1);
    memcpy(r.c, plot.c, sizeof r.c);
    return r;
}

void corners_by_search(const int64_t c[8], int64_t at[8][2]) {
    const int64_t low = -c[0], high = c[4], left = -c[6], right = c[2];
    const int64_t found[8][2] = {
        {row_low(c, low), low},     {row_high(c, low), low},    {right, column_low(c, right)}, {right, column_high(c, right)},
        {row_high(c, high), high}, {row_low(c, high), high}, {left, column_high(c, left)},  {left, column_low(c, left)},
    };
    for (int k = 0; k < 8; k++) {
        at[k][0] = found[k][0];
        at[k][1] = found[k][1];
    }
}

uint64_t count_by_rows(const int64_t c[8]) {
    uint64_t n = 0;
    for (int64_t y = -c[0]; y <= c[4]; y++)
        if (row_low(c, y) <= row_high(c, y))
            n += (uint64_t)(row_high(c, y) - row_low(c, y) + 1);
    return n;
}

static int64_t longer(int64_t a, int64_t b) { return llabs(a) > llabs(b) ? llabs(a) : llabs(b); }

/* The area, half of the steps along the outline, and one, by Pick's theorem. */
uint64_t count_by_corners(const int64_t c[8]) {
    int64_t at[8][2], area_twice = 0, steps = 0;
    corners_by_search(c, at);
    for (int k = 0; k < 8; k++) {
        const int64_t *u = at[k], *v = at[(k + 1) % 8];
        area_twice += u[0] * v[1] - u[1] * v[0];
        steps += longer(v[0] - u[0], v[1] - u[1]);
    }
    return (uint64_t)((area_twice + steps) / 2 + 1);
}
