/* How finely a plot breaks up (U9): the cells lost from fold to fold of a frame, by sets of cells and by search. */
#include "oracle.h"

static int has(const cells *a, int64_t x, int64_t y) {
    int64_t i = x - a->x0, j = y - a->y0;
    return i >= 0 && i < WINDOW && j >= 0 && j < WINDOW && (a->row[j] >> i & 1);
}

/* How many cells of the first are not cells of the second. */
static uint64_t lost(const cells *a, const cells *b) {
    uint64_t n = 0;
    for (int j = 0; j < WINDOW; j++)
        for (int i = 0; a->row[j] && i < WINDOW; i++)
            n += has(a, a->x0 + i, a->y0 + j) && !has(b, a->x0 + i, a->y0 + j);
    return n;
}

/* The cells within the bounds that some cells reach: the smallest octagon that holds them. */
static cells held(const cells *a) {
    int64_t c[8] = {0};
    int32_t bounds[8];
    cells r;
    reached(a, c);
    for (int k = 0; k < 8; k++)
        bounds[k] = (int32_t)c[k];
    cells_of(bounds, &r);
    return r;
}

/* What n trims left is spread n times, which stays inside the plot; where this is no octagon, the smallest that holds it is taken, and the
 * answer is 1. */
static int opened(const cells *left, const cells *f, size_t n, cells *out) {
    cells sums;
    *out = *left;
    if (!number_of(left))
        return 0;
    for (size_t i = 0; i < n; i++) {
        dilated(out, f, &sums);
        *out = sums;
    }
    if (is_octagon(out))
        return 0;
    *out = held(out);
    return 1;
}

/* The plot's refusal, the frame's, 19 and 20. */
static uint32_t refusal_of_cells(const cells *p, const cells *f) {
    answer a = place(p, 1), b = place(f, 1);
    return a.number ? a.number : b.number ? b.number : !has(f, 0, 0) ? 19 : number_of(f) == 1 ? 20 : 0;
}

/* One more entry; whether either of its two openings is filled. */
static void add(spectrum *s, uint64_t cells, int filled) {
    s->entry[s->count++] = cells;
    s->filled += filled != 0;
}

void spectrum_by_cells(const cells *p, const cells *f, spectrum *s) {
    cells left = *p, more = *p, less, t;
    int filled = 0;
    s->number = refusal_of_cells(p, f);
    s->count = s->filled = 0;
    while (!s->number && number_of(&left)) {
        eroded(&left, f, &t);
        left = cornered(&t);
        int fills = opened(&left, f, s->count + 1, &less);
        add(s, lost(&more, &less), filled || fills);
        more = less;
        filled = fills;
    }
}

/* The plot opened by n folds: how many cells it has, and whether it is filled. A frame that has (0, 0) trims a plot to some of its own
 * cells, so that none is off the map. */
static uint64_t opened_by_search(const answer *p, const answer *f, size_t n, int *filled) {
    int64_t c[8];
    for (int k = 0; k < 8; k++)
        c[k] = p->c[k] - (int64_t)n * f->c[k];
    answer left = normal_by_search(c);
    *filled = !left.number && n > 0 && are_opposed_bounds(left.c, f->c);
    for (int k = 0; k < 8; k++)
        c[k] = left.c[k] + (int64_t)n * f->c[k];
    return left.number ? 0 : count_by_corners(c);
}

/* 19 where (0, 0) is not within every bound as it was given, and 20 where no bound that is reached lets another cell in. */
static uint32_t refusal_of_frame(const int32_t f[8], const answer *reached) {
    for (int k = 0; k < 8; k++)
        if (f[k] < 0)
            return 19;
    for (int k = 0; k < 8; k++)
        if (reached->c[k] > 0)
            return 0;
    return 20;
}

void spectrum_by_search(const int32_t p[8], const int32_t f[8], spectrum *s) {
    answer a = erosion_by_search(p, f, 0), b = erosion_by_search(f, f, 0);
    int filled = 0, fills;
    s->number = a.number ? a.number : refusal_of_frame(f, &b);
    s->count = s->filled = 0;
    for (uint64_t more = s->number ? 0 : opened_by_search(&a, &b, 0, &filled), less; more; more = less) {
        less = opened_by_search(&a, &b, s->count + 1, &fills);
        add(s, more - less, filled || fills);
        filled = fills;
    }
}
