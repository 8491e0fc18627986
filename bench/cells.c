/* Octagons as sets of cells: every cell of a window is tested, added and taken away one by one. */
#include "oracle.h"
#include <string.h>

int64_t reach(int k, int64_t x, int64_t y) {
    switch (k) {
    case 0: return -y;
    case 1: return x - y;
    case 2: return x;
    case 3: return x + y;
    case 4: return y;
    case 5: return -x + y;
    case 6: return -x;
    default: return -x - y;
    }
}

static int within(const int64_t c[8], int64_t x, int64_t y) {
    for (int k = 0; k < 8; k++)
        if (reach(k, x, y) > c[k])
            return 0;
    return 1;
}

static int has(const cells *a, int i, int j) { return (int)(a->row[j] >> i & 1); }

static int64_t floor_half(int64_t z) { return z >= 0 ? z / 2 : -((1 - z) / 2); }

static int64_t least(int64_t a, int64_t b) { return a < b ? a : b; }

cells cornered(const cells *a) {
    cells r = *a;
    uint64_t any = 0;
    int i = 0, j = 0;
    for (int k = 0; k < WINDOW; k++)
        any |= a->row[k];
    if (!any)
        return r;
    while (!(any >> i & 1))
        i++;
    while (!a->row[j])
        j++;
    memset(r.row, 0, sizeof r.row);
    for (int k = j; k < WINDOW; k++)
        r.row[k - j] = a->row[k] >> i;
    r.x0 += i;
    r.y0 += j;
    return r;
}

int cells_of(const int32_t c[8], cells *out) {
    /* twice a coordinate is the sum of two diagonals, so these bound the coordinates, loosely or not */
    int64_t down = least(c[0], floor_half((int64_t)c[1] + c[7])), right = least(c[2], floor_half((int64_t)c[1] + c[3]));
    int64_t up = least(c[4], floor_half((int64_t)c[3] + c[5])), left = least(c[6], floor_half((int64_t)c[5] + c[7]));
    int64_t wide[8];
    if (right + left >= OPERAND || up + down >= OPERAND)
        return 0;
    memset(out, 0, sizeof *out);
    out->x0 = -left;
    out->y0 = -down;
    for (int k = 0; k < 8; k++)
        wide[k] = c[k];
    for (int j = 0; j < OPERAND; j++)
        for (int i = 0; i < OPERAND; i++)
            if (within(wide, out->x0 + i, out->y0 + j))
                out->row[j] |= (uint64_t)1 << i;
    *out = cornered(out);
    return 1;
}

int reached(const cells *a, int64_t c[8]) {
    int any = 0;
    for (int j = 0; j < WINDOW; j++)
        for (int i = 0; a->row[j] && i < WINDOW; i++)
            if (has(a, i, j)) {
                for (int k = 0; k < 8; k++) {
                    int64_t r = reach(k, a->x0 + i, a->y0 + j);
                    if (!any || r > c[k])
                        c[k] = r;
                }
                any = 1;
            }
    return any;
}

uint64_t number_of(const cells *a) {
    uint64_t n = 0;
    for (int j = 0; j < WINDOW; j++)
        n += (uint64_t)__builtin_popcountll(a->row[j]);
    return n;
}

/* two or more cells, all with one x - y, or with one x + y */
static int is_rising(const cells *a) {
    int64_t c[8];
    return number_of(a) >= 2 && reached(a, c) && c[1] == -c[5];
}

static int is_falling(const cells *a) {
    int64_t c[8];
    return number_of(a) >= 2 && reached(a, c) && c[3] == -c[7];
}

int are_opposed(const cells *a, const cells *b) { return (is_rising(a) && is_falling(b)) || (is_falling(a) && is_rising(b)); }

void dilated(const cells *a, const cells *b, cells *out) {
    memset(out, 0, sizeof *out);
    out->x0 = a->x0 + b->x0;
    out->y0 = a->y0 + b->y0;
    for (int j = 0; j < WINDOW; j++)
        for (int i = 0; b->row[j] && i < WINDOW; i++)
            if (has(b, i, j))
                for (int v = 0; v + j < WINDOW; v++)
                    out->row[v + j] |= a->row[v] << i;
}

/* b within OPERAND cells; the positions p with p + b in a, for every cell of b */
void eroded(const cells *a, const cells *b, cells *out) {
    const int gap = OPERAND - 1;
    memset(out, 0, sizeof *out);
    out->x0 = a->x0 - b->x0 - gap;
    out->y0 = a->y0 - b->y0 - gap;
    for (int j = 0; j < WINDOW; j++)
        out->row[j] = ~(uint64_t)0;
    for (int j = 0; j < OPERAND; j++)
        for (int i = 0; i < OPERAND; i++)
            if (has(b, i, j))
                for (int r = 0; r < WINDOW; r++) {
                    int v = r + j - gap;
                    out->row[r] &= v < 0 || v >= WINDOW ? 0 : a->row[v] << (gap - i);
                }
}

int is_inside(const cells *a, const cells *b) {
    for (int j = 0; j < WINDOW; j++)
        for (int i = 0; a->row[j] && i < WINDOW; i++)
            if (has(a, i, j)) {
                int64_t u = a->x0 + i - b->x0, v = a->y0 + j - b->y0;
                if (u < 0 || u >= WINDOW || v < 0 || v >= WINDOW || !has(b, (int)u, (int)v))
                    return 0;
            }
    return 1;
}

int same_cells(const cells *a, const cells *b) { return number_of(a) == number_of(b) && is_inside(a, b); }

int is_octagon(const cells *a) {
    int64_t c[8];
    if (!reached(a, c))
        return 0;
    for (int64_t y = -c[0]; y <= c[4]; y++)
        for (int64_t x = -c[6]; x <= c[2]; x++)
            if (has(a, (int)(x - a->x0), (int)(y - a->y0)) != within(c, x, y))
                return 0;
    return 1;
}

answer place(const cells *a, uint32_t none) {
    answer r = {.number = 0};
    if (!reached(a, r.c))
        r.number = none;
    else if (r.c[0] > LIMIT || r.c[2] > LIMIT || r.c[4] > LIMIT || r.c[6] > LIMIT)
        r.number = 2;
    return r;
}

answer place_sums(const cells *sums) {
    answer r = place(sums, 1);
    r.filled = !is_octagon(sums);
    return r;
}

answer dilation_of_cells(const cells *a, const cells *b) {
    cells sums;
    dilated(a, b, &sums);
    return place_sums(&sums);
}

answer opening_of_cells(const cells *p, const cells *f) {
    cells left;
    eroded(p, f, &left);
    answer first = place(&left, 5);
    if (first.number)
        return first;
    left = cornered(&left);
    return dilation_of_cells(&left, f);
}

answer closing_of_cells(const cells *p, const cells *f, cells *closed) {
    cells sums;
    dilated(p, f, &sums);
    answer first = place_sums(&sums);
    if (first.number)
        return first;
    eroded(&sums, f, closed);
    answer r = place(closed, 5);
    r.filled = first.filled;
    return r;
}
