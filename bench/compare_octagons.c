/* Every exported call on one octagon or outline, beside sets of cells, walks and searches. */
#include "compare.h"
#include <stdlib.h>
#include <string.h>

void check(const char *call, const int32_t *p, const int32_t *f, uint32_t got, const int32_t out[8], answer want) {
    int same = got == want.number;
    for (int k = 0; k < 8; k++)
        same &= out[k] == (want.number ? -1 - k : want.c[k]);
    if (!same)
        differ(call, p, f, got, want.number);
    count_answer(got);
}

int32_t *cleared(int32_t out[8]) {
    for (int k = 0; k < 8; k++)
        out[k] = -1 - k;
    return out;
}

answer normal(const int32_t c[8]) {
    int64_t wide[8];
    cells a;
    for (int k = 0; k < 8; k++)
        wide[k] = c[k];
    answer r = normal_by_search(wide);
    if (cells_of(c, &a)) {
        answer s = place(&a, 1);
        if (s.number != r.number || (!s.number && memcmp(s.c, r.c, sizeof s.c)))
            differ("the two ways of the comparison itself", c, NULL, s.number, r.number);
        return s;
    }
    return r;
}

/* The cells of a normal form, from its corners; row by row too where there are few rows, or where it is asked. The two have to agree. */
static uint64_t cells_within(const int64_t c[8], int by_rows) {
    uint64_t n = count_by_corners(c);
    if ((by_rows || c[0] + c[4] < FEW_ROWS) && count_by_rows(c) != n)
        differ("the two ways of the comparison itself", NULL, NULL, (uint32_t)count_by_rows(c), (uint32_t)n);
    return n;
}

/* The count is lent between two other numbers. */
static void compare_count(const int32_t c[8], const answer *r, int by_rows) {
    cells a;
    uint64_t count[3] = {75, 77, 79}, want = r->number ? 77 : cells_of(c, &a) ? number_of(&a) : cells_within(r->c, by_rows);
    uint32_t got = kx_count(c, 8, &count[1]);
    agree("kx_count", c, got, r->number, count[0] == 75 && count[1] == want && count[2] == 79);
}

/* The sides between corners: each as long as its longer coordinate. */
static void sides_between(int64_t at[8][2], uint32_t n[8]) {
    for (int k = 0; k < 8; k++) {
        int64_t dx = llabs(at[(k + 1) % 8][0] - at[k][0]), dy = llabs(at[(k + 1) % 8][1] - at[k][1]);
        n[k] = (uint32_t)(dx > dy ? dx : dy);
    }
}

static void compare_to_outline(const int32_t c[8], const answer *r, int64_t at[8][2]) {
    int32_t start[2] = {-1, -2};
    uint32_t n[8] = {1, 2, 3, 4, 5, 6, 7, 8}, want[8] = {1, 2, 3, 4, 5, 6, 7, 8};
    uint32_t got = kx_to_outline(c, 8, start, 2, n, 8);
    cells a, w;
    int right = 1;
    if (!r->number)
        sides_between(at, want);
    right &= start[0] == (r->number ? -1 : at[0][0]) && start[1] == (r->number ? -2 : at[0][1]) && !memcmp(n, want, sizeof n);
    if (!r->number && cells_of(c, &a)) {
        walked(start, n, &w);
        right &= same_cells(&a, &w);
    }
    agree("kx_to_outline", c, got, r->number, right);
}

static void compare_place(const int32_t c[8], const answer *r, int64_t at[8][2]) {
    uint32_t k = any() % 9, want = r->number ? r->number : k > 7 ? 7 : 0;
    double metres[2] = {-1.5, -2.5}, place[2] = {want ? -1.5 : at[k][0] / 4.0, want ? -2.5 : at[k][1] / 4.0};
    uint32_t got = kx_vertex_place(c, 8, k, metres, 2);
    agree("kx_vertex_place", c, got, want, !memcmp(place, metres, sizeof place));
}

/* The split by the rule; and on some rounds, the cells that it makes. */
static void compare_split(const int32_t c[8], const answer *r, int64_t at[8][2], int by_cells) {
    int32_t start[2] = {-1, -2};
    uint32_t k[PIECES] = {1, 2, 3}, want[PIECES] = {1, 2, 3}, sides[8];
    uint32_t got = kx_decompose(c, 8, start, 2, k, PIECES);
    cells a, b;
    int right = 1;
    if (!r->number) {
        sides_between(at, sides);
        right &= split_by_rule(sides, want) == 1;
    }
    right &= start[0] == (r->number ? -1 : at[0][0]) && start[1] == (r->number ? -2 : at[0][1]) && !memcmp(k, want, sizeof k);
    if (!r->number && by_cells && cells_of(c, &a)) {
        rebuilt(start, k, &b);
        right &= same_cells(&a, &b);
        splits_by_cells++;
    }
    agree("kx_decompose", c, got, r->number, right);
}

void compare_one(const int32_t c[8], uint64_t round) {
    int32_t out[8];
    int64_t at[8][2] = {{0}};
    cells a;
    answer r = normal(c);
    octagons_by_cells += cells_of(c, &a) != 0;
    if (!r.number)
        corners_by_search(r.c, at);
    check("kx_normalise", c, NULL, kx_normalise(c, 8, cleared(out), 8), out, r);
    compare_count(c, &r, round % 64 == 0);
    compare_to_outline(c, &r, at);
    compare_place(c, &r, at);
    compare_split(c, &r, at, round % 16 == 0);
}

void compare_outline(void) {
    int32_t start[2], out[8];
    uint32_t n[8], longest = 0;
    static const uint32_t sizes[] = {6, 6, 6, 6, 3000, 20000, 600000, 2000000};
    random_outline(start, n, sizes[any() % 8]);
    answer want = {.number = walk_refusal(LIMIT, start, n)};
    if (!want.number) {
        bounds_of_walk(start, n, want.c);
        for (int k = 0; k < 8; k++)
            longest = n[k] > longest ? n[k] : longest;
    }
    if (!want.number && longest <= 9) {
        cells w;
        walked(start, n, &w);
        answer by = place(&w, 1);
        if (by.number || memcmp(by.c, want.c, sizeof by.c) || !is_octagon(&w))
            differ("the two ways of the comparison itself", start, NULL, by.number, want.number);
        outlines_by_cells++;
    }
    check("kx_to_octagon", NULL, NULL, kx_to_octagon(start, 2, n, 8, cleared(out), 8), out, want);
}
