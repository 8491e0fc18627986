/* Every exported call on two operands, beside sets of cells where both are small, else beside searches. */
#include "compare.h"
#include <stdio.h>
#include <string.h>

/* A number that is no mark. */
enum { UNMARKED = 0x5a5a5a5a };

/* What each call is to answer. */
typedef struct {
    answer dilation, erosion, opening, closing, dilation_n, erosion_n;
} answers;

static answers by_search(const int32_t p[8], const int32_t f[8], uint32_t n) {
    return (answers){dilation_by_search(p, f, 1), erosion_by_search(p, f, 1), opening_by_search(p, f), closing_by_search(p, f), dilation_by_search(p, f, n), erosion_by_search(p, f, n)};
}

/* Ends the program where an answer by cells is not the one by search, or is filled other than where its spread is one of opposed rows. */
static void hold(const answer *a, const answer *searched, int opposed) {
    int same = a->number == searched->number && (a->number || !memcmp(a->c, searched->c, sizeof a->c));
    if (!same || a->filled != searched->filled || a->filled != opposed)
        differ("the two ways of the comparison itself", NULL, NULL, a->number, searched->number);
    filled_by_cells += !a->number && a->filled;
}

/* n times, cell by cell, in the stead of what was searched. */
static void fold_cells(const cells *a, const cells *b, uint32_t n, answers *r) {
    cells sums = *a, rest = *a, t;
    const answers searched = *r;
    int many = 1;
    for (uint32_t i = 0; i < n; i++) {
        many &= number_of(&rest) > 0;
        dilated(&sums, b, &t);
        sums = t;
        eroded(&rest, b, &t);
        rest = cornered(&t);
    }
    r->dilation_n = place_sums(&sums);
    if (many)
        r->erosion_n = place(&rest, 5);
    hold(&r->dilation_n, &searched.dilation_n, n > 0 && are_opposed(a, b));
    hold(&r->erosion_n, &searched.erosion_n, 0);
}

static answers by_cells(const cells *a, const cells *b, const answer *element, uint32_t n, answers searched) {
    cells left, closed;
    answers r = searched;
    eroded(a, b, &left);
    r.dilation = dilation_of_cells(a, b);
    r.erosion = place(&left, 5);
    r.opening = opening_of_cells(a, b);
    r.closing = closing_of_cells(a, b, &closed);
    hold(&r.dilation, &searched.dilation, are_opposed(a, b));
    hold(&r.erosion, &searched.erosion, 0);
    hold(&r.opening, &searched.opening, !r.erosion.number && are_opposed(&left, b));
    hold(&r.closing, &searched.closing, are_opposed(a, b));
    if (!r.closing.number && !same_cells(&closed, a))
        differ("the cells of a closing, which are the plot's own", NULL, NULL, 0, 0);
    /* where the window has room */
    if (n <= 1 || (n <= 3 && element->c[2] + element->c[6] <= 10 && element->c[0] + element->c[4] <= 10))
        fold_cells(a, b, n, &r);
    pairs_by_cells++;
    return r;
}

/* A place for a mark between two others: all of them hold a number that is no mark. */
static uint32_t *no_mark(uint32_t mark[3]) {
    mark[0] = mark[1] = mark[2] = UNMARKED;
    return mark + 1;
}

/* An answer with octagon and mark: the mark is written where the call is accepted, and nothing beside it. */
static void check_spread(int which, const int32_t *p, const int32_t *f, uint32_t got, const int32_t out[8], const uint32_t mark[3], const answer *want) {
    static const char *const calls[SPREADS] = {"kx_dilate", "kx_opening", "kx_closing", "kx_dilate_n", "kx_dilate_n after kx_dilate_n"};
    int fills = !want->number && want->filled;
    if (mark[0] != UNMARKED || mark[1] != (want->number ? UNMARKED : fills ? KX_FILLED : KX_EXACT) || mark[2] != UNMARKED) {
        printf("the mark is %u, of a call that is to be %s\n", mark[1], want->number ? "refused" : fills ? "filled" : "exact");
        differ(calls[which], p, f, got, want->number);
    }
    check(calls[which], p, f, got, out, *want);
    filled[which] += fills;
    filled_off_map += want->number && want->filled && which != DILATE_M_N;
}

/* m spreads, and then n - m of what came of them. The first is worked out by itself; of both there is wanted what is wanted of n, but that
 * the second is exact where the first made a fold. n spreads are filled where one of the two is. */
static void check_spreads(const int32_t p[8], const int32_t f[8], uint32_t m, uint32_t n, answer want) {
    int32_t between[8], out[8];
    uint32_t mark[3], number = kx_dilate_n(p, 8, f, 8, m, cleared(between), 8, no_mark(mark));
    answer first = dilation_by_search(p, f, m);
    check_spread(DILATE_N, p, f, number, between, mark, &first);
    if (number && number != want.number)
        differ("kx_dilate_n, the first of two", p, f, number, want.number);
    if (number)
        return;
    if (first.filled && !want.filled)
        differ("the marks of one spread and the first of two", p, f, first.filled, want.filled);
    marks_differ += first.filled && !want.number;
    want.filled &= !first.filled;
    second_spreads++;
    check_spread(DILATE_M_N, p, f, kx_dilate_n(between, 8, f, 8, n - m, cleared(out), 8, no_mark(mark)), out, mark, &want);
}

/* m trims, and then n - m of what is left: what is wanted of n, unless the first is to leave the map. */
static void check_trims(const int32_t p[8], const int32_t f[8], uint32_t m, uint32_t n, const answer *want) {
    int32_t between[8], out[8];
    uint32_t number = kx_erode_n(p, 8, f, 8, m, cleared(between), 8);
    answer first = erosion_by_search(p, f, m);
    check("kx_erode_n", p, f, number, between, first);
    if (!number) {
        second_trims++;
        check("kx_erode_n after kx_erode_n", p, f, kx_erode_n(between, 8, f, 8, n - m, cleared(out), 8), out, *want);
    } else if (number == 2)
        trims_off_map += want->number != 2;
    else if (number != want->number)
        differ("kx_erode_n, the first of two", p, f, number, want->number);
}

/* So many folds in two calls, where one call takes them. */
static void check_two_calls(const int32_t p[8], const int32_t f[8], uint32_t n, const answers *r) {
    if (n <= FOLDS) {
        check_spreads(p, f, any() % (n + 1), n, r->dilation_n);
        check_trims(p, f, any() % (n + 1), n, &r->erosion_n);
    }
}

void compare_two(const int32_t p[8], const int32_t f[8], uint32_t n) {
    int32_t out[8];
    uint32_t mark[3];
    cells a, b;
    answer x = normal(p), y = normal(f), fold = {.number = 6};
    answers r = by_search(p, f, n);
    if (!x.number && !y.number && cells_of(p, &a) && cells_of(f, &b))
        r = by_cells(&a, &b, &y, n, r);
    if (n > FOLDS)
        r.dilation_n = r.erosion_n = fold;
    check_spread(DILATE, p, f, kx_dilate(p, 8, f, 8, cleared(out), 8, no_mark(mark)), out, mark, &r.dilation);
    check("kx_erode", p, f, kx_erode(p, 8, f, 8, cleared(out), 8), out, r.erosion);
    check_spread(OPENING, p, f, kx_opening(p, 8, f, 8, cleared(out), 8, no_mark(mark)), out, mark, &r.opening);
    check_spread(CLOSING, p, f, kx_closing(p, 8, f, 8, cleared(out), 8, no_mark(mark)), out, mark, &r.closing);
    check_spread(DILATE_N, p, f, kx_dilate_n(p, 8, f, 8, n, cleared(out), 8, no_mark(mark)), out, mark, &r.dilation_n);
    check("kx_erode_n", p, f, kx_erode_n(p, 8, f, 8, n, cleared(out), 8), out, r.erosion_n);
    check_two_calls(p, f, n, &r);
}
