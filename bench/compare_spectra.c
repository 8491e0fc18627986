/* How finely a plot breaks up (U9), beside sets of cells or searches: every place that is lent, and others about it, for lists of several
 * lengths. */
#include "compare.h"
#include <stdio.h>
#include <stdlib.h>
#include <string.h>

/* Places before and past a list that are compared with it; the longest list; and a spectrum that is tried with every length. */
enum { AROUND = 8, LONGEST = MOST_ENTRIES + 40, SHORT = 12 };

/* The list, with the places before and past it. */
static uint64_t *list;

/* What a place of the list holds before a call, and one of the endings and of the trims: no two hold the same, and no call is to write such
 * a number, nor either half of one. */
static uint64_t unwritten(size_t at) { return UINT64_C(0xc0000000d0000000) + at; }

static uint32_t no_ending(int at) { return UINT32_C(0xe0000000) + (uint32_t)at; }

static size_t no_trims(int at) { return SIZE_MAX - (size_t)at; }

uint64_t *new_places(size_t count) {
    uint64_t *places = malloc(count * sizeof *places);
    if (!places)
        differ("the memory of the comparison itself", NULL, NULL, 0, 0);
    return places;
}

/* The trims and the ending of a call are lent between two other numbers each. */
typedef struct {
    size_t trims[3];
    uint32_t ending[3];
} told;

static void unsay(told *t, size_t len) {
    for (int k = 0; k < 3; k++) {
        t->trims[k] = no_trims(k);
        t->ending[k] = no_ending(k);
    }
    if (!list)
        list = new_places(AROUND + LONGEST + AROUND);
    for (size_t i = 0; i < len + 2 * AROUND; i++)
        list[i] = unwritten(i);
}

/* Whether the first entries stand in their places, and in every other what stood there. */
static int is_list(const uint64_t *entry, size_t written, size_t len) {
    int same = 1;
    for (size_t i = 0; i < len + 2 * AROUND; i++)
        same &= list[i] == (i >= AROUND && i < AROUND + written ? entry[i - AROUND] : unwritten(i));
    return same;
}

/* The same of the trims and of the ending; all three of each are as they were where the call is to be refused. */
static int is_told(const told *t, int refused, size_t trims, uint32_t ending) {
    int same = 1;
    for (int k = 0; k < 3; k++) {
        same &= t->trims[k] == (k == 1 && !refused ? trims : no_trims(k));
        same &= t->ending[k] == (k == 1 && !refused ? ending : no_ending(k));
    }
    return same;
}

static void count_spectrum(uint32_t number, int is_finished) {
    spectrum_calls++;
    finished += !number && is_finished;
    spent += !number && !is_finished;
    lacks_origin += number == 19;
    origin_alone += number == 20;
    count_answer(number);
}

/* One call, with slices of these lengths and so many places for entries. */
static void compare_call(const int32_t p[LENT], size_t p_len, const int32_t f[LENT], size_t f_len, size_t len, const spectrum *want) {
    uint32_t number = p_len != 8 || f_len != 8 ? KX_WRONG_LENGTH : want->number;
    size_t written = number ? 0 : want->count < len ? want->count : len;
    int is_finished = want->count <= len;
    int32_t plot[LENT], by[LENT];
    told t;
    memcpy(plot, p, sizeof plot);
    memcpy(by, f, sizeof by);
    unsay(&t, len);
    uint32_t got = kx_spectrum(plot, p_len, by, f_len, list + AROUND, len, &t.trims[1], &t.ending[1]);
    int same = is_list(want->entry, written, len) && is_told(&t, number != 0, written, is_finished ? KX_FINISHED : KX_SPENT);
    if (got != number || !same || memcmp(plot, p, sizeof plot) || memcmp(by, f, sizeof by)) {
        printf("a list of %zu places, and slices of %zu and %zu; wanted are %zu entries, of which %zu are written\n", len, p_len, f_len, want->count, written);
        differ("kx_spectrum", p, f, got, number);
    }
    count_spectrum(number, is_finished);
}

void compare_list_lengths(const int32_t p[LENT], const int32_t f[LENT], const spectrum *want) {
    const size_t last = want->number ? any() % 4 : want->count, ends[] = {0, 1, last - 1, last, last + 1, any() % (last + 40)};
    if (want->number || last <= SHORT)
        for (size_t len = 0; len <= last + 1; len++)
            compare_call(p, 8, f, 8, len, want);
    else
        for (int i = 0; i < 6; i++)
            compare_call(p, 8, f, 8, ends[i], want);
    if (any() % 16384 == 0)
        compare_call(p, 8, f, 8, LONGEST, want);
}

void compare_sum(const int32_t p[LENT], const int32_t f[LENT], const spectrum *want) {
    uint64_t cells = 0, sum = 0;
    uint32_t number = kx_count(p, 8, &cells);
    compare_call(p, 8, f, 8, want->count, want);
    for (size_t i = 0; i < want->count; i++)
        sum += list[AROUND + i];
    if (number || sum != cells) {
        printf("the entries sum to %llu, and the cells are %llu\n", (unsigned long long)sum, (unsigned long long)cells);
        differ("kx_count beside kx_spectrum", p, f, number, 0);
    }
    count_answer(number);
}

/* The same plot elsewhere on the map, half of the time as far as it goes, breaks up into the same entries. */
static void compare_moved(const int32_t p[LENT], const int32_t f[LENT], const spectrum *want) {
    answer a = normal(p);
    int32_t q[LENT] = {0}, low[2] = {(int32_t)a.c[6] - LIMIT, (int32_t)a.c[0] - LIMIT}, high[2] = {LIMIT - (int32_t)a.c[2], LIMIT - (int32_t)a.c[4]}, by[2];
    for (int i = 0; i < 2; i++)
        by[i] = any() % 2 ? from(low[i], high[i]) : any() % 2 ? low[i] : high[i];
    for (int k = 0; k < 8; k++)
        q[k] = (int32_t)(a.c[k] + reach(k, by[0], by[1]));
    compare_call(q, 8, f, 8, want->count, want);
    spectra_moved++;
}

/* One slice of a wrong length, or both, whatever else is wrong. */
static void compare_slices(const int32_t p[LENT], const int32_t f[LENT], const spectrum *want) {
    size_t w = any() % LENT;
    int which = (int)(any() % 3);
    w += w >= 8;
    compare_call(p, which == 1 ? 8 : w, f, which == 0 ? 8 : w, any() % SHORT, want);
}

/* The two ways of the comparison have to agree where both operands are small. */
static const spectrum *worked_out(const int32_t p[8], const int32_t f[8]) {
    static spectrum by_cells, by_search;
    cells a, b;
    if (!by_search.entry) {
        by_cells.entry = new_places(MOST_ENTRIES);
        by_search.entry = new_places(MOST_ENTRIES);
    }
    spectrum_by_search(p, f, &by_search);
    if (!cells_of(p, &a) || !cells_of(f, &b))
        return &by_search;
    spectrum_by_cells(&a, &b, &by_cells);
    int same = by_cells.number == by_search.number && by_cells.count == by_search.count && by_cells.filled == by_search.filled;
    if (!same || memcmp(by_cells.entry, by_search.entry, by_cells.count * sizeof *by_cells.entry))
        differ("the two ways of the comparison itself", p, f, by_cells.number, by_search.number);
    spectra_by_cells += !by_cells.number;
    return &by_cells;
}

void compare_spectrum(void) {
    int32_t p[LENT], f[LENT];
    for (int k = 8; k < LENT; k++)
        p[k] = f[k] = (int32_t)any();
    random_spectrum(p, f);
    const spectrum *want = worked_out(p, f);
    compare_list_lengths(p, f, want);
    if (any() % 8 == 0)
        compare_slices(p, f, want);
    if (want->number)
        return;
    compare_sum(p, f, want);
    compare_moved(p, f, want);
    entries += want->count;
    filled_entries += want->filled;
}
