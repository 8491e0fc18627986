/* Times the join of two sheets beside plain C: of halves with records of every length, and of a sheet with itself. */
#include "benchmark_sheets.h"
#include <string.h>

enum { PAIRS = 16, HALF = FULL / 2, TURNS = 400 };

/* Pairs of sheets that together have the most plots of 46, with more records than a processor's branch prediction can learn; and a sheet that
 * is joined with itself. */
static lent halves[PAIRS][2], same;

typedef uint32_t joiner(const uint8_t *, size_t, size_t, const uint8_t *, size_t, size_t, uint8_t *, size_t, size_t *);

/* Two sheets of HALF plots each: every number from 1 on is drawn for one of them. */
static void fill_halves(lent h[2], size_t each) {
    uint32_t count[2] = {0, 0};
    for (uint32_t number = 1; number <= 2 * HALF; number++) {
        int to = from(1, 2 * HALF + 1 - (int32_t)number) > (int32_t)(HALF - count[0]);
        put_plot(h[to].bytes + each * count[to]++, each, number, NEAR);
    }
    end_sheet(&h[0], each, HALF);
    end_sheet(&h[1], each, HALF);
}

/* A join that has to give the most plots of 46. */
static inline void join(joiner *f, const lent *a, const lent *b, uint8_t full[SHEET_LIMIT]) {
    size_t len = 0;
    uint32_t refused = f(a->bytes, SHEET_LIMIT, a->len, b->bytes, SHEET_LIMIT, b->len, full, SHEET_LIMIT, &len);
    need(!refused && len == RECORD * FULL + TRAILER, "join");
}

/* Both calls have to join two sheets alike. */
static void join_alike(const lent *a, const lent *b) {
    static uint8_t proved[SHEET_LIMIT], plain[SHEET_LIMIT];
    join(kx_sheet_join, a, b, proved);
    join(plain_sheet_join, a, b, plain);
    need(!memcmp(proved, plain, SHEET_LIMIT), "join");
}

static double time_join(joiner *f) {
    static uint8_t full[SHEET_LIMIT];
    double at = now();
    for (int i = 0; i < PAIRS; i++)
        join(f, &halves[i][0], &halves[i][1], full);
    return (now() - at) / PAIRS;
}

static double time_join_same(joiner *f) {
    static uint8_t full[SHEET_LIMIT];
    double at = now();
    join(f, &same, &same, full);
    return now() - at;
}

static void compare_join(const char *name, size_t each) {
    for (int i = 0; i < PAIRS; i++) {
        fill_halves(halves[i], each);
        join_alike(&halves[i][0], &halves[i][1]);
    }
    COMPARE(name, TURNS, time_join, kx_sheet_join, plain_sheet_join);
}

void benchmark_joins(void) {
    compare_join("join, 24", BASE_RECORD);
    compare_join("join, 26", FEE_RECORD);
    compare_join("join, 46", COUNTY_RECORD);
    fill_sheet(&same, RECORD, FULL, FAR);
    join_alike(&same, &same);
    COMPARE("join, same", TURNS, time_join_same, kx_sheet_join, plain_sheet_join);
}
