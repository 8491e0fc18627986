/* Plots at the edges of both maps and one past them, in sheets of every record length: what each call answers is written beside it. */
#include "compare.h"
#include <string.h>

/* An end that a plot reaches: what each call answers to a sheet of 24 or 26 with it, to one of 46, to its insert, and to the conversion of a
 * sheet of 46 with it. A record of 16 bits does not reach the edge of the map. */
typedef struct {
    int32_t end;
    uint32_t old, county, inserted, converted;
} reaching;

static const reaching REACHINGS[] = {
    {OLD_LIMIT - 1, 0, 0, 0, 0}, {OLD_LIMIT, 0, 0, 0, 0}, {OLD_LIMIT + 1, 2, 0, 0, 21},
    {LIMIT - 1, 0, 0, 0, 21},    {LIMIT, 0, 0, 0, 21},    {LIMIT + 1, 0, 2, 2, 2},
};

/* A cell, and an outline with eight sides of which no two are equal. */
static const uint32_t SIDES[2][8] = {{0}, {1, 3, 6, 7, 4, 2, 5, 9}};

enum { PLOTS = 3, EDGE = 1, HEADING = 5 };

/* Three plots, of which that in the middle is at the edge. */
static void draw_plots(plot p[PLOTS], const uint32_t sides[8], int side, int32_t end) {
    const plot drawn[PLOTS] = {{3, {-40, 11}, {4, 0, 2, 0, 4, 0, 2, 0}, 0}, {7, {-5, 12}, {0}, 0}, {12, {60, -70}, {0, 2, 0, 3, 0, 2, 0, 3}, 0}};
    memcpy(p, drawn, sizeof drawn);
    memcpy(p[EDGE].sides, sides, sizeof p[EDGE].sides);
    end_at(p[EDGE].start, sides, side, end);
}

/* A sheet of plots in a buffer, which has PAST bytes more. */
static half written(uint8_t s[ROOM + PAST], uint32_t each, const plot *p, uint32_t count) {
    memset(s, 0x5a, ROOM + PAST);
    size_t len = put_sheet(s, HEADING, each, p, count);
    return (half){s, len, len};
}

/* The check, the reads and the listing of a sheet, an insert of another plot, and its joins with a sheet of the other two plots. */
static void compare_holding(const half *h, const half *others, uint32_t answer) {
    const plot more = {9, {4, -3}, {0}, 700};
    size_t len = h->len;
    memset(sheet, 0xa5, sizeof sheet);
    memcpy(sheet, h->bytes, h->len);
    uint32_t count;
    agree("the check of an edge", NULL, kx_sheet_check(h->bytes, h->room, h->len, &count), answer, 1);
    compare_reads(h->room, h->len, 1);
    agree("an insert beside an edge", NULL, compare_insert(&more, ROOM, &len), answer, 1);
    agree("a join of an edge", NULL, compare_join(h, others, ROOM, &len), answer, 1);
    agree("a join with an edge", NULL, compare_join(others, h, ROOM, &len), answer, 1);
    agree("a join of two edges", NULL, compare_join(h, h, ROOM, &len), answer, 1);
}

static void compare_converting(const half *h, uint32_t answer) {
    size_t len;
    memset(sheet, 0xa5, sizeof sheet);
    agree("the conversion of an edge", NULL, compare_convert(h, ROOM, &len), answer, 1);
}

/* The plot at the edge goes into a sheet of the others, which is then converted. */
static void compare_inserting(const half *others, const plot *p, const reaching *r) {
    static uint8_t grown[ROOM + PAST];
    size_t len = others->len;
    memset(sheet, 0xa5, sizeof sheet);
    memcpy(sheet, others->bytes, others->len);
    agree("an insert at an edge", p->start, compare_insert(p, ROOM, &len), r->inserted, 1);
    if (r->inserted)
        return;
    memcpy(grown, sheet, sizeof grown);
    const half g = {grown, ROOM, len};
    compare_converting(&g, r->converted);
}

static void compare_reaching(const reaching *r, const uint32_t sides[8], int side, uint32_t each) {
    static uint8_t lent[2][ROOM + PAST];
    plot p[PLOTS];
    draw_plots(p, sides, side, r->end);
    const plot rest[2] = {p[0], p[2]};
    half others = written(lent[0], each, rest, 2);
    if (each == COUNTY_RECORD || r->end <= OLD_LIMIT + 1) {
        uint32_t answer = each == COUNTY_RECORD ? r->county : r->old;
        half h = written(lent[1], each, p, PLOTS);
        compare_holding(&h, &others, answer);
        compare_converting(&h, each == COUNTY_RECORD ? r->converted : r->old);
    }
    compare_inserting(&others, &p[EDGE], r);
}

void compare_edges(void) {
    static const uint32_t lengths[] = {BASE_RECORD, FEE_RECORD, COUNTY_RECORD};
    for (size_t k = 0; k < sizeof REACHINGS / sizeof *REACHINGS; k++)
        for (int side = 0; side < 8; side += 2)
            for (int shape = 0; shape < 2; shape++)
                for (int l = 0; l < 3; l++)
                    compare_reaching(&REACHINGS[k], SIDES[shape], side, lengths[l]);
}
