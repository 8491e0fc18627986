/* Random pairs of sheets to be joined: plots that one has, plots that both have, and some of these altered in one. */
#include "compare.h"

/* The turn from step k to step m: 0 where they lie on one line. */
static int32_t turn(uint32_t k, uint32_t m) { return STEP[k][0] * STEP[m][1] - STEP[k][1] * STEP[m][0]; }

/* Alters three sides, or two opposite ones, so that the walk ends where it did. An outline that closes and differs from another in its
 * sides differs in so many at least. */
static void alter_sides(uint32_t n[8], int32_t by) {
    uint32_t a = any() % 8, b = (a + 1 + any() % 7) % 8, c;
    do
        c = any() % 8;
    while (c == a || c == b);
    n[a] += (uint32_t)(by * turn(b, c));
    n[b] += (uint32_t)(by * turn(c, a));
    n[c] += (uint32_t)(by * turn(a, b));
}

void alter_plot(plot *p, uint32_t each) {
    static const int32_t amounts[] = {1, -1, 256, -256, 65536, -65536};
    plot q;
    do {
        int32_t by = amounts[any() % 6];
        uint32_t field = any() % (each == BASE_RECORD ? 5 : 6);
        q = *p;
        if (field < 2)
            q.start[field] += by;
        else if (field < 5)
            alter_sides(q.sides, by);
        else
            q.fee_row = (uint16_t)(q.fee_row + by);
    } while (walk_refusal(limit_of(each), q.start, q.sides) || same_plot(&q, p));
    *p = q;
}

/* Gives a plot to one of the two sheets. A base record has no fee row. */
static void give(dealt *d, int to, plot p) {
    if (d->each[to] == BASE_RECORD)
        p.fee_row = 0;
    d->plots[to][d->count[to]++] = p;
}

/* Another plot under the same number, of those that only a record of 46 holds or of any. */
static plot elsewhere(plot p) {
    uint32_t number = p.number;
    sound_plot(&p, COUNTY_RECORD);
    p.number = number;
    return p;
}

/* Gives a plot to both, as it is or altered in one of them. Where one of them has base records, the other mostly has the fee row 0. */
static void give_both(dealt *d, plot p, int altered) {
    plot given[2] = {p, p};
    int base[2] = {d->each[0] == BASE_RECORD, d->each[1] == BASE_RECORD}, to = any() % 2;
    if ((base[0] || base[1]) && (altered || any() % 16))
        given[0].fee_row = given[1].fee_row = 0;
    if (altered)
        alter_plot(&given[to], d->each[to]);
    give(d, 0, given[0]);
    give(d, 1, given[1]);
}

/* Gives both the same outline and fee row, under two numbers. */
static void give_twice(dealt *d, plot p) {
    int to = any() % 2;
    give(d, to, p);
    p.number++;
    give(d, 1 - to, p);
}

/* Of plots with small numbers, numbers those from a place on, at most half, like the first ones but for one high bit. */
static void number_alike(plot *p, uint32_t count) {
    static const int bits[] = {8, 16, 24, 31};
    uint32_t high = (uint32_t)1 << bits[any() % 4];
    if (count < 2 || p[count - 1].number > 200)
        return;
    for (uint32_t place = count - 1 - any() % (count / 2), k = place; k < count; k++)
        p[k].number = p[k - place].number + high;
}

void random_deal(dealt *d) {
    plot p[DEALT];
    uint32_t count = any() % 4 ? any() % 6 : any() % (DEALT + 1), kind = any() % 10, altered = any() % 3 ? DEALT : any() % (count + 1);
    random_plots(p, count, BASE_RECORD);
    if (any() % 4 == 0)
        number_alike(p, count);
    for (int k = 0; k < 2; k++) {
        d->count[k] = 0;
        d->each[k] = any_length();
        d->heading[k] = any() % 4 ? any() % 12 : any() % DEALT_HEADING;
    }
    d->numbers = count;
    for (uint32_t k = 0; k < count; k++) {
        uint32_t way = kind < 3 ? kind : any() % 6; /* all to the first, all to the second, all to both, or each to any */
        int is_wide = way < 2 ? d->each[way] == COUNTY_RECORD : d->each[0] == COUNTY_RECORD && d->each[1] == COUNTY_RECORD;
        if (is_wide && any() % 2)
            p[k] = elsewhere(p[k]);
        if (way < 2)
            give(d, (int)way, p[k]);
        else if (way < 5)
            give_both(d, p[k], k == altered);
        else
            give_twice(d, p[k]);
        d->numbers += way == 5;
    }
}
