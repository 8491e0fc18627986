/* Record lengths, any bytes, and damage to sheets: to a record, to the trailer, or to a few bytes. */
#include "compare.h"

uint32_t any_length(void) {
    static const uint32_t lengths[] = {BASE_RECORD, FEE_RECORD, COUNTY_RECORD};
    return lengths[any() % 3];
}

void put_any(uint8_t *s, size_t size) {
    for (size_t i = 0; i < size; i += 4)
        put_number(s + i, 4, any());
}

/* Moves the plot of a record past an edge of its own map, mostly by one cell. */
static void move_off(uint8_t *r, const frame *f, plot p) {
    const int w = width_of(f->each), side = any_side();
    end_at(p.start, p.sides, side, limit_of(f->each) + (any() % 4 ? 1 : from(1, 1000)));
    put_number(r + 4, w, (uint32_t)p.start[0]);
    put_number(r + 4 + w, w, (uint32_t)p.start[1]);
}

/* Makes sides of a record of 46 so long that sums of them pass 32 bits. */
static void enlarge_record(uint8_t *r, plot p) {
    enlarge(p.sides);
    for (int k = 0; k < 8; k++)
        put_number(r + 12 + 4 * k, 4, p.sides[k]);
}

void spoil_record(uint8_t *s, const frame *f) {
    uint32_t k = any() % f->count;
    uint8_t *r = s + f->first + (size_t)f->each * k;
    const int w = width_of(f->each);
    switch (any() % (f->each == COUNTY_RECORD ? 4 : 3)) {
    case 0: put_number(r, 4, k == 0 || any() % 3 == 0 ? 0 : number_at(r - f->each, 4) - any() % 2); break;
    case 1: r[4 + w * (int)(2 + any() % 8)] ^= 1; break;
    case 2: move_off(r, f, record_in(s, f, k)); break;
    default: enlarge_record(r, record_in(s, f, k)); break;
    }
}

/* A count near another, none, or one that a product of 32 bits does not tell from it: 24 times 2 to the 29th, and 26 and 46 times 2 to
 * the 31st, are multiples of 2 to the 32nd. */
static uint32_t spoilt_count(uint32_t count) {
    if (any() % 4 == 0)
        count = any() % 2 ? 0 : count + (uint32_t)from(-1, 1);
    return any() % 3 ? count : count + ((uint32_t)1 << (28 + any() % 4));
}

/* A record length, or a number that is none: next to one, nought, or one in the other byte. */
static uint32_t spoilt_length(void) {
    static const uint32_t others[] = {23, 25, 27, 45, 47, 0, BASE_RECORD << 8, FEE_RECORD << 8, COUNTY_RECORD << 8};
    return any() % 2 ? any_length() : others[any() % 9];
}

void spoil_trailer(uint8_t *s, size_t len) {
    uint8_t *t = s + len - TRAILER;
    uint32_t was = number_at(t + 8, 2), each = spoilt_length(), old = number_at(t + 4, 4), count = spoilt_count(old);
    if (each && any() % 4 == 0) /* as many of the other length as the old records have room for */
        count = old * was / each;
    put_number(t, 4, any() % 4 ? each * count : was * count);
    put_number(t + 4, 4, count);
    put_number(t + 8, 2, each);
}

void spoil_bytes(uint8_t *s, size_t len) {
    for (uint32_t hits = 1 + any() % 3; hits > 0; hits--)
        s[any() % 3 ? any() % len : len - 1 - any() % (len < TRAILER ? len : TRAILER)] ^= (uint8_t)(any() % 2 ? 1u << any() % 8 : any());
}

void spoil_sheet(uint8_t *s, size_t *len) {
    uint32_t kind = any() % 8;
    frame f = {0};
    if (kind < 4 && !sheet_frame(s, *len, *len, &f) && f.count)
        spoil_record(s, &f);
    else if (kind < 6 && *len >= TRAILER)
        spoil_trailer(s, *len);
    else if (kind < 7)
        spoil_bytes(s, *len);
    else
        *len = any() % 3 ? *len + RECORD - any() % (2 * RECORD + 1) : any() % 2 ? any() % TRAILER : any() % 70000;
}
