/* Sheets byte by byte, in the words of documents 01 and 02: a sheet is read into plots, and written anew from them. */
#include "oracle.h"
#include <string.h>

uint32_t number_at(const uint8_t *s, int width) {
    uint32_t v = 0;
    for (int i = 0; i < width; i++)
        v |= (uint32_t)s[i] << (8 * i);
    return v;
}

void put_number(uint8_t *s, int width, uint32_t v) {
    for (int i = 0; i < width; i++)
        s[i] = (uint8_t)(v >> (8 * i));
}

/* ---- reading */

int64_t limit_of(uint32_t each) { return each == COUNTY_RECORD ? LIMIT : OLD_LIMIT; }

int width_of(uint32_t each) { return each == COUNTY_RECORD ? 4 : 2; }

static int is_record_length(uint32_t each) { return each == BASE_RECORD || each == FEE_RECORD || each == COUNTY_RECORD; }

/* A signed number of two bytes or of four, in two's complement. */
static int32_t signed_at(const uint8_t *s, int width) {
    int64_t v = number_at(s, width), above = (int64_t)1 << (8 * width);
    return (int32_t)(v < above / 2 ? v : v - above);
}

plot record_in(const uint8_t *s, const frame *f, uint32_t k) {
    const uint8_t *r = s + f->first + (size_t)f->each * k;
    const int w = width_of(f->each);
    plot p;
    p.number = number_at(r, 4);
    p.start[0] = signed_at(r + 4, w);
    p.start[1] = signed_at(r + 4 + w, w);
    for (int n = 0; n < 8; n++)
        p.sides[n] = number_at(r + 4 + (n + 2) * w, w);
    p.fee_row = f->each == BASE_RECORD ? 0 : (uint16_t)number_at(r + 4 + 10 * w, 2);
    return p;
}

int same_plot(const plot *p, const plot *q) {
    return p->number == q->number && !memcmp(p->start, q->start, sizeof p->start) && !memcmp(p->sides, q->sides, sizeof p->sides) && p->fee_row == q->fee_row;
}

uint32_t sheet_frame(const uint8_t *s, size_t room, size_t len, frame *f) {
    if (len < TRAILER || len > SHEET || len > room)
        return 8;
    const uint8_t *t = s + len - TRAILER;
    uint32_t each = number_at(t + 8, 2);
    if (memcmp(t + 12, "GRND", 4) || !is_record_length(each) || t[10] || t[11])
        return 9;
    uint64_t distance = number_at(t, 4), count = number_at(t + 4, 4);
    if (distance != each * count || distance > len - TRAILER)
        return 10;
    *f = (frame){len - TRAILER - (size_t)distance, (uint32_t)count, each};
    return 0;
}

uint32_t sheet_checked(const uint8_t *s, size_t room, size_t len, frame *f) {
    frame found;
    uint32_t last = 0, refused = sheet_frame(s, room, len, &found);
    if (refused)
        return refused;
    for (uint32_t k = 0; k < found.count; k++) {
        plot p = record_in(s, &found, k);
        if (p.number == 0 || (k > 0 && p.number <= last))
            return 11;
        refused = walk_refusal(limit_of(found.each), p.start, p.sides);
        if (refused)
            return refused;
        last = p.number;
    }
    *f = found;
    return 0;
}

/* Record k of a frame, where it has one. */
static uint32_t taken(const uint8_t *s, const frame *f, uint32_t k, plot *p) {
    if (k >= f->count)
        return 13;
    *p = record_in(s, f, k);
    return 0;
}

uint32_t sheet_fetched(const uint8_t *s, size_t room, size_t len, uint32_t k, plot *p) {
    frame f;
    uint32_t refused = sheet_checked(s, room, len, &f);
    return refused ? refused : taken(s, &f, k, p);
}

uint32_t sheet_read(const uint8_t *s, size_t room, size_t len, uint32_t k, plot *p) {
    frame f;
    uint32_t refused = sheet_frame(s, room, len, &f);
    return refused ? refused : taken(s, &f, k, p);
}

/* ---- writing */

static void put_record(uint8_t *s, uint32_t each, const plot *p) {
    const int w = width_of(each);
    put_number(s, 4, p->number);
    put_number(s + 4, w, (uint32_t)p->start[0]);
    put_number(s + 4 + w, w, (uint32_t)p->start[1]);
    for (int n = 0; n < 8; n++)
        put_number(s + 4 + (n + 2) * w, w, p->sides[n]);
    if (each != BASE_RECORD)
        put_number(s + 4 + 10 * w, 2, p->fee_row);
}

size_t put_sheet(uint8_t *s, size_t heading, uint32_t each, const plot *p, uint32_t count) {
    uint8_t *t = s + heading + (size_t)each * count;
    for (uint32_t k = 0; k < count; k++)
        put_record(s + heading + (size_t)each * k, each, &p[k]);
    put_number(t, 4, each * count);
    put_number(t + 4, 4, count);
    put_number(t + 8, 2, each);
    put_number(t + 10, 2, 0);
    memcpy(t + 12, "GRND", 4);
    return heading + (size_t)each * count + TRAILER;
}

uint32_t sheet_after_start(uint8_t *s, size_t room, size_t heading, size_t *len) {
    if (heading > SHEET - TRAILER)
        return 8;
    if (heading + TRAILER > room)
        return 12;
    *len = put_sheet(s, heading, RECORD, NULL, 0);
    return 0;
}

uint32_t sheet_after_insert(uint8_t *s, size_t room, size_t len, const plot *p, size_t *grown) {
    static plot plots[MOST_PLOTS + 1];
    frame f;
    uint32_t refused = walk_refusal(LIMIT, p->start, p->sides), before = 0;
    if (refused || (refused = sheet_checked(s, room, len, &f)))
        return refused;
    for (uint32_t k = 0; k < f.count; k++) {
        plot old = record_in(s, &f, k);
        if (old.number == p->number)
            return 11;
        before += old.number < p->number;
        plots[k + (old.number > p->number)] = old;
    }
    plots[before] = *p;
    if (p->number == 0)
        return 11;
    size_t next = f.first + RECORD * ((size_t)f.count + 1) + TRAILER;
    if (next > room || next > SHEET)
        return 12;
    *grown = put_sheet(s, f.first, RECORD, plots, f.count + 1);
    return 0;
}
