/* The join of two sheets, beside a sorted list of their plots: each sheet in a buffer of its own, the second in the heading of the
 * first, or one sheet for both; the third buffer with and without the room; and spoilt sheets. */
#include "compare.h"
#include <string.h>

/* How many bytes a buffer has past its sheet, at most. */
enum { SLACK = 30 };

/* A length that no call writes. */
static const size_t UNTOUCHED = SIZE_MAX / 3;

/* The buffers of the two sheets, what they held, and what the third has to hold. */
static uint8_t lent[2][ROOM + PAST], before[2][ROOM + PAST], wanted[ROOM + PAST];

/* Whether the bytes of a buffer, and those past it, are what they were. */
static int is_kept(const half *h, const uint8_t *was) { return !memcmp(h->bytes, was, h->room + PAST); }

/* The new length is written between two other numbers. */
uint32_t compare_join(const half *first, const half *second, size_t room, size_t *len) {
    size_t got_len[3] = {5, UNTOUCHED, 7}, want_len = UNTOUCHED;
    uint32_t in_both = 0;
    memcpy(before[0], first->bytes, first->room + PAST);
    memcpy(before[1], second->bytes, second->room + PAST);
    memcpy(wanted, sheet, room + PAST);
    uint32_t want = sheet_after_join(first, second, wanted, room, &want_len, &in_both);
    uint32_t got = kx_sheet_join(first->bytes, first->room, first->len, second->bytes, second->room, second->len, sheet, room, &got_len[1]);
    int same = got_len[0] == 5 && got_len[1] == want_len && got_len[2] == 7 && !memcmp(sheet, wanted, room + PAST);
    agree("kx_sheet_join", NULL, got, want, same && is_kept(first, before[0]) && is_kept(second, before[1]));
    joined += !got;
    joined_once += !got && in_both;
    *len = got_len[1];
    return got;
}

/* Writes one of the sheets that were dealt to a buffer. */
static half written(uint8_t *s, const dealt *d, int of) {
    size_t len = d->heading[of] + (size_t)d->each[of] * d->count[of] + TRAILER;
    put_any(s, len + SLACK + PAST);
    put_sheet(s, d->heading[of], d->each[of], d->plots[of], d->count[of]);
    return (half){s, len + any() % SLACK, len};
}

/* Writes both sheets, each to its buffer. */
static void write_apart(const dealt *d, half h[2]) {
    h[0] = written(lent[0], d, 0);
    h[1] = written(lent[1], d, 1);
}

/* Writes the first sheet with the second in its heading. */
static void write_nested(dealt *d, half h[2]) {
    half inner = written(lent[1], d, 1);
    d->heading[0] += inner.len;
    h[0] = written(lent[0], d, 0);
    memcpy(lent[0], inner.bytes, inner.len);
    h[1] = (half){lent[0], inner.len + any() % (h[0].room - inner.len), inner.len};
}

/* The bytes that are lent for a join of `next`: none, fewer, as many as records of any length would need, one too few, that many, or more. */
static size_t some_room(const dealt *d, size_t next) {
    switch (any() % 8) {
    case 0: return 0;
    case 1: return any() % next;
    case 2: return d->heading[0] + any_length() * (size_t)d->numbers + TRAILER;
    case 3: return next - 1;
    case 4:
    case 5: return next;
    default: return next + any() % 64;
    }
}

/* A join in a buffer of any bytes, and at times the calls that read what it gave. */
static void compare_once(const half *first, const half *second, size_t room) {
    size_t len;
    put_any(sheet, room + PAST);
    if (!compare_join(first, second, room, &len) && any() % 4 == 0)
        compare_reads(room, len, 0);
}

void compare_pair_of_sheets(void) {
    dealt d;
    half h[2];
    random_deal(&d);
    int is_nested = any() % 8 == 0;
    if (is_nested)
        write_nested(&d, h);
    else
        write_apart(&d, h);
    uint32_t spoilt = any() % 3 ? 0 : 1 + any() % 3; /* neither, the first, the second or both */
    for (int k = 0; k < 2; k++)
        if (spoilt >> k & 1)
            spoil_sheet(lent[is_nested ? 0 : k], &h[k].len);
    size_t next = d.heading[0] + RECORD * (size_t)d.numbers + TRAILER, alone = d.heading[0] + RECORD * (size_t)d.count[0] + TRAILER;
    for (int turn = 0; turn < 2; turn++)
        compare_once(&h[0], &h[1], some_room(&d, next));
    if (any() % 4 == 0)
        compare_once(&h[0], &h[0], alone - any() % 2);
}
