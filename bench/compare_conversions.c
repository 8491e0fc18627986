/* The conversion of a sheet, beside plots that are read and written anew at 26: in buffers with and without the room, of sheets with a plot
 * that leaves the old map, of spoilt ones, of what a conversion gave, and of what an insert made of an old sheet. */
#include "compare.h"
#include <string.h>

/* The most plots of a sheet, a length that its heading is below, and how many bytes a buffer has past its sheet, at most. */
enum { PLOTS = 14, HEADING = 70, SLACK = 30 };

/* A length that no call writes. */
static const size_t UNTOUCHED = SIZE_MAX / 5;

/* The buffer of the sheet, what it held, and what the second has to hold. */
static uint8_t lent[ROOM + PAST], before[ROOM + PAST], wanted[ROOM + PAST];

/* The new length is written between two other numbers. */
uint32_t compare_convert(const half *first, size_t room, size_t *len) {
    size_t got_len[3] = {5, UNTOUCHED, 7}, want_len = UNTOUCHED;
    frame f = {0};
    memcpy(before, first->bytes, first->room + PAST);
    memcpy(wanted, sheet, room + PAST);
    uint32_t want = sheet_after_convert(first, wanted, room, &want_len, &f);
    uint32_t got = kx_sheet_convert(first->bytes, first->room, first->len, sheet, room, &got_len[1]);
    int same = got_len[0] == 5 && got_len[1] == want_len && got_len[2] == 7 && !memcmp(sheet, wanted, room + PAST);
    agree("kx_sheet_convert", NULL, got, want, same && !memcmp(first->bytes, before, first->room + PAST));
    if (!got)
        converted[f.each == BASE_RECORD ? 0 : f.each == FEE_RECORD ? 1 : 2]++;
    off_old_map += got == 21;
    *len = got_len[1];
    return got;
}

/* A sheet in the buffer that is lent. */
static half written(const plot *p, size_t heading, uint32_t each, uint32_t count) {
    size_t len = heading + (size_t)each * count + TRAILER;
    put_any(lent, len + SLACK + PAST);
    put_sheet(lent, heading, each, p, count);
    return (half){lent, len + any() % SLACK, len};
}

/* The bytes that are lent for a copy of so many plots: none, fewer, as many as records of any length would need, one too few, that many, or
 * more. */
static size_t some_room(size_t heading, uint32_t count) {
    size_t next = heading + FEE_RECORD * (size_t)count + TRAILER;
    switch (any() % 8) {
    case 0: return 0;
    case 1: return any() % next;
    case 2: return heading + any_length() * (size_t)count + TRAILER;
    case 3: return next - 1;
    case 4:
    case 5: return next;
    default: return next + any() % 64;
    }
}

/* Converts what a conversion gave, which stands in `sheet`, to a buffer that has just the room: every byte is the same. */
static void convert_again(size_t len) {
    static uint8_t copy[ROOM + PAST];
    const half h = {copy, len, len};
    size_t again;
    memcpy(copy, sheet, len + PAST);
    put_any(sheet, len + PAST);
    uint32_t got = compare_convert(&h, len, &again);
    agree("a conversion converted", NULL, got, 0, again == len && !memcmp(copy, sheet, len));
    converted_again++;
}

/* Puts one plot more into the sheet that is lent, and converts what came of it: the old plots and the new one, at 26. */
static void convert_grown(const half *h, size_t heading, const plot *p, uint32_t count, uint32_t each) {
    static uint8_t grown[ROOM + PAST], want[ROOM + PAST];
    plot all[PLOTS + 1];
    uint32_t k = any() % (count + 1);
    memcpy(all, p, k * sizeof *p);
    memcpy(all + k + 1, p + k, (count - k) * sizeof *p);
    sound_plot(&all[k], BASE_RECORD);
    all[k].number = k ? p[k - 1].number + 1 : count ? p[0].number - 1 : 1 + any() % 9;
    for (uint32_t m = 0; m <= count; m++)
        if (each == BASE_RECORD && m != k)
            all[m].fee_row = 0;
    size_t len = h->len, room = heading + RECORD * ((size_t)count + 1) + TRAILER, copied = put_sheet(want, heading, FEE_RECORD, all, count + 1);
    memcpy(want, h->bytes, heading);
    put_any(sheet, room + PAST);
    memcpy(sheet, h->bytes, h->len);
    if (compare_insert(&all[k], room, &len))
        differ("an insert that is to be converted", all[k].start, NULL, 1, 0);
    memcpy(grown, sheet, room + PAST);
    const half g = {grown, room, len};
    uint32_t got = compare_convert(&g, copied, &len);
    agree("a conversion after an insert", NULL, got, 0, len == copied && !memcmp(sheet, want, copied));
    converted_grown++;
}

/* One plot, or two, that leave the old map: by a cell, or anywhere on the map. */
static void stray(plot *p, uint32_t count) {
    for (uint32_t turn = any() % 2; turn < 2; turn++) {
        plot *q = &p[any() % count], was = *q;
        if (any() % 2)
            end_at(q->start, q->sides, any_side(), OLD_LIMIT + 1);
        else
            sound_plot(q, COUNTY_RECORD);
        q->number = was.number;
        if (walk_refusal(LIMIT, q->start, q->sides))
            *q = was;
    }
}

void compare_conversion(void) {
    plot p[PLOTS];
    uint32_t each = any_length(), count = any() % 4 ? any() % 6 : any() % (PLOTS + 1);
    size_t heading = any() % 4 ? any() % 12 : any() % HEADING, len;
    int strays = each == COUNTY_RECORD && count && any() % 3 == 0, spoilt = any() % 4 == 0;
    random_plots(p, count, BASE_RECORD);
    if (strays)
        stray(p, count);
    half h = written(p, heading, each, count);
    if (spoilt)
        spoil_sheet(lent, &h.len);
    for (int turn = 0; turn < 3; turn++) {
        size_t room = some_room(heading, count);
        put_any(sheet, room + PAST);
        if (compare_convert(&h, room, &len))
            continue;
        if (any() % 4 == 0)
            compare_reads(room, len, 0);
        if (any() % 4 == 0)
            convert_again(len);
    }
    if (!strays && !spoilt && any() % 4 == 0)
        convert_grown(&h, heading, p, count, each);
}
