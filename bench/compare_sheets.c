/* Every exported call on sheets, beside bytes that are read and written anew. */
#include "compare.h"
#include <string.h>

uint8_t sheet[ROOM + PAST];
static uint8_t before[ROOM + PAST], wanted[ROOM + PAST], text[KX_TEXT], text_wanted[KX_TEXT];

/* What stands in the memory that a record is written to. */
static const plot UNTOUCHED = {78, {1, 2}, {3, 4, 5, 6, 7, 8, 9, 10}, 0xa55a};

static int is_sheet(size_t room, const uint8_t *want) { return !memcmp(sheet, want, room + PAST); }

static void compare_check(size_t room, size_t len, uint32_t *count) {
    frame f = {0, 77, 0};
    uint32_t got_count = 77, want = sheet_checked(sheet, room, len, &f), got = kx_sheet_check(sheet, room, len, &got_count);
    agree("kx_sheet_check", NULL, got, want, got_count == f.count);
    *count = f.count;
}

/* A place among so many records, or the next one, or any. */
static uint32_t some_place(uint32_t count) { return any() % 4 ? any() % (count + 1) : any(); }

static void compare_fetch(size_t room, size_t len, uint32_t k) {
    plot p = UNTOUCHED, q = p;
    uint32_t want = sheet_fetched(sheet, room, len, k, &q), got = kx_sheet_fetch(sheet, room, len, k, &p.number, p.start, 2, p.sides, 8, &p.fee_row);
    agree("kx_sheet_fetch", NULL, got, want, same_plot(&p, &q));
}

static void compare_read(size_t room, size_t len, uint32_t k) {
    plot p = UNTOUCHED, q = p;
    uint32_t want = sheet_read(sheet, room, len, k, &q), got = kx_sheet_read(sheet, room, len, k, &p.number, p.start, 2, p.sides, 8, &p.fee_row);
    agree("kx_sheet_read", NULL, got, want, same_plot(&p, &q));
}

/* The text past the listing is compared near it, and on some calls or always whole. */
static void compare_list(size_t room, size_t len, int always) {
    size_t written = 5, length = listing_of(sheet, room, len, (char *)text_wanted), near = length + 512;
    text_wanted[length] = text[length]; /* the byte that ends a string of C */
    uint32_t got = kx_list(sheet, room, len, text, &written);
    size_t all = listings++ % 4096 == 0 || always || near > KX_TEXT ? KX_TEXT : near;
    agree("kx_list", NULL, got, 0, written == length && !memcmp(text, text_wanted, all));
}

/* The read is asked for a record that the trailer counts, also where the check refuses the records. */
void compare_reads(size_t room, size_t len, int always) {
    uint32_t count;
    frame f = {0, 7, 0};
    memcpy(before, sheet, room + PAST);
    sheet_frame(sheet, room, len, &f);
    compare_check(room, len, &count);
    compare_fetch(room, len, some_place(count));
    compare_read(room, len, some_place(f.count));
    if (always || any() % 4 == 0)
        compare_list(room, len, always);
    if (!is_sheet(room, before))
        differ("a read, the bytes", NULL, NULL, 0, 0);
}

void compare_start(size_t room, size_t heading, size_t *len) {
    size_t got_len = 5, want_len = 5;
    memcpy(wanted, sheet, room + PAST);
    uint32_t want = sheet_after_start(wanted, room, heading, &want_len), got = kx_sheet_start(sheet, room, heading, &got_len);
    agree("kx_sheet_start", NULL, got, want, got_len == want_len && is_sheet(room, wanted));
    *len = got_len;
}

uint32_t compare_insert(const plot *p, size_t room, size_t *len) {
    size_t grown = 5, want_grown = 5;
    frame f = {0};
    memcpy(wanted, sheet, room + PAST);
    sheet_frame(sheet, room, *len, &f);
    uint32_t want = sheet_after_insert(wanted, room, *len, p, &want_grown);
    uint32_t got = kx_sheet_insert(sheet, room, *len, p->number, p->start, 2, p->sides, 8, p->fee_row, &grown);
    agree("kx_sheet_insert", p->start, got, want, grown == want_grown && is_sheet(room, wanted));
    widened += !got && f.each != RECORD;
    if (!got)
        *len = grown;
    return got;
}
