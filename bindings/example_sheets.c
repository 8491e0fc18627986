/* Sheets from C: plots with fee rows, a sheet of document 01's records, which have none, and the answers at each limit. */
#include "example.h"
#include <stdio.h>
#include <string.h>

static const int32_t ZERO[2] = {0, 0}, FIELD_START[2] = {2, -1};
static const uint32_t NONE[8] = {0}, FIELD[8] = {3, 0, 1, 0, 3, 0, 1, 0};

void listing(const uint8_t *sheet, size_t room, size_t len) {
    static uint8_t text[KX_TEXT];
    size_t written = 0;
    if (kx_list(sheet, room, len, text, &written) == KX_ACCEPTED)
        fwrite(text, 1, written, stdout);
}

typedef uint32_t getter(const uint8_t *, size_t, size_t, uint32_t, uint32_t *, int32_t *, size_t, uint32_t *, size_t, uint16_t *);

/* Writes record k as `get` gives it, or the number of a refusal. */
static void show_record(const char *what, getter *get, const uint8_t *sheet, size_t room, size_t len, uint32_t k) {
    uint32_t number = 0, n[8] = {0};
    int32_t start[2] = {0, 0};
    uint16_t fee_row = 0;
    uint32_t answer = get(sheet, room, len, k, &number, start, 2, n, 8, &fee_row);
    printf("%s: %u", what, answer);
    if (answer == KX_ACCEPTED)
        printf(" number %u start %d %d sides %u %u %u %u %u %u %u %u fee row %u\n", number, start[0], start[1], n[0], n[1], n[2], n[3], n[4], n[5], n[6], n[7], (unsigned)fee_row);
    else
        printf("\n");
}

void show_bytes(const uint8_t *sheet, size_t room) {
    printf("bytes ");
    for (size_t k = 0; k < room; k++)
        printf("%02x", sheet[k]);
    printf("\n");
}

static void show_check(const uint8_t *sheet, size_t room, size_t len) {
    uint32_t count = 0, answer = kx_sheet_check(sheet, room, len, &count);
    printf("check: %u count %u\n", answer, count);
}

/* Four plots, the last to come far off the old map and of more cells than 32 bits count. */
void sheets(void) {
    uint8_t sheet[208] = {'p', 'l', 'o', 't', 's'};
    size_t len = 0;
    printf("start: %u", kx_sheet_start(sheet, 208, 5, &len));
    printf(" length %zu\n", len);
    printf("insert 11407: %u", kx_sheet_insert(sheet, 208, len, 11407, ZERO, 2, K13, 8, 515, &len));
    printf(" length %zu\n", len);
    printf("insert 70001: %u", kx_sheet_insert(sheet, 208, len, 70001, UNEVEN_START, 2, UNEVEN_SIDES, 8, 40961, &len));
    printf(" length %zu\n", len);
    printf("insert 7: %u", kx_sheet_insert(sheet, 208, len, 7, FIELD_START, 2, FIELD, 8, 65535, &len));
    printf(" length %zu\n", len);
    printf("insert 31337: %u", kx_sheet_insert(sheet, 208, len, 31337, COUNTY_START, 2, COUNTY_SIDES, 8, 4077, &len));
    printf(" length %zu\n", len);
    printf("insert 7 again: %u\n", kx_sheet_insert(sheet, 208, len, 7, FIELD_START, 2, FIELD, 8, 65535, &len));
    printf("insert 8, no room: %u\n", kx_sheet_insert(sheet, 208, len, 8, FIELD_START, 2, FIELD, 8, 65535, &len));
    show_check(sheet, 208, len);
    listing(sheet, 208, len);
    show_record("record 1", kx_sheet_fetch, sheet, 208, len, 1);
    show_record("record 2", kx_sheet_fetch, sheet, 208, len, 2);
    show_record("record 3", kx_sheet_fetch, sheet, 208, len, 3);
    show_record("record 4", kx_sheet_fetch, sheet, 208, len, 4);
    show_record("read 0", kx_sheet_read, sheet, 208, len, 0);
    show_record("read 4", kx_sheet_read, sheet, 208, len, 4);
    sheet[5] = 0;
    show_record("record 1 where number 7 is 0", kx_sheet_fetch, sheet, 208, len, 1);
    show_record("read 1 where number 7 is 0", kx_sheet_read, sheet, 208, len, 1);
    sheet[len - 1] = 'E';
    listing(sheet, 208, len);
    show_record("read 1 where letters are wrong", kx_sheet_read, sheet, 208, len, 1);
}

/* A heading and document 01's plots 7 and 11407, in records of KX_BASE_RECORD bytes. */
static const uint8_t BASE[67] = {
    'o', 'l', 'd',
    7, 0, 0, 0, 2, 0, 255, 255, 3, 0, 0, 0, 1, 0, 0, 0, 3, 0, 0, 0, 1, 0, 0, 0,
    143, 44, 0, 0, 0, 0, 0, 0, 0, 0, 1, 0, 0, 0, 1, 0, 0, 0, 1, 0, 0, 0, 1, 0,
    48, 0, 0, 0, 2, 0, 0, 0, 24, 0, 0, 0, 'G', 'R', 'N', 'D',
};

/* One plot more: the whole sheet is written anew, in the same buffer. */
void base_sheets(void) {
    uint8_t sheet[160];
    size_t len = sizeof BASE;
    memset(sheet, 0xee, sizeof sheet);
    memcpy(sheet, BASE, sizeof BASE);
    show_check(sheet, 160, len);
    listing(sheet, 160, len);
    show_record("record 0", kx_sheet_fetch, sheet, 160, len, 0);
    show_record("read 1", kx_sheet_read, sheet, 160, len, 1);
    printf("insert 258, room for 46 more: %u\n", kx_sheet_insert(sheet, 113, len, 258, UNEVEN_START, 2, UNEVEN_SIDES, 8, 40961, &len));
    printf("insert 258, one byte short: %u\n", kx_sheet_insert(sheet, 156, len, 258, UNEVEN_START, 2, UNEVEN_SIDES, 8, 40961, &len));
    show_bytes(sheet, 160);
    printf("insert 258: %u", kx_sheet_insert(sheet, 157, len, 258, UNEVEN_START, 2, UNEVEN_SIDES, 8, 40961, &len));
    printf(" length %zu\n", len);
    show_bytes(sheet, 160);
    listing(sheet, 160, len);
    show_record("record 1", kx_sheet_fetch, sheet, 160, len, 1);
}

/* The answer to an empty sheet that names this record length. */
static uint32_t named(uint8_t *sheet, size_t len, int each) {
    uint32_t count = 0;
    sheet[len - 8] = (uint8_t)each;
    return kx_sheet_check(sheet, len, len, &count);
}

/* The answer to a sheet of KX_FEE_RECORD with one plot, the cell (x, 0). */
static uint32_t old_cell(int x) {
    uint8_t sheet[42] = {[0] = 1, [4] = (uint8_t)x, [5] = (uint8_t)(x >> 8), [26] = 26, [30] = 1, [34] = 26, [38] = 'G', 'R', 'N', 'D'};
    uint32_t count = 0;
    return kx_sheet_check(sheet, sizeof sheet, sizeof sheet, &count);
}

/* As many plots as a sheet has room for, a copy of them at KX_FEE_RECORD, and one more in either. */
static void fullest(uint8_t sheet[KX_SHEET_LIMIT]) {
    static uint8_t copy[KX_SHEET_LIMIT];
    size_t len = 0, copied = 0;
    uint32_t plots = 0;
    kx_sheet_start(sheet, KX_SHEET_LIMIT, 0, &len);
    while (kx_sheet_insert(sheet, KX_SHEET_LIMIT, len, plots + 1, ZERO, 2, NONE, 8, 1, &len) == KX_ACCEPTED)
        plots++;
    printf("plots that fit %u: length %zu", plots, len);
    printf(", one more: %u", kx_sheet_insert(sheet, KX_SHEET_LIMIT, len, plots + 1, ZERO, 2, NONE, 8, 1, &len));
    kx_sheet_convert(sheet, KX_SHEET_LIMIT, len, copy, KX_SHEET_LIMIT, &copied);
    printf("; copied: length %zu", copied);
    printf(", one more: %u\n", kx_sheet_insert(copy, KX_SHEET_LIMIT, copied, plots + 1, ZERO, 2, NONE, 8, 1, &copied));
}

/* The constants: what is answered at a limit, and one past it. */
void limits(void) {
    static uint8_t sheet[KX_SHEET_LIMIT];
    const int32_t edge[2] = {KX_MAP_LIMIT, 0}, past[2] = {KX_MAP_LIMIT + 1, 0};
    int32_t out[8] = {0};
    uint32_t count = 0, mark = 0;
    size_t len = 0, grown = 0;
    printf("map limit %d: %u", KX_MAP_LIMIT, kx_to_octagon(edge, 2, NONE, 8, out, 8));
    printf(", one more: %u\n", kx_to_octagon(past, 2, NONE, 8, out, 8));
    printf("old map limit %d: %u", KX_OLD_LIMIT, old_cell(KX_OLD_LIMIT));
    printf(", one more: %u\n", old_cell(KX_OLD_LIMIT + 1));
    printf("fold limit %d: %u", KX_FOLD_LIMIT, kx_dilate_n(ORIGIN, 8, ORIGIN, 8, KX_FOLD_LIMIT, out, 8, &mark));
    printf(", one more: %u\n", kx_dilate_n(ORIGIN, 8, ORIGIN, 8, KX_FOLD_LIMIT + 1, out, 8, &mark));
    printf("radius limit %d: %u", KX_RADIUS_LIMIT, kx_clearance(0, 0, KX_RADIUS_LIMIT, out, 8));
    printf(", one more: %u\n", kx_clearance(0, 0, KX_RADIUS_LIMIT + 1, out, 8));
    printf("sheet limit %d: %u", KX_SHEET_LIMIT, kx_sheet_start(sheet, sizeof sheet, KX_SHEET_LIMIT - KX_TRAILER, &len));
    printf(", one more: %u", kx_sheet_start(sheet, sizeof sheet, KX_SHEET_LIMIT - KX_TRAILER + 1, &len));
    printf(", length %zu\n", len);
    kx_sheet_start(sheet, sizeof sheet, 0, &len);
    printf("trailer %zu: %u", len, kx_sheet_check(sheet, sizeof sheet, KX_TRAILER, &count));
    printf(", one less: %u\n", kx_sheet_check(sheet, sizeof sheet, KX_TRAILER - 1, &count));
    printf("record lengths %d %d %d: %u", KX_BASE_RECORD, KX_FEE_RECORD, KX_COUNTY_RECORD, named(sheet, len, KX_BASE_RECORD));
    printf(" %u", named(sheet, len, KX_FEE_RECORD));
    printf(" %u", named(sheet, len, KX_COUNTY_RECORD));
    printf(", one more each: %u", named(sheet, len, KX_BASE_RECORD + 1));
    printf(" %u", named(sheet, len, KX_FEE_RECORD + 1));
    printf(" %u\n", named(sheet, len, KX_COUNTY_RECORD + 1));
    named(sheet, len, KX_RECORD);
    printf("record %d: %u", KX_RECORD, kx_sheet_insert(sheet, KX_TRAILER + KX_RECORD, len, 1, ZERO, 2, NONE, 8, 1, &grown));
    printf(", one less: %u", kx_sheet_insert(sheet, KX_TRAILER + KX_RECORD + KX_RECORD - 1, grown, 2, ZERO, 2, NONE, 8, 1, &grown));
    printf(", length %zu\n", grown);
    fullest(sheet);
}
