/* The check and the listing of a sheet in plain C: the check by the same formulas, the listing by sprintf. */
#include "plain_records.h"
#include <stdio.h>

/* The refusal of the records from r to the end, each of so many bytes, on the map with this limit. */
__attribute__((always_inline)) static inline uint32_t check_records(const uint8_t *r, const uint8_t *end, size_t each, int64_t limit) {
    uint32_t before = 0;
    for (; r != end; r += each) {
        uint32_t number = u32_at(r);
        if (number <= before)
            return BAD_NUMBER;
        uint32_t refused = trace(limit, outline_at(r, each));
        if (refused)
            return refused;
        before = number;
    }
    return 0;
}

uint32_t plain_sheet_check(const uint8_t *sheet, size_t room, size_t len, uint32_t *count) {
    if (len < TRAILER || len > SHEET_LIMIT || len > room)
        return BAD_LENGTH;
    const uint8_t *t = sheet + len - TRAILER;
    uint64_t each = u16_at(t + 8), distance = u32_at(t), records = u32_at(t + 4);
    if ((each != BASE_RECORD && each != FEE_RECORD && each != COUNTY_RECORD) || u16_at(t + 10) != 0 || memcmp(t + 12, "GRND", 4) != 0)
        return BAD_TRAILER;
    if (distance != each * records || len - TRAILER < distance)
        return BAD_DISTANCE;
    const uint8_t *r = t - distance;
    uint32_t refused = each == COUNTY_RECORD ? check_records(r, t, COUNTY_RECORD, LIMIT)
                       : each == FEE_RECORD  ? check_records(r, t, FEE_RECORD, OLD_LIMIT)
                                             : check_records(r, t, BASE_RECORD, OLD_LIMIT);
    if (refused)
        return refused;
    *count = (uint32_t)records;
    return 0;
}

/* The row of the plot in a record of so many bytes: its length, with the plot's cells to *cells. */
static size_t put_row(char *text, const uint8_t *r, size_t each, uint64_t *cells) {
    outline o = outline_at(r, each);
    int32_t c[8];
    draw(o, c);
    plain_cells(c, cells);
    return (size_t)sprintf(text, "%u %d %d %u %u %u %u %u %u %u %u %llu %u\n", u32_at(r), o.i, o.j, o.n0, o.n1, o.n2, o.n3, o.n4, o.n5, o.n6, o.n7, (unsigned long long)*cells, fee_row_at(r, each));
}

uint32_t plain_list(const uint8_t *sheet, size_t room, size_t len, uint8_t *text, size_t *written) {
    uint32_t count = 0, refused = plain_sheet_check(sheet, room, len, &count);
    uint64_t cells = 0, sum = 0;
    char *to = (char *)text;
    if (refused) {
        *written = (size_t)sprintf(to, "refused %u\n", refused);
        return 0;
    }
    size_t at = (size_t)sprintf(to, "plot i j n0 n1 n2 n3 n4 n5 n6 n7 cells fee\n");
    size_t each = record_length(sheet, len);
    for (const uint8_t *t = sheet + len - TRAILER, *r = t - each * count; r != t; r += each) {
        at += put_row(to + at, r, each, &cells);
        sum += cells;
    }
    *written = at + (size_t)sprintf(to + at, "plots %u cells %llu\n", count, (unsigned long long)sum);
    return 0;
}
