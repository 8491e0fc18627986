/* A sheet copied with 26 bytes a record in plain C: it is checked, those of 46 once more on the old map, and written to the second buffer. */
#include "plain_records.h"

/* Whether one of the records of 46 bytes from r to the end leaves the old map. */
static int has_stray(const uint8_t *r, const uint8_t *end) {
    for (; r != end; r += COUNTY_RECORD)
        if (leaves(OLD_LIMIT, county_outline(r)))
            return 1;
    return 0;
}

/* A record of 46 bytes with 26: of each number but the first and the last, the low half. */
static inline void narrow_record(uint8_t *to, const uint8_t *r) {
    outline o = county_outline(r);
    uint32_t number = u32_at(r), fee_row = fee_row_at(r, COUNTY_RECORD);
    put_u32(to, number);
    put_u16(to + 4, (uint32_t)o.i);
    put_u16(to + 6, (uint32_t)o.j);
    put_u16(to + 8, o.n0);
    put_u16(to + 10, o.n1);
    put_u16(to + 12, o.n2);
    put_u16(to + 14, o.n3);
    put_u16(to + 16, o.n4);
    put_u16(to + 18, o.n5);
    put_u16(to + 20, o.n6);
    put_u16(to + 22, o.n7);
    put_u16(to + 24, fee_row);
}

/* A record of 24 bytes with 26: the same bytes, and the fee row 0. */
static inline void lengthen_record(uint8_t *to, const uint8_t *r) {
    memcpy(to, r, BASE_RECORD);
    put_u16(to + BASE_RECORD, 0);
}

/* The records from r to the end, each of so many bytes. Those of 26 are copied as they stand. */
static void put_records(uint8_t *restrict to, const uint8_t *restrict r, const uint8_t *end, size_t each) {
    if (each == FEE_RECORD)
        memcpy(to, r, (size_t)(end - r));
    else if (each == COUNTY_RECORD)
        for (; r != end; r += COUNTY_RECORD, to += FEE_RECORD)
            narrow_record(to, r);
    else
        for (; r != end; r += BASE_RECORD, to += FEE_RECORD)
            lengthen_record(to, r);
}

uint32_t plain_sheet_convert(const uint8_t *first, size_t first_room, size_t first_len, uint8_t *second, size_t second_room, size_t *len) {
    uint32_t count = 0, refused = plain_sheet_check(first, first_room, first_len, &count);
    if (refused)
        return refused;
    size_t each = record_length(first, first_len), heading = first_len - TRAILER - each * count, next = heading + FEE_RECORD * (size_t)count + TRAILER;
    const uint8_t *r = first + heading, *end = first + first_len - TRAILER;
    if (each == COUNTY_RECORD && has_stray(r, end))
        return OFF_OLD_MAP;
    if (next > second_room || next > SHEET_LIMIT)
        return NO_ROOM;
    memcpy(second, first, heading);
    put_records(second + heading, r, end, each);
    put_trailer(second + next - TRAILER, FEE_RECORD, count);
    *len = next;
    return 0;
}
