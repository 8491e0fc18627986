/* The insert of a plot in plain C: the records from its place on are moved up by one, and shorter records are written anew with 46 bytes. */
#include "plain_records.h"

/* How many of n records of `each` bytes stand before the first whose number is not below v. */
static uint32_t rank_of(const uint8_t *r, uint32_t n, size_t each, uint32_t v) {
    uint32_t k = 0;
    while (k < n && u32_at(r + each * k) < v)
        k++;
    return k;
}

/* Leaves a place for record k among n records: those from it on go up by one. */
static void make_place(uint8_t *first, size_t n, size_t k) { memmove(first + RECORD * (k + 1), first + RECORD * k, RECORD * (n - k)); }

/* The same among shorter records, each of which is written anew, the last first. */
__attribute__((always_inline)) static inline void widen(uint8_t *first, size_t n, size_t each, size_t k) {
    for (size_t m = n; m-- > 0;)
        widen_record(first + RECORD * (m < k ? m : m + 1), first + each * m, each);
}

static void put_record(uint8_t *r, uint32_t number, const int32_t start[2], const uint32_t sides[8], uint32_t fee_row) {
    put_u32(r, number);
    memcpy(r + 4, start, 8);
    memcpy(r + 12, sides, 32);
    put_u16(r + 44, fee_row);
}

uint32_t plain_sheet_insert(uint8_t *sheet, size_t room, size_t len, uint32_t number, const int32_t *start, size_t start_len, const uint32_t *sides, size_t sides_len,
                            uint16_t fee_row, size_t *grown) {
    if (start_len != 2 || sides_len != 8)
        return WRONG_LENGTH;
    outline o = {start[0], start[1], sides[0], sides[1], sides[2], sides[3], sides[4], sides[5], sides[6], sides[7]};
    uint32_t count = 0, refused = trace(LIMIT, o);
    if (refused || (refused = plain_sheet_check(sheet, room, len, &count)))
        return refused;
    size_t each = record_length(sheet, len), heading = len - TRAILER - each * count;
    uint8_t *first = sheet + heading;
    uint32_t k = rank_of(first, count, each, number);
    if (number == 0 || (k < count && u32_at(first + each * k) == number))
        return BAD_NUMBER;
    size_t next = heading + RECORD * ((size_t)count + 1) + TRAILER;
    if (next > room || next > SHEET_LIMIT)
        return NO_ROOM;
    if (each == RECORD)
        make_place(first, count, k);
    else if (each == FEE_RECORD)
        widen(first, count, FEE_RECORD, k);
    else
        widen(first, count, BASE_RECORD, k);
    put_record(first + RECORD * (size_t)k, number, start, sides, fee_row);
    put_trailer(sheet + next - TRAILER, RECORD, count + 1);
    *grown = next;
    return 0;
}
