/* Records in plain C: a plot number, a start and eight sides, of 16 bits in those of 24 and 26 bytes and of 32 in those of 46, and but for
 * those of 24 a fee row. The eight are written out: a loop leaves them in memory, where they are stored by fours and loaded one by one. */
#ifndef PLAIN_RECORDS_H
#define PLAIN_RECORDS_H
#include "plain_bytes.h"

/* A start and eight sides. */
typedef struct {
    int32_t i, j;
    uint32_t n0, n1, n2, n3, n4, n5, n6, n7;
} outline;

/* The outline of a record of 46 bytes, of a shorter one, and of one of `each` bytes. */
static inline outline county_outline(const uint8_t *r) {
    return (outline){(int32_t)u32_at(r + 4), (int32_t)u32_at(r + 8), u32_at(r + 12), u32_at(r + 16), u32_at(r + 20), u32_at(r + 24), u32_at(r + 28), u32_at(r + 32), u32_at(r + 36), u32_at(r + 40)};
}

static inline outline old_outline(const uint8_t *r) {
    return (outline){(int16_t)u16_at(r + 4), (int16_t)u16_at(r + 6), u16_at(r + 8), u16_at(r + 10), u16_at(r + 12), u16_at(r + 14), u16_at(r + 16), u16_at(r + 18), u16_at(r + 20), u16_at(r + 22)};
}

static inline outline outline_at(const uint8_t *r, size_t each) { return each == COUNTY_RECORD ? county_outline(r) : old_outline(r); }

/* Its fee row, which ends it, or nought. */
static inline uint32_t fee_row_at(const uint8_t *r, size_t each) { return each == BASE_RECORD ? 0 : u16_at(r + each - 2); }

/* Writes the record of `each` bytes, a shorter one, at r with 46. All of it is read first, since the two may overlap. */
static inline void widen_record(uint8_t *to, const uint8_t *r, size_t each) {
    uint32_t number = u32_at(r), fee_row = fee_row_at(r, each), wide[8];
    uint16_t sides[8];
    int32_t i = (int16_t)u16_at(r + 4), j = (int16_t)u16_at(r + 6);
    memcpy(sides, r + 8, sizeof sides);
    for (int k = 0; k < 8; k++)
        wide[k] = sides[k];
    put_u32(to, number);
    put_u32(to + 4, (uint32_t)i);
    put_u32(to + 8, (uint32_t)j);
    memcpy(to + 12, wide, sizeof wide);
    put_u16(to + 44, fee_row);
}

/* Whether an outline that closes has a cell beyond a limit. */
static inline int leaves(int64_t limit, outline o) {
    int64_t right = (int64_t)o.i + o.n0 + o.n1, top = (int64_t)o.j + o.n1 + o.n2 + o.n3, left = right - o.n3 - o.n4 - o.n5;
    return -(int64_t)o.j > limit || right > limit || top > limit || -left > limit;
}

/* The refusal of an outline on a map with this limit: it does not close, or a cell leaves the map. */
static inline uint32_t trace(int64_t limit, outline o) {
    if ((int64_t)o.n0 + o.n1 + o.n7 != (int64_t)o.n3 + o.n4 + o.n5 || (int64_t)o.n1 + o.n2 + o.n3 != (int64_t)o.n5 + o.n6 + o.n7)
        return NOT_CLOSED;
    return leaves(limit, o) ? OFF_MAP : 0;
}

/* The bounds that the corners of an accepted outline reach. */
static inline void draw(outline o, int32_t c[8]) {
    int32_t x1 = o.i + (int32_t)o.n0, x3 = x1 + (int32_t)o.n1, y3 = o.j + (int32_t)(o.n1 + o.n2), x5 = x3 - (int32_t)(o.n3 + o.n4), y5 = y3 + (int32_t)o.n3;
    int32_t x7 = x5 - (int32_t)o.n5, y7 = y5 - (int32_t)(o.n5 + o.n6);
    c[0] = -o.j;
    c[1] = x1 - o.j;
    c[2] = x3;
    c[3] = x3 + y3;
    c[4] = y5;
    c[5] = y5 - x5;
    c[6] = -x7;
    c[7] = -x7 - y7;
}

#endif
