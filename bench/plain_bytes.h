/* Numbers in a sheet's bytes, and its trailer: what the calls on sheets in plain C share. Numbers are loaded and stored as the processor has
 * them: it has the least byte first, as a sheet has, wherever the archive is made for it. */
#ifndef PLAIN_BYTES_H
#define PLAIN_BYTES_H
#include "plain.h"
#include <string.h>

static inline uint32_t u16_at(const uint8_t *s) {
    uint16_t v;
    memcpy(&v, s, sizeof v);
    return v;
}

static inline uint32_t u32_at(const uint8_t *s) {
    uint32_t v;
    memcpy(&v, s, sizeof v);
    return v;
}

static inline void put_u16(uint8_t *s, uint32_t v) {
    uint16_t low = (uint16_t)v;
    memcpy(s, &low, sizeof low);
}

static inline void put_u32(uint8_t *s, uint32_t v) { memcpy(s, &v, sizeof v); }

/* The length of the records in a sheet that was checked. */
static inline size_t record_length(const uint8_t *sheet, size_t len) { return u16_at(sheet + len - TRAILER + 8); }

/* The trailer of `count` records of `each` bytes. */
static inline void put_trailer(uint8_t *t, size_t each, uint32_t count) {
    put_u32(t, (uint32_t)each * count);
    put_u32(t + 4, count);
    put_u16(t + 8, (uint32_t)each);
    put_u16(t + 10, 0);
    memcpy(t + 12, "GRND", 4);
}

#endif
