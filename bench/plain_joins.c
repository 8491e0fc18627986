/* The join of two sheets in plain C: both are checked, one pass along the records of both counts those that are kept, and another
 * writes them. */
#include "plain_records.h"

/* Records of a sheet that was checked: the next one, where they end, and the bytes of each. */
typedef struct {
    const uint8_t *next, *end;
    size_t each;
} records;

static records records_of(const uint8_t *sheet, size_t len, uint32_t count) {
    size_t each = record_length(sheet, len);
    const uint8_t *end = sheet + len - TRAILER;
    return (records){end - each * count, end, each};
}

/* Whether the next record of either has the same outline and fee row: by their bytes where they have one length. */
static int is_same(const records *p, const records *q) {
    if (p->each == q->each)
        return memcmp(p->next + 4, q->next + 4, p->each - 4) == 0;
    outline a = outline_at(p->next, p->each), b = outline_at(q->next, q->each);
    return memcmp(&a, &b, sizeof a) == 0 && fee_row_at(p->next, p->each) == fee_row_at(q->next, q->each);
}

/* How many plots are in both; or one number has two records. */
static uint32_t count_both(records p, records q, uint32_t *both) {
    uint32_t n = 0;
    while (p.next != p.end && q.next != q.end) {
        uint32_t a = u32_at(p.next), b = u32_at(q.next);
        if (a < b)
            p.next += p.each;
        else if (b < a)
            q.next += q.each;
        else {
            if (!is_same(&p, &q))
                return TWO_RECORDS;
            n++;
            p.next += p.each;
            q.next += q.each;
        }
    }
    *both = n;
    return 0;
}

/* Writes a record of `each` bytes with 46. */
static inline void put_row(uint8_t *to, const uint8_t *r, size_t each) {
    if (each == RECORD)
        memcpy(to, r, RECORD);
    else
        widen_record(to, r, each);
}

/* Writes all records that are left of a sheet. */
static void put_rest(uint8_t *to, const records *p) {
    for (const uint8_t *r = p->next; r != p->end; r += p->each, to += RECORD)
        put_row(to, r, p->each);
}

/* Writes the records of both by rising number, and those of a plot in both once. */
static void put_both(uint8_t *to, records p, records q) {
    for (; p.next != p.end && q.next != q.end; to += RECORD) {
        uint32_t a = u32_at(p.next), b = u32_at(q.next);
        if (a <= b) {
            put_row(to, p.next, p.each);
            p.next += p.each;
            if (a == b)
                q.next += q.each;
        } else {
            put_row(to, q.next, q.each);
            q.next += q.each;
        }
    }
    put_rest(to, p.next != p.end ? &p : &q);
}

uint32_t plain_sheet_join(const uint8_t *first, size_t first_room, size_t first_len, const uint8_t *second, size_t second_room, size_t second_len, uint8_t *joined,
                          size_t joined_room, size_t *len) {
    uint32_t m = 0, n = 0, both = 0, refused = plain_sheet_check(first, first_room, first_len, &m);
    if (refused || (refused = plain_sheet_check(second, second_room, second_len, &n)))
        return refused;
    records p = records_of(first, first_len, m), q = records_of(second, second_len, n);
    if ((refused = count_both(p, q, &both)))
        return refused;
    uint32_t count = m + n - both;
    size_t heading = (size_t)(p.next - first), next = heading + RECORD * (size_t)count + TRAILER;
    if (next > joined_room || next > SHEET_LIMIT)
        return NO_ROOM;
    memcpy(joined, first, heading);
    put_both(joined + heading, p, q);
    put_trailer(joined + next - TRAILER, RECORD, count);
    *len = next;
    return 0;
}
