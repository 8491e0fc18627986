/* The listing of a sheet, by printf from its plots; their cells are counted row by row, and from the corners where a plot has many rows. */
#include "oracle.h"
#include <stdio.h>

/* The number of cells inside an outline that is accepted. */
static uint64_t cells_inside(const plot *p) {
    int64_t c[8];
    bounds_of_walk(p->start, p->sides, c);
    return c[0] + c[4] < FEW_ROWS ? count_by_rows(c) : count_by_corners(c);
}

size_t listing_of(const uint8_t *s, size_t room, size_t len, char *text) {
    frame f;
    uint32_t refused = sheet_checked(s, room, len, &f);
    uint64_t sum = 0;
    if (refused)
        return (size_t)sprintf(text, "refused %u\n", refused);
    size_t at = (size_t)sprintf(text, "plot i j n0 n1 n2 n3 n4 n5 n6 n7 cells fee\n");
    for (uint32_t k = 0; k < f.count; k++) {
        plot p = record_in(s, &f, k);
        const uint32_t *n = p.sides;
        uint64_t inside = cells_inside(&p);
        at += (size_t)sprintf(text + at, "%u %d %d %u %u %u %u %u %u %u %u %llu %u\n", p.number, p.start[0], p.start[1], n[0], n[1], n[2], n[3], n[4], n[5], n[6], n[7], (unsigned long long)inside, (unsigned)p.fee_row);
        sum += inside;
    }
    return at + (size_t)sprintf(text + at, "plots %u cells %llu\n", f.count, (unsigned long long)sum);
}
