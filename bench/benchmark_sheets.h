/* What the timed calls on sheets share: sheets of any record length, written here and not by either side. */
#ifndef BENCHMARK_SHEETS_H
#define BENCHMARK_SHEETS_H
#include "benchmark.h"

/* The plots of the fullest sheet of each record length, and how far from (0, 0) plots stand that every length can hold, and those of 46. */
enum { FULL_BASE = 2730, FULL_FEE = 2520, FULL = 1424, NEAR = 9000, FAR = 1900000 };

/* A sheet in a buffer of the greatest length. */
typedef struct {
    size_t len;
    uint8_t bytes[SHEET_LIMIT];
} lent;

/* Writes a plot of `each` bytes with small sides, up to so far from (0, 0). */
void put_plot(uint8_t *r, size_t each, uint32_t number, int32_t far);
/* Ends a sheet after its `count` plots of `each` bytes, which have no heading before them. Both calls have to accept it. */
void end_sheet(lent *s, size_t each, uint32_t count);
/* A sheet of the plots 2, 3 and on. */
void fill_sheet(lent *s, size_t each, uint32_t count, int32_t far);

#endif
