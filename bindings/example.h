/* What the parts of the example in C share. */
#ifndef EXAMPLE_H
#define EXAMPLE_H
#include "koxirmeta.h"
#include <inttypes.h>

static const int32_t ORIGIN[8] = {0, 0, 0, 0, 0, 0, 0, 0};
static const int32_t CROSSED[8] = {5, 0, 5, 1, 5, 0, 5, -1};
static const uint32_t K4[8] = {0, 0, 0, 1, 0, 0, 0, 1};
static const uint32_t K13[8] = {0, 1, 0, 1, 0, 1, 0, 1};
static const int32_t UNEVEN_START[2] = {-4, -5};
static const uint32_t UNEVEN_SIDES[8] = {3, 1, 14, 2, 5, 4, 6, 7};
static const int32_t COUNTY_START[2] = {-1234567, 1654321};
static const uint32_t COUNTY_SIDES[8] = {100003, 20011, 70001, 30013, 100013, 40009, 29995, 50021};

/* The octagon from the start (i, j) with these sides, or all bounds 0 where that is refused (example.c). */
void octagon_at(int32_t i, int32_t j, const uint32_t sides[8], int32_t out[8]);
/* Writes an answer: the refusal, or the outline and the cell count of the octagon (example.c). */
void show(const char *what, uint32_t answer, const int32_t bounds[8]);
/* Writes bounds in their normal form and the cell count, or the refusal (example.c). */
void show_bounds(const char *what, const int32_t bounds[8]);

/* Spectra (example_spectra.c). */
void spectra(void);

/* Tapes and trees (example_surveys.c). */
void tapes(void);
void trees(void);

/* Sheets, and the constants of koxirmeta.h (example_sheets.c). */
void sheets(void);
void base_sheets(void);
void limits(void);
/* Writes the listing of a sheet as it is (example_sheets.c). */
void listing(const uint8_t *sheet, size_t room, size_t len);
/* Writes every byte of a buffer (example_sheets.c). */
void show_bytes(const uint8_t *sheet, size_t room);

/* Joins and conversions (example_joins.c). */
void joins(void);
void conversions(void);

#endif
