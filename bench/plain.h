/* Calls of bindings/koxirmeta.h in plain C: what the benchmark compares with. */
#ifndef PLAIN_H
#define PLAIN_H
#include <stddef.h>
#include <stdint.h>

enum { LIMIT = 2000000, OLD_LIMIT = 16000, FOLD_LIMIT = 4000001, RADIUS_LIMIT = 255, SHEET_LIMIT = 65536, TRAILER = 16 };
enum { BASE_RECORD = 24, FEE_RECORD = 26, COUNTY_RECORD = 46, RECORD = COUNTY_RECORD };
enum { NO_CELL = 1, OFF_MAP, NOT_CLOSED, NOTHING_LEFT = 5, TOO_MANY_FOLDS, NO_VERTEX, BAD_LENGTH, BAD_TRAILER, BAD_DISTANCE, BAD_NUMBER, NO_ROOM, NOT_FINITE = 14, NO_POINT, HALF_POINT, TOO_WIDE, TWO_RECORDS, NO_ORIGIN, NO_OTHER_CELL, OFF_OLD_MAP, WRONG_LENGTH = 255 };
enum { EXACT, FILLED };
enum { SPENT, FINISHED };

uint32_t plain_normalise(const int32_t *bounds, size_t bounds_len, int32_t *out, size_t out_len);
uint32_t plain_count(const int32_t *bounds, size_t bounds_len, uint64_t *cells);
uint32_t plain_dilate(const int32_t *plot, size_t plot_len, const int32_t *element, size_t element_len, int32_t *out, size_t out_len, uint32_t *mark);
uint32_t plain_erode(const int32_t *plot, size_t plot_len, const int32_t *element, size_t element_len, int32_t *out, size_t out_len);
uint32_t plain_opening(const int32_t *plot, size_t plot_len, const int32_t *element, size_t element_len, int32_t *out, size_t out_len, uint32_t *mark);
uint32_t plain_closing(const int32_t *plot, size_t plot_len, const int32_t *element, size_t element_len, int32_t *out, size_t out_len, uint32_t *mark);
uint32_t plain_dilate_n(const int32_t *plot, size_t plot_len, const int32_t *element, size_t element_len, uint32_t n, int32_t *out, size_t out_len, uint32_t *mark);
uint32_t plain_erode_n(const int32_t *plot, size_t plot_len, const int32_t *element, size_t element_len, uint32_t n, int32_t *out, size_t out_len);
uint32_t plain_decompose(const int32_t *bounds, size_t bounds_len, int32_t *start, size_t start_len, uint32_t *counts, size_t counts_len);
uint32_t plain_to_octagon(const int32_t *start, size_t start_len, const uint32_t *sides, size_t sides_len, int32_t *out, size_t out_len);
uint32_t plain_to_outline(const int32_t *bounds, size_t bounds_len, int32_t *start, size_t start_len, uint32_t *sides, size_t sides_len);
uint32_t plain_vertex_place(const int32_t *bounds, size_t bounds_len, uint32_t k, double *place, size_t place_len);
uint32_t plain_sheet_check(const uint8_t *sheet, size_t room, size_t len, uint32_t *count);
uint32_t plain_sheet_insert(uint8_t *sheet, size_t room, size_t len, uint32_t number, const int32_t *start, size_t start_len, const uint32_t *sides, size_t sides_len,
                            uint16_t fee_row, size_t *grown);
uint32_t plain_sheet_join(const uint8_t *first, size_t first_room, size_t first_len, const uint8_t *second, size_t second_room, size_t second_len, uint8_t *joined,
                          size_t joined_room, size_t *len);
uint32_t plain_sheet_convert(const uint8_t *first, size_t first_room, size_t first_len, uint8_t *second, size_t second_room, size_t *len);
uint32_t plain_enclose(const double *tape, size_t tape_len, int32_t *out, size_t out_len);
uint32_t plain_clearance(int32_t x, int32_t y, uint32_t radius, int32_t *out, size_t out_len);
uint32_t plain_spectrum(const int32_t *plot, size_t plot_len, const int32_t *element, size_t element_len, uint64_t *list, size_t list_len, size_t *trims, uint32_t *ending);
uint32_t plain_list(const uint8_t *sheet, size_t room, size_t len, uint8_t *text, size_t *written);

/* The number of cells of eight bounds, or the number of the refusal: what the count and the listing share. */
uint32_t plain_cells(const int32_t bounds[8], uint64_t *cells);

#endif
