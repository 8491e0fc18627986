/* Slices of wrong lengths, and the constants of koxirmeta.h. */
#include "compare.h"
#include <string.h>

/* How many calls compare_lengths makes. */
enum { CALLS = 28 };

void compare_lengths(const int32_t p[8], const int32_t f[8]) {
    int32_t out[9], start[3] = {1, 2, 3};
    uint32_t n[14] = {0}, number = 78, mark = 80;
    uint64_t cells = 77;
    uint16_t fee_row = 79;
    uint8_t lent[64] = {0};
    double metres[3] = {1, 2, 3};
    size_t grown = 5, wrong[2] = {7, 9}, w = wrong[any() % 2], u = any() % 2 ? 1 : 3;
    cleared(out);
    int right = kx_normalise(p, w, out, 8) == KX_WRONG_LENGTH && kx_normalise(p, 8, out, w) == KX_WRONG_LENGTH && kx_count(p, w, &cells) == KX_WRONG_LENGTH;
    right &= kx_dilate(p, w, f, 8, out, 8, &mark) == KX_WRONG_LENGTH && kx_erode(p, 8, f, w, out, 8) == KX_WRONG_LENGTH && kx_opening(p, 8, f, 8, out, w, &mark) == KX_WRONG_LENGTH;
    right &= kx_closing(p, w, f, w, out, w, &mark) == KX_WRONG_LENGTH && kx_dilate_n(p, 0, f, 8, FOLDS + 1, out, 8, &mark) == KX_WRONG_LENGTH && kx_erode_n(p, 8, f, 8, 1, out, 0) == KX_WRONG_LENGTH;
    right &= kx_to_octagon(start, u, n, 8, out, 8) == KX_WRONG_LENGTH && kx_to_octagon(start, 2, n, w, out, 8) == KX_WRONG_LENGTH && kx_to_octagon(start, 2, n, 8, out, w) == KX_WRONG_LENGTH;
    right &= kx_to_outline(p, 8, start, u, n, 8) == KX_WRONG_LENGTH && kx_to_outline(p, 8, start, 2, n, w) == KX_WRONG_LENGTH && kx_vertex_place(p, 8, 0, metres, u) == KX_WRONG_LENGTH;
    right &= kx_sheet_fetch(lent, 64, 64, 0, &number, start, u, n, 8, &fee_row) == KX_WRONG_LENGTH && kx_sheet_fetch(lent, 64, 64, 0, &number, start, 2, n, w, &fee_row) == KX_WRONG_LENGTH;
    right &= kx_sheet_read(lent, 64, 64, 0, &number, start, u, n, 8, &fee_row) == KX_WRONG_LENGTH && kx_sheet_read(lent, 64, 64, 0, &number, start, 2, n, w, &fee_row) == KX_WRONG_LENGTH;
    right &= kx_sheet_insert(lent, 64, 64, 1, start, u, n, 8, 7, &grown) == KX_WRONG_LENGTH && kx_sheet_insert(lent, 64, 64, 1, start, 2, n, w, 7, &grown) == KX_WRONG_LENGTH;
    right &= kx_decompose(p, w, start, 2, n, 13) == KX_WRONG_LENGTH && kx_decompose(p, 8, start, u, n, 13) == KX_WRONG_LENGTH && kx_decompose(p, 8, start, 2, n, any() % 2 ? 12 : 14) == KX_WRONG_LENGTH;
    right &= kx_enclose(metres, 2, out, w) == KX_WRONG_LENGTH && kx_enclose(metres, 3, out, w) == KX_WRONG_LENGTH;
    right &= kx_clearance(p[0], p[1], 3, out, w) == KX_WRONG_LENGTH && kx_clearance(p[0], p[1], 70000, out, 0) == KX_WRONG_LENGTH;
    for (int k = 0; k < 8; k++)
        right &= out[k] == -1 - k;
    for (int k = 0; k < 14; k++)
        right &= n[k] == 0;
    for (int k = 0; k < 64; k++)
        right &= lent[k] == 0;
    right &= start[0] == 1 && start[1] == 2 && metres[0] == 1 && metres[1] == 2 && cells == 77 && number == 78 && fee_row == 79 && mark == 80 && grown == 5;
    if (!right)
        differ("a slice of the wrong length", p, f, 0, KX_WRONG_LENGTH);
    for (int k = 0; k < CALLS; k++)
        count_answer(KX_WRONG_LENGTH);
}

void compare_constants(void) {
    static uint8_t lent[SHEET];
    const int32_t edge[2] = {KX_MAP_LIMIT, 0}, past[2] = {KX_MAP_LIMIT + 1, 0}, zero[2] = {0, 0};
    const uint32_t none[8] = {0};
    int32_t cell[8] = {0}, out[8];
    uint32_t count = 77;
    size_t len = 5, grown = 5;
    /* a line: thirteen words of at most twenty digits, each with one byte after it; a text: a line for each record, and two more */
    const int named[] = {KX_MAP_LIMIT, KX_FOLD_LIMIT, KX_RADIUS_LIMIT, KX_SHEET_LIMIT, KX_OLD_LIMIT, KX_RECORD, KX_COUNTY_RECORD, KX_FEE_RECORD, KX_BASE_RECORD, KX_TRAILER, KX_BOUNDS, KX_START, KX_SIDES, KX_COUNTS, KX_PLACE, KX_LINE, KX_TEXT, KX_EXACT, KX_FILLED, KX_SPENT, KX_FINISHED};
    const int wanted[] = {LIMIT, FOLDS, RADIUS, SHEET, OLD_LIMIT, RECORD, COUNTY_RECORD, FEE_RECORD, BASE_RECORD, TRAILER, 8, 2, 8, PIECES, 2, 13 * 21, 13 * 21 * (MOST_PLOTS + 2), 0, 1, 0, 1};
    if (memcmp(named, wanted, sizeof named))
        differ("the constants", NULL, NULL, 1, 0);
    const int refusals[] = {KX_NO_CELL, KX_OFF_MAP, KX_NOT_CLOSED, KX_NOTHING_LEFT, KX_TOO_MANY_FOLDS, KX_NO_VERTEX, KX_BAD_LENGTH,
        KX_BAD_TRAILER, KX_BAD_DISTANCE, KX_BAD_NUMBER, KX_NO_ROOM, KX_NO_RECORD, KX_NOT_FINITE, KX_NO_POINT, KX_HALF_POINT, KX_TOO_WIDE,
        KX_TWO_RECORDS, KX_NO_ORIGIN, KX_NO_OTHER_CELL, KX_OFF_OLD_MAP};
    const uint32_t numbers[] = {1, 2, 3, 5, 6, 7, 8, 9, 10, 11, 12, 13, 14, 15, 16, 17, 18, 19, 20, 21};
    for (int k = 0; k < (int)(sizeof numbers / sizeof *numbers); k++)
        if ((uint32_t)refusals[k] != numbers[k])
            differ("the numbers of the refusals", NULL, NULL, (uint32_t)refusals[k], numbers[k]);
    agree("the map limit", NULL, kx_to_octagon(edge, KX_START, none, KX_SIDES, out, KX_BOUNDS), 0, 1);
    agree("past the map limit", NULL, kx_to_octagon(past, KX_START, none, KX_SIDES, out, KX_BOUNDS), KX_OFF_MAP, 1);
    agree("the fold limit", NULL, kx_erode_n(cell, KX_BOUNDS, cell, KX_BOUNDS, KX_FOLD_LIMIT, out, KX_BOUNDS), 0, 1);
    agree("past the fold limit", NULL, kx_erode_n(cell, KX_BOUNDS, cell, KX_BOUNDS, KX_FOLD_LIMIT + 1, out, KX_BOUNDS), KX_TOO_MANY_FOLDS, 1);
    agree("the radius limit", NULL, kx_clearance(0, 0, KX_RADIUS_LIMIT, out, KX_BOUNDS), 0, 1);
    agree("past the radius limit", NULL, kx_clearance(0, 0, KX_RADIUS_LIMIT + 1, out, KX_BOUNDS), KX_TOO_WIDE, 1);
    agree("past the sheet limit", NULL, kx_sheet_start(lent, SHEET, KX_SHEET_LIMIT - KX_TRAILER + 1, &len), KX_BAD_LENGTH, 1);
    uint32_t got = kx_sheet_start(lent, SHEET, KX_SHEET_LIMIT - KX_TRAILER, &len);
    agree("the sheet limit", NULL, got, 0, len == SHEET);
    got = kx_sheet_start(lent, SHEET, 0, &len);
    agree("a trailer", NULL, got, 0, len == TRAILER);
    agree("less than a trailer", NULL, kx_sheet_check(lent, SHEET, KX_TRAILER - 1, &count), KX_BAD_LENGTH, 1);
    agree("less than a record", NULL, kx_sheet_insert(lent, KX_TRAILER + KX_RECORD - 1, len, 1, zero, 2, none, 8, 7, &grown), KX_NO_ROOM, 1);
    got = kx_sheet_insert(lent, KX_TRAILER + KX_RECORD, len, 1, zero, 2, none, 8, 7, &grown);
    agree("a record", NULL, got, 0, grown == TRAILER + RECORD);
}
