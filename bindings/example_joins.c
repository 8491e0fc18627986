/* Two sheets joined in a third buffer, and sheets copied with records of KX_FEE_RECORD into a second, from C. */
#include "example.h"
#include <stdio.h>
#include <string.h>

/* The northern half of a churchyard, in records of KX_BASE_RECORD bytes: the plots 770 and 70001. */
static const uint8_t NORTH[69] = {
    'n', 'o', 'r', 't', 'h',
    2, 3, 0, 0, 21, 0, 223, 255, 15, 0, 11, 0, 18, 0, 9, 0, 22, 0, 8, 0, 17, 0, 13, 0,
    113, 17, 1, 0, 252, 255, 251, 255, 3, 0, 1, 0, 14, 0, 2, 0, 5, 0, 4, 0, 6, 0, 7, 0,
    48, 0, 0, 0, 2, 0, 0, 0, 24, 0, 0, 0, 'G', 'R', 'N', 'D',
};

/* How long the southern half is. */
enum { SOUTH = 10 + 3 * KX_RECORD + KX_TRAILER };

/* The southern half, in records of KX_RECORD bytes: the plots 41, 770 and 9054. Plot 770 has the northern outline and this fee row. */
static size_t southern(uint8_t sheet[SOUTH], uint16_t fee_row) {
    static const int32_t starts[3][2] = {{1290, -812}, {-700, 95}, {21, -33}};
    static const uint32_t sides[3][8] = {{51, 28, 53, 37, 16, 45, 54, 19}, {31, 301, 40, 20, 74, 263, 73, 25}, {15, 11, 18, 9, 22, 8, 17, 13}};
    size_t len = 0;
    memset(sheet, 0, SOUTH);
    memcpy(sheet, "south half", 10);
    kx_sheet_start(sheet, SOUTH, 10, &len);
    kx_sheet_insert(sheet, SOUTH, len, 9054, starts[0], 2, sides[0], 8, 515, &len);
    kx_sheet_insert(sheet, SOUTH, len, 41, starts[1], 2, sides[1], 8, 40961, &len);
    kx_sheet_insert(sheet, SOUTH, len, 770, starts[2], 2, sides[2], 8, fee_row, &len);
    return len;
}

/* Writes what the join of two sheets, each as long as its buffer, answers. */
static void show_join(const char *what, const uint8_t *first, size_t first_len, const uint8_t *second, size_t second_len, uint8_t *joined, size_t room) {
    size_t len = 0;
    uint32_t answer = kx_sheet_join(first, first_len, first_len, second, second_len, second_len, joined, room, &len);
    printf("join %s: %u", what, answer);
    if (answer == KX_ACCEPTED)
        printf(" length %zu\n", len);
    else
        printf("\n");
}

/* Both halves in one sheet, under the heading of either; then plot 770 with two fee rows, and sheets that are refused. */
void joins(void) {
    uint8_t south[SOUTH], joined[216];
    size_t len = southern(south, 0);
    memset(joined, 0xee, sizeof joined);
    listing(NORTH, 69, 69);
    listing(south, SOUTH, len);
    show_join("north and south, one byte short", NORTH, 69, south, len, joined, 204);
    show_bytes(joined, 216);
    show_join("north and south", NORTH, 69, south, len, joined, 205);
    show_bytes(joined, 216);
    listing(joined, 216, 205);
    show_join("south and north", south, len, NORTH, 69, joined, 210);
    show_bytes(joined, 216);
    show_join("north and itself", NORTH, 69, NORTH, 69, joined, 113);
    show_bytes(joined, 216);
    southern(south, 258);
    show_join("where 770 has two fee rows", NORTH, 69, south, len, joined, 216);
    show_join("the same with no buffer", NORTH, 69, south, len, joined, 0);
    south[len - 1] = 'E';
    show_join("of wrong letters and a length of 15", south, len, NORTH, 15, joined, 216);
    show_join("of a length of 15 and wrong letters", NORTH, 15, south, len, joined, 216);
    show_bytes(joined, 216);
}

/* Writes what the conversion of a sheet, as long as its buffer, answers. */
static void show_conversion(const char *what, const uint8_t *sheet, size_t sheet_len, uint8_t *copy, size_t room) {
    size_t len = 0;
    uint32_t answer = kx_sheet_convert(sheet, sheet_len, sheet_len, copy, room, &len);
    printf("convert %s: %u", what, answer);
    if (answer == KX_ACCEPTED)
        printf(" length %zu\n", len);
    else
        printf("\n");
}

/* Both halves written at KX_FEE_RECORD, and a copy joined with what it was made of; then a plot off the old map, and a sheet that is
 * refused. */
void conversions(void) {
    uint8_t south[SOUTH + KX_RECORD], copy[108], again[108], joined[SOUTH];
    size_t len = southern(south, 258), grown = 0;
    memset(copy, 0xee, sizeof copy);
    memset(again, 0xdd, sizeof again);
    show_conversion("south, one byte short", south, len, copy, 103);
    show_bytes(copy, 108);
    show_conversion("south", south, len, copy, 104);
    show_bytes(copy, 108);
    listing(copy, 108, 104);
    show_conversion("the copy", copy, 104, again, 108);
    show_bytes(again, 108);
    show_join("the copy and south", copy, 104, south, len, joined, SOUTH);
    show_bytes(joined, SOUTH);
    show_conversion("north, one byte short", NORTH, 69, copy, 72);
    show_conversion("north", NORTH, 69, copy, 73);
    show_bytes(copy, 108);
    kx_sheet_insert(south, sizeof south, len, 31337, COUNTY_START, 2, COUNTY_SIDES, 8, 4077, &grown);
    listing(south, sizeof south, grown);
    show_conversion("where 31337 is off the old map", south, grown, copy, 108);
    show_conversion("the same with no buffer", south, grown, copy, 0);
    south[grown - 1] = 'E';
    show_conversion("of wrong letters", south, grown, copy, 108);
    show_bytes(copy, 108);
}
