/* The fullest sheets of each record length, those that one more plot fills, and those next to them. */
#include "compare.h"
#include <string.h>

/* A sheet, its buffer, and what documents 01 and 02 answer to one plot more. */
typedef struct {
    size_t heading;
    uint32_t each, count;
    size_t room;
    uint32_t answer;
} filling;

static const filling FILLINGS[] = {
    {0, 24, 2730, ROOM, 12},      /* the fullest of each length */
    {0, 26, 2520, ROOM, 12},
    {0, 46, 1424, ROOM, 12},
    {0, 24, 1423, ROOM, 0},       /* 1,424 plots after the insert, which a sheet of 46 holds; 16 bytes are left */
    {0, 26, 1423, ROOM, 0},
    {0, 46, 1423, ROOM, 0},
    {16, 24, 1423, ROOM, 0},      /* 16 + 46 * 1424 + 16 bytes after the insert: exactly 65,536 */
    {16, 26, 1423, ROOM, 0},
    {16, 46, 1423, ROOM, 0},
    {16, 24, 1423, SHEET, 0},
    {16, 24, 1423, SHEET - 1, 12},
    {16, 26, 1423, SHEET - 1, 12},
    {16, 46, 1423, SHEET - 1, 12},
    {17, 24, 1423, ROOM, 12},     /* a byte more, though the buffer has room, and shorter records would have had it */
    {17, 26, 1423, ROOM, 12},
    {17, 46, 1423, ROOM, 12},
    {0, 24, 1424, ROOM, 12},      /* a plot more */
    {0, 26, 1424, ROOM, 12},
    {0, 24, 2519, ROOM, 12},      /* one that would fill a sheet of 26 */
    {0, 26, 2519, ROOM, 12},
    {62, 24, 1422, ROOM, 0},
    {63, 26, 1422, ROOM, 12},
    {31367, 24, 1423, ROOM, 12},  /* 65,535 and 65,536 bytes as it is */
    {31368, 24, 1423, ROOM, 12},
    {65474, 24, 0, ROOM, 0},
    {65475, 24, 0, ROOM, 12},
    {65474, 26, 0, ROOM, 0},
    {65475, 26, 0, ROOM, 12},
    {65474, 46, 0, ROOM, 0},
    {65475, 46, 0, ROOM, 12},
    {65520, 24, 0, ROOM, 12},
};

/* Plot i: its number is even, and no two of the first one's sides are equal. */
plot plot_of(uint32_t i) {
    const uint32_t a = i % 7, t = i % 3, b = i % 5;
    plot p = {2 + 2 * i, {(int32_t)i - 1300, 11}, {1 + a, 3 + t, 6 + b, 7, 4 + a, 2 + t, 5 + b, 9}, (uint16_t)(i * 26)};
    return p;
}

/* One plot more at the first place, in the middle and at the last place; then one whose number is there, and one with the number 0. */
static void compare_filling(const filling *g) {
    static plot plots[MOST_PLOTS];
    static uint8_t kept[ROOM + PAST];
    memset(sheet, 0xa5, sizeof sheet);
    for (uint32_t i = 0; i < g->count; i++)
        plots[i] = plot_of(i);
    size_t len = put_sheet(sheet, g->heading, g->each, plots, g->count);
    memcpy(kept, sheet, sizeof sheet);
    compare_reads(g->room, len, 1);
    const uint32_t numbers[] = {1, 1 + 2 * (g->count / 2), 1 + 2 * g->count, 2 * g->count, 0}, fees[] = {65535, 1, 0, 9, 9};
    for (int k = 0; k < 5; k++) {
        plot p = {numbers[k], {2, -1}, {3, 1, 14, 2, 5, 4, 6, 7}, (uint16_t)fees[k]};
        size_t grown = len;
        uint32_t answer = compare_insert(&p, g->room, &grown);
        agree("a filling", NULL, answer, k < 3 ? g->answer : 11, 1);
        compare_reads(g->room, grown, k < 3);
        memcpy(sheet, kept, sizeof sheet);
    }
}

/* A sheet that is started, and filled to the limit by plots in any order. */
static void compare_filled(void) {
    size_t len;
    memset(sheet, 0xa5, sizeof sheet);
    compare_start(ROOM, 0, &len);
    for (uint32_t i = 0; i < 1434; i++) {
        plot p = plot_of(i);
        p.number = 1 + i * 1237u % 65521u;
        agree("a filling", NULL, compare_insert(&p, ROOM, &len), i < 1424 ? 0 : 12, 1);
    }
    compare_reads(ROOM, len, 1);
}

void compare_full(void) {
    for (size_t k = 0; k < sizeof FILLINGS / sizeof *FILLINGS; k++)
        compare_filling(&FILLINGS[k]);
    compare_filled();
}
