/* The conversions that fill a sheet exactly, those of a byte or of one plot more and up, and those next to them; and a plot that leaves the old
 * map at the first place, in the middle and at the last. */
#include "compare.h"
#include <string.h>

/* A sheet, and what document 02 answers to its conversion where the second buffer has the room. */
typedef struct {
    size_t heading;
    uint32_t each, count, answer;
} copying;

static const copying COPYINGS[] = {
    {0, 24, 2520, 0},       /* 26 * 2520 + 16 bytes: exactly 65,536 */
    {0, 26, 2520, 0},
    {0, 24, 2521, 12},      /* a plot more, and the fullest of 24 */
    {0, 24, 2730, 12},
    {1, 24, 2520, 12},      /* a byte more */
    {26, 24, 2519, 0},
    {27, 24, 2519, 12},
    {26, 26, 2519, 0},
    {0, 46, 1424, 0},       /* the fullest of 46, which has 37,040 bytes at 26 */
    {16, 46, 1424, 0},
    {28496, 24, 1424, 0},
    {28497, 24, 1424, 12},
    {65520, 24, 0, 0},      /* the longest headings */
    {65520, 26, 0, 0},
    {65520, 46, 0, 0},
    {65494, 24, 1, 0},
    {65495, 24, 1, 12},
    {65496, 24, 1, 12},
    {65494, 26, 1, 0},
    {65474, 46, 1, 0},
};

static uint8_t lent[ROOM + PAST];
static plot plots[MOST_PLOTS];

static half written(const copying *g) {
    memset(lent, 0x5a, sizeof lent);
    return (half){lent, ROOM, put_sheet(lent, g->heading, g->each, plots, g->count)};
}

/* A conversion in a buffer of so many bytes, and its answer; where it is accepted, also the calls that read what it gave. */
static void compare_filling(const half *h, size_t room, uint32_t answer) {
    size_t len;
    memset(sheet, 0xa5, sizeof sheet);
    agree("a full conversion", NULL, compare_convert(h, room, &len), answer, 1);
    if (!answer)
        compare_reads(room, len, 1);
}

/* The plot at a place ends a cell past the old map: 21 in a sheet of 46, and 2 in the others, whatever the second buffer's length is. */
static void compare_stray(const copying *g, uint32_t place) {
    plot was = plots[place];
    end_at(plots[place].start, plots[place].sides, any_side(), OLD_LIMIT + 1);
    half h = written(g);
    compare_filling(&h, ROOM, g->each == COUNTY_RECORD ? 21 : 2);
    compare_filling(&h, 0, g->each == COUNTY_RECORD ? 21 : 2);
    plots[place] = was;
}

static void compare_copying(const copying *g) {
    size_t next = g->heading + FEE_RECORD * (size_t)g->count + TRAILER;
    for (uint32_t i = 0; i < g->count; i++)
        plots[i] = plot_of(i);
    half h = written(g);
    compare_filling(&h, ROOM, g->answer);
    compare_filling(&h, next < ROOM ? next : ROOM, g->answer);
    compare_filling(&h, next - 1 < ROOM ? next - 1 : ROOM, 12);
    compare_filling(&h, 0, 12);
    const uint32_t places[] = {0, g->count / 2, g->count - 1};
    for (int k = 0; g->count && k < 3; k++)
        compare_stray(g, places[k]);
}

/* Every sheet of 24, of those without a heading, that is longer at 26 than a sheet can be. */
static void compare_too_many(void) {
    for (uint32_t i = 0; i < MOST_PLOTS; i++)
        plots[i] = plot_of(i);
    for (uint32_t count = 2521; count <= MOST_PLOTS; count++) {
        const copying g = {0, BASE_RECORD, count, 12};
        half h = written(&g);
        compare_filling(&h, ROOM, g.answer);
    }
}

void compare_full_conversions(void) {
    for (size_t k = 0; k < sizeof COPYINGS / sizeof *COPYINGS; k++)
        compare_copying(&COPYINGS[k]);
    compare_too_many();
}
