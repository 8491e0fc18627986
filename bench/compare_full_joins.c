/* The joins that fill a sheet exactly, those of a byte or a plot more, and those next to them. */
#include "compare.h"
#include <string.h>

/* Two sheets, the first's heading, record length and count and then the second's; how many plots are in both; and what document 02
 * answers where the third buffer has the room. */
typedef struct {
    struct {
        size_t heading;
        uint32_t each, count;
    } of[2];
    uint32_t in_both, answer;
} joining;

static const joining JOININGS[] = {
    {{{16, 46, 712}, {0, 46, 712}}, 0, 0},           /* 16 + 46 * 1424 + 16 bytes: exactly 65,536 */
    {{{16, 26, 712}, {0, 26, 712}}, 0, 0},
    {{{16, 24, 712}, {0, 24, 712}}, 0, 0},
    {{{16, 46, 750}, {3, 24, 750}}, 76, 0},
    {{{16, 26, 750}, {3, 46, 750}}, 76, 0},
    {{{16, 24, 1424}, {0, 26, 1424}}, 1424, 0},
    {{{16, 46, 1424}, {0, 26, 1424}}, 1424, 0},
    {{{16, 46, 1424}, {0, 46, 1424}}, 1424, 0},
    {{{16, 46, 1424}, {0, 24, 0}}, 0, 0},
    {{{16, 24, 0}, {0, 46, 1424}}, 0, 0},
    {{{16, 26, 1424}, {0, 46, 0}}, 0, 0},
    {{{0, 46, 712}, {0, 46, 713}}, 0, 12},           /* a plot more */
    {{{0, 24, 713}, {0, 26, 712}}, 0, 12},
    {{{0, 46, 1424}, {0, 46, 1424}}, 1423, 12},
    {{{0, 26, 1424}, {0, 24, 1425}}, 1424, 12},
    {{{17, 46, 1423}, {0, 46, 1}}, 0, 12},           /* a byte more */
    {{{62, 46, 1000}, {9, 24, 423}}, 0, 0},
    {{{63, 46, 1000}, {9, 24, 423}}, 0, 12},
    {{{63, 26, 1000}, {9, 26, 423}}, 0, 12},
    {{{0, 24, 2730}, {0, 24, 2730}}, 2730, 12},      /* the fullest sheets of 24 and of 26, which fit as they are */
    {{{0, 24, 2730}, {0, 24, 2730}}, 0, 12},
    {{{0, 24, 2730}, {0, 26, 0}}, 0, 12},
    {{{0, 46, 0}, {0, 24, 2730}}, 0, 12},
    {{{0, 26, 2520}, {0, 26, 2520}}, 2520, 12},
    {{{0, 26, 1260}, {0, 26, 1260}}, 0, 12},
    {{{65520, 46, 0}, {0, 26, 0}}, 0, 0},            /* the longest headings */
    {{{65520, 24, 0}, {0, 46, 1}}, 0, 12},
    {{{0, 26, 0}, {65520, 24, 0}}, 0, 0},
    {{{65474, 46, 1}, {65474, 46, 1}}, 1, 0},
    {{{65474, 24, 1}, {65496, 24, 1}}, 1, 0},
    {{{65475, 24, 1}, {65494, 26, 1}}, 1, 12},
    {{{0, 46, 1}, {65494, 26, 1}}, 0, 0},
};

static uint8_t lent[2][ROOM + PAST];
static plot plots[2][MOST_PLOTS];
/* Where a plot that is in both stands: the first such plot and the last, in either sheet. */
static uint32_t shared[2][2];

/* Deals the plots by rising number, each to one of the sheets or to both, until each has its count. */
static void deal(const joining *g) {
    uint32_t left[3] = {g->of[0].count - g->in_both, g->of[1].count - g->in_both, g->in_both}, at[2] = {0, 0};
    int is_base = g->of[0].each == BASE_RECORD || g->of[1].each == BASE_RECORD;
    for (uint32_t i = 0; left[0] + left[1] + left[2] > 0; i++) {
        uint32_t turn = any() % (left[0] + left[1] + left[2]), to = turn < left[0] ? 0 : turn < left[0] + left[1] ? 1 : 2;
        plot p = plot_of(i);
        if (to == 2) {
            p.fee_row = is_base ? 0 : p.fee_row;
            memcpy(shared[left[2] == g->in_both ? 0 : 1], at, sizeof at);
        }
        left[to]--;
        if (to != 1)
            plots[0][at[0]++] = p;
        if (to != 0)
            plots[1][at[1]++] = p;
    }
}

/* A sheet of what was dealt. */
static half written(const joining *g, int of) {
    memset(lent[of], 0x5a + of, sizeof lent[of]);
    size_t len = put_sheet(lent[of], g->of[of].heading, g->of[of].each, plots[of], g->of[of].count);
    return (half){lent[of], ROOM, len};
}

/* A join in a buffer of so many bytes, and its answer; where it is accepted, also the calls that read what it gave. */
static void compare_filling(const half *first, const half *second, size_t room, uint32_t answer) {
    size_t len;
    memset(sheet, 0xa5, sizeof sheet);
    agree("a full join", NULL, compare_join(first, second, room, &len), answer, 1);
    if (!answer)
        compare_reads(room, len, 1);
}

/* The first plot, or the last, that is in both is altered in one of them. */
static void compare_differing(const joining *g, int which, int in) {
    plot *p = &plots[in][shared[g->in_both > 1 ? which : 0][in]], was = *p;
    alter_plot(p, g->of[in].each);
    half first = written(g, 0), second = written(g, 1);
    compare_filling(&first, &second, ROOM, 18);
    compare_filling(&first, &second, 0, 18);
    *p = was;
}

static void compare_joining(const joining *g) {
    deal(g);
    half first = written(g, 0), second = written(g, 1);
    size_t next = g->of[0].heading + RECORD * (size_t)(g->of[0].count + g->of[1].count - g->in_both) + TRAILER;
    compare_filling(&first, &second, ROOM, g->answer);
    compare_filling(&first, &second, next < ROOM ? next : ROOM, g->answer);
    compare_filling(&first, &second, next - 1 < ROOM ? next - 1 : ROOM, 12);
    compare_filling(&first, &second, 0, 12);
    for (int k = 0; g->in_both && k < 4; k++)
        compare_differing(g, k / 2, k % 2);
}

/* A sheet joined with itself, at the limit and past it. */
static void compare_with_itself(void) {
    static const joining full = {{{16, 24, 1424}, {16, 24, 1424}}, 1424, 0}, over = {{{0, 24, 1425}, {0, 24, 1425}}, 1425, 12};
    deal(&full);
    half one = written(&full, 0);
    compare_filling(&one, &one, SHEET, 0);
    compare_filling(&one, &one, SHEET - 1, 12);
    deal(&over);
    one = written(&over, 0);
    compare_filling(&one, &one, ROOM, 12);
}

void compare_full_joins(void) {
    for (size_t k = 0; k < sizeof JOININGS / sizeof *JOININGS; k++)
        compare_joining(&JOININGS[k]);
    compare_with_itself();
}
