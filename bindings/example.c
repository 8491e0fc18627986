/* The library from C: cases of document 01, a plot and a frame whose numbers all differ, and opposed rows, whose spread is filled;
 * example_spectra.c has spectra, example_surveys.c a surveyor's tape and trees, example_sheets.c sheets and the limits, example_joins.c
 * joins and conversions. `build.sh` compares what they write with expected.txt. */
#include "example.h"
#include <stdio.h>
#include <string.h>

static const uint32_t K2[8] = {0, 1, 0, 0, 0, 1, 0, 0};
static const uint32_t BLOCK[8] = {2, 0, 1, 0, 2, 0, 1, 0};
static const uint32_t SQUARE[8] = {2, 0, 2, 0, 2, 0, 2, 0};
static const int32_t FRAME[8] = {-4, -1, 5, 11, 7, 4, -2, -7};
static const uint32_t RISING[8] = {0, 4, 0, 0, 0, 4, 0, 0};
static const uint32_t FALLING[8] = {0, 0, 0, 2, 0, 0, 0, 2};

/* A mark that no call writes. */
enum { UNMARKED = 77 };

typedef uint32_t trim(const int32_t *, size_t, const int32_t *, size_t, int32_t *, size_t);
typedef uint32_t spread(const int32_t *, size_t, const int32_t *, size_t, int32_t *, size_t, uint32_t *);

void octagon_at(int32_t i, int32_t j, const uint32_t sides[8], int32_t out[8]) {
    const int32_t start[2] = {i, j};
    if (kx_to_octagon(start, 2, sides, 8, out, 8) != KX_ACCEPTED)
        memset(out, 0, 8 * sizeof *out);
}

static void cell_at(int32_t x, int32_t y, int32_t out[8]) {
    static const uint32_t none[8] = {0};
    octagon_at(x, y, none, out);
}

/* Writes the answer of a call, and then some words where it is accepted. */
static void show_with(const char *what, uint32_t answer, const int32_t bounds[8], const char *words) {
    int32_t start[2] = {0, 0};
    uint32_t n[8] = {0};
    uint64_t cells = 0;
    if (answer != KX_ACCEPTED) {
        printf("%s: refused %u\n", what, answer);
        return;
    }
    kx_to_outline(bounds, 8, start, 2, n, 8);
    kx_count(bounds, 8, &cells);
    printf("%s: start %d %d sides %u %u %u %u %u %u %u %u cells %" PRIu64 "%s\n", what, start[0], start[1], n[0], n[1], n[2], n[3], n[4], n[5], n[6], n[7], cells, words);
}

void show(const char *what, uint32_t answer, const int32_t bounds[8]) { show_with(what, answer, bounds, ""); }

static const char *words_of(uint32_t mark) { return mark == KX_EXACT ? ", exact" : mark == KX_FILLED ? ", filled" : ", with no mark"; }

void show_bounds(const char *what, const int32_t bounds[8]) {
    int32_t o[8] = {0};
    uint32_t answer = kx_normalise(bounds, 8, o, 8);
    uint64_t cells = 0;
    if (answer != KX_ACCEPTED) {
        printf("%s: refused %u\n", what, answer);
        return;
    }
    kx_count(bounds, 8, &cells);
    printf("%s: %d %d %d %d %d %d %d %d cells %" PRIu64 "\n", what, o[0], o[1], o[2], o[3], o[4], o[5], o[6], o[7], cells);
}

static void show_trim(const char *what, trim *f, const int32_t p[8], const int32_t q[8]) {
    int32_t out[8] = {0};
    show(what, f(p, 8, q, 8, out, 8), out);
}

/* Writes the answer of a call with a spread in it, and its mark. */
static void show_spread(const char *what, spread *f, const int32_t p[8], const int32_t q[8]) {
    int32_t out[8] = {0};
    uint32_t mark = UNMARKED, answer = f(p, 8, q, 8, out, 8, &mark);
    show_with(what, answer, out, words_of(mark));
}

static void show_folds(const char *what, const int32_t p[8], const int32_t q[8], uint32_t n) {
    int32_t out[8] = {0};
    uint32_t mark = UNMARKED, answer = kx_dilate_n(p, 8, q, 8, n, out, 8, &mark);
    show_with(what, answer, out, words_of(mark));
}

static void octagons(void) {
    static const int32_t slack[8] = {0, 0, 9, 1, 2, 9, 0, 0};
    static const uint32_t open[8] = {1, 0, 0, 0, 0, 0, 0, 0};
    int32_t block[8], k2[8], k4[8], k13[8], square[8], cell[8], other[8], out[8] = {0};
    const int32_t zero[2] = {0, 0};
    double place[2] = {0, 0};
    uint32_t mark = UNMARKED;
    octagon_at(0, 0, BLOCK, block);
    octagon_at(0, 0, K2, k2);
    octagon_at(0, 0, K4, k4);
    octagon_at(0, 0, K13, k13);
    octagon_at(0, 0, SQUARE, square);
    show_bounds("all bounds 0", ORIGIN);
    show_bounds("slack bounds", slack);
    show_bounds("crossed bounds", CROSSED);
    show("n0=1 alone", kx_to_octagon(zero, 2, open, 8, out, 8), out);
    show_spread("block spread by K13", kx_dilate, block, k13);
    kx_dilate(block, 8, k13, 8, out, 8, &mark);
    show_trim("that trimmed by K13", kx_erode, out, k13);
    show_spread("block closed by K13", kx_closing, block, k13);
    if (kx_vertex_place(out, 8, 2, place, 2) == KX_ACCEPTED)
        printf("corner 2 of the spread: %.2f east %.2f north\n", place[0], place[1]);
    printf("corner 8: refused %u\n", kx_vertex_place(out, 8, 8, place, 2));
    show_trim("block trimmed by 3 by 3", kx_erode, block, square);
    show_spread("K2 spread by K4", kx_dilate, k2, k4);
    show_spread("K13 opened by K4", kx_opening, k13, k4);
    show_spread("K2 closed by K4", kx_closing, k2, k4);
    cell_at(-KX_MAP_LIMIT, 0, cell);
    cell_at(1, 0, other);
    show_trim("(-2000000,0) trimmed by (1,0)", kx_erode, cell, other);
    cell_at(KX_MAP_LIMIT, 0, cell);
    show_spread("(2000000,0) spread by (0,0)", kx_dilate, cell, ORIGIN);
    show_spread("(2000000,0) spread by (1,0)", kx_dilate, cell, other);
    show_folds("origin spread 4000001 times", ORIGIN, ORIGIN, KX_FOLD_LIMIT);
    show_folds("origin spread 4000002 times", ORIGIN, ORIGIN, KX_FOLD_LIMIT + 1);
    show("block trimmed twice by 3 by 1", kx_erode_n(block, 8, (const int32_t[8]){0, 2, 2, 2, 0, 0, 0, 0}, 8, 2, out, 8), out);
    printf("seven bounds: %u\n", kx_normalise(ORIGIN, 7, out, 8));
}

/* A plot far off the old map, of more cells than 32 bits count: its bounds, its outline, a corner, and what a row trims off it. */
static void county(void) {
    int32_t plot[8], row[8];
    double place[2] = {0, 0};
    octagon_at(COUNTY_START[0], COUNTY_START[1], COUNTY_SIDES, plot);
    octagon_at(7, -3, RISING, row);
    show_bounds("county plot", plot);
    show("its outline", KX_ACCEPTED, plot);
    if (kx_vertex_place(plot, 8, 4, place, 2) == KX_ACCEPTED)
        printf("corner 4: %.2f east %.2f north\n", place[0], place[1]);
    show_trim("trimmed by a rising row", kx_erode, plot, row);
}

/* A plot and a frame whose numbers all differ. */
static void uneven(void) {
    static const int32_t slack[8] = {5, 4, 0, 10, 40, 27, 11, 20};
    int32_t plot[8] = {0}, row[8], out[8] = {0};
    double place[2] = {0, 0};
    uint32_t mark = UNMARKED;
    octagon_at(7, -3, RISING, row);
    kx_to_octagon(UNEVEN_START, 2, UNEVEN_SIDES, 8, plot, 8);
    show_bounds("uneven plot", plot);
    show_bounds("slack bounds that differ", slack);
    show("its outline", KX_ACCEPTED, plot);
    show_spread("spread by the frame", kx_dilate, plot, FRAME);
    show_trim("trimmed by the frame", kx_erode, plot, FRAME);
    show_spread("opened by the frame", kx_opening, plot, FRAME);
    show_spread("the frame spread by a rising row", kx_dilate, FRAME, row);
    kx_dilate(FRAME, 8, row, 8, out, 8, &mark);
    show_spread("opened by that", kx_opening, plot, out);
    show_spread("closed by the frame", kx_closing, plot, FRAME);
    show_folds("spread twice by the frame", plot, FRAME, 2);
    kx_dilate_n(plot, 8, FRAME, 8, 2, out, 8, &mark);
    show_folds("that spread 3 times by the frame", out, FRAME, 3);
    show_folds("spread 5 times by the frame", plot, FRAME, 5);
    show("trimmed twice by the frame", kx_erode_n(plot, 8, FRAME, 8, 2, out, 8), out);
    kx_erode(plot, 8, FRAME, 8, out, 8);
    show_trim("trimmed once and once more", kx_erode, out, FRAME);
    show_trim("the frame trimmed by the plot", kx_erode, FRAME, plot);
    for (uint32_t k = 0; k < KX_SIDES; k++)
        if (kx_vertex_place(plot, 8, k, place, 2) == KX_ACCEPTED)
            printf("corner %u: %.2f east %.2f north\n", k, place[0], place[1]);
}

/* Opposed rows whose numbers all differ: their spreads are filled. Those of a row by itself and by a cell are exact. A filled spread
 * that leaves the map is refused. */
static void opposed_rows(void) {
    int32_t rising[8], falling[8], edge[8], past[8], both[8] = {0};
    uint32_t mark = UNMARKED;
    octagon_at(4, -11, RISING, rising);
    octagon_at(9, 2, FALLING, falling);
    octagon_at(KX_MAP_LIMIT - 13, 5, RISING, edge);
    octagon_at(KX_MAP_LIMIT - 12, 5, RISING, past);
    show_bounds("rising row", rising);
    show_bounds("falling row", falling);
    show_spread("rising spread by falling", kx_dilate, rising, falling);
    show_spread("falling spread by rising", kx_dilate, falling, rising);
    kx_dilate(rising, 8, falling, 8, both, 8, &mark);
    show_trim("the spread trimmed by rising", kx_erode, both, rising);
    show_spread("the spread opened by falling", kx_opening, both, falling);
    show_spread("the spread opened by itself", kx_opening, both, both);
    show_spread("falling closed by rising", kx_closing, falling, rising);
    show_spread("rising opened by falling", kx_opening, rising, falling);
    show_spread("rising spread by itself", kx_dilate, rising, rising);
    show_spread("rising spread by (0,0)", kx_dilate, rising, ORIGIN);
    show_folds("rising spread 3 times by falling", rising, falling, 3);
    show_folds("rising spread once and then 2 times", both, falling, 2);
    show_folds("rising spread 0 times by falling", rising, falling, 0);
    show_spread("to the edge of the map", kx_dilate, edge, falling);
    show_spread("past it", kx_dilate, past, falling);
    show_spread("closed past it", kx_closing, past, falling);
}

/* Writes a split, or its refusal. */
static void show_split(const char *what, const int32_t bounds[8]) {
    int32_t start[KX_START] = {0};
    uint32_t k[KX_COUNTS] = {0}, answer = kx_decompose(bounds, KX_BOUNDS, start, KX_START, k, KX_COUNTS);
    if (answer != KX_ACCEPTED) {
        printf("%s: refused %u\n", what, answer);
        return;
    }
    printf("%s: start %d %d counts", what, start[0], start[1]);
    for (int p = 0; p < KX_COUNTS; p++)
        printf(" %u", k[p]);
    printf("\n");
}

static void splits(void) {
    static const uint32_t diamond[8] = {0, 2, 0, 2, 0, 2, 0, 2}, skew[8] = {3, 0, 1, 1, 0, 2, 0, 0};
    int32_t bounds[8];
    octagon_at(0, 0, diamond, bounds);
    show_split("split of sides 0 2 0 2 0 2 0 2", bounds);
    octagon_at(0, 0, skew, bounds);
    show_split("split of sides 3 0 1 1 0 2 0 0", bounds);
    octagon_at(-4, -5, UNEVEN_SIDES, bounds);
    show_split("split of the uneven plot", bounds);
    show_split("split of crossed bounds", CROSSED);
}

int main(void) {
    octagons();
    county();
    uneven();
    opposed_rows();
    splits();
    spectra();
    tapes();
    trees();
    sheets();
    base_sheets();
    joins();
    conversions();
    limits();
    return 0;
}
