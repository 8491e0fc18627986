/* Two operands, and how often one is spread or trimmed by the other; and a plot with two elements. */
#include "compare.h"

/* How far the folds of a row may go: from edge to edge of the map. */
enum { ACROSS = 2 * LIMIT };

/* So many folds, or up to sixteen bits fewer. */
static uint32_t shortened(uint32_t n) { return n >> any() % 17; }

/* Many folds: up to the limit and one past it, next to it, next to the greatest number of 16 bits, or any. */
static uint32_t many(void) {
    switch (any() % 8) {
    case 0: return any();
    case 1: return FOLDS - 2 + any() % 5;
    case 2: return UINT16_MAX - 2 + any() % 5;
    default: return shortened(any() % (FOLDS + 2));
    }
}

static uint32_t few_or_many(void) { return any() % 4 ? any() % 4 : many(); }

/* Bounds of any kind, one time in eight both near to rows. */
static uint32_t random_two(int32_t p[8], int32_t f[8]) {
    int rows = any() % 8 == 0;
    random_bounds(p, 20, rows);
    random_bounds(f, any() % 2 ? 8 : 3, rows);
    return few_or_many();
}

void row(int32_t c[8], int32_t steps, int rising) {
    for (int k = 0; k < 8; k++) {
        int64_t end = reach(k, rising ? steps : -steps, steps);
        c[k] = end > 0 ? (int32_t)end : 0;
    }
}

void move(int32_t c[8], int32_t x, int32_t y) {
    for (int k = 0; k < 8; k++)
        c[k] += (int32_t)reach(k, x, y);
}

/* A few steps, or one time in eight any number of them up to the most. */
static int32_t steps(int32_t few, int32_t most) { return from(0, any() % 8 && few < most ? few : most); }

int32_t shift(int32_t down, int32_t up) {
    int32_t limit = edge();
    switch (any() % 4) {
    case 0: return limit - up + from(-2, 2);
    case 1: return down - limit + from(-2, 2);
    case 2: return from(-LIMIT, LIMIT);
    default: return from(-20, 20);
    }
}

/* One bound that is slack, or lets more cells in. */
static void loosen(int32_t c[8]) {
    int k = (int)(any() % 8);
    c[k] = any() % 2 ? INT32_MAX : c[k] + from(1, 3);
}

/* Opposed rows, few of them a cell alone, whose sums often end at an edge of the map; or in the plot's stead the smallest octagon that
 * holds the sums, which the element trims to a row. */
static uint32_t random_opposed(int32_t p[8], int32_t f[8]) {
    uint32_t n = any() % 4 ? few_or_many() : (uint32_t)from(1, ACROSS);
    int32_t folds = n >= 1 && n <= ACROSS && any() % 2 ? (int32_t)n : 1, near = LIMIT / folds < 4 ? LIMIT / folds : 4, sums[8];
    int rising = (int)(any() % 2);
    row(p, steps(16, ACROSS), rising);
    row(f, steps(6, ACROSS / folds), !rising);
    move(f, from(-near, near), from(-near, near));
    for (int k = 0; k < 8; k++)
        sums[k] = p[k] + folds * f[k];
    int32_t x = shift(sums[6], sums[2]), y = shift(sums[0], sums[4]);
    for (int k = 0, whole = any() % 3 == 0; k < 8; k++)
        p[k] = whole ? sums[k] : p[k];
    move(p, x, y);
    if (any() % 4 == 0)
        loosen(any() % 2 ? p : f);
    return n;
}

/* A plot of up to the whole map, half of them at one of its edges and narrower there, and a small element, which is often near (0, 0): fewer
 * folds than the plot has columns, so that some leave a few cells, and some leave the map on the way. */
static uint32_t random_wide(int32_t p[8], int32_t f[8]) {
    int32_t size = (int32_t)(40 + shortened((uint32_t)from(0, LIMIT - 40))), away = any() % 2 ? LIMIT - size : from(size - LIMIT, LIMIT - size);
    int edge = 2 * (int)(any() % 4);
    random_bounds(f, 3, 0);
    for (int k = 0; k < 8; k++)
        p[k] = k % 2 ? size + from(0, size) : size;
    for (int k = 1; k < 4; k += 2)
        p[(k + edge) % 8] = size + from(0, 40);
    move(p, away * STEP[edge][0], away * STEP[edge][1]);
    if (any() % 4 == 0)
        loosen(p);
    return (uint32_t)from(0, 2 * size);
}

/* An octagon of up to `size` cells each way, anywhere on the map. */
static void octagon_anywhere(int32_t c[8], int32_t size) {
    for (int k = 0; k < 8; k++)
        c[k] = k % 2 ? size + from(0, size) : size;
    int32_t x = from(size - LIMIT, LIMIT - size), y = from(size - LIMIT, LIMIT - size);
    move(c, x, y);
}

/* A coordinate of the map that n times is a multiple of 2 to the 32nd or up to n more or less. */
static int32_t wrapping(uint32_t n) {
    uint64_t most = (uint64_t)n * LIMIT >> 32, times = any() % (most + 1);
    int32_t x = n ? (int32_t)((times << 32) / n) : 0;
    return any() % 2 ? x : -x;
}

/* Many folds of an element of one cell or of any size: n times a bound is far beyond 32 bits, or would come back to the map if it were cut
 * to these. */
static uint32_t random_many(int32_t p[8], int32_t f[8]) {
    uint32_t n = many();
    int32_t wide = (int32_t)shortened(LIMIT), narrow = any() % 4 ? 0 : (int32_t)shortened(LIMIT);
    octagon_anywhere(p, wide);
    octagon_anywhere(f, narrow);
    if (any() % 2) {
        int32_t x = any() % 4 ? wrapping(n) : 0, y = any() % 4 ? wrapping(n) : 0;
        row(f, 0, 0);
        move(f, x, y);
    }
    return n;
}

uint32_t random_pair(int32_t p[8], int32_t f[8]) {
    switch (any() % 16) {
    case 0:
    case 1: return random_opposed(p, f);
    case 2: return random_wide(p, f);
    case 3: return random_many(p, f);
    default: return random_two(p, f);
    }
}

/* Two elements: bounds that are mostly small, short rows of one kind or opposed, or a row and such bounds. */
static void random_elements(int32_t f[8], int32_t g[8]) {
    uint32_t kind = any() % 4;
    int rising = (int)(any() % 2);
    row(f, from(0, 5), rising);
    row(g, from(0, 5), kind == 1 ? rising : !rising);
    int32_t x = from(-3, 3), y = from(-3, 3), u = from(-3, 3), v = from(-3, 3);
    move(f, x, y);
    move(g, u, v);
    if (kind == 0)
        random_bounds(f, 5, 0);
    if (kind == 0 || kind == 3)
        random_bounds(g, 5, 0);
}

void random_triple(int32_t p[8], int32_t f[8], int32_t g[8]) {
    random_elements(f, g);
    if (any() % 4 == 0) {
        random_bounds(p, 20, 0);
        return;
    }
    for (int k = 0, room = from(0, 6); k < 8; k++) {
        int64_t sum = (int64_t)f[k] + g[k] + from(0, room);
        p[k] = sum > ACROSS ? ACROSS : sum < -ACROSS ? -ACROSS : (int32_t)sum;
    }
    if (any() % 2) {
        int32_t x = shift(p[6], p[2]);
        move(p, x, shift(p[0], p[4]));
    }
    if (any() % 4 == 0)
        loosen(p);
}
