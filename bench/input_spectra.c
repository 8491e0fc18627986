/* A plot and a frame that opens it: frames about (0, 0) and others, plots that come apart in few folds or in many, and damage to either. */
#include "compare.h"
#include <string.h>

/* Twice the map's limit: no bound that a cell of the map reaches is farther. And the rows of a plot that a frame of few rows breaks up. */
enum { FARTHEST = 2 * LIMIT, FEW = 2000 };

static int32_t clamped(int64_t bound) { return bound > FARTHEST ? FARTHEST : bound < -FARTHEST ? -FARTHEST : (int32_t)bound; }

static void move_anywhere(int32_t c[8], int32_t near) {
    int32_t x = from(-near, near);
    int32_t y = from(-near, near);
    move(c, x, y);
}

/* Bounds that let (0, 0) in, each of them up to `size`: mostly some of them are slack. */
static void about_origin(int32_t c[8], int32_t size) {
    for (int k = 0; k < 8; k++)
        c[k] = from(0, size);
}

/* A bound that is slack, or lets a few cells in. */
static void loosen(int32_t c[8]) {
    uint32_t k = any() % 8;
    int32_t further = from(1, 3);
    c[k] = any() % 2 ? INT32_MAX : clamped((int64_t)c[k] + further);
}

/* (0, 0) and no other cell: by its row and column, or by its diagonals, where one of these may let the half of a cell in. All other bounds
 * are slack. */
static void only_origin(int32_t c[8]) {
    uint32_t kind = any() % 3;
    about_origin(c, any() % 2 ? 3 : FARTHEST);
    for (uint32_t k = kind == 0 ? 0 : 1; k < 8; k += 2)
        c[k] = 0;
    if (kind == 2) {
        uint32_t k = any() % 4;
        c[2 * k + 1] = 1;
    }
}

/* A row of so many steps, with (0, 0) among its cells. */
static void row_through_origin(int32_t c[8], int32_t steps, int rising) {
    int32_t before = from(0, steps);
    row(c, steps, rising);
    move(c, rising ? -before : before, -before);
}

/* A frame without (0, 0): one cell, a bound that keeps it out, or cells that may lie beside it. */
static void beside_origin(int32_t f[8]) {
    uint32_t kind = any() % 3, k = any() % 8;
    about_origin(f, kind == 0 ? 0 : 4);
    if (kind == 1)
        f[k] = from(-2, -1);
    else
        move_anywhere(f, any() % 8 ? 3 : LIMIT);
}

static void random_frame(int32_t f[8]) {
    uint32_t kind = any() % 16;
    int rising = (int)(any() % 2);
    if (kind == 0)
        only_origin(f);
    else if (kind < 4)
        beside_origin(f);
    else if (kind == 4)
        random_bounds(f, rising ? 8 : 3, 0);
    else if (kind == 5)
        about_origin(f, LIMIT >> any() % 16);
    else if (kind < 8)
        row_through_origin(f, from(1, 3), rising);
    else
        about_origin(f, from(1, 5));
}

/* So many folds of a frame, and room for a few cells more on each side. */
static void folds_of(int32_t p[8], const int32_t f[8], int32_t folds, int32_t room) {
    for (int k = 0; k < 8; k++)
        p[k] = clamped((int64_t)folds * f[k] + from(0, room));
}

/* Moves a plot, often to an edge of the map or next to it. */
static void move_on_map(int32_t p[8]) {
    int32_t x = shift(p[6], p[2]);
    int32_t y = shift(p[0], p[4]);
    move(p, x, y);
}

static void random_plot_of(int32_t p[8], const int32_t f[8]) {
    int32_t size = from(4, 20), folds = from(1, 6), room = from(0, 6);
    if (any() % 4 == 0) {
        random_bounds(p, size, 0);
        return;
    }
    folds_of(p, f, folds, room);
    if (any() % 2)
        move_on_map(p);
}

/* A plot that some folds of a row trim to an opposed row, so that they open it to a filled octagon: the octagon that holds the sums, or any
 * of as many cells along the frame, of which half come to it. Most are small. */
static void random_filled(int32_t p[8], int32_t f[8]) {
    int rising = (int)(any() % 2), small = any() % 8 != 0;
    int32_t steps = from(1, small ? 3 : 20000), folds = from(1, small ? 4 : 60), length = from(1, small ? 7 : 300000), size = from(4, small ? 14 : 900000);
    row_through_origin(f, steps, rising);
    row(p, length, !rising);
    for (int k = 0; k < 8; k++)
        p[k] += folds * f[k];
    if (any() % 2) {
        int along = rising ? 3 : 1;
        about_origin(p, size);
        p[along + 4] = 2 * folds * steps - p[along];
    }
    if (any() % 2)
        move_on_map(p);
}

/* A plot of up to the whole map, and a frame of few rows, which is made larger where the plot has more than FEW: up to some thousand folds. */
static void random_wide(int32_t p[8], int32_t f[8]) {
    int32_t size = from(24, LIMIT);
    size >>= any() % 12;
    int32_t larger = 1 + size / FEW;
    for (int k = 0; k < 8; k++)
        p[k] = k % 2 ? size + from(0, size) : size;
    move_anywhere(p, LIMIT - size);
    do
        random_frame(f);
    while (f[0] > 3 || f[4] > 3);
    for (int k = 0; k < 8; k++)
        f[k] = clamped((int64_t)larger * f[k]);
}

/* No cell, so that opposite bounds pass each other, or by halves; or cells past an edge of the map, with or without (0, 0). */
static void spoil(int32_t c[8]) {
    static const int32_t halves[8] = {5, 0, 5, 1, 5, 0, 5, -1};
    uint32_t kind = any() % 4, k = any() % 8;
    int32_t past = LIMIT + from(1, 3);
    if (kind == 0)
        c[k] = -1 - c[(k + 4) % 8];
    else if (kind == 1)
        memcpy(c, halves, sizeof halves);
    else
        about_origin(c, 3);
    if (kind == 2)
        move(c, past * STEP[k][0], past * STEP[k][1]);
    for (int i = 0; kind == 3 && i < 8; i++)
        c[i] += i % 2 ? FARTHEST : past;
}

void random_spectrum(int32_t p[8], int32_t f[8]) {
    uint32_t kind = any() % 256, spoilt = any() % 64;
    if (kind == 0)
        random_wide(p, f);
    else if (kind < 64)
        random_filled(p, f);
    else {
        random_frame(f);
        random_plot_of(p, f);
    }
    if (any() % 8 == 0)
        loosen(any() % 2 ? p : f);
    if (spoilt < 4)
        spoil(p);
    if (spoilt < 2 || spoilt > 58)
        spoil(f);
}
