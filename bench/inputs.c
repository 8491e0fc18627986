/* Random numbers, bounds and tapes, from a fixed seed. */
#include "compare.h"
#include <float.h>
#include <math.h>
#include <string.h>

static uint64_t seed = 0x9e3779b97f4a7c15u;

uint32_t any(void) {
    seed ^= seed << 13;
    seed ^= seed >> 7;
    seed ^= seed << 17;
    return (uint32_t)(seed >> 32);
}

int32_t from(int32_t low, int32_t high) { return (int32_t)(low + (int64_t)(any() % (uint32_t)(high - low + 1))); }

int32_t edge(void) { return any() % 4 ? LIMIT : OLD_LIMIT; }

int32_t extreme(void) {
    static const int32_t at[] = {INT32_MIN, INT32_MIN + 1, -1000000000, -4000001, -4000000, -2000001, -2000000, -16001, -16000, -1, 0,
                                 1, 15999, 16000, 16001, 1999999, 2000000, 2000001, 4000000, 4000001, 1000000000, INT32_MAX - 1, INT32_MAX};
    return any() % 4 ? at[any() % (sizeof at / sizeof *at)] : (int32_t)any();
}

void random_bounds(int32_t c[8], int size, int row) {
    int32_t x = 0, y = 0;
    uint32_t kind = any() % 16;
    if (kind == 0) {
        for (int k = 0; k < 8; k++)
            c[k] = extreme();
        return;
    }
    for (int k = 0; k < 8; k++)
        c[k] = from(kind < 8 ? -size / 3 : 0, size);
    if (kind == 1 || row) { /* a diagonal row, or nearly */
        int k = any() % 2 ? 1 : 3;
        c[k] = from(-2, 2);
        c[(k + 4) % 8] = -c[k] + (any() % 4 == 0);
    }
    if (any() % 2) {
        x = any() % 3 ? from(-1, 1) * (edge() - from(-3, size)) : from(-LIMIT, LIMIT);
        y = any() % 3 ? from(-1, 1) * (edge() - from(-3, size)) : from(-LIMIT, LIMIT);
    }
    for (int k = 0; k < 8; k++)
        c[k] += (int32_t)reach(k, x, y);
    if (any() % 4 == 0)
        c[any() % 8] = any() % 2 ? INT32_MAX : c[0] + from(0, 10000000);
    if (any() % 16 == 0)
        c[any() % 8] = extreme();
}

/* The number so many steps above another, where that is not nought. */
static double stepped(double metres, int32_t steps) {
    int64_t bits;
    memcpy(&bits, &metres, sizeof bits);
    bits += metres < 0 ? -steps : steps;
    memcpy(&metres, &bits, sizeof metres);
    return metres;
}

/* Any bits: mostly far off the map or next to nought. */
static double any_number(void) {
    uint64_t high = any(), bits = high << 32 | any();
    double metres;
    memcpy(&metres, &bits, sizeof metres);
    return metres;
}

/* The lower edge of a cell, or a number a few steps from it. */
static double near_edge(int32_t n) { return stepped((double)(2 * n - 1) / 8, any() % 2 ? 0 : from(-3, 3)); }

/* A coordinate of the map, with many bits of fraction. */
static double anywhere(void) { return from(-1000000000, 1000000000) * 5e-4; }

/* A coordinate of the map: at an edge of a cell, next to nought, or anywhere. */
static double coordinate(void) {
    switch (any() % 4) {
    case 0: return near_edge(any() % 2 ? from(-LIMIT + 1, LIMIT) : from(-8, 8));
    case 1: return near_edge(any() % 2 ? LIMIT - from(0, 2) : 1 - LIMIT + from(0, 2));
    case 2: return anywhere() / (double)(UINT64_C(1) << any() % 63);
    default: return anywhere();
    }
}

/* One that is not finite, or the least or the greatest, or at or past the edge of the map, or anything. */
static double strange(void) {
    static const double missing[] = {NAN, -NAN, INFINITY, -INFINITY};
    static const double least[] = {0.0, -0.0, DBL_TRUE_MIN, -DBL_TRUE_MIN, DBL_MIN, -DBL_MIN, DBL_MAX, -DBL_MAX};
    switch (any() % 5) {
    case 0: return missing[any() % 4];
    case 1: return least[any() % 8];
    case 2: return near_edge(any() % 2 ? LIMIT + 1 : -LIMIT);
    case 3: return anywhere() * (double)(UINT64_C(1) << any() % 63);
    default: return any_number();
    }
}

void random_tape(double *tape, size_t len) {
    for (size_t i = 0; i < len; i++)
        tape[i] = coordinate();
    for (uint32_t strangers = len && any() % 2 ? any() % 4 : 0; strangers > 0; strangers--)
        tape[any() % len] = strange();
}
