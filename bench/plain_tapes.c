/* The octagon of a tape in plain C. */
#include "plain.h"
#include <math.h>
#include <string.h>

/* The lower edge of cell n, exactly. */
static double edge(int32_t n) { return (2 * n - 1) * 0.125; }

static int is_on_map(double metres) { return edge(-LIMIT) <= metres && metres < edge(LIMIT + 1); }

/* The cell of a coordinate of the map: the sum with 1.5 * 2^50 is rounded to whole quarters, and its bits count them. */
static int32_t cell_of(double metres) {
    double sum = metres + 0x1.8p50;
    int64_t bits;
    memcpy(&bits, &sum, sizeof bits);
    int32_t n = (int32_t)(bits - INT64_C(0x4318000000000000));
    return edge(n + 1) <= metres ? n + 1 : n;
}

static int32_t max(int32_t a, int32_t b) { return a < b ? b : a; }

/* Widens the bounds to hold the cell (x, y). */
static void widen(int32_t c[8], int32_t x, int32_t y) {
    c[0] = max(c[0], -y);
    c[1] = max(c[1], x - y);
    c[2] = max(c[2], x);
    c[3] = max(c[3], x + y);
    c[4] = max(c[4], y);
    c[5] = max(c[5], y - x);
    c[6] = max(c[6], -x);
    c[7] = max(c[7], -x - y);
}

uint32_t plain_enclose(const double *tape, size_t tape_len, int32_t *out, size_t out_len) {
    int32_t c[8] = {INT32_MIN, INT32_MIN, INT32_MIN, INT32_MIN, INT32_MIN, INT32_MIN, INT32_MIN, INT32_MIN};
    if (out_len != 8)
        return WRONG_LENGTH;
    if (tape_len == 0)
        return NO_POINT;
    if (tape_len % 2)
        return HALF_POINT;
    for (size_t i = 0; i < tape_len; i += 2) {
        double east = tape[i], north = tape[i + 1];
        if (!is_on_map(east) || !is_on_map(north))
            return isfinite(east) && isfinite(north) ? OFF_MAP : NOT_FINITE;
        widen(c, cell_of(east), cell_of(north));
    }
    memcpy(out, c, sizeof c);
    return 0;
}
