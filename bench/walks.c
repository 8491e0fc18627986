/* Outlines walked step by step along document 01's steps. */
#include "oracle.h"
#include <string.h>

const int STEP[8][2] = {{1, 0}, {1, 1}, {0, 1}, {-1, 1}, {-1, 0}, {-1, -1}, {0, -1}, {1, -1}};

/* Corner k + 1 from corner k, in place. */
static void move(int64_t at[2], const uint32_t sides[8], int k) {
    at[0] += (int64_t)sides[k] * STEP[k][0];
    at[1] += (int64_t)sides[k] * STEP[k][1];
}

uint32_t walk_refusal(int64_t limit, const int32_t start[2], const uint32_t sides[8]) {
    int64_t at[2] = {start[0], start[1]};
    int off = 0;
    for (int k = 0; k < 8; k++) {
        off |= at[0] < -limit || at[0] > limit || at[1] < -limit || at[1] > limit;
        move(at, sides, k);
    }
    if (at[0] != start[0] || at[1] != start[1])
        return 3;
    return off ? 2 : 0;
}

void bounds_of_walk(const int32_t start[2], const uint32_t sides[8], int64_t c[8]) {
    int64_t at[2] = {start[0], start[1]};
    for (int k = 0; k < 8; k++) {
        for (int i = 0; i < 8; i++)
            if (k == 0 || reach(i, at[0], at[1]) > c[i])
                c[i] = reach(i, at[0], at[1]);
        move(at, sides, k);
    }
}

void walked(const int32_t start[2], const uint32_t sides[8], cells *out) {
    const int gap = WINDOW / 2;
    int i = gap, j = 1;
    memset(out, 0, sizeof *out);
    out->x0 = (int64_t)start[0] - gap;
    out->y0 = (int64_t)start[1] - 1;
    out->row[j] |= (uint64_t)1 << i;
    for (int k = 0; k < 8; k++)
        for (uint32_t n = 0; n < sides[k]; n++) {
            i += STEP[k][0];
            j += STEP[k][1];
            out->row[j] |= (uint64_t)1 << i;
        }
    /* each row is filled between its ends */
    for (j = 0; j < WINDOW; j++)
        if (out->row[j]) {
            int low = __builtin_ctzll(out->row[j]), high = 63 - __builtin_clzll(out->row[j]);
            for (i = low; i <= high; i++)
                out->row[j] |= (uint64_t)1 << i;
        }
}
