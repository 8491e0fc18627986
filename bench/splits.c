/* The thirteen pieces, and the split by document 01's rule: every pair of kinds that the rule allows is tried. */
#include "oracle.h"
#include <string.h>

/* K1 to K13 by their sides. */
static const uint32_t PIECE[PIECES][8] = {
    {1, 0, 0, 0, 1, 0, 0, 0}, {0, 1, 0, 0, 0, 1, 0, 0}, {0, 0, 1, 0, 0, 0, 1, 0}, {0, 0, 0, 1, 0, 0, 0, 1}, {1, 0, 1, 0, 0, 1, 0, 0},
    {1, 0, 0, 1, 0, 0, 1, 0}, {0, 1, 0, 0, 1, 0, 1, 0}, {0, 0, 1, 0, 1, 0, 0, 1}, {2, 0, 0, 1, 0, 1, 0, 0}, {0, 1, 0, 0, 2, 0, 0, 1},
    {0, 1, 0, 1, 0, 0, 2, 0}, {0, 0, 2, 0, 0, 1, 0, 1}, {0, 1, 0, 1, 0, 1, 0, 1},
};

/* The two kinds that may stand together, by their numbers. */
static const int PAIR[8][2] = {{6, 11}, {8, 10}, {5, 9}, {7, 11}, {8, 12}, {6, 9}, {7, 10}, {5, 12}};

uint64_t fit_alone[8], fit_two, fit_all;

/* How often kind p goes into a rest, by a side that it shows and kind q does not. */
static uint32_t times(const uint32_t rest[8], int p, int q) {
    int m = 0;
    while (!PIECE[p - 1][m] || PIECE[q - 1][m])
        m++;
    return rest[m] / PIECE[p - 1][m];
}

int split_by_rule(const uint32_t sides[8], uint32_t k[PIECES]) {
    uint32_t rest[8], first[PIECES] = {0}, others = 0;
    int choices = 0, fitting = 0, last = 0;
    memcpy(rest, sides, sizeof rest);
    /* "First k1 to k4 are the smaller of .." */
    for (int m = 0; m < 4; m++) {
        first[m] = sides[m] < sides[m + 4] ? sides[m] : sides[m + 4];
        rest[m] -= first[m];
        rest[m + 4] -= first[m];
    }
    memcpy(k, first, sizeof first);
    /* "The rest is made of any number of pieces, of at most two kinds .." */
    for (int i = 0; i < 8; i++) {
        int p = PAIR[i][0], q = PAIR[i][1], fits = 1;
        uint32_t a = times(rest, p, q), b = times(rest, q, p), found[PIECES];
        for (int m = 0; m < 8; m++)
            fits &= (uint64_t)a * PIECE[p - 1][m] + (uint64_t)b * PIECE[q - 1][m] == rest[m];
        if (!fits)
            continue;
        fitting++;
        last = i;
        memcpy(found, first, sizeof found);
        found[p - 1] = a;
        found[q - 1] = b;
        choices += choices == 0 || memcmp(found, k, sizeof found) != 0;
        memcpy(k, found, sizeof found);
    }
    fit_alone[last] += fitting == 1;
    fit_two += fitting == 2;
    fit_all += fitting == 8;
    /* "Last, when k2 and k4 are at least 1 and all other counts are 0, .." */
    for (int p = 1; p <= 12; p++)
        others += p == 2 || p == 4 ? 0 : k[p - 1];
    if (k[1] >= 1 && k[3] >= 1 && others == 0) {
        k[1]--;
        k[3]--;
        k[12] = 1;
    }
    return choices;
}

void rebuilt(const int32_t start[2], const uint32_t k[PIECES], cells *out) {
    static const uint32_t none[8] = {0};
    static const int32_t origin[2] = {0, 0};
    cells sum, piece, next;
    walked(start, none, &sum);
    sum = cornered(&sum);
    for (int p = 0; p < PIECES; p++) {
        walked(origin, PIECE[p], &piece);
        piece = cornered(&piece);
        for (uint32_t n = 0; n < k[p]; n++) {
            dilated(&sum, &piece, &next);
            sum = next;
        }
    }
    *out = sum;
}
