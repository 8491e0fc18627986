/* Tapes in the words of document 02: the cell of a coordinate from the bits of the number, in whole numbers, and again by search among
 * the cells' edges. */
#include "oracle.h"
#include <string.h>

/* A finite number as its bits have it: fraction * 2 ^ power, below nought where `negative`. */
typedef struct {
    int negative, power;
    uint64_t fraction;
} parts;

static uint64_t bits_of(double metres) {
    uint64_t bits;
    memcpy(&bits, &metres, sizeof bits);
    return bits;
}

static int exponent_of(double metres) { return (int)(bits_of(metres) >> 52 & 2047); }

int is_number(double metres) { return exponent_of(metres) != 2047; }

static parts parts_of(double metres) {
    uint64_t low = bits_of(metres) & ((UINT64_C(1) << 52) - 1);
    int exponent = exponent_of(metres);
    parts p = {(int)(bits_of(metres) >> 63), exponent ? exponent - 1075 : -1074, exponent ? low | UINT64_C(1) << 52 : low};
    return p;
}

/* The greatest whole number of eighths of a metre that is not above a number; where that is far off the map, another that is too. */
static int64_t eighths_below(double metres) {
    parts p = parts_of(metres);
    int up = p.power + 3;
    if (up > 0)
        return p.negative ? -((int64_t)1 << 52) : (int64_t)1 << 52;
    if (up < -60)
        return p.negative && p.fraction ? -1 : 0;
    uint64_t whole = p.fraction >> -up, rest = p.fraction - (whole << -up);
    return p.negative ? -(int64_t)whole - (rest != 0) : (int64_t)whole;
}

/* The cell itself, or that one past the map's edge where it is farther. */
static int64_t clamped(int64_t n) { return n < -LIMIT - 1 ? -LIMIT - 1 : n > LIMIT + 1 ? LIMIT + 1 : n; }

/* The greatest n with 2 n - 1 eighths not above the metres. */
int64_t cell_by_bits(double metres) {
    int64_t below = eighths_below(metres), n = below / 2;
    while (2 * n - 1 > below)
        n--;
    while (2 * (n + 1) - 1 <= below)
        n++;
    return clamped(n);
}

int64_t cell_by_search(double metres) {
    int64_t low = -LIMIT - 1, high = LIMIT + 2;
    while (low + 1 < high) {
        int64_t middle = (low + high) / 2;
        if ((double)(2 * middle - 1) / 8 <= metres)
            low = middle;
        else
            high = middle;
    }
    return low;
}

static int is_off(int64_t n) { return n < -LIMIT || n > LIMIT; }

/* The refusal of a point, or 0 and its cell. */
static uint32_t point_refusal(const double *point, int64_t cell[2]) {
    if (!is_number(point[0]) || !is_number(point[1]))
        return 14;
    cell[0] = cell_by_bits(point[0]);
    cell[1] = cell_by_bits(point[1]);
    return is_off(cell[0]) || is_off(cell[1]) ? 2 : 0;
}

answer enclosed(const double *tape, size_t len) {
    answer r = {.number = len == 0 ? 15 : len % 2 ? 16 : 0};
    for (size_t i = 0; i < len && !r.number; i += 2) {
        int64_t cell[2];
        r.number = point_refusal(tape + i, cell);
        for (int k = 0; k < 8 && !r.number; k++) {
            int64_t far = reach(k, cell[0], cell[1]);
            r.c[k] = i == 0 || far > r.c[k] ? far : r.c[k];
        }
    }
    return r;
}
