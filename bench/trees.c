/* Trees in the words of document 02: the cells at a distance from a centre or less, each found by squares, and the bounds that they
 * reach. */
#include "oracle.h"

static int is_off(int64_t x, int64_t y) { return x < -LIMIT || x > LIMIT || y < -LIMIT || y > LIMIT; }

/* What is refused before any cell but the centre is looked at. */
static uint32_t first_refusal(const tree *t) { return t->radius > RADIUS ? 17 : is_off(t->x, t->y) ? 2 : 0; }

/* Widens bounds to hold the cell (x, y). */
static void widen(int64_t c[8], int64_t x, int64_t y) {
    for (int k = 0; k < 8; k++) {
        int64_t far = reach(k, x, y);
        c[k] = far > c[k] ? far : c[k];
    }
}

answer clearance_by_cells(const tree *t) {
    answer r = {.number = first_refusal(t)};
    int64_t x = t->x, y = t->y, radius = t->radius;
    if (r.number)
        return r;
    for (int k = 0; k < 8; k++)
        r.c[k] = reach(k, x, y);
    for (int64_t v = -radius; v <= radius; v++)
        for (int64_t u = -radius; u <= radius; u++)
            if (u * u + v * v <= radius * radius) {
                r.number = is_off(x + u, y + v) ? 2 : r.number;
                widen(r.c, x + u, y + v);
            }
    return r;
}

/* The bounds that the cells at a radius from (0, 0) or less reach, worked out once for each radius. */
static const int64_t *disc(uint32_t radius) {
    static answer found[RADIUS + 1];
    static int is_found[RADIUS + 1];
    const tree middle = {0, 0, radius};
    if (!is_found[radius])
        found[radius] = clearance_by_cells(&middle);
    is_found[radius] = 1;
    return found[radius].c;
}

answer clearance_by_discs(const tree *t) {
    answer r = {.number = first_refusal(t)};
    if (r.number)
        return r;
    for (int k = 0; k < 8; k++)
        r.c[k] = disc(t->radius)[k] + reach(k, t->x, t->y);
    for (int k = 0; k < 8; k += 2)
        r.number = r.c[k] > LIMIT ? 2 : r.number;
    return r;
}
