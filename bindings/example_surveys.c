/* What is surveyed, from C: the octagon round a tape of points, and the octagon about a tree. */
#include "example.h"
#include <math.h>
#include <stdio.h>

/* Writes the octagon that a call gave, and its outline, or the refusal. */
static void show_both(const char *what, uint32_t answer, const int32_t bounds[8]) {
    if (answer != KX_ACCEPTED) {
        printf("%s: refused %u\n", what, answer);
        return;
    }
    show_bounds(what, bounds);
    show("its outline", answer, bounds);
}

static void survey(const char *what, const double *tape, size_t len) {
    int32_t out[KX_BOUNDS] = {0};
    show_both(what, kx_enclose(tape, len, out, KX_BOUNDS), out);
}

/* An irregular plot, from its lowest corner round; a point that was not measured; tapes that end early; and the edge of the map. */
void tapes(void) {
    static const double plot[18] = {12.3, -4.875, 17.62, -4.4, 21.125, -1.07, 22.09, 3.7, 19.84, 8.33, 14.6, 10.95, 9.4, 9.2, 6.375, 5.05, 7.9, -1.375};
    const double gap[6] = {12.3, -4.875, 17.62, NAN, 500100.5, 3.7}, far[6] = {12.3, -4.875, 500000.125, -4.4, INFINITY, 3.7};
    const double edge[2] = {500000.0625, -500000.125};
    survey("surveyed plot", plot, 18);
    survey("a point that was not measured", gap, 6);
    survey("a point off the map", far, 6);
    survey("nine numbers", plot, 9);
    survey("no point", plot, 0);
    survey("a point at the edge of the map", edge, 2);
}

static void tree(int32_t x, int32_t y, uint32_t radius) {
    int32_t out[KX_BOUNDS] = {0};
    char what[64];
    snprintf(what, sizeof what, "tree (%d,%d) radius %u", x, y, radius);
    show_both(what, kx_clearance(x, y, radius, out, KX_BOUNDS), out);
}

/* A tree whose numbers all differ, and small ones; two that touch the map's edges, and one past each; the widest, and wider ones;
 * and centres off the map, the ends of 32 bits among them. */
void trees(void) {
    tree(131, -58, 17);
    tree(-3, 7, 0);
    tree(4, -9, 3);
    tree(-12, 8, 5);
    tree(1999983, -1999983, 17);
    tree(1999984, -1999983, 17);
    tree(1999983, -1999984, 17);
    tree(-1999983, 1999983, 17);
    tree(-1999984, 1999983, 17);
    tree(-1999983, 1999984, 17);
    tree(-6, 2, 255);
    tree(-6, 2, 256);
    tree(-6, 2, UINT32_MAX);
    tree(2000001, -6, 0);
    tree(2, -2000001, 256);
    tree(INT32_MIN, INT32_MAX, 255);
    tree(INT32_MIN, INT32_MAX, 256);
    tree(INT32_MAX, INT32_MIN, 255);
    tree(INT32_MAX, INT32_MIN, 256);
}
