/* Random trees: on the map, at its edges, at the ends of 32 bits, and with radii up to the limit, past it, and any. */
#include "compare.h"

/* A radius past the limit: next to it, at the end of 32 bits, one whose low bits are a radius that is answered, or any. */
static uint32_t too_wide(void) {
    switch (any() % 4) {
    case 0: return RADIUS + 1 + any() % 3;
    case 1: return UINT32_MAX - any() % 3;
    case 2: return any() % (RADIUS + 1) + ((uint32_t)1 << (8 + any() % 24));
    default: return any();
    }
}

static uint32_t random_radius(void) {
    switch (any() % 8) {
    case 0: return too_wide();
    case 1: return RADIUS - any() % 3;
    case 2: return any() % 9;
    default: return any() % (RADIUS + 1);
    }
}

/* At an end of 32 bits, or so far from it that the tree would reach it, or any number. */
static int32_t far_off(int32_t radius) {
    int32_t steps = any() % 2 ? from(0, 3) : radius + from(0, 2);
    switch (any() % 4) {
    case 0: return (int32_t)any();
    case 1: return INT32_MIN + steps;
    default: return INT32_MAX - steps;
    }
}

/* A coordinate of the centre: where the tree touches an edge of the map or nearly does, at or next to the edge, far off, near the
 * middle, or anywhere on the map. */
static int32_t coordinate(int32_t radius) {
    int32_t side = any() % 2 ? 1 : -1, limit = edge();
    switch (any() % 8) {
    case 0:
    case 1: return side * (limit - radius + from(-2, 2));
    case 2: return side * (limit + from(-2, 2));
    case 3: return far_off(radius);
    case 4: return from(-8, 8);
    default: return from(-LIMIT, LIMIT);
    }
}

void random_tree(tree *t) {
    t->radius = random_radius();
    t->x = coordinate((int32_t)(t->radius % 512));
    t->y = coordinate((int32_t)(t->radius % 512));
}
