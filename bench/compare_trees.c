/* The clearance of a tree, beside the cells about its centre. */
#include "compare.h"
#include <stdio.h>
#include <string.h>

/* The places that are lent stand after some that are not, and have others after them; all are compared. */
enum { BEFORE = 8, PLACES = 32 };

static void say_tree(const tree *t) { printf("tree %d %d, radius %u\n", t->x, t->y, t->radius); }

/* The two ways of the comparison: the cells about the tree's own centre, and those about (0, 0), moved. */
static void compare_ways(const tree *t) {
    answer a = clearance_by_cells(t), b = clearance_by_discs(t);
    if (a.number != b.number || (!a.number && memcmp(a.c, b.c, sizeof a.c))) {
        say_tree(t);
        differ("the two ways of the comparison itself", NULL, NULL, a.number, b.number);
    }
    trees_by_cells += !a.number;
}

/* Whether the bounds stand in their eight places, and in every other what stood there. */
static int is_right(const int32_t out[PLACES], const answer *want) {
    int same = 1;
    for (int k = 0; k < PLACES; k++) {
        int written = !want->number && k >= BEFORE && k < BEFORE + 8;
        same &= out[k] == (written ? want->c[k - BEFORE] : -1 - k);
    }
    return same;
}

/* The call with so many places to write to. */
static void compare_clearance(const tree *t, size_t len) {
    int32_t out[PLACES];
    answer want = clearance_by_discs(t);
    if (len != 8)
        want.number = KX_WRONG_LENGTH;
    for (int k = 0; k < PLACES; k++)
        out[k] = -1 - k;
    uint32_t got = kx_clearance(t->x, t->y, t->radius, out + BEFORE, len);
    int same = is_right(out, &want);
    if (got != want.number || !same)
        say_tree(t);
    agree("kx_clearance", NULL, got, want.number, same);
}

void compare_tree(void) {
    tree t;
    random_tree(&t);
    if (t.radius <= 8 || any() % 1024 == 0)
        compare_ways(&t);
    compare_clearance(&t, any() % 16 ? 8 : any() % (LENT + 1));
}

/* Every radius, where the tree stands in the middle of the map, one cell short of an edge, at the edge and one past it. */
void compare_radii(void) {
    for (int32_t radius = 0; radius <= RADIUS + 1; radius++) {
        const int32_t room = LIMIT - radius, at[] = {0, room - 1, room, room + 1, 1 - room, -room, -room - 1};
        for (int i = 0; i < 7; i++)
            for (int j = 0; j < 7; j++) {
                const tree t = {at[i], at[j], (uint32_t)radius};
                compare_clearance(&t, 8);
            }
    }
}
