/* Random outlines and plots: small and as wide as the map, in the middle of it, at an edge of it or of the old map, and past an edge. */
#include "compare.h"

/* Two sides that close a walk. */
static void close_walk(uint32_t n[8]) {
    int64_t across = (int64_t)n[3] + n[4] + n[5] - n[1] - n[7], upward = (int64_t)n[5] + n[6] + n[7] - n[1] - n[3];
    n[0] = across >= 0 ? (uint32_t)across : 0;
    n[4] += across >= 0 ? 0 : (uint32_t)-across;
    n[2] = upward >= 0 ? (uint32_t)upward : 0;
    n[6] += upward >= 0 ? 0 : (uint32_t)-upward;
}

/* Makes some pairs of opposite sides longer, by amounts near half of 2 to the 32nd or all of it: the walk still closes. */
static void lengthen(uint32_t n[8]) {
    for (int k = 0; k < 4; k++) {
        uint32_t longer = n[k] > n[k + 4] ? n[k] : n[k + 4], by = any() % 2 ? (uint32_t)1 << 31 : UINT32_MAX - longer - any() % 50;
        if (any() % 2) {
            n[k] += by;
            n[k + 4] += by;
        }
    }
}

void enlarge(uint32_t n[8]) {
    if (any() % 2) {
        lengthen(n);
        return;
    }
    for (int k = 0; k < 8; k++)
        n[k] += any() % 4 << 30;
    n[0] = n[3] + n[4] + n[5] - n[1] - n[7];
    n[2] = n[5] + n[6] + n[7] - n[1] - n[3];
}

int any_side(void) { return 2 * (int)(any() % 4); }

void end_at(int32_t start[2], const uint32_t sides[8], int side, int64_t end) {
    int64_t c[8];
    bounds_of_walk(start, sides, c);
    for (int k = 0; k < 2; k++) {
        int64_t to = start[k] + STEP[(side + 6) % 8][k] * (end - c[side]);
        if (to >= INT32_MIN && to <= INT32_MAX)
            start[k] = (int32_t)to;
    }
}

void random_outline(int32_t start[2], uint32_t n[8], uint32_t size) {
    for (int k = 0; k < 8; k++)
        n[k] = any() % (size + 1);
    close_walk(n);
    if (any() % 16 == 0)
        enlarge(n);
    if (any() % 8 == 0)
        n[any() % 8] += any() % 2 ? 1 : any() % 3 ? any() % 70000 : any();
    for (int k = 0; k < 2; k++) {
        int32_t far = edge() + 5;
        start[k] = any() % 2 ? from(-20, 20) : any() % 8 ? from(-far, far) : extreme();
    }
    if (any() % 2) {
        int side = any_side();
        int32_t limit = edge();
        end_at(start, n, side, limit + from(-2, 2));
    }
}

uint16_t random_fee_row(void) {
    static const uint16_t at[] = {0, 1, 255, 256, 32767, 32768, 65534, 65535};
    return any() % 2 ? at[any() % 8] : (uint16_t)any();
}

void random_plot(plot *p) {
    uint32_t kind = any() % 16;
    random_outline(p->start, p->sides, kind == 0 ? 600000 : kind == 1 ? 3000 : 6);
    p->number = any() % 16 ? any() % 64 : any();
    p->fee_row = random_fee_row();
}

void sound_plot(plot *p, uint32_t each) {
    do
        random_plot(p);
    while (walk_refusal(limit_of(each), p->start, p->sides));
}

void random_plots(plot *p, uint32_t count, uint32_t each) {
    uint32_t last = any() % 8 ? any() % 3 : any() % 2 ? any() % 0xffffff00u : 0xfffffff0u - 4 * count;
    for (uint32_t k = 0; k < count; k++) {
        sound_plot(&p[k], each);
        p[k].number = last += 2 + any() % 3;
    }
}
