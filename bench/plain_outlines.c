/* Outlines in plain C: the octagon of one, the outline of an octagon, and the place of one of its corners. */
#include "plain_octagons.h"
#include "plain_records.h"

uint32_t plain_to_octagon(const int32_t *start, size_t start_len, const uint32_t *sides, size_t sides_len, int32_t *out, size_t out_len) {
    if (start_len != 2 || sides_len != 8 || out_len != 8)
        return WRONG_LENGTH;
    outline o = {start[0], start[1], sides[0], sides[1], sides[2], sides[3], sides[4], sides[5], sides[6], sides[7]};
    uint32_t refused = trace(LIMIT, o);
    if (refused)
        return refused;
    draw(o, out);
    return 0;
}

uint32_t plain_to_outline(const int32_t *bounds, size_t bounds_len, int32_t *start, size_t start_len, uint32_t *sides, size_t sides_len) {
    int32_t a[8];
    if (bounds_len != 8 || start_len != 2 || sides_len != 8)
        return WRONG_LENGTH;
    uint32_t refused = normalise(bounds, a);
    if (refused)
        return refused;
    outline_of(a, start, sides);
    return 0;
}

/* The place of corner k: where the lines of two neighbouring bounds meet, in metres. */
uint32_t plain_vertex_place(const int32_t *bounds, size_t bounds_len, uint32_t k, double *place, size_t place_len) {
    int32_t a[8];
    if (bounds_len != 8 || place_len != 2)
        return WRONG_LENGTH;
    uint32_t refused = normalise(bounds, a);
    if (refused)
        return refused;
    if (k > 7)
        return NO_VERTEX;
    const int32_t at[8][2] = {{a[0] - a[7], -a[0]}, {a[1] - a[0], -a[0]}, {a[2], a[2] - a[1]},   {a[2], a[3] - a[2]},
                              {a[3] - a[4], a[4]},  {a[4] - a[5], a[4]},  {-a[6], a[5] - a[6]}, {-a[6], a[6] - a[7]}};
    place[0] = at[k][0] / 4.0;
    place[1] = at[k][1] / 4.0;
    return 0;
}
