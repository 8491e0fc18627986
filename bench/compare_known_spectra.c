/* The spectra of the whole map, with as many entries as it has columns, of a square whose cells are nought in 32 bits, and the smallest that is
 * filled: their entries are written beside them. */
#include "compare.h"

/* The whole map by a row or column of two cells or by a block: it stays whole up to the last fold. By two cells of a diagonal it loses two
 * cells, then four, and so on, until the diagonal of the map is left. */
static void compare_whole(const int32_t f[LENT], size_t count, int is_slanted) {
    static spectrum want;
    if (!want.entry)
        want.entry = new_places(MOST_ENTRIES);
    const int32_t map[LENT] = {LIMIT, 2 * LIMIT, LIMIT, 2 * LIMIT, LIMIT, 2 * LIMIT, LIMIT, 2 * LIMIT};
    want.count = count;
    for (size_t n = 0; n + 1 < count; n++)
        want.entry[n] = is_slanted ? 2 * ((uint64_t)n + 1) : 0;
    want.entry[count - 1] = is_slanted ? MOST_ENTRIES : (uint64_t)MOST_ENTRIES * MOST_ENTRIES;
    compare_list_lengths(map, f, &want);
    compare_sum(map, f, &want);
}

/* A square of 2 to the 32nd cells by a block of 2 by 2: it stays whole up to the last fold. */
static void compare_square(void) {
    enum { SIDE = 65536 };
    static uint64_t entry[SIDE] = {[SIDE - 1] = UINT64_C(1) << 32};
    const spectrum want = {.count = SIDE, .entry = entry};
    const int32_t square[LENT] = {300, 66435, 66135, 131370, 65235, 64635, -600, -300}, block[LENT] = {0, 1, 1, 2, 1, 1, 0, 0};
    compare_list_lengths(square, block, &want);
    compare_sum(square, block, &want);
}

void compare_known_spectra(void) {
    const int32_t k1[LENT] = {0, 1, 1, 1, 0, 0, 0, 0}, k2[LENT] = {0, 0, 1, 2, 1, 0, 0, 0};
    const int32_t k3[LENT] = {0, 0, 0, 1, 1, 1, 0, 0}, k4[LENT] = {0, 0, 0, 0, 1, 2, 1, 0};
    const int32_t block[LENT] = {1, 2, 1, 2, 1, 2, 1, 2}, k13[LENT] = {0, 0, 1, 2, 2, 2, 1, 0};
    uint64_t nought_five[] = {0, 5};
    const spectrum filled_one = {.count = 2, .entry = nought_five};
    compare_whole(k1, MOST_ENTRIES, 0);
    compare_whole(k2, MOST_ENTRIES, 1);
    compare_whole(k3, MOST_ENTRIES, 0);
    compare_whole(k4, MOST_ENTRIES, 1);
    compare_whole(block, LIMIT + 1, 0);
    compare_square();
    compare_list_lengths(k13, k4, &filled_one);
    compare_list_lengths(k13, k2, &filled_one);
}
