/* The octagon of a tape, beside cells that are worked out from the bits of each number. */
#include "compare.h"
#include <stdio.h>
#include <string.h>

enum { SHORT = 40, LONG = 1000000 };
static double tape[LONG], before[LONG];

static void say_tape(size_t len) {
    for (size_t i = 0; i < len && i < SHORT; i++)
        printf(" %a", tape[i]);
    printf("\n");
}

/* Each finite number's cell, in both ways of the comparison. */
static void compare_ways(size_t len) {
    for (size_t i = 0; i < len; i++)
        if (is_number(tape[i]) && cell_by_bits(tape[i]) != cell_by_search(tape[i])) {
            printf("%a\n", tape[i]);
            differ("the two ways of the comparison itself", NULL, NULL, (uint32_t)cell_by_bits(tape[i]), (uint32_t)cell_by_search(tape[i]));
        }
}

static int is_same(const int32_t out[8], const answer *want) {
    int same = 1;
    for (int k = 0; k < 8; k++)
        same &= out[k] == (want->number ? -1 - k : want->c[k]);
    return same;
}

/* The first numbers of `tape`. */
static void compare_enclose(size_t len) {
    int32_t out[8];
    answer want = enclosed(tape, len);
    memcpy(before, tape, len * sizeof *tape);
    uint32_t got = kx_enclose(tape, len, cleared(out), 8);
    int same = is_same(out, &want) && !memcmp(before, tape, len * sizeof *tape);
    if (got != want.number || !same)
        say_tape(len);
    agree("kx_enclose", NULL, got, want.number, same);
}

void compare_tape(void) {
    size_t len = any() % 4 ? 2 * (any() % (SHORT / 2)) : any() % (SHORT + 1);
    random_tape(tape, len);
    compare_ways(len);
    compare_enclose(len);
}

void compare_long_tapes(void) {
    for (size_t len = LONG; len > SHORT; len = len * 2 / 3) {
        random_tape(tape, len);
        compare_enclose(len);
        compare_enclose(len & ~(size_t)1);
    }
}
