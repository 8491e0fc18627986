/* Spectra from C: how finely a plot breaks up, in lists of every length; a filled opening; operands that are refused; an entry of more
 * cells than 32 bits count; and the most entries that a spectrum has. */
#include "example.h"
#include <stdio.h>

/* A plot of 45 cells and a frame of 5; a plot of 380 and a frame of 18, whose bounds all differ. */
static const int32_t SMALL[8] = {0, -1, 1, 7, 6, 11, 5, 4}, CAP[8] = {0, 1, 1, 1, 1, 2, 1, 1};
static const int32_t LARGE[8] = {-9, -14, 2, 32, 37, 43, 13, 4}, SLANT[8] = {3, 4, 1, 7, 6, 5, 0, 2};

/* How many places are shown, those that are lent and those past them; trims and an ending that no call here writes. */
enum { PLACES = 6, UNTRIMMED = 99, UNENDED = 77 };

/* How many entries a spectrum has at most. */
enum { MOST = 2 * KX_MAP_LIMIT + 1 };

static const char *words_of(uint32_t ending) { return ending == KX_SPENT ? "spent" : ending == KX_FINISHED ? "finished" : "with no ending"; }

/* Writes how a call ended on a list of this length: the trims and the ending, or the refusal. */
static void show_ending(const char *what, const int32_t plot[8], const int32_t frame[8], uint64_t *list, size_t len) {
    size_t trims = UNTRIMMED;
    uint32_t ending = UNENDED, answer = kx_spectrum(plot, 8, frame, 8, list, len, &trims, &ending);
    printf("%s, list of %zu: ", what, len);
    if (answer == KX_ACCEPTED)
        printf("trims %zu, %s", trims, words_of(ending));
    else
        printf("refused %u", answer);
}

/* The same, and then every place. */
static void show_spectrum(const char *what, const int32_t plot[8], const int32_t frame[8], size_t len) {
    uint64_t places[PLACES];
    for (uint64_t k = 0; k < PLACES; k++)
        places[k] = 901 + k;
    show_ending(what, plot, frame, places, len);
    printf("; places");
    for (int k = 0; k < PLACES; k++)
        printf(" %" PRIu64, places[k]);
    printf("\n");
}

/* The same for a list of MOST places or about as many, and then its last place. */
static void show_last(const char *what, const int32_t plot[8], const int32_t frame[8], size_t len) {
    static uint64_t list[MOST + 1];
    list[len - 1] = 907;
    show_ending(what, plot, frame, list, len);
    printf("; last place %" PRIu64 "\n", list[len - 1]);
}

/* Lists of every length from 0 to one past the last entry; shorter and longer ones; and an opening that is filled. */
static void entries(void) {
    int32_t k4[8], k13[8];
    octagon_at(0, 0, K4, k4);
    octagon_at(0, 0, K13, k13);
    for (size_t len = 0; len <= 5; len++)
        show_spectrum("small plot by the cap", SMALL, CAP, len);
    show_spectrum("large plot by the slanted frame", LARGE, SLANT, 3);
    show_spectrum("large plot by the slanted frame", LARGE, SLANT, PLACES);
    show_spectrum("K13 by K4", k13, k4, 1);
    show_spectrum("K13 by K4", k13, k4, PLACES);
}

/* Frames without the cell (0, 0), and one that has no other; then what is refused before these. */
static void refused_spectra(void) {
    static const int32_t one[8] = {0, 1, 1, 1, 0, -1, -1, -1};
    show_spectrum("small plot by the large one", SMALL, LARGE, PLACES);
    show_spectrum("small plot by (1,0)", SMALL, one, PLACES);
    show_spectrum("small plot by (0,0)", SMALL, ORIGIN, PLACES);
    show_spectrum("small plot by (0,0)", SMALL, ORIGIN, 0);
    show_spectrum("small plot by crossed bounds", SMALL, CROSSED, PLACES);
    show_spectrum("crossed bounds by (0,0)", CROSSED, ORIGIN, PLACES);
}

/* A block by another, which stands in it once but not twice: one fold loses nothing, and the second all. */
static void large_entry(void) {
    static const uint32_t wide[8] = {3700004, 0, 3300012, 0, 3700004, 0, 3300012, 0}, high[8] = {2000003, 0, 3000001, 0, 2000003, 0, 3000001, 0};
    int32_t block[8], frame[8];
    octagon_at(-1900001, -1700005, wide, block);
    octagon_at(-40009, -1100003, high, frame);
    show_spectrum("a block by a block", block, frame, 1);
    show_spectrum("a block by a block", block, frame, PLACES);
}

/* Two rows as wide as the map, by the cells (0, 0) and (1, 0). */
static void most_entries(void) {
    static const uint32_t wide[8] = {2 * KX_MAP_LIMIT, 0, 1, 0, 2 * KX_MAP_LIMIT, 0, 1, 0}, k1[8] = {1, 0, 0, 0, 1, 0, 0, 0};
    int32_t rows[8], two[8];
    octagon_at(-KX_MAP_LIMIT, 0, wide, rows);
    octagon_at(0, 0, k1, two);
    for (size_t len = MOST - 1; len <= MOST + 1; len++)
        show_last("two rows as wide as the map by two cells", rows, two, len);
}

void spectra(void) {
    entries();
    refused_spectra();
    large_entry();
    most_entries();
}
