/* Compares every exported call with what oracle.h works out, on random and damaged inputs, and says how many it compared.
 * usage: compare [ROUNDS] [SHEETS] [TAPES] [TREES] [JOINS] [TRIPLES] [SPECTRA] [CONVERSIONS] */
#include "compare.h"
#include <stdio.h>
#include <stdlib.h>

uint64_t octagons_by_cells, pairs_by_cells, outlines_by_cells, splits_by_cells, trees_by_cells, listings, widened, joined, joined_once;
uint64_t converted[3], converted_again, converted_grown, off_old_map;
uint64_t filled[SPREADS], filled_by_cells, filled_off_map;
uint64_t second_spreads, second_trims, marks_differ, trims_off_map;
uint64_t opened_less, opened_by_filled, opened_unlike, opened_off_map;
uint64_t spectrum_calls, finished, spent, lacks_origin, origin_alone, spectra_by_cells, entries, filled_entries, spectra_moved;
static uint64_t compared, accepted, seen[256];

void differ(const char *call, const int32_t *p, const int32_t *f, uint32_t got, uint32_t want) {
    printf("DIFFERENCE in %s, after %llu calls: answered %u, not %u\n", call, (unsigned long long)compared, got, want);
    for (int k = 0; p && k < 8; k++)
        printf(" %d", p[k]);
    printf("\n");
    for (int k = 0; f && k < 8; k++)
        printf(" %d", f[k]);
    printf("\n");
    exit(1);
}

void count_answer(uint32_t number) {
    compared++;
    accepted += number == 0;
    seen[number & 255]++;
}

void agree(const char *call, const int32_t *p, uint32_t got, uint32_t want, int same) {
    if (got != want || !same)
        differ(call, p, NULL, got, want);
    count_answer(got);
}

/* How much was compared, and how often each number was answered. */
static void tell(uint64_t inputs) {
    printf("inputs %llu, calls compared %llu, accepted %llu, no difference\n", (unsigned long long)inputs, (unsigned long long)compared, (unsigned long long)accepted);
    printf("by sets of cells: octagons %llu, pairs %llu, outlines %llu, splits %llu, trees %llu\n", (unsigned long long)octagons_by_cells, (unsigned long long)pairs_by_cells, (unsigned long long)outlines_by_cells, (unsigned long long)splits_by_cells, (unsigned long long)trees_by_cells);
    printf("filled: dilate %llu, opening %llu, closing %llu, dilate_n %llu; by sets of cells %llu; refused as off the map %llu\n", (unsigned long long)filled[DILATE], (unsigned long long)filled[OPENING], (unsigned long long)filled[CLOSING], (unsigned long long)filled[DILATE_N], (unsigned long long)filled_by_cells, (unsigned long long)filled_off_map);
    printf("second calls: spreads %llu, of which filled %llu, and exact where one call is filled %llu; trims %llu; first trims off the map alone %llu\n", (unsigned long long)second_spreads, (unsigned long long)filled[DILATE_M_N], (unsigned long long)marks_differ, (unsigned long long)second_trims, (unsigned long long)trims_off_map);
    printf("opened by one element spread with another: %llu, inside the plot opened by one of the two; by a filled spread %llu, one filled and the other exact %llu; that by one alone off the map %llu\n", (unsigned long long)opened_less, (unsigned long long)opened_by_filled, (unsigned long long)opened_unlike, (unsigned long long)opened_off_map);
    printf("rests that fit one pair alone");
    for (int i = 0; i < 8; i++)
        printf(" %llu", (unsigned long long)fit_alone[i]);
    printf(", two %llu, all %llu\n", (unsigned long long)fit_two, (unsigned long long)fit_all);
    printf("listings %llu, sheets of 24 and 26 written anew %llu\n", (unsigned long long)listings, (unsigned long long)widened);
    printf("joins %llu, of which %llu kept a plot of both sheets once\n", (unsigned long long)joined, (unsigned long long)joined_once);
    printf("conversions of 24 %llu, of 26 %llu, of 46 %llu, converted again %llu, after an insert %llu; refused with 21 %llu\n", (unsigned long long)converted[0], (unsigned long long)converted[1], (unsigned long long)converted[2], (unsigned long long)converted_again, (unsigned long long)converted_grown, (unsigned long long)off_old_map);
    printf("spectra: calls %llu, accepted %llu, of which finished %llu, spent %llu; refused with 19 %llu, with 20 %llu\n", (unsigned long long)spectrum_calls, (unsigned long long)(finished + spent), (unsigned long long)finished, (unsigned long long)spent, (unsigned long long)lacks_origin, (unsigned long long)origin_alone);
    printf("entries %llu, of which from a filled opening %llu; spectra by sets of cells %llu, moved %llu\n", (unsigned long long)entries, (unsigned long long)filled_entries, (unsigned long long)spectra_by_cells, (unsigned long long)spectra_moved);
    printf("answers");
    for (int k = 0; k < 256; k++)
        if (seen[k])
            printf(" %d:%llu", k, (unsigned long long)seen[k]);
    printf("\n");
}

int main(int argc, char **argv) {
    uint64_t rounds = argc > 1 ? strtoull(argv[1], NULL, 10) : 4000000, sheets = argc > 2 ? strtoull(argv[2], NULL, 10) : 1000000;
    uint64_t tapes = argc > 3 ? strtoull(argv[3], NULL, 10) : 4000000, trees = argc > 4 ? strtoull(argv[4], NULL, 10) : 4000000;
    uint64_t joins = argc > 5 ? strtoull(argv[5], NULL, 10) : 1000000, triples = argc > 6 ? strtoull(argv[6], NULL, 10) : 1000000;
    uint64_t spectra = argc > 7 ? strtoull(argv[7], NULL, 10) : 1000000, conversions = argc > 8 ? strtoull(argv[8], NULL, 10) : 1000000;
    compare_constants();
    for (uint64_t i = 0; i < rounds; i++) {
        int32_t p[8], f[8];
        uint32_t n = random_pair(p, f);
        compare_one(p, i);
        compare_two(p, f, n);
        compare_outline();
        if (i % 64 == 0)
            compare_lengths(p, f);
    }
    for (uint64_t i = 0; i < sheets; i++)
        compare_sheet();
    compare_full();
    compare_edges();
    for (uint64_t i = 0; i < tapes; i++)
        compare_tape();
    compare_long_tapes();
    for (uint64_t i = 0; i < trees; i++)
        compare_tree();
    compare_radii();
    for (uint64_t i = 0; i < joins; i++)
        compare_pair_of_sheets();
    compare_full_joins();
    for (uint64_t i = 0; i < triples; i++)
        compare_triple();
    for (uint64_t i = 0; i < spectra; i++)
        compare_spectrum();
    compare_known_spectra();
    for (uint64_t i = 0; i < conversions; i++)
        compare_conversion();
    compare_full_conversions();
    tell(rounds + sheets + tapes + trees + joins + triples + spectra + conversions);
    return 0;
}
