/* What the parts of the comparison share: random inputs, and the count of what was compared. */
#ifndef COMPARE_H
#define COMPARE_H
#include "../bindings/koxirmeta.h"
#include "oracle.h"

/* ---- inputs (inputs.c) */

uint32_t any(void);
int32_t from(int32_t low, int32_t high);
/* The map's limit, or one time in four the old map's. */
int32_t edge(void);
/* A number at or next to a limit or an end of 32 bits, or any. */
int32_t extreme(void);
/* Bounds: small ones, often moved to an edge of the map or of the old one, slack or damaged; else any. */
void random_bounds(int32_t c[8], int size, int row);
/* A tape whose points are mostly on the map, about half of them at or next to the edges of cells. */
void random_tape(double *tape, size_t len);
/* A tree, mostly on the map and often at its edge (input_trees.c). */
void random_tree(tree *t);
/* Two operands, and how often one is spread or trimmed by the other; often opposed diagonal rows, and some plots as wide as the map
 * (input_pairs.c). */
uint32_t random_pair(int32_t p[8], int32_t f[8]);
/* Two elements, mostly small and often rows, and a plot that mostly has room for the one spread with the other, and often not much more
 * (input_pairs.c). */
void random_triple(int32_t p[8], int32_t f[8], int32_t g[8]);
/* The bounds of a row of so many steps upward from (0, 0), to the right or to the left; and bounds moved (input_pairs.c). */
void row(int32_t c[8], int32_t steps, int rising);
void move(int32_t c[8], int32_t x, int32_t y);
/* How far to move what reaches from -down to up along a line: so that it ends at an edge of the map or next to it, or anywhere
 * (input_pairs.c). */
int32_t shift(int32_t down, int32_t up);
/* A plot and a frame that opens it, mostly with (0, 0) and another cell, in few folds or in many; some plots are opened to filled octagons,
 * and either operand may have no cell or leave the map (input_spectra.c). */
void random_spectrum(int32_t p[8], int32_t f[8]);

/* ---- outlines and plots (input_plots.c) */

/* An outline that mostly closes, with sides of about this size, often at an edge of the map or of the old one. */
void random_outline(int32_t start[2], uint32_t n[8], uint32_t size);
/* Makes sides of a small walk so long that sums of them pass 32 bits: it closes, or it does where these are cut to 32 bits and not else. */
void enlarge(uint32_t n[8]);
/* The bound along an axis, upward or downward: 0, 2, 4 or 6. */
int any_side(void);
/* Moves an outline so that this is what it reaches along such a bound. */
void end_at(int32_t start[2], const uint32_t sides[8], int side, int64_t end);
/* Any fee row, the least and the greatest among them. */
uint16_t random_fee_row(void);
/* A plot of any outline, mostly a small one; and one that a record of so many bytes can hold. */
void random_plot(plot *p);
void sound_plot(plot *p, uint32_t each);
/* Plots that a sheet with records of so many bytes can hold, by rising number, with a number left out before each. */
void random_plots(plot *p, uint32_t count, uint32_t each);

/* ---- sheets (input_sheets.c) */

/* The length of a record: 24, 26 or 46. */
uint32_t any_length(void);
/* Any bytes, up to three more than `size`. */
void put_any(uint8_t *s, size_t size);
/* Spoils one of the records of a sheet: its number is 0 or not above the one before, it does not close, it leaves its own map, or it has sides
 * whose sums pass 32 bits. */
void spoil_record(uint8_t *s, const frame *f);
/* Alters the count, the record length and the distance in the trailer of a sheet, so that some of them fit each other. */
void spoil_trailer(uint8_t *s, size_t len);
/* Alters a few bytes of a sheet, most often of its trailer. */
void spoil_bytes(uint8_t *s, size_t len);
/* Spoils a record of a sheet, its trailer, a few bytes, or its length. */
void spoil_sheet(uint8_t *s, size_t *len);

/* ---- joins (input_joins.c) */

/* The most plots of a sheet that is dealt, and a length that its heading is below. */
enum { DEALT = 14, DEALT_HEADING = 70 };
/* Two sheets to be joined: the plots of each, the bytes of its records and of its heading; and how many plot numbers the two have. */
typedef struct {
    plot plots[2][DEALT];
    uint32_t count[2], each[2], numbers;
    size_t heading[2];
} dealt;
/* Some plots are in one sheet, some in both, and some in both under two numbers; at times one that is in both is altered in one. */
void random_deal(dealt *d);
/* Alters one field of a plot, or as few sides as an outline can differ in, and leaves it one that a record of so many bytes can hold. */
void alter_plot(plot *p, uint32_t each);

/* ---- what was compared (compare.c) */

extern uint64_t octagons_by_cells, pairs_by_cells, outlines_by_cells, splits_by_cells, trees_by_cells, listings, widened;
/* The joins that were accepted, and those of them that kept a plot of both sheets once. */
extern uint64_t joined, joined_once;
/* The conversions that were accepted of each record length, how many sheets were converted once more, how many after an insert, and how many
 * are refused with 21. */
extern uint64_t converted[3], converted_again, converted_grown, off_old_map;
/* The calls with a spread in them: how many answers of each are filled, how many of these were worked out by cells too, and how many
 * spreads of opposed rows leave the map. */
enum { DILATE, OPENING, CLOSING, DILATE_N, DILATE_M_N, SPREADS };
extern uint64_t filled[SPREADS], filled_by_cells, filled_off_map;
/* Folds that were made in two calls too: how many second calls were made, how often one call is filled and the second of two is exact, and
 * how often the first of two trims leaves the map and one call does not. */
extern uint64_t second_spreads, second_trims, marks_differ, trims_off_map;
/* Plots opened by one element spread with another, beside the openings by each of the two: how often both are accepted, how many of these
 * have a filled spread, and of how many one opening is filled and the other exact; how often the opening by the element alone leaves the
 * map. */
extern uint64_t opened_less, opened_by_filled, opened_unlike, opened_off_map;
/* The calls for a spectrum: how many were made, and how many of them finish, or are spent; how many are refused with 19, and with 20. The
 * spectra that were drawn: how many are worked out by cells too, how many entries they have, how many of these come of a filled opening, and
 * how many plots were moved. */
extern uint64_t spectrum_calls, finished, spent, lacks_origin, origin_alone, spectra_by_cells, entries, filled_entries, spectra_moved;
/* Writes the difference and ends the program. */
void differ(const char *call, const int32_t *p, const int32_t *f, uint32_t got, uint32_t want);
void count_answer(uint32_t number);
/* Compares the numbers of a call, and counts it; `same` is whether all that was lent is as it should be. */
void agree(const char *call, const int32_t *p, uint32_t got, uint32_t want, int same);

/* ---- octagons (compare_octagons.c) */

/* The normal form of bounds, by search, and by cells too where they are few. */
answer normal(const int32_t c[8]);
/* A slice to write to: each place holds -1 less its number. */
int32_t *cleared(int32_t out[8]);
/* An answer with octagon: the number, and every place of `out`, which was cleared before. */
void check(const char *call, const int32_t *p, const int32_t *f, uint32_t got, const int32_t out[8], answer want);

/* ---- sheets (compare_sheets.c) */

enum { ROOM = SHEET + 64, PAST = 64 };
/* The buffer of every call on sheets, the third of a join and the second of a conversion: its first bytes are lent, at most ROOM of them,
 * and PAST bytes past those are compared too. */
extern uint8_t sheet[ROOM + PAST];
/* The check, the fetch and the read of a record, and the listing, on some calls or always. */
void compare_reads(size_t room, size_t len, int always);
void compare_start(size_t room, size_t heading, size_t *len);
/* The insert of a plot; the new length where it is accepted. */
uint32_t compare_insert(const plot *p, size_t room, size_t *len);

/* Plot i of a full sheet (compare_full_sheets.c). */
plot plot_of(uint32_t i);
/* The join of two sheets, each with PAST bytes past its buffer, in that of the calls on sheets; the new length where it is accepted
 * (compare_joins.c). */
uint32_t compare_join(const half *first, const half *second, size_t room, size_t *len);
/* The conversion of a sheet, with PAST bytes past its buffer, into that of the calls on sheets; the new length where it is accepted
 * (compare_conversions.c). */
uint32_t compare_convert(const half *first, size_t room, size_t *len);

/* ---- spectra (compare_spectra.c) */

/* The numbers that a slice of bounds has room for. */
enum { LENT = 16 };
/* Places for so many entries. */
uint64_t *new_places(size_t count);
/* The calls for a spectrum with lists of every length from 0 to one past the last entry where there are few; else of the lengths next to the
 * ends, and any. */
void compare_list_lengths(const int32_t p[LENT], const int32_t f[LENT], const spectrum *want);
/* Finished entries sum to the plot's cells. */
void compare_sum(const int32_t p[LENT], const int32_t f[LENT], const spectrum *want);

/* ---- the parts (compare_octagons.c, compare_pairs.c, compare_triples.c, compare_lengths.c, compare_random_sheets.c,
 * compare_full_sheets.c, compare_edges.c, compare_tapes.c, compare_trees.c, compare_joins.c, compare_full_joins.c, compare_conversions.c,
 * compare_full_conversions.c, compare_spectra.c, compare_known_spectra.c) */

void compare_one(const int32_t c[8], uint64_t round);
void compare_two(const int32_t p[8], const int32_t f[8], uint32_t n);
/* A random plot opened by one element spread with another, and by each of the two. */
void compare_triple(void);
void compare_outline(void);
/* Slices of wrong lengths. */
void compare_lengths(const int32_t p[8], const int32_t f[8]);
/* The constants of koxirmeta.h: what is answered at each limit, and one past it. */
void compare_constants(void);
/* A random sheet of any record length, grown and damaged. */
void compare_sheet(void);
/* The fullest sheets, and those next to them. */
void compare_full(void);
/* Plots at the edges of both maps and one past them, in sheets of every record length. */
void compare_edges(void);
void compare_tape(void);
/* Tapes of up to a million numbers. */
void compare_long_tapes(void);
/* A random tree, and sometimes a slice of the wrong length. */
void compare_tree(void);
/* Trees of every radius, at and next to each edge of the map. */
void compare_radii(void);
/* A random pair of sheets, joined in buffers of several lengths. */
void compare_pair_of_sheets(void);
/* The joins that fill a sheet, and those next to them. */
void compare_full_joins(void);
/* A random sheet, converted in buffers of several lengths, once more, and after an insert. */
void compare_conversion(void);
/* The conversions that fill a sheet, and those next to them. */
void compare_full_conversions(void);
/* A random plot and frame, with lists of several lengths, slices of wrong ones, and the plot moved. */
void compare_spectrum(void);
/* The spectra of the whole map, and the smallest that is filled. */
void compare_known_spectra(void);

#endif
