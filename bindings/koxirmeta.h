/* Octagon plots on the quarter-metre grid, for C and C++.
 *
 * Every function is proved: crates/koxirmeta_c_c, and crates/listing_c_c for the listing, state what each answers and what it leaves in
 * the memory that it was lent, and Rattle's checker has accepted it. bindings/archive.sh makes target/bindings/libkoxirmeta.a.
 *
 * ANSWERS. Each call returns KX_ACCEPTED (0), the number of a refusal of documents 01 and 02, or KX_WRONG_LENGTH. Only an accepted
 * call writes: after any other answer, all that was lent holds what it held before.
 *
 * ARGUMENTS. A slice is passed as a pointer and then the number of its elements. A call that is lent a slice of the wrong length
 * answers KX_WRONG_LENGTH, whatever else is wrong. What no callee can test is the caller's to keep:
 *   - a pointer is not null, not even with the length 0, is aligned for its type, and points to as many elements as the length
 *     says, all of them initialised, those that are written to as well;
 *   - the text of kx_list, an array of one length, is passed without it: KX_TEXT bytes, all of them initialised;
 *   - what is written to overlaps no other argument;
 *   - doubles are rounded to the nearest, as every program starts (kx_enclose, in a thread that rounds otherwise, may be wrong).
 *
 * OCTAGONS. Eight bounds c0 to c7, every value allowed: the cells (x, y) with -y <= c0, x-y <= c1, x <= c2, x+y <= c3, y <= c4,
 * -x+y <= c5, -x <= c6 and -x-y <= c7. Octagons that are written are normalised: each bound is reached by a cell.
 *
 * MARKS. A spread says beside its octagon whether it is exact. A diagonal row is an octagon of two or more cells, all on one line
 * x-y = constant or all on one line x+y = constant; two rows are opposed when one is of each kind. The sums of the cells of opposed
 * rows have holes between them, so that no octagon has just these cells: the octagon written is then the smallest that holds them
 * all, and the mark KX_FILLED. The cells of every other spread are the sums and no others, and the mark is KX_EXACT.
 *
 * OUTLINES. A start (i, j), the lowest corner and of the lowest the leftmost, and eight side lengths, counter-clockwise from the
 * step (1, 0).
 *
 * TAPES. A surveyor's points in metres, east and north in turn: two numbers for a point, as many points as there are. Every double
 * may be passed. A coordinate e falls on the greatest whole number n with n * 0.25 - 0.125 <= e, worked out without loss; the two
 * numbers of a point are the cell that it falls on.
 *
 * TREES. A centre cell (x, y), and a radius in whole cells. Every number may be passed. The cells at that distance or less are the
 * cells (u, v) with (u-x) * (u-x) + (v-y) * (v-y) <= radius * radius, worked out without loss. */
#ifndef KOXIRMETA_H
#define KOXIRMETA_H

#include <stddef.h>
#include <stdint.h>

#ifdef __cplusplus
extern "C" {
#endif

/* The limits and lengths of documents 01 and 02. */
enum {
    KX_MAP_LIMIT = 2000000,  /* of a cell's coordinates, up and down */
    KX_OLD_LIMIT = 16000,    /* the same on the old map: that of the records of KX_BASE_RECORD and of KX_FEE_RECORD */
    KX_FOLD_LIMIT = 4000001, /* of n in an n-fold call */
    KX_RADIUS_LIMIT = 255,   /* of a tree's radius, in cells */
    KX_SHEET_LIMIT = 65536,  /* of a sheet's length, in bytes */
    KX_BASE_RECORD = 24,     /* the length of document 01's record, in bytes: numbers of 16 bits, and no fee row */
    KX_FEE_RECORD = 26,      /* that of U2's: it ends with a fee row */
    KX_COUNTY_RECORD = 46,   /* that of U10's: numbers of 32 bits, and a fee row */
    KX_RECORD = KX_COUNTY_RECORD, /* that of the records of a sheet that is started, grown or joined */
    KX_TRAILER = 16          /* the length of a trailer, in bytes */
};

/* The lengths of the slices. */
enum { KX_BOUNDS = 8, KX_START = 2, KX_SIDES = 8, KX_COUNTS = 13, KX_PLACE = 2 };

/* The length of a listing's text: a line for each record that a sheet can hold, of the shortest ones, and two, each of at most
 * KX_LINE bytes. */
enum { KX_LINE = 273, KX_TEXT = KX_LINE * ((KX_SHEET_LIMIT - KX_TRAILER) / KX_BASE_RECORD + 2) };

/* What a call returns. No call answers 4. */
enum {
    KX_ACCEPTED = 0,
    KX_NO_CELL = 1,          /* the bounds hold no cell */
    KX_OFF_MAP = 2,          /* some cell lies off the map: a coordinate is beyond KX_MAP_LIMIT; in a record of KX_BASE_RECORD or
                              * KX_FEE_RECORD, beyond KX_OLD_LIMIT */
    KX_NOT_CLOSED = 3,       /* the outline does not close */
    KX_NOTHING_LEFT = 5,     /* no position fits */
    KX_TOO_MANY_FOLDS = 6,   /* n is above KX_FOLD_LIMIT */
    KX_NO_VERTEX = 7,        /* the corner number is not below KX_SIDES */
    KX_BAD_LENGTH = 8,       /* the sheet's length is below KX_TRAILER, above KX_SHEET_LIMIT or above the buffer's */
    KX_BAD_TRAILER = 9,      /* letters, record length or zero bytes are wrong */
    KX_BAD_DISTANCE = 10,    /* the distance is not the record length times the count, or exceeds the length less KX_TRAILER */
    KX_BAD_NUMBER = 11,      /* a plot number is 0, out of order or present */
    KX_NO_ROOM = 12,         /* the buffer or the sheet has no room */
    KX_NO_RECORD = 13,       /* there is no such record */
    KX_NOT_FINITE = 14,      /* a coordinate of a tape is an infinity or no number */
    KX_NO_POINT = 15,        /* the tape is empty */
    KX_HALF_POINT = 16,      /* the tape's length is odd: it ends in half a point */
    KX_TOO_WIDE = 17,        /* the tree's radius is above KX_RADIUS_LIMIT */
    KX_TWO_RECORDS = 18,     /* one plot number stands for two differing records */
    KX_NO_ORIGIN = 19,       /* the frame of a spectrum lacks the cell (0, 0) */
    KX_NO_OTHER_CELL = 20,   /* it has no other cell */
    KX_OFF_OLD_MAP = 21,     /* a plot that is to be converted leaves the old map: a coordinate is beyond KX_OLD_LIMIT */
    KX_WRONG_LENGTH = 255    /* a slice of the wrong length: the caller's mistake, and no number of the documents */
};

/* The marks: what a spread, and a call that has one in it, says of its octagon. */
enum {
    KX_EXACT = 0,            /* its cells are those of the set definition, and no others */
    KX_FILLED = 1            /* opposed diagonal rows were spread: it is the smallest that holds those cells */
};

/* The endings: how a spectrum ended. */
enum {
    KX_SPENT = 0,            /* the list is full, and a further entry was due */
    KX_FINISHED = 1          /* nothing is left: the last entry is written */
};

/* The normal form of eight bounds, to out[KX_BOUNDS]. Refusals: 1, 2. */
uint32_t kx_normalise(const int32_t *bounds, size_t bounds_len, int32_t *out, size_t out_len);

/* The number of cells, to *cells. Refusals: 1, 2. */
uint32_t kx_count(const int32_t *bounds, size_t bounds_len, uint64_t *cells);

/* Two operands of eight bounds each, the result to out[KX_BOUNDS] and, but for erode, its mark to *mark. Each operand's 1 and 2, the
 * plot's first; then
 *   dilate   (spread)  every sum of a cell of the plot and a cell of the element, or the smallest octagon that holds them: 2 for the
 *                      result. Filled exactly where the operands are opposed diagonal rows
 *   erode    (trim)    the positions at which the whole element stands inside the plot: 5, then 2 for the result
 *   opening            the erosion, and where that is accepted the dilation of what it left: the erosion's 5 and 2, and no other.
 *                      The mark is the dilation's: filled exactly where what was left and the element are opposed diagonal rows.
 *                      An element spread with another opens no more than it does alone: the plot opened by the octagon that
 *                      kx_dilate gives for the two lies inside the plot opened by either, filled or not, where all these calls are
 *                      accepted. Where the opening by both is accepted, the erosion by either is not refused with 5. An element that
 *                      merely holds another may open more
 *   closing            the dilation, and where that is accepted the erosion of what it gave: the dilation's 2, never 5. The mark is
 *                      the dilation's, and the cells are exact under either mark: they are the plot's own */
uint32_t kx_dilate(const int32_t *plot, size_t plot_len, const int32_t *element, size_t element_len, int32_t *out, size_t out_len, uint32_t *mark);
uint32_t kx_erode(const int32_t *plot, size_t plot_len, const int32_t *element, size_t element_len, int32_t *out, size_t out_len);
uint32_t kx_opening(const int32_t *plot, size_t plot_len, const int32_t *element, size_t element_len, int32_t *out, size_t out_len, uint32_t *mark);
uint32_t kx_closing(const int32_t *plot, size_t plot_len, const int32_t *element, size_t element_len, int32_t *out, size_t out_len, uint32_t *mark);

/* n times by the same element, in constant time. 6 before all else, then each operand's 1 and 2; then
 *   dilate_n           2 for the final set. Filled exactly where n is at least 1 and the operands are opposed diagonal rows: it is
 *                      then the smallest octagon that holds every sum of a cell of the plot and n cells of the element
 *   erode_n            5, then 2, both for the final set
 * With n = 0 both give the plot, normalised, and dilate_n is exact.
 * Folds add up: with m + n up to KX_FOLD_LIMIT, m folds, and then n of what came of them, give the octagon of m + n folds or are refused as
 * these are; but where the first of two trims is refused with 2, one call may be accepted, or refused with 5. Each spread has its own mark:
 * m + n folds are filled exactly where one of the two calls is, and after one fold or more the second call is exact, whatever the first
 * was. */
uint32_t kx_dilate_n(const int32_t *plot, size_t plot_len, const int32_t *element, size_t element_len, uint32_t n, int32_t *out, size_t out_len, uint32_t *mark);
uint32_t kx_erode_n(const int32_t *plot, size_t plot_len, const int32_t *element, size_t element_len, uint32_t n, int32_t *out, size_t out_len);

/* The pattern spectrum of the plot by an element, the frame: how finely the plot breaks up. The list has any length, 0 too. Entry
 * n, from 0 on, is the number of cells that are lost between the plot opened by n folds of the frame and by n + 1; by n folds is n
 * trims, and then n spreads of what they leave. A filled opening counts the cells of its octagon. Where n + 1 folds leave nothing,
 * their count is 0, and entry n is the last. One trim is made for each entry: *trims is the number of both, and *ending says
 * KX_FINISHED where the last entry is written, also where it fills the list, and KX_SPENT where the list is full and a further
 * entry was due. Finished entries sum to the plot's cells, and those of a spent list to these less the cells still open. Places
 * past the last entry keep their values. No spectrum has more entries than the map is wide: a list of 2 * KX_MAP_LIMIT + 1 places is
 * never spent; it takes 32 megabytes, more than most stacks have. A plot moved on the map has the same spectrum. Refusals: each
 * operand's 1 and 2, the plot's first; then 19 when the frame lacks the cell (0, 0), then 20 when it has no other cell; all of these
 * for a list of length 0 too. */
uint32_t kx_spectrum(const int32_t *plot, size_t plot_len, const int32_t *frame, size_t frame_len, uint64_t *list, size_t list_len, size_t *trims, uint32_t *ending);

/* The octagon of the outline start[KX_START], sides[KX_SIDES], to out[KX_BOUNDS]. Refusals: 3, 2. */
uint32_t kx_to_octagon(const int32_t *start, size_t start_len, const uint32_t *sides, size_t sides_len, int32_t *out, size_t out_len);

/* The outline of eight bounds, to start[KX_START] and sides[KX_SIDES]. Refusals: 1, 2. */
uint32_t kx_to_outline(const int32_t *bounds, size_t bounds_len, int32_t *start, size_t start_len, uint32_t *sides, size_t sides_len);

/* Corner k of eight bounds in metres, east and north, to place[KX_PLACE]: exactly a quarter of the cell numbers. Refusals: 1, 2, 7. */
uint32_t kx_vertex_place(const int32_t *bounds, size_t bounds_len, uint32_t k, double *place, size_t place_len);

/* The split of eight bounds: the start cell to start[KX_START], and how many there are of the pieces K1 to K13 to
 * counts[KX_COUNTS]. Refusals: 1, 2. */
uint32_t kx_decompose(const int32_t *bounds, size_t bounds_len, int32_t *start, size_t start_len, uint32_t *counts, size_t counts_len);

/* The smallest octagon that holds the cell of every point of a tape, to out[KX_BOUNDS]. tape_len counts numbers, not points, and
 * no value of it is answered with KX_WRONG_LENGTH. Refusals: 15 when it is 0, 16 when it is odd; then for each point in turn 14
 * when either coordinate is not finite, and 2 when its cell lies off the map. */
uint32_t kx_enclose(const double *tape, size_t tape_len, int32_t *out, size_t out_len);

/* The clearance of a tree, to out[KX_BOUNDS]: the smallest octagon that holds every cell at the radius from the centre or less.
 * Refusals: 17, then 2 when the centre lies off the map, then 2 when the octagon leaves it. */
uint32_t kx_clearance(int32_t x, int32_t y, uint32_t radius, int32_t *out, size_t out_len);

/* A sheet stands in the first len of the sheet_len bytes of a buffer: a heading, records and a trailer of KX_TRAILER bytes. Its
 * records all have the length that the trailer names, KX_BASE_RECORD, KX_FEE_RECORD or KX_COUNTY_RECORD, and sheets of all three are
 * read. A fee row is any unsigned 16-bit number, and that of a record of KX_BASE_RECORD bytes is 0. The plots of a sheet of
 * KX_COUNTY_RECORD are judged on the map, from -KX_MAP_LIMIT to KX_MAP_LIMIT, those of the two shorter lengths on the old map, from
 * -KX_OLD_LIMIT to KX_OLD_LIMIT. kx_sheet_start, kx_sheet_insert and kx_sheet_join write records of KX_RECORD bytes, kx_sheet_convert
 * those of KX_FEE_RECORD. A sheet holds 1,424 plots of KX_RECORD, where 2,520 of KX_FEE_RECORD and 2,730 of KX_BASE_RECORD fitted: an
 * old sheet of 1,424 plots or more takes no insert (12), and two sheets with more than 1,424 between them, a plot that both have
 * counted once, have no join (12). */

/* How many records a sheet has, to *count. Refusals: 8, 9, 10; then for each record 11, 3, 2. */
uint32_t kx_sheet_check(const uint8_t *sheet, size_t sheet_len, size_t len, uint32_t *count);

/* Record k, counted from 0: its plot number to *number, its outline to start[KX_START] and sides[KX_SIDES], its fee row to
 * *fee_row. The check's refusals, then 13 when k is not below the count. */
uint32_t kx_sheet_fetch(const uint8_t *sheet, size_t sheet_len, size_t len, uint32_t k, uint32_t *number, int32_t *start, size_t start_len, uint32_t *sides, size_t sides_len, uint16_t *fee_row);

/* The same in constant time, for a sheet that kx_sheet_check accepts: it checks no record. Refusals: the check's 8, 9 and 10, then
 * 13 when k is not below the trailer's count. Of a sheet whose records are wrong, it answers what stands in record k, plots off their
 * map among them. */
uint32_t kx_sheet_read(const uint8_t *sheet, size_t sheet_len, size_t len, uint32_t k, uint32_t *number, int32_t *start, size_t start_len, uint32_t *sides, size_t sides_len, uint16_t *fee_row);

/* Writes the trailer of a sheet of no records after `heading` bytes, and its length to *len. The trailer names KX_RECORD. Refusals: 8
 * when that length is above KX_SHEET_LIMIT, then 12 when it is above the buffer's. */
uint32_t kx_sheet_start(uint8_t *sheet, size_t sheet_len, size_t heading, size_t *len);

/* Inserts a plot by its number, and writes the new length to *grown. A sheet of KX_BASE_RECORD or KX_FEE_RECORD is written anew at
 * KX_RECORD, in the same buffer: its plots keep their numbers, outlines and fee rows. The new length is that of the heading, of a
 * record of KX_RECORD for each plot, the new one among them, and of the trailer. Refusals: first 3 and 2 for the outline, on the map
 * up to KX_MAP_LIMIT, whichever record length the sheet has; then the check's, 11, and 12 when the new length is above the buffer's
 * or above KX_SHEET_LIMIT. Heading and bytes past the new length keep their values. */
uint32_t kx_sheet_insert(uint8_t *sheet, size_t sheet_len, size_t len, uint32_t number, const int32_t *start, size_t start_len, const uint32_t *sides, size_t sides_len, uint16_t fee_row, size_t *grown);

/* Joins two sheets in a third buffer, and writes the new length to *len. The first sheet stands in the first first_len of the
 * first_room bytes of its buffer, the second in the first second_len of second_room; each has any record length, and both are only
 * read. What is written, from the start of the joined_room bytes of the third buffer, is the first sheet's heading, the records of
 * both by rising number, of KX_RECORD bytes each, and the trailer; the new length is that of all these. A plot that both have with
 * one outline and one fee row is kept once, whatever the lengths of the two records: one of KX_BASE_RECORD bytes, whose fee row is 0,
 * equals a longer one that says 0. Refusals: the check's for the first sheet, then the check's for the second; 18 when one plot number
 * stands for two differing records, whatever the third buffer's length is; 12 when the new length is above the third buffer's or
 * above KX_SHEET_LIMIT. Bytes of the third buffer past the new length keep their values. The two sheets may overlap each other, or be
 * one; the third buffer and *len overlap neither of them, nor each other. */
uint32_t kx_sheet_join(const uint8_t *first, size_t first_room, size_t first_len, const uint8_t *second, size_t second_room, size_t second_len, uint8_t *joined, size_t joined_room, size_t *len);

/* Copies a sheet into a second buffer with KX_FEE_RECORD bytes a record, and writes the new length to *len. The sheet stands in the
 * first first_len of the first_room bytes of its buffer, has any record length, and is only read. What is written, from the start of
 * the second_room bytes of the second buffer, is its heading, its records in their order, and the trailer, which names KX_FEE_RECORD;
 * the new length is that of all these. Refusals: the check's; 21 when a plot leaves the old map, as it can in a sheet of
 * KX_COUNTY_RECORD alone, whatever the second buffer's length is; 12 when the new length is above the second buffer's or above
 * KX_SHEET_LIMIT, as that of a sheet of KX_BASE_RECORD with more than 2,520 plots is. Bytes of the second buffer past the new length
 * keep their values. The second buffer and *len overlap neither the first buffer nor each other. */
uint32_t kx_sheet_convert(const uint8_t *first, size_t first_room, size_t first_len, uint8_t *second, size_t second_room, size_t *len);

/* The listing of a sheet, to the start of text[KX_TEXT], and its length to *written; the bytes past it keep their values. Its last
 * column has the fee rows. It is always accepted: the listing of a sheet that kx_sheet_check refuses is the one line `refused`, a
 * space and the number. */
uint32_t kx_list(const uint8_t *sheet, size_t sheet_len, size_t len, uint8_t text[KX_TEXT], size_t *written);

#ifdef __cplusplus
}
#endif

#endif
