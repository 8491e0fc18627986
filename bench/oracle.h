/* What documents 01 and 02 say of each call, worked out without the library's formulas: by sets of cells on a window of the grid
 * (cells.c), by walking outlines (walks.c), by searching the rows and columns of any eight bounds (search.c), by the rule of the
 * pieces (splits.c), by bytes (sheets.c, conversions.c), by a sorted list of plots (joins.c), by printf (listings.c), from the bits of a number
 * (tapes.c), by the squares of distances (trees.c) and by opening a plot fold by fold, cell by cell (spectra.c). Sums, differences and multiples of
 * bounds too large for sets of cells are the library's. */
#ifndef ORACLE_H
#define ORACLE_H
#include <stddef.h>
#include <stdint.h>

/* Document 01's steps. */
extern const int STEP[8][2];

/* The limits and lengths of documents 01 and 02. A record of 24 or 26 lies on the old map, and has numbers of 16 bits but for the plot
 * number; one of 46 lies on the map, and has numbers of 32 bits. A record ends with a fee row, but that of 24, which has none. */
enum { LIMIT = 2000000, OLD_LIMIT = 16000, FOLDS = 4000001, RADIUS = 255, SHEET = 65536, TRAILER = 16, PIECES = 13 };
enum { BASE_RECORD = 24, FEE_RECORD = 26, COUNTY_RECORD = 46, RECORD = COUNTY_RECORD };
/* The most records of a sheet, and the most entries of a spectrum: as many as the map has columns. */
enum { MOST_PLOTS = (SHEET - TRAILER) / BASE_RECORD, MOST_ENTRIES = 2 * LIMIT + 1 };

/* What a call answers: a number, and where it is 0 the normalised bounds, and whether a spread has filled them. */
typedef struct {
    uint32_t number;
    int64_t c[8];
    int filled;
} answer;

/* A plot: its number, start, sides and fee row. */
typedef struct {
    uint32_t number;
    int32_t start[2];
    uint32_t sides[8];
    uint16_t fee_row;
} plot;

/* A tree: its centre cell, and its radius. */
typedef struct {
    int32_t x, y;
    uint32_t radius;
} tree;

/* Where the records of a sheet stand: the index of the first, how many there are, and the bytes of each. */
typedef struct {
    size_t first;
    uint32_t count, each;
} frame;

/* What a plot and the frame that opens it give: a number, and where it is 0 the entries up to the last one, and how many of them are worked
 * out from a filled opening. There is room for MOST_ENTRIES of them. */
typedef struct {
    uint32_t number;
    size_t count, filled;
    uint64_t *entry;
} spectrum;

/* A sheet that is only read: its buffer, the bytes of that, and the bytes of the sheet. */
typedef struct {
    const uint8_t *bytes;
    size_t room, len;
} half;

/* How far the cell (x, y) reaches along bound k. */
int64_t reach(int k, int64_t x, int64_t y);

/* ---- by sets of cells */

enum { WINDOW = 64, OPERAND = 24 };

/* Bit i of row j is the cell (x0 + i, y0 + j). */
typedef struct {
    int64_t x0, y0;
    uint64_t row[WINDOW];
} cells;

/* The cells within eight bounds, where the bounds keep them to a square of OPERAND cells; else 0. */
int cells_of(const int32_t c[8], cells *out);
/* The same cells from the corner of their window, so that another step has room. */
cells cornered(const cells *a);
/* The bounds that cells reach; 0 where there is no cell. */
int reached(const cells *a, int64_t c[8]);
uint64_t number_of(const cells *a);
/* Whether one has two or more cells all on one line x - y, and the other two or more all on one line x + y. */
int are_opposed(const cells *a, const cells *b);
void dilated(const cells *a, const cells *b, cells *out);
void eroded(const cells *a, const cells *b, cells *out);
/* Whether the cells are all those within the bounds that they reach. */
int is_octagon(const cells *a);
/* 1, 2 or the bounds of cells; none is the number where there are none. */
answer place(const cells *a, uint32_t none);
/* 2 or the bounds of sums: filled where the sums are not all the cells within them. */
answer place_sums(const cells *sums);
answer dilation_of_cells(const cells *a, const cells *b);
answer opening_of_cells(const cells *p, const cells *f);
/* The erosion of the sums themselves, holes and all, with their mark; and its cells where it is accepted. */
answer closing_of_cells(const cells *p, const cells *f, cells *closed);
/* Whether every cell of the first is a cell of the second. */
int is_inside(const cells *a, const cells *b);
int same_cells(const cells *a, const cells *b);

/* ---- by walking */

/* 0, or the outline's refusal on a map with this limit: 3, then 2. */
uint32_t walk_refusal(int64_t limit, const int32_t start[2], const uint32_t sides[8]);
/* The bounds that the corners of a walk reach. */
void bounds_of_walk(const int32_t start[2], const uint32_t sides[8], int64_t c[8]);
/* The cells on and inside a walk of few steps that closes. */
void walked(const int32_t start[2], const uint32_t sides[8], cells *out);

/* ---- by search */

answer normal_by_search(const int64_t c[8]);
/* Filled where n is at least 1 and the operands are opposed rows, by what their bounds say of their cells. */
answer dilation_by_search(const int32_t p[8], const int32_t f[8], uint32_t n);
answer erosion_by_search(const int32_t p[8], const int32_t f[8], uint32_t n);
answer opening_by_search(const int32_t p[8], const int32_t f[8]);
/* The plot's own cells, with the dilation's refusals and its mark. */
answer closing_by_search(const int32_t p[8], const int32_t f[8]);
/* The corners of normalised bounds, from their lowest and highest rows and columns. */
void corners_by_search(const int64_t c[8], int64_t at[8][2]);
/* How many rows are counted one by one wherever there are so few. */
enum { FEW_ROWS = 4096 };
/* The cells within normalised bounds: row by row, and from the corners of the outline alone. */
uint64_t count_by_rows(const int64_t c[8]);
uint64_t count_by_corners(const int64_t c[8]);
/* Whether normalised bounds are those of opposed rows. */
int are_opposed_bounds(const int64_t a[8], const int64_t b[8]);

/* ---- by the rule of the pieces */

/* The counts of the pieces that make an outline with these sides; how many choices of counts fit. */
int split_by_rule(const uint32_t sides[8], uint32_t k[PIECES]);
/* How many rests that it met fit one pair alone, by the pair, how many two, and how many all eight. */
extern uint64_t fit_alone[8], fit_two, fit_all;
/* The start cell spread by all counted pieces, as sets. */
void rebuilt(const int32_t start[2], const uint32_t k[PIECES], cells *out);

/* ---- by bytes, and as text */

/* A number of so many bytes, the least first. */
uint32_t number_at(const uint8_t *s, int width);
void put_number(uint8_t *s, int width, uint32_t v);
/* The limit of the map of a record of so many bytes, and how many bytes each of its coordinates and sides has. */
int64_t limit_of(uint32_t each);
int width_of(uint32_t each);
/* What a sheet's length and trailer say: 8, 9, 10, or 0 and the frame. */
uint32_t sheet_frame(const uint8_t *s, size_t room, size_t len, frame *f);
/* Record k of a frame, and whether two plots have the same numbers. */
plot record_in(const uint8_t *s, const frame *f, uint32_t k);
int same_plot(const plot *p, const plot *q);
/* What the check, the fetch and the read answer; the frame or the record where that is 0. */
uint32_t sheet_checked(const uint8_t *s, size_t room, size_t len, frame *f);
uint32_t sheet_fetched(const uint8_t *s, size_t room, size_t len, uint32_t k, plot *p);
uint32_t sheet_read(const uint8_t *s, size_t room, size_t len, uint32_t k, plot *p);
/* Writes a sheet of these plots after `heading` bytes, with `each` bytes for each, and answers its length. */
size_t put_sheet(uint8_t *s, size_t heading, uint32_t each, const plot *p, uint32_t count);
uint32_t sheet_after_start(uint8_t *s, size_t room, size_t heading, size_t *len);
uint32_t sheet_after_insert(uint8_t *s, size_t room, size_t len, const plot *p, size_t *grown);
/* Joins two sheets in a buffer of `room` bytes, and tells the new length and how many plots are in both. */
uint32_t sheet_after_join(const half *first, const half *second, uint8_t *joined, size_t room, size_t *len, uint32_t *in_both);
/* Copies a sheet at 26 into a buffer of `room` bytes, and tells the new length and the frame of the sheet. */
uint32_t sheet_after_convert(const half *first, uint8_t *second, size_t room, size_t *len, frame *f);
/* The listing of a sheet, and its length. */
size_t listing_of(const uint8_t *s, size_t room, size_t len, char *text);

/* ---- tapes, from the bits of a number */

/* Whether a number is finite. */
int is_number(double metres);
/* The cell of a finite coordinate, or that one past the map's edge where it is farther. */
int64_t cell_by_bits(double metres);
/* The same by search among the cells' edges, which are exact. */
int64_t cell_by_search(double metres);
/* What a tape gives: 15, 16; then point by point 14, 2; or the bounds that the points' cells reach. */
answer enclosed(const double *tape, size_t len);

/* ---- trees, by the squares of distances */

/* What a tree gives: 17, 2 for the centre, 2 for a cell about it; or the bounds that the cells at its radius or less reach. */
answer clearance_by_cells(const tree *t);
/* The same from the cells about (0, 0), which are enumerated once for each radius and then moved. */
answer clearance_by_discs(const tree *t);

/* ---- spectra */

/* The plot trimmed and spread cell by cell, and the cells of each opening that the next one has not; both operands within OPERAND cells. */
void spectrum_by_cells(const cells *p, const cells *f, spectrum *s);
/* The same by the bounds that the operands reach: their multiples, differences and sums as the library has them, normalised by search, and
 * cells counted from corners. */
void spectrum_by_search(const int32_t p[8], const int32_t f[8], spectrum *s);

#endif
