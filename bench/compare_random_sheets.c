/* Random sheets of every record length: grown by inserts, in buffers with and without the room, and damaged. */
#include "compare.h"
#include <string.h>

/* The most plots of a sheet that is written at once, the longest of its headings, and all bytes that its buffer can have. */
enum { PLOTS = 14, HEADING = 70, BUFFER = HEADING + RECORD * (PLOTS + 2) + TRAILER + 64 };

static void fill_buffer(size_t room) {
    for (size_t i = 0; i < room; i++)
        sheet[i] = (uint8_t)any();
}

static size_t some_heading(void) { return any() % 4 ? any() % 12 : any() % HEADING; }

/* A damaged sheet, and back. */
static void compare_damaged(size_t room, size_t len) {
    static uint8_t kept[ROOM];
    const size_t all = room > len ? room : len;
    plot p;
    memcpy(kept, sheet, all);
    spoil_sheet(sheet, &len);
    random_plot(&p);
    compare_reads(room, len, 0);
    compare_insert(&p, room, &len);
    memcpy(sheet, kept, all);
}

/* A sheet that is started, and grown by plots with any numbers. */
static void compare_started(void) {
    size_t room = any() % 8 ? TRAILER + any() % 512 : any() % 64, heading = some_heading(), len;
    if (any() % 64 == 0)
        heading = any() % 2 ? SHEET - TRAILER + any() % 3 : (size_t)0 - any() % 20;
    fill_buffer(room);
    compare_start(room, heading, &len);
    for (uint32_t turns = any() % 12; turns > 0; turns--) {
        plot p;
        random_plot(&p);
        compare_insert(&p, room, &len);
        compare_reads(room, len, 0);
        if (any() % 3 == 0 && len <= room && len > 0)
            compare_damaged(room, len);
    }
}

/* A buffer for an insert into a sheet of `len` bytes with so many plots: as many bytes as the new sheet has or one less, as many as records
 * that kept their length or had any other would need, or others. */
static size_t some_room(size_t heading, uint32_t count, size_t len) {
    size_t next = heading + RECORD * ((size_t)count + 1) + TRAILER;
    switch (any() % 6) {
    case 0: return next - 1;
    case 1: return next;
    case 2: return heading + any_length() * ((size_t)count + 1) + TRAILER;
    case 3: return len + any_length();
    case 4: return len + any() % 64;
    default: return next + any() % 30;
    }
}

/* A plot for place k among others, at times with a number that is there. */
static plot plot_at(const plot *p, uint32_t count, uint32_t k) {
    plot q;
    random_plot(&q);
    if (count)
        q.number = any() % 8 == 0 ? p[any() % count].number : k ? p[k - 1].number + 1 : p[0].number - 1;
    return q;
}

/* A sheet that is written at once, and a plot more at each of its places. */
static void compare_written(void) {
    static uint8_t kept[BUFFER];
    plot p[PLOTS];
    uint32_t count = any() % 4 ? any() % 5 : any() % (PLOTS + 1), each = any_length();
    size_t heading = some_heading();
    fill_buffer(BUFFER);
    random_plots(p, count, each);
    size_t len = put_sheet(sheet, heading, each, p, count);
    memcpy(kept, sheet, BUFFER);
    compare_reads(len + any() % 30, len, 0);
    for (uint32_t k = 0; k <= count; k++) {
        size_t room = some_room(heading, count, len), grown = len;
        plot q = plot_at(p, count, k);
        compare_insert(&q, room, &grown);
        compare_reads(room, grown, 0);
        memcpy(sheet, kept, BUFFER);
    }
    for (int turn = 0; turn < 2; turn++)
        compare_damaged(some_room(heading, count, len), len);
}

void compare_sheet(void) {
    if (any() % 2)
        compare_started();
    else
        compare_written();
}
