/* Two sheets joined, in the words of document 02: the plots of both go on one list, which is sorted and written anew. */
#include "oracle.h"
#include <stdlib.h>
#include <string.h>

static int by_number(const void *a, const void *b) {
    uint32_t m = ((const plot *)a)->number, n = ((const plot *)b)->number;
    return (m > n) - (m < n);
}

/* Puts the plots of a sheet on a list after the `count` that it has, and answers how many it has then. */
static uint32_t listed(plot *list, uint32_t count, const half *h, const frame *f) {
    for (uint32_t k = 0; k < f->count; k++)
        list[count + k] = record_in(h->bytes, f, k);
    return count + f->count;
}

/* Of a sorted list, leaves one of those that are the same plot; 18 where two that differ have one number. */
static uint32_t leave_once(plot *list, uint32_t *count) {
    uint32_t left = 0;
    for (uint32_t k = 0; k < *count; k++) {
        if (left == 0 || list[left - 1].number != list[k].number)
            list[left++] = list[k];
        else if (!same_plot(&list[left - 1], &list[k]))
            return 18;
    }
    *count = left;
    return 0;
}

uint32_t sheet_after_join(const half *first, const half *second, uint8_t *joined, size_t room, size_t *len, uint32_t *in_both) {
    static plot list[2 * MOST_PLOTS];
    frame f, g;
    uint32_t refused = sheet_checked(first->bytes, first->room, first->len, &f);
    if (refused)
        return refused;
    refused = sheet_checked(second->bytes, second->room, second->len, &g);
    if (refused)
        return refused;
    uint32_t all = listed(list, listed(list, 0, first, &f), second, &g), count = all;
    qsort(list, all, sizeof *list, by_number);
    refused = leave_once(list, &count);
    if (refused)
        return refused;
    size_t next = f.first + RECORD * (size_t)count + TRAILER;
    if (next > room || next > SHEET)
        return 12;
    memcpy(joined, first->bytes, f.first);
    *len = put_sheet(joined, f.first, RECORD, list, count);
    *in_both = all - count;
    return 0;
}
