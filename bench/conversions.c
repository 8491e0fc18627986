/* A sheet copied at 26, in the words of document 02: it is read into plots, each of them is walked on the old map, and they are written anew. */
#include "oracle.h"
#include <string.h>

uint32_t sheet_after_convert(const half *first, uint8_t *second, size_t room, size_t *len, frame *f) {
    static plot list[MOST_PLOTS];
    uint32_t refused = sheet_checked(first->bytes, first->room, first->len, f);
    if (refused)
        return refused;
    for (uint32_t k = 0; k < f->count; k++) {
        list[k] = record_in(first->bytes, f, k);
        if (walk_refusal(OLD_LIMIT, list[k].start, list[k].sides))
            return 21;
    }
    size_t next = f->first + FEE_RECORD * (size_t)f->count + TRAILER;
    if (next > room || next > SHEET)
        return 12;
    memcpy(second, first->bytes, f->first);
    *len = put_sheet(second, f->first, FEE_RECORD, list, f->count);
    return 0;
}
