/* Times the listing of the fullest sheet of 46 beside plain C. */
#include "benchmark_sheets.h"
#include <string.h>

enum { TURNS = 400 };

static lent listed;

typedef uint32_t lister(const uint8_t *, size_t, size_t, uint8_t *, size_t *);

/* Both calls have to write the same text. */
static void list_alike(void) {
    static uint8_t proved[KX_TEXT], plain[KX_TEXT];
    size_t m = 0, n = 1;
    int accepted = !kx_list(listed.bytes, SHEET_LIMIT, listed.len, proved, &m) && !plain_list(listed.bytes, SHEET_LIMIT, listed.len, plain, &n);
    need(accepted && m == n && !memcmp(proved, plain, m), "listing");
}

static double time_list(lister *f) {
    static uint8_t text[KX_TEXT];
    size_t written = 0;
    double at = now();
    sink = f(listed.bytes, SHEET_LIMIT, listed.len, text, &written) + (uint32_t)written;
    return now() - at;
}

void benchmark_listing(void) {
    fill_sheet(&listed, RECORD, FULL, FAR);
    list_alike();
    COMPARE("listing", TURNS, time_list, kx_list, plain_list);
}
