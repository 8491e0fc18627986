/* Times the check, the insert and the conversion beside plain C: sheets of every record length, and sheets of a few plots. */
#include "benchmark_sheets.h"
#include "plain_bytes.h"

enum { SHEETS = 512, FEW = 10, TURNS = 400 };

/* The fullest sheet of each length; one of each that a plot more fills; one of each with the most plots of 46, to be converted; and one of a
 * few plots. */
static lent base, fee, county, base_to_fill, fee_to_fill, county_to_fill, base_to_copy, fee_to_copy, county_to_copy, few;
/* The sheet that is timed. */
static const lent *timed;

typedef uint32_t checker(const uint8_t *, size_t, size_t, uint32_t *);
typedef uint32_t inserter(uint8_t *, size_t, size_t, uint32_t, const int32_t *, size_t, const uint32_t *, size_t, uint16_t, size_t *);
typedef uint32_t converter(const uint8_t *, size_t, size_t, uint8_t *, size_t, size_t *);

void put_plot(uint8_t *r, size_t each, uint32_t number, int32_t far) {
    uint32_t a = (uint32_t)from(0, 40), b = (uint32_t)from(0, 40), t = (uint32_t)from(0, 40), i = (uint32_t)from(-far, far), j = (uint32_t)from(-far, far);
    const uint32_t fields[10] = {i, j, a, t, b, t, a, t, b, t};
    put_u32(r, number);
    for (int k = 0; k < 10; k++)
        if (each == COUNTY_RECORD)
            put_u32(r + 4 + 4 * k, fields[k]);
        else
            put_u16(r + 4 + 2 * k, fields[k]);
    if (each != BASE_RECORD)
        put_u16(r + each - 2, (uint32_t)from(0, 65535));
}

void end_sheet(lent *s, size_t each, uint32_t count) {
    uint32_t proved = 0, plain = 0;
    put_trailer(s->bytes + each * count, each, count);
    s->len = each * count + TRAILER;
    need(!kx_sheet_check(s->bytes, SHEET_LIMIT, s->len, &proved) && proved == count, "check");
    need(!plain_sheet_check(s->bytes, SHEET_LIMIT, s->len, &plain) && plain == count, "check");
}

void fill_sheet(lent *s, size_t each, uint32_t count, int32_t far) {
    for (uint32_t k = 0; k < count; k++)
        put_plot(s->bytes + each * k, each, k + 2, far);
    end_sheet(s, each, count);
}

static double time_check(checker *f) {
    uint32_t count = 0;
    double at = now();
    sink = f(timed->bytes, SHEET_LIMIT, timed->len, &count) + count;
    return now() - at;
}

/* One plot more, before all others. No insert is refused. */
static inline uint32_t insert(inserter *f, uint8_t *s, size_t room, size_t len, size_t *grown) {
    static const int32_t start[2] = {2, -1};
    static const uint32_t sides[8] = {3, 1, 14, 2, 5, 4, 6, 7};
    return f(s, room, len, 1, start, 2, sides, 8, 40961, grown);
}

static double time_insert(inserter *f) {
    static uint8_t full[SHEET_LIMIT];
    size_t len = 0;
    memcpy(full, timed->bytes, SHEET_LIMIT);
    double at = now();
    uint32_t refused = insert(f, full, SHEET_LIMIT, timed->len, &len);
    double ns = now() - at;
    need(!refused && len == RECORD * FULL + TRAILER, "insert");
    return ns;
}

static double time_insert_few(inserter *f) {
    static uint8_t grown[SHEETS][1024];
    uint32_t refused = 0;
    size_t len = 0;
    for (int i = 0; i < SHEETS; i++)
        memcpy(grown[i], timed->bytes, sizeof grown[i]);
    double at = now();
    for (int i = 0; i < SHEETS; i++)
        refused |= insert(f, grown[i], sizeof grown[i], timed->len, &len);
    double ns = (now() - at) / SHEETS;
    need(!refused && len == timed->len + RECORD, "insert, few");
    return ns;
}

static double time_convert(converter *f) {
    static uint8_t copy[SHEET_LIMIT];
    size_t len = 0;
    double at = now();
    uint32_t refused = f(timed->bytes, SHEET_LIMIT, timed->len, copy, SHEET_LIMIT, &len);
    double ns = now() - at;
    need(!refused && len == FEE_RECORD * FULL + TRAILER, "convert");
    return ns;
}

/* Both calls have to write the same bytes. */
static void insert_alike(const lent *s) {
    static uint8_t proved[SHEET_LIMIT], plain[SHEET_LIMIT];
    size_t m = 0, n = 1;
    memcpy(proved, s->bytes, SHEET_LIMIT);
    memcpy(plain, s->bytes, SHEET_LIMIT);
    int accepted = !insert(kx_sheet_insert, proved, SHEET_LIMIT, s->len, &m) && !insert(plain_sheet_insert, plain, SHEET_LIMIT, s->len, &n);
    need(accepted && m == n && !memcmp(proved, plain, SHEET_LIMIT), "insert");
}

static void convert_alike(const lent *s) {
    static uint8_t proved[SHEET_LIMIT], plain[SHEET_LIMIT];
    size_t m = 0, n = 1;
    uint32_t refused = kx_sheet_convert(s->bytes, SHEET_LIMIT, s->len, proved, SHEET_LIMIT, &m);
    refused |= plain_sheet_convert(s->bytes, SHEET_LIMIT, s->len, plain, SHEET_LIMIT, &n);
    need(!refused && m == n && !memcmp(proved, plain, SHEET_LIMIT), "convert");
}

static void compare_check(const char *name, lent *s, size_t each, uint32_t count, int32_t far) {
    fill_sheet(s, each, count, far);
    timed = s;
    COMPARE(name, TURNS, time_check, kx_sheet_check, plain_sheet_check);
}

static void compare_insert(const char *name, lent *s, size_t each) {
    fill_sheet(s, each, FULL - 1, NEAR);
    insert_alike(s);
    timed = s;
    COMPARE(name, TURNS, time_insert, kx_sheet_insert, plain_sheet_insert);
}

static void compare_convert(const char *name, lent *s, size_t each) {
    fill_sheet(s, each, FULL, NEAR);
    convert_alike(s);
    timed = s;
    COMPARE(name, TURNS, time_convert, kx_sheet_convert, plain_sheet_convert);
}

static void compare_insert_few(void) {
    fill_sheet(&few, RECORD, FEW, FAR);
    insert_alike(&few);
    timed = &few;
    COMPARE("insert, few", TURNS, time_insert_few, kx_sheet_insert, plain_sheet_insert);
}

void benchmark_sheets(void) {
    compare_check("check, 24", &base, BASE_RECORD, FULL_BASE, NEAR);
    compare_check("check, 26", &fee, FEE_RECORD, FULL_FEE, NEAR);
    compare_check("check, 46", &county, COUNTY_RECORD, FULL, FAR);
    compare_insert("insert, 24", &base_to_fill, BASE_RECORD);
    compare_insert("insert, 26", &fee_to_fill, FEE_RECORD);
    compare_insert("insert, 46", &county_to_fill, COUNTY_RECORD);
    compare_insert_few();
    compare_convert("convert, 24", &base_to_copy, BASE_RECORD);
    compare_convert("convert, 26", &fee_to_copy, FEE_RECORD);
    compare_convert("convert, 46", &county_to_copy, COUNTY_RECORD);
}
