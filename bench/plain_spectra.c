/* How finely a plot breaks up, in plain C: the folds of the element are added up, and each entry takes the same time. */
#include "plain_octagons.h"

/* What is refused of an element: (0, 0) is not one of its cells, or is the only one. */
static uint32_t origin_refusal(const int32_t b[8]) {
    int32_t least = b[0], most = b[0];
    for (int k = 1; k < 8; k++) {
        least = b[k] < least ? b[k] : least;
        most = b[k] > most ? b[k] : most;
    }
    return least < 0 ? NO_ORIGIN : most == 0 ? NO_OTHER_CELL : 0;
}

/* The cells of a plot that is opened by so many folds of an element, all of them normal forms; none where nothing is left. */
static uint64_t opened_cells(const int32_t a[8], const int32_t folds[8]) {
    int32_t c[8], left[8];
    for (int k = 0; k < 8; k++)
        c[k] = a[k] - folds[k];
    if (normalise(c, left))
        return 0;
    for (int k = 0; k < 8; k++)
        left[k] += folds[k];
    return area(left);
}

/* The entries of a plot by an element, as many as there are or as the list has room for; and whether the last of them is among these. */
static size_t list_entries(const int32_t a[8], const int32_t b[8], uint64_t *list, size_t list_len, uint32_t *ending) {
    int32_t folds[8] = {0};
    uint64_t more = area(a);
    size_t n = 0;
    while (n < list_len && more) {
        for (int k = 0; k < 8; k++)
            folds[k] += b[k];
        uint64_t less = opened_cells(a, folds);
        list[n++] = more - less;
        more = less;
    }
    *ending = more ? SPENT : FINISHED;
    return n;
}

uint32_t plain_spectrum(const int32_t *plot, size_t plot_len, const int32_t *element, size_t element_len, uint64_t *list, size_t list_len, size_t *trims, uint32_t *ending) {
    int32_t a[8], b[8];
    if (plot_len != 8 || element_len != 8)
        return WRONG_LENGTH;
    uint32_t refused = normalise(plot, a);
    if (!refused)
        refused = normalise(element, b);
    if (!refused)
        refused = origin_refusal(b);
    if (refused)
        return refused;
    *trims = list_entries(a, b, list, list_len, ending);
    return 0;
}
