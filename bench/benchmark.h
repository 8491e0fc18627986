/* What the parts of the benchmark share: the clock, random inputs, and the comparison of two times.
 * Each figure is the least of many short turns, taken in alternation, so that other work on the machine weighs little. */
#ifndef BENCHMARK_H
#define BENCHMARK_H
#include "../bindings/koxirmeta.h"
#include "plain.h"
#include <stdio.h>

/* What a call gave is added to this, so that no call is left out. */
extern volatile uint32_t sink;

/* A number from `low` to `high`, from a fixed seed; and one from a seed that is lent, which it alters. */
int32_t from(int32_t low, int32_t high);
int32_t from_seed(uint64_t *seed, int32_t low, int32_t high);

/* The time in nanoseconds. */
double now(void);

/* Ends the program unless both calls answered alike, and were accepted where that is asked. */
void need(int alike, const char *name);

/* Bounds with a cell, at most `size` cells across and about as far as this from (0, 0), one of them slack (benchmark_octagons.c). */
void draw_bounds(int32_t c[8], int32_t size, int32_t far);

/* The parts: each has a file of its name. */
void benchmark_octagons(void);
void benchmark_folds(void);
void benchmark_outlines(void);
void benchmark_splits(void);
void benchmark_surveys(void);
void benchmark_spectra(void);
void benchmark_sheets(void);
void benchmark_joins(void);
void benchmark_listing(void);

static inline void say(const char *name, double proved, double plain) { printf("%-15s %9.2f %12.2f %8.2f\n", name, proved, plain, proved / plain); }

#define COMPARE(name, turns, time, proved, plain)                                                                      \
    do {                                                                                                               \
        double a = 1e18, b = 1e18;                                                                                     \
        for (int turn = 0; turn < (turns); turn++) {                                                                   \
            double u = time(proved), v = time(plain);                                                                  \
            a = u < a ? u : a;                                                                                         \
            b = v < b ? v : b;                                                                                         \
        }                                                                                                              \
        say(name, a, b);                                                                                               \
    } while (0)

#endif
