/* Every function of crout.h, called as a C program calls them, on the known plans and values. The first difference ends the program
   with a message and status 1.

   GROUPS says how many groups of functions the library has: 1 labels, 2 compile, 3 check, write and read, 4 run and solve, 5 run many
   right sides, 6 compare a program with a plan, 7 show a path, 8 tell whether a plan costs most, 9 count plans, 10 find a better
   numbering, 11 tell what is left over. */
#include "crout.h"

#include <stdio.h>
#include <stdlib.h>
#include <string.h>

#ifndef GROUPS
#define GROUPS 11
#endif

#define COUNT(row) (sizeof(row) / sizeof((row)[0]))

static void expect(int holds, const char *what) {
    if (!holds) {
        fprintf(stderr, "different: %s\n", what);
        exit(1);
    }
}

static void labels(void) {
    expect(crout_label(6, 5, 2) == 15 && crout_place(6, 15) == 1024 * 5 + 2, "P1, (5, 2)");
    expect(crout_label(6, 1, 6) == 11 && crout_place(6, 11) == 1024 * 1 + 6, "P1, (1, 6)");
    expect(crout_label(6, 6, 6) == 36 && crout_place(6, 36) == 1024 * 6 + 6, "P1, (6, 6)");
    expect(crout_label(0, 1, 1) == 0 && crout_label(601, 1, 1) == 0, "labels of a bad order");
    expect(crout_label(6, 0, 1) == 0 && crout_label(6, 1, 7) == 0, "labels of a bad place");
    expect(crout_place(6, 0) == 0 && crout_place(6, 37) == 0 && crout_place(601, 1) == 0, "places of a bad label or order");
}

#if GROUPS >= 2

static uint64_t refusal(uint32_t number, uint32_t detail) {
    return (uint64_t)number << 32 | detail;
}

static int same_numbers(const uint64_t out[3], uint64_t first, uint64_t second, uint64_t third) {
    return out[0] == first && out[1] == second && out[2] == third;
}

/* The program of order 1, as document 01 lists it. */
static const uint32_t listing[32] = {1, 1, 1, 1, 1, 1, 1, 2, 9, 0, 0, 3, 2, 1, 0, 4,
                                     7, 1, 0, 5, 8, 0, 0, 6, 3, 1, 0, 7, 8, 0, 0, 0};

static const uint32_t p8[12] = {1, 2, 4, 8, 10, 12, 15, 21, 28, 30, 33, 36};

static uint32_t work[36];
static uint32_t words[400];

static void sevens(uint64_t out[3]) {
    size_t k;
    for (k = 0; k < COUNT(work); k++)
        work[k] = 7;
    for (k = 0; k < COUNT(words); k++)
        words[k] = 7;
    out[0] = out[1] = out[2] = 7;
}

/* What the compiler returns, with the slices full of sevens before it. */
static uint64_t compiled(uint32_t n, const uint32_t *plan, size_t plan_len, size_t work_len, size_t words_len, uint64_t out[3]) {
    sevens(out);
    return crout_compile(n, plan, plan_len, work, work_len, words, words_len, out);
}

static void accepted(uint32_t n, const uint32_t *plan, size_t plan_len, uint64_t slots, uint64_t products, uint64_t records,
                     const char *what) {
    uint64_t out[3];
    expect(compiled(n, plan, plan_len, n * n, 4 * records, out) == 0, what);
    expect(same_numbers(out, slots, products, records), what);
    expect(words[0] == n && words[1] == plan_len && words[2] == slots && words[3] == 1, what);
    expect(words[4 * records - 1] == 0 && words[4 * records] == 7, what);
    expect(compiled(n, plan, plan_len, n * n, 4 * records - 1, out) == refusal(6, (uint32_t)records), what);
    expect(same_numbers(out, 0, 0, 0) && words[0] == 7, what);
}

static void refused(uint32_t n, const uint32_t *plan, size_t plan_len, uint32_t number, uint32_t detail, const char *what) {
    uint64_t out[3];
    expect(compiled(n, plan, plan_len, COUNT(work), COUNT(words), out) == refusal(number, detail), what);
    expect(same_numbers(out, 0, 0, 0) && words[0] == 7, what);
    expect(work[0] == (number == 5 ? 0 : 7), what);
}

static void compile(void) {
    const uint32_t p2[] = {1, 2, 3}, p3[] = {1, 2, 4}, p4[] = {2, 3}, p6[] = {1, 1}, five[] = {5};
    const uint32_t slots_of_p3[] = {1, 2, 0, 3};
    uint64_t out[3];
    accepted(2, p2, 3, 4, 3, 23, "P2");
    accepted(2, p3, 3, 3, 1, 18, "P3");
    expect(memcmp(work, slots_of_p3, sizeof slots_of_p3) == 0 && work[4] == 7, "the slots of P3");
    refused(2, p4, 2, 5, 1, "P4");
    refused(3, p4, 0, 5, 1, "P5");
    refused(2, p6, 2, 4, 2, "P6, labels 1 1");
    refused(2, five, 1, 3, 1, "P6, label 5");
    refused(0, p2, 1, 1, 0, "P7, order 0");
    refused(601, p2, 1, 1, 0, "P7, order 601");
    accepted(6, p8, COUNT(p8), 18, 19, 91, "P8");
    expect(compiled(6, p8, COUNT(p8), 35, COUNT(words), out) == refusal(2, 36), "a work slice of 35");
    expect(compiled(1, p2, 1, 1, COUNT(words), out) == 0 && same_numbers(out, 1, 0, 8), "order 1");
    expect(memcmp(words, listing, sizeof listing) == 0 && words[32] == 7, "the program of order 1");
}

/* The plan 1 4 of order 2, whose two pivots share a slot. */
static uint64_t compacted(size_t work_len, size_t words_len, uint64_t out[3]) {
    const uint32_t plan[] = {1, 4};
    sevens(out);
    return crout_compile_compact(2, plan, 2, work, work_len, words, words_len, out);
}

static void compact(void) {
    const uint32_t work_after[17] = {1, 0, 0, 2, 0, 0, 0, 0, 0, 0, 0, 0, 0, 0, 0, 0, 7};
    uint64_t out[3];
    expect(compacted(15, 60, out) == refusal(2, 16) && same_numbers(out, 0, 0, 0) && work[0] == 7, "a compact work slice of 15");
    expect(compacted(17, 59, out) == refusal(6, 15) && same_numbers(out, 0, 0, 0) && words[0] == 7, "a compact word slice of 59");
    expect(memcmp(work, work_after, sizeof work_after) == 0, "the compact work numbers after 6");
    expect(compacted(17, 61, out) == 0 && same_numbers(out, 1, 0, 15), "two pivots in one slot");
    expect(memcmp(work, work_after, sizeof work_after) == 0, "the compact work numbers");
    expect(words[2] == 1 && words[59] == 0 && words[60] == 7, "the compact program");
}

/* A plan of order 2 for sweeps. */
static uint64_t swept(const uint32_t *plan, size_t plan_len, size_t work_len, size_t words_len, uint64_t out[3]) {
    sevens(out);
    return crout_compile_sweep(2, plan, plan_len, work, work_len, words, words_len, out);
}

static void sweep(void) {
    const uint32_t plan[] = {1, 2, 3, 4}, without_2_1[] = {1, 3, 4};
    const uint32_t positions[] = {1, 0, 2, 3, 7}, cleared[] = {0, 0, 0, 0, 7};
    const uint32_t program[] = {2, 4, 0, 1, 10, 1, 0, 2, 11, 3, 2, 3, 12, 1, 0, 4, 8, 0, 0, 5,
                                10, 2, 0, 6, 11, 2, 1, 7, 12, 4, 0, 8, 8, 0, 0, 0};
    uint64_t out[3];
    expect(swept(plan, 4, 3, 36, out) == refusal(2, 4) && same_numbers(out, 0, 0, 0) && work[0] == 7, "a sweep's work slice of 3");
    expect(swept(plan, 3, 5, 36, out) == refusal(26, 2) && same_numbers(out, 0, 0, 0) && words[0] == 7, "a row without its diagonal");
    expect(memcmp(work, cleared, sizeof cleared) == 0, "the work numbers after 26");
    expect(swept(without_2_1, 3, 5, 31, out) == refusal(6, 8) && same_numbers(out, 0, 0, 0) && words[0] == 7, "a sweep's word slice of 31");
    expect(memcmp(work, positions, sizeof positions) == 0, "the positions in the plan after 6");
    expect(swept(plan, 4, 4, 37, out) == 0 && same_numbers(out, 0, 2, 9), "the sweep of order 2");
    expect(memcmp(words, program, sizeof program) == 0 && words[36] == 7, "the program of the sweep of order 2");
}

#endif
#if GROUPS >= 3

/* The file of order 1: each word low byte first. */
static const uint8_t listing_file[128] = {
    1, 0, 0, 0, 1, 0, 0, 0, 1, 0, 0, 0, 1, 0, 0, 0, 1, 0, 0, 0, 1, 0, 0, 0, 1, 0, 0, 0, 2, 0, 0, 0,
    9, 0, 0, 0, 0, 0, 0, 0, 0, 0, 0, 0, 3, 0, 0, 0, 2, 0, 0, 0, 1, 0, 0, 0, 0, 0, 0, 0, 4, 0, 0, 0,
    7, 0, 0, 0, 1, 0, 0, 0, 0, 0, 0, 0, 5, 0, 0, 0, 8, 0, 0, 0, 0, 0, 0, 0, 0, 0, 0, 0, 6, 0, 0, 0,
    3, 0, 0, 0, 1, 0, 0, 0, 0, 0, 0, 0, 7, 0, 0, 0, 8, 0, 0, 0, 0, 0, 0, 0, 0, 0, 0, 0, 0, 0, 0, 0};

static void written(void) {
    const uint32_t word[] = {0x04030201};
    const uint8_t low_first[] = {1, 2, 3, 4};
    uint8_t bytes[129];
    uint64_t out[3] = {7, 7, 7};
    memset(bytes, 7, sizeof bytes);
    expect(crout_write(listing, 32, bytes, 127, out) == refusal(19, 128) && same_numbers(out, 0, 0, 0), "a slice of 127 bytes");
    expect(bytes[0] == 7 && bytes[126] == 7, "a refused writer's bytes");
    expect(crout_write(listing, 32, bytes, 129, out) == 0 && same_numbers(out, 128, 0, 0), "the writer's answer");
    expect(memcmp(bytes, listing_file, sizeof listing_file) == 0 && bytes[128] == 7, "the file of order 1");
    expect(crout_write(word, 1, bytes, 4, out) == 0 && memcmp(bytes, low_first, 4) == 0, "low byte first");
}

static void read_back(void) {
    uint32_t back[33];
    uint64_t out[3] = {7, 7, 7};
    memset(back, 0, sizeof back);
    back[31] = back[32] = 7;
    expect(crout_read(listing_file, 127, back, 33, out) == refusal(18, 0) && same_numbers(out, 0, 0, 0), "a file of 127 bytes");
    expect(crout_read(listing_file, 128, back, 31, out) == refusal(19, 32) && same_numbers(out, 0, 0, 0), "a slice of 31 words");
    expect(back[0] == 0 && back[31] == 7, "a refused reader's words");
    expect(crout_read(listing_file, 128, back, 33, out) == 0 && same_numbers(out, 32, 0, 0), "the reader's answer");
    expect(memcmp(back, listing, sizeof listing) == 0 && back[32] == 7, "the words read back");
}

/* What the check returns for the file of order 1 with one byte changed. */
static uint64_t checked_with(size_t at, uint8_t byte) {
    uint8_t file[128];
    memcpy(file, listing_file, sizeof file);
    file[at] = byte;
    return crout_check(file, sizeof file);
}

static void checked(void) {
    expect(crout_check(listing_file, 128) == 0, "the check of the file of order 1");
    expect(crout_check(listing_file, 126) == refusal(18, 0), "18");
    expect(crout_check(listing_file, 0) == refusal(7, 0) && crout_check(listing_file, 124) == refusal(7, 0), "7");
    expect(checked_with(0, 0) == refusal(8, 0), "8");
    expect(checked_with(28, 1) == refusal(9, 1), "9");
    expect(checked_with(32, 10) == refusal(10, 2), "10");
    expect(checked_with(48, 7) == refusal(11, 3), "11");
    expect(checked_with(68, 2) == refusal(12, 4), "12");
    expect(checked_with(12, 0) == refusal(13, 0), "13");
}

#endif
#if GROUPS >= 4

static double c[18], y[6], x[6];

static void dirty(void) {
    size_t k;
    for (k = 0; k < COUNT(c); k++)
        c[k] = 7;
    for (k = 0; k < COUNT(x); k++)
        y[k] = x[k] = 7;
}

/* Runs the plan of all labels up to n * n with a limit, by two calls and by one: both return the same. c_len is the number of slots. */
static uint64_t ran_limit(uint32_t n, const double *a, const double *b, double limit, size_t c_len, uint64_t out[4]) {
    const uint32_t plan[] = {1, 2, 3, 4};
    uint64_t compiler[3], solved_out[4], returned, solved;
    double solved_x[6];
    dirty();
    solved = crout_solve_limit(n, plan, n * n, a, n * n, b, n, limit, work, COUNT(work), words, COUNT(words), c, c_len, y, n, x, n,
                               solved_out);
    memcpy(solved_x, x, sizeof x);
    dirty();
    expect(crout_compile(n, plan, n * n, work, COUNT(work), words, COUNT(words), compiler) == 0, "a full table");
    returned = crout_run_limit(words, 4 * (size_t)compiler[2], a, n * n, b, n, limit, c, c_len, y, n, x, n, out);
    expect(solved == returned && memcmp(solved_out, out, sizeof solved_out) == 0, "solve answers as run does");
    expect(memcmp(solved_x, x, sizeof x) == 0, "solve leaves the same X");
    expect(out[3] == 0 && (returned == 0 || out[2] == 0), "the last two numbers");
    return returned;
}

/* The same without a limit, by the calls that take none: they return what those with limit 0 do, and no count of products that vanished. */
static uint64_t ran(uint32_t n, const double *a, const double *b, size_t c_len, uint64_t out[3]) {
    const uint32_t plan[] = {1, 2, 3, 4};
    uint64_t limit_out[4], solved_out[3], returned, solved;
    const uint64_t limited = ran_limit(n, a, b, 0, c_len, limit_out);
    double limited_x[6];
    memcpy(limited_x, x, sizeof x);
    limit_out[2] = 0;
    dirty();
    solved = crout_solve(n, plan, n * n, a, n * n, b, n, work, COUNT(work), words, COUNT(words), c, c_len, y, n, x, n, solved_out);
    expect(solved == limited && memcmp(solved_out, limit_out, sizeof solved_out) == 0, "solve answers as with limit 0");
    expect(memcmp(limited_x, x, sizeof x) == 0, "solve leaves the same X as with limit 0");
    dirty();
    returned = crout_run(words, 4 * (size_t)(n == 1 ? 8 : 23), a, n * n, b, n, c, c_len, y, n, x, n, out);
    expect(returned == limited && memcmp(out, limit_out, sizeof solved_out) == 0, "run answers as with limit 0");
    expect(memcmp(limited_x, x, sizeof x) == 0, "run leaves the same X as with limit 0");
    return returned;
}

static int same_values(const double *values, const double *expected, size_t len) {
    return memcmp(values, expected, len * sizeof *values) == 0;
}

static void run(void) {
    const double zeros[4] = {0, 0, 0, 0}, minus_zero = -0.0, minus_one = -1;
    const double v1_a[] = {2, 4, 1, 4}, v1_b[] = {4, 12}, v1_c[] = {2, 4, 0.5, 2}, v1_y[] = {2, 2}, v1_x[] = {1, 2};
    const double v2_a[] = {1, 1, 1, 1};
    const double v3_a = 0x1p-1000, v3_b = 0x1p1000;
    double infinite[] = {4, 12};
    uint64_t out[3];
    infinite[1] = v3_b * v3_b;
    expect(ran(2, v1_a, v1_b, 4, out) == 0 && same_numbers(out, 3, 3, 0), "V1");
    expect(same_values(c, v1_c, 4) && same_values(y, v1_y, 2) && same_values(x, v1_x, 2), "the values of V1");
    expect(c[4] == 7 && y[2] == 7 && x[2] == 7, "values past the slices of V1");
    expect(ran(2, v2_a, v1_b, 4, out) == refusal(17, 13) && same_numbers(out, 1, 4, 0), "V2");
    expect(same_values(c, zeros, 4) && same_values(y, zeros, 2) && same_values(x, zeros, 2), "the values of V2");
    expect(ran(1, &v3_a, &v3_b, 1, out) == refusal(16, 4) && same_numbers(out, 2, 1, 0), "V3");
    expect(ran(1, &minus_one, zeros, 1, out) == 0 && same_values(x, zeros, 1), "V4");
    expect(ran(1, &minus_one, &minus_zero, 1, out) == 0 && same_values(x, zeros, 1), "V4 with -0");
    expect(ran(2, v1_a, v1_b, 3, out) == refusal(14, 0) && same_numbers(out, 0, 0, 0) && c[0] == 7, "14");
    expect(ran(2, v1_a, infinite, 4, out) == refusal(15, 2) && same_numbers(out, 0, 0, 0) && c[0] == 7, "15");
    expect(crout_run(listing, 31, v1_a, 1, v1_b, 1, c, 1, y, 1, x, 1, out) == refusal(7, 0) && c[0] == 7, "7 of a run");
}

static void limits(void) {
    const double half = 0.5, minus_half = -0.5, one = 1, smallest = 0x1p-1074, zero = 0;
    const double nearly_equal[] = {1, 1, 1, 1 + 0x1p-52}, b[] = {4, 12};
    double infinite = 0x1p1000;
    uint64_t out[4];
    infinite *= infinite;
    expect(ran_limit(1, &minus_half, &one, 0.5, 1, out) == refusal(17, 2) && same_numbers(out, 1, 1, 0), "a pivot of exactly -t");
    expect(ran_limit(1, &half, &one, 0.5 - 0x1p-54, 1, out) == 0 && same_numbers(out, 0, 1, 0) && x[0] == 2, "a pivot just above t");
    expect(ran_limit(1, &smallest, &zero, -0.0, 1, out) == 0, "a limit of -0");
    expect(ran_limit(1, &one, &one, -0x1p-1074, 1, out) == refusal(21, 0) && same_numbers(out, 0, 0, 0) && x[0] == 7, "21, just below 0");
    expect(ran_limit(1, &one, &one, infinite, 1, out) == refusal(21, 0) && c[0] == 7, "21, infinite");
    expect(ran_limit(1, &one, &one, infinite - infinite, 1, out) == refusal(21, 0) && y[0] == 7, "21, not a number");
    expect(ran_limit(1, &one, &infinite, -1, 1, out) == refusal(15, 1), "15 before 21");
    expect(ran_limit(2, nearly_equal, b, 1e-9, 4, out) == refusal(17, 13) && same_numbers(out, 1, 4, 0), "a pivot of 2^-52");
    expect(ran_limit(2, nearly_equal, b, 0, 4, out) == 0 && same_numbers(out, 3, 3, 0), "the same with limit 0");
}

static void vanished(void) {
    const double tiny = 0x1p-1000, weak[] = {1, 1e-200, 1e-200, 1}, ones[] = {1, 1};
    const double weaker[] = {1, tiny, tiny, 1}, small[] = {tiny, tiny};
    const double strong[] = {1e300, 0, -1e-300, 1}, b[] = {1e-300, 1}, strong_x[] = {0, 1};
    uint64_t out[4];
    expect(ran_limit(2, weak, ones, 0, 4, out) == 0 && same_numbers(out, 3, 3, 1) && same_values(x, ones, 2), "1e-200 squared");
    expect(ran_limit(2, weaker, small, 0, 4, out) == 0 && same_numbers(out, 3, 3, 3) && same_values(x, small, 2), "one in C, Y and X each");
    expect(ran_limit(2, strong, b, 0, 4, out) == 0 && same_numbers(out, 3, 3, 0) && same_values(x, strong_x, 2), "quotients that underflow");
    expect(ran(2, weaker, small, 4, out) == 0 && same_numbers(out, 3, 3, 0), "release 1's calls don't tell");
}

static void ran_compact(void) {
    const double a[] = {2, 4}, singular[] = {2, 0}, b[] = {2, 12}, y_and_x[] = {1, 3}, zeros[] = {0, 0};
    uint64_t compiler[3], out[4];
    expect(compacted(16, 60, compiler) == 0, "two pivots in one slot");
    dirty();
    expect(crout_run_limit(words, 60, a, 2, b, 2, 0, c, 1, y, 2, x, 2, out) == 0 && same_numbers(out, 0, 2, 0), "a compact run");
    expect(c[0] == 4 && c[1] == 7 && same_values(y, y_and_x, 2) && same_values(x, y_and_x, 2), "the values of a compact run");
    expect(crout_run_limit(words, 60, singular, 2, b, 2, 0, c, 1, y, 2, x, 2, out) == refusal(17, 7), "17 of a compact run");
    expect(same_numbers(out, 1, 1, 0) && same_values(c, zeros, 1) && same_values(x, zeros, 2), "the slot that 17 names");
}

/* Runs the sweep of order 2 with all places. It has no C and no Y: pointers that aren't null, with lengths 0. */
static uint64_t ran_sweep(const double *a, const double *b, double tolerance, uint64_t out[4]) {
    const uint32_t plan[] = {1, 2, 3, 4};
    uint64_t compiler[3];
    expect(swept(plan, 4, 4, 36, compiler) == 0, "the sweep of order 2");
    dirty();
    return crout_run_limit(words, 36, a, 4, b, 2, tolerance, c, 0, y, 0, x, 2, out);
}

static void ran_sweeps(void) {
    const double a[] = {4, 2, 1, 4}, b[] = {6, 9}, settled[] = {1.125, 1.6875};
    const double growing[] = {1, -1, -1, 1}, ones[] = {1, 1}, last[] = {599, 600};
    const double zero_diagonal[] = {1, 1, 1, -0.0}, one_and_zero[] = {1, 0}, zeros[] = {0, 0};
    uint64_t out[4];
    expect(ran_sweep(a, b, 0.5, out) == 0 && same_numbers(out, 4, 4, 0) && out[3] == 2, "two sweeps");
    expect(same_values(x, settled, 2) && c[0] == 7 && y[0] == 7 && x[2] == 7, "the values of two sweeps");
    expect(crout_run_limit(words, 36, a, 4, b, 2, 0.5, x, 0, x, 0, x, 2, out) == 0 && same_values(x, settled, 2), "x for c and y");
    expect(ran_sweep(growing, ones, 0, out) == refusal(27, 0) && same_numbers(out, 0, 0, 0) && out[3] == 0, "27");
    expect(same_values(x, last, 2), "the last X after 27");
    dirty();
    expect(crout_run(words, 36, growing, 4, ones, 2, c, 0, y, 0, x, 2, out) == refusal(27, 0), "27 of crout_run");
    expect(same_numbers(out, 0, 0, 0) && same_values(x, last, 2), "the last X after 27 of crout_run");
    expect(ran_sweep(zero_diagonal, one_and_zero, 0, out) == refusal(17, 7) && same_numbers(out, 3, 2, 0), "17 of a sweep");
    expect(same_values(x, zeros, 2) && out[3] == 0 && c[0] == 7 && y[0] == 7, "X after 17 of a sweep");
    expect(ran_sweep(a, b, -1, out) == refusal(21, 0) && x[0] == 7, "21 of a sweep");
    expect(crout_run_limit(words, 36, a, 4, b, 2, 0.5, c, 0, y, 2, x, 2, out) == refusal(14, 0) && x[0] == 7, "a sweep has no Y");
}

static void document_002(void) {
    const double a[12] = {7, 2, -3, -3, -1, 8, -1, 1, 5, -2, 4, 6}, b[6] = {-11, 38, 0, 13, 11, -22};
    const double published[6] = {-1, 5, 0, 2, 4, -3};
    uint64_t out[3];
    size_t k;
    dirty();
    expect(crout_solve(6, p8, 12, a, 12, b, 6, work, 36, words, COUNT(words), c, 18, y, 6, x, 6, out) == 0, "document 002");
    expect(same_numbers(out, 19, 11, 0), "the products and quotients of document 002");
    for (k = 0; k < 6; k++)
        expect(x[k] - published[k] < 1e-14 && published[k] - x[k] < 1e-14, "the solution of document 002");
}

#endif
#if GROUPS >= 5

/* Y and X of 64 right sides of order 2, and one entry past them. */
static double many_y[129], many_x[129];

static void dirty_many(uint64_t out[257]) {
    size_t k;
    dirty();
    for (k = 0; k < COUNT(many_x); k++)
        many_y[k] = many_x[k] = 7;
    for (k = 0; k < 257; k++)
        out[k] = 7;
}

/* Runs the plan 1 4 of order 2 on so many right sides, with slices for as many as are lent. */
static uint64_t ran_many(uint32_t count, const double *a, const double *b, size_t lent, double limit, uint64_t out[257]) {
    const uint32_t plan[] = {1, 4};
    uint64_t compiler[3];
    expect(compiled(2, plan, 2, 4, 60, compiler) == 0, "the plan of two pivots");
    dirty_many(out);
    return crout_run_many(words, 60, count, a, 2, b, 2 * lent, limit, c, 2, many_y, 2 * lent, many_x, 2 * lent, out);
}

static int side_is(const uint64_t out[257], size_t side, uint64_t answer, uint64_t first, uint64_t second, uint64_t third) {
    return out[4 * side + 1] == answer && same_numbers(out + 4 * side + 2, first, second, third);
}

/* Whether the numbers are 0 from this one on. */
static int zeros_from(const uint64_t out[257], size_t first) {
    size_t k = first;
    while (k < 257 && out[k] == 0)
        k++;
    return k == 257;
}

static void known_sides(void) {
    const double tiny = 0x1p-1000, huge = 0x1p1000, tiny_ones[] = {0x1p-1000, 0x1p-1000}, both[] = {0x1p-1000, 1}, zeros[6] = {0};
    double b[6] = {1, 0, 0, 1, 5, 6}, solved[6] = {0, 1, 0, 0, 0, 6};
    uint64_t out[257];
    b[1] = b[2] = huge;
    expect(ran_many(2, tiny_ones, b, 2, 0, out) == 0 && out[0] == 9, "two sides, both refused");
    expect(side_is(out, 0, refusal(16, 9), 2, 2, 0) && side_is(out, 1, refusal(16, 4), 2, 1, 0) && zeros_from(out, 9), "16 of two sides");
    expect(same_values(c, zeros, 2) && same_values(many_y, zeros, 4) && same_values(many_x, zeros, 4), "the tables of two refused sides");
    b[1] = 1;
    solved[0] = 1 / tiny;
    solved[4] = 5 / tiny;
    expect(ran_many(3, both, b, 3, 0, out) == 0 && out[0] == 14, "three sides, one of them refused");
    expect(side_is(out, 0, 0, 0, 2, 0) && side_is(out, 1, refusal(16, 4), 2, 1, 0) && side_is(out, 2, 0, 0, 2, 0), "three answers");
    expect(zeros_from(out, 13) && same_values(c, both, 2) && c[2] == 7, "the numbers and C of three sides");
    expect(same_values(many_y, solved, 6) && same_values(many_x, solved, 6) && many_y[6] == 7 && many_x[6] == 7, "Y and X of three sides");
}

static void sixty_four_sides(void) {
    const double a[] = {2, 4}, singular[] = {2, 0.5};
    double b[130];
    uint64_t out[257];
    size_t k;
    for (k = 0; k < COUNT(b); k++)
        b[k] = (double)k;
    expect(ran_many(64, a, b, 64, 0.5, out) == 0 && out[0] == 14, "64 sides");
    for (k = 0; k < 64; k++)
        expect(side_is(out, k, 0, 0, 2, 0) && many_x[2 * k] == b[2 * k] / 2 && many_x[2 * k + 1] == b[2 * k + 1] / 4, "one of 64 sides");
    expect(many_y[128] == 7 && many_x[128] == 7, "values past 64 sides");
    expect(ran_many(64, singular, b, 64, 0.5, out) == 0 && out[0] == 7, "64 sides with a pivot within the limit");
    for (k = 0; k < 64; k++)
        expect(side_is(out, k, refusal(17, 7), 1, 2, 0), "17 of one of 64 sides");
    expect(c[0] == 0 && many_y[127] == 0 && many_x[127] == 0 && many_x[128] == 7, "the tables of 64 refused sides");
}

/* Whether a call was refused so, and left zeros in out and all else as it was. */
static int refused_many(uint64_t answer, uint32_t number, uint32_t detail, const uint64_t out[257]) {
    return answer == refusal(number, detail) && zeros_from(out, 0) && c[0] == 7 && many_y[0] == 7 && many_x[0] == 7;
}

static void refused_sides(void) {
    const uint32_t plan[] = {1, 2, 3, 4};
    const double a[] = {2, 4, 1, 4};
    double b[130] = {0}, infinite = 0x1p1000;
    uint64_t out[257], compiler[3];
    infinite *= infinite;
    b[5] = infinite;
    expect(refused_many(ran_many(0, a, b, 0, -1, out), 25, 0, out), "25, no side");
    expect(refused_many(ran_many(65, a, b, 65, -1, out), 25, 0, out), "25, 65 sides");
    expect(refused_many(ran_many(UINT32_MAX, a, b, 1, -1, out), 25, 0, out), "25 before 14");
    expect(refused_many(ran_many(3, a, b, 1, -1, out), 14, 0, out), "14, slices for one of three sides");
    expect(refused_many(ran_many(3, a, b, 3, -1, out), 15, 6, out), "15 before 21, in the third side");
    b[5] = 6;
    expect(refused_many(ran_many(3, a, b, 3, -1, out), 21, 0, out), "21 of three sides");
    dirty_many(out);
    expect(refused_many(crout_run_many(words, 59, 0, a, 2, b, 6, -1, c, 2, many_y, 6, many_x, 6, out), 7, 0, out), "7 before 25");
    expect(swept(plan, 4, 4, 36, compiler) == 0, "a sweep for many sides");
    dirty_many(out);
    expect(refused_many(crout_run_many(words, 36, 0, a, 4, b, 6, 0, c, 0, many_y, 0, many_x, 6, out), 8, 0, out), "8 of a sweep");
}

#endif
#if GROUPS >= 6

/* What the call returns for a plan and a program, with the work numbers full of sevens before it. */
static uint64_t compared(uint32_t n, const uint32_t *plan, size_t plan_len, size_t work_len, const uint32_t *program, size_t program_len) {
    size_t k;
    for (k = 0; k < COUNT(work); k++)
        work[k] = 7;
    return crout_compare(n, plan, plan_len, work, work_len, program, program_len);
}

/* The same for the plan of all labels of order n and a program of so many words, one of them changed. */
static uint64_t edited(uint32_t n, const uint32_t *program, size_t program_len, size_t at, uint32_t word) {
    const uint32_t plan[] = {1, 2, 3, 4};
    uint32_t copy[92];
    memcpy(copy, program, program_len * sizeof *program);
    copy[at] = word;
    return compared(n, plan, n * n, n * n, copy, program_len);
}

static int work_is(uint32_t first, uint32_t second, uint32_t third, uint32_t fourth) {
    return work[0] == first && work[1] == second && work[2] == third && work[3] == fourth && work[4] == 7;
}

static void compare(void) {
    const uint32_t spaced[] = {1, 1, 1, 2, 99, 99, 99, 99, 1, 1, 1, 3, 9, 0, 0, 4, 2, 1, 0, 5,
                               7, 1, 0, 6, 8, 0, 0, 7, 3, 1, 0, 8, 8, 0, 0, 0};
    const uint32_t longer[] = {1, 1, 1, 1, 1, 1, 1, 2, 9, 0, 0, 3, 2, 1, 0, 4, 7, 1, 0, 5,
                               8, 0, 0, 6, 3, 1, 0, 7, 8, 0, 0, 8, 1, 1, 1, 9, 9, 0, 0, 0};
    const uint32_t all[] = {1, 2, 3, 4}, pivots[] = {1, 4};
    uint64_t out[3];
    expect(compared(1, all, 1, 1, listing, 32) == 0 && work[0] == 1 && work[1] == 7, "the program of order 1 for its plan");
    expect(compared(1, all, 1, 1, spaced, 36) == 0, "E1, an unused record");
    expect(compared(1, all, 1, 1, longer, 40) == refusal(28, 8), "E2, records after the last");
    expect(edited(1, listing, 32, 8, 8) == refusal(28, 2) && work[0] == 1, "E3, another kind");
    expect(compiled(2, all, 4, 4, 92, out) == 0 && compared(2, all, 4, 5, words, 92) == 0 && work_is(1, 2, 3, 4), "a full table");
    expect(edited(2, words, 92, 49, 3) == refusal(28, 12) && edited(2, words, 92, 50, 2) == refusal(28, 12), "E3, another p or q");
    expect(compared(2, pivots, 2, 5, listing, 32) == refusal(28, 0) && work_is(1, 0, 0, 2), "E4 and E6, another order");
    expect(compacted(16, 60, out) == 0 && compared(2, pivots, 2, 5, words, 60) == refusal(28, 0), "E4, fewer slots");
    expect(compiled(2, all, 3, 4, 92, out) == 0 && compared(2, all, 4, 5, words, 92) == refusal(28, 0), "E4, another plan");
    expect(swept(all, 4, 4, 36, out) == 0 && compared(2, all, 4, 5, words, 36) == refusal(28, 0), "E4, a program of sweeps");
}

static void compare_refused(void) {
    const uint32_t all[] = {1, 2, 3, 4}, no_pivot[] = {2, 3}, twice[] = {1, 1}, five[] = {5};
    expect(compared(601, all, 1, 5, listing, 32) == refusal(1, 0) && work_is(7, 7, 7, 7), "1 of a plan beside a program");
    expect(compared(2, all, 4, 3, listing, 0) == refusal(2, 4) && work_is(7, 7, 7, 7), "2 before 7");
    expect(compared(2, five, 1, 5, listing, 32) == refusal(3, 1) && work_is(7, 7, 7, 7), "3 before 28");
    expect(compared(2, twice, 2, 5, listing, 32) == refusal(4, 2) && work_is(7, 7, 7, 7), "4 before 28");
    expect(compared(2, no_pivot, 2, 5, listing, 0) == refusal(5, 1) && work_is(0, 0, 0, 0), "E5 and E6, 5 before 7");
    expect(compared(1, all, 1, 1, listing, 0) == refusal(7, 0) && work[0] == 1 && work[1] == 7, "E5, no words");
    expect(edited(1, listing, 32, 23, 0) == refusal(13, 0) && work[0] == 1 && work[1] == 7, "E5, cut before x(1)");
    expect(edited(1, listing, 32, 0, 0) == refusal(8, 0) && edited(1, listing, 32, 17, 2) == refusal(12, 4), "8 and 12 before 28");
}

#endif
#if GROUPS >= 7

static uint32_t list[8];

/* What the call returns for place (i, j) of a plan and a list of so many entries, with work numbers, list and out full of sevens before. */
static uint64_t traced(uint32_t n, const uint32_t *plan, size_t plan_len, uint32_t i, uint32_t j, size_t work_len, size_t list_len,
                       uint64_t out[3]) {
    size_t k;
    sevens(out);
    for (k = 0; k < COUNT(list); k++)
        list[k] = 7;
    return crout_fill_path(n, plan, plan_len, i, j, work, work_len, list, list_len, out);
}

/* Whether the list begins with these entries and then has its sevens. */
static int list_is(const uint32_t *entries, size_t count) {
    size_t k;
    for (k = 0; k < COUNT(list); k++)
        if (list[k] != (k < count ? entries[k] : 7))
            return 0;
    return 1;
}

/* Whether a call was refused, and list and out are as they have to be then. */
static int untraced(uint64_t returned, uint32_t number, uint32_t detail, const uint64_t out[3]) {
    return returned == refusal(number, detail) && list_is(NULL, 0) && same_numbers(out, 0, 0, 0);
}

static void paths(void) {
    const uint32_t corner[] = {3, 4}, corner_path[] = {3, 1, 2}, slots[] = {0, 0, 1, 2, 0, 0, 3, 0, 0, 7};
    const uint32_t round[] = {4, 5, 11, 15}, round_path[] = {4, 1, 2, 3, 4};
    uint64_t out[3];
    expect(traced(3, corner, 2, 3, 2, 10, 5, out) == 0 && same_numbers(out, 3, 0, 0) && list_is(corner_path, 3), "F1, three entries");
    expect(memcmp(work, slots, sizeof slots) == 0, "F4, the slots after a path");
    expect(traced(4, round, 4, 4, 4, 16, 5, out) == 0 && same_numbers(out, 5, 0, 0) && list_is(round_path, 5), "F1, a way round");
    expect(untraced(traced(3, corner, 2, 2, 3, 10, 4, out), 22, 0, out), "F3, the wrong way round");
    expect(memcmp(work, slots, sizeof slots) == 0, "F4, the slots after 22");
    expect(untraced(traced(3, corner, 2, 3, 4, 10, 3, out), 22, 0, out), "F3, 22 for a place outside, before 23");
    expect(untraced(traced(3, corner, 2, 0, 0, 10, 0, out), 22, 0, out), "F3, no place and no list");
    expect(untraced(traced(3, corner, 2, 3, 2, 10, 3, out), 23, 0, out), "F3, a list of as many entries as the order");
    expect(memcmp(work, slots, sizeof slots) == 0, "F4, the slots after 23");
}

static void paths_refused(void) {
    const uint32_t all[] = {1, 2, 3, 4}, twice[] = {1, 1}, five[] = {5};
    uint64_t out[3];
    expect(untraced(traced(601, all, 1, 1, 1, 4, 8, out), 1, 0, out) && work_is(7, 7, 7, 7), "1 of a path");
    expect(untraced(traced(2, all, 4, 3, 3, 3, 0, out), 2, 4, out) && work_is(7, 7, 7, 7), "2 before 22 and 23");
    expect(untraced(traced(2, five, 1, 1, 1, 4, 8, out), 3, 1, out) && work_is(7, 7, 7, 7), "3 of a path");
    expect(untraced(traced(2, twice, 2, 1, 2, 4, 8, out), 4, 2, out) && work_is(7, 7, 7, 7), "4 before 22");
}

#endif
#if GROUPS >= 8

/* What the call returns for a plan of order 2, with the work numbers full of sevens before it. */
static uint64_t costed(uint32_t n, const uint32_t *plan, size_t plan_len, size_t work_len) {
    size_t k;
    for (k = 0; k < COUNT(work); k++)
        work[k] = 7;
    return crout_costs_most(n, plan, plan_len, work, work_len);
}

static void costs(void) {
    const uint32_t all[] = {1, 2, 3, 4}, sparse[] = {1, 2, 4}, no_pivot[] = {2, 3}, twice[] = {1, 1}, five[] = {5};
    expect(costed(2, all, 4, 5) == 1 && work_is(1, 2, 3, 4), "a full table");
    expect(costed(2, all, 3, 5) == 1 && work_is(1, 2, 3, 4), "D1 and D4, the first row and column");
    expect(costed(2, sparse, 3, 5) == 0 && work_is(1, 2, 0, 3), "D1, a place of the first row left out");
    expect(costed(1, all, 1, 1) == 1, "D1, order 1");
    expect(costed(2, no_pivot, 2, 5) == refusal(5, 1) && work_is(0, 0, 0, 0), "D2 and D4, without the first pivot");
    expect(costed(0, all, 0, 5) == refusal(1, 0) && work_is(7, 7, 7, 7), "1 of what a plan costs");
    expect(costed(2, five, 1, 3) == refusal(2, 4) && work_is(7, 7, 7, 7), "2 before 3");
    expect(costed(2, five, 1, 5) == refusal(3, 1) && work_is(7, 7, 7, 7), "3 before 5");
    expect(costed(2, twice, 2, 5) == refusal(4, 2) && work_is(7, 7, 7, 7), "4 before 5");
}

#endif
#if GROUPS >= 9

/* Whether order n is answered so, with these counts; they are sevens before the call. */
static int counted(uint32_t n, uint64_t answer, uint64_t accepted, uint64_t m1, uint64_t m2, uint64_t m3, uint64_t m4) {
    uint64_t out[5] = {7, 7, 7, 7, 7};
    return crout_count_plans(n, out) == answer && out[0] == accepted && out[1] == m1 && out[2] == m2 && out[3] == m3 && out[4] == m4;
}

static void counts(void) {
    expect(counted(1, 0, 1, 1, 0, 0, 0), "H1, order 1");
    expect(counted(2, 0, 5, 8, 3, 0, 0), "H1, order 2");
    expect(counted(3, 0, 121, 256, 96, 39, 0), "H1, order 3");
    expect(counted(0, refusal(30, 0), 0, 0, 0, 0, 0), "H2, order 0");
    expect(counted(5, refusal(30, 0), 0, 0, 0, 0, 0), "H2, order 5");
    expect(counted(4294967295u, refusal(30, 0), 0, 0, 0, 0, 0), "30 for the largest number");
}

#endif
#if GROUPS >= 10

static uint32_t numbering[8];

/* What the call returns for a plan and a numbering of so many entries, with work numbers, numbering and out full of sevens before. */
static uint64_t ordered(uint32_t n, const uint32_t *plan, size_t plan_len, uint32_t trials, size_t work_len, size_t numbering_len,
                        uint64_t out[3]) {
    size_t k;
    sevens(out);
    for (k = 0; k < COUNT(numbering); k++)
        numbering[k] = 7;
    return crout_order(n, plan, plan_len, trials, work, work_len, numbering, numbering_len, out);
}

/* Whether the numbering has these entries and then its sevens. */
static int numbering_is(const uint32_t *entries, size_t count) {
    size_t k;
    for (k = 0; k < COUNT(numbering); k++)
        if (numbering[k] != (k < count ? entries[k] : 7))
            return 0;
    return 1;
}

/* Whether a call was refused, and numbering and out are as they have to be then. */
static int unordered(uint64_t returned, uint32_t number, uint32_t detail, const uint64_t out[3]) {
    return returned == refusal(number, detail) && numbering_is(NULL, 0) && same_numbers(out, 0, 0, 0);
}

static void numberings(void) {
    const uint32_t star[] = {1, 2, 3, 4, 5, 6, 7, 8, 13, 16}, given[] = {1, 2, 3, 4}, once[] = {2, 1, 3, 4}, twice[] = {2, 3, 1, 4};
    const uint32_t slots_once[] = {1, 2, 0, 0, 3, 0, 0, 4, 5, 6, 7, 8, 9, 10, 11, 12, 7};
    const uint32_t slots_twice[] = {1, 0, 2, 0, 0, 3, 0, 4, 5, 0, 6, 0, 7, 8, 9, 10, 7};
    uint64_t out[3];
    expect(ordered(4, star, 10, 2, 17, 4, out) == 0 && same_numbers(out, 10, 2, 0) && numbering_is(twice, 4), "R1, two trials");
    expect(memcmp(work, slots_twice, sizeof slots_twice) == 0, "R4, the slots after two trials");
    expect(ordered(4, star, 10, 1, 17, 4, out) == 0 && same_numbers(out, 12, 1, 2) && numbering_is(once, 4), "R1, one trial");
    expect(memcmp(work, slots_once, sizeof slots_once) == 0, "R4, the slots after one trial");
    expect(ordered(4, star, 10, 0, 17, 4, out) == 0 && same_numbers(out, 16, 0, 6) && numbering_is(given, 4), "no trial");
    expect(ordered(4, star, 10, 1000, 17, 4, out) == 0 && same_numbers(out, 10, 1000, 0) && numbering_is(twice, 4), "1000 trials");
    expect(memcmp(work, slots_twice, sizeof slots_twice) == 0, "the slots after 1000 trials");
    expect(ordered(2, given, 3, 5, 5, 2, out) == 0 && same_numbers(out, 4, 5, 1) && numbering_is(given, 2), "R2, a pivot that is fill");
    expect(work_is(1, 2, 3, 4), "R4, the slots where no exchange is kept");
    expect(ordered(1, given, 1, 7, 1, 1, out) == 0 && same_numbers(out, 1, 0, 0) && numbering_is(given, 1), "R3, order 1");
    expect(work[0] == 1 && work[1] == 7, "the slot of order 1");
}

static void numberings_refused(void) {
    const uint32_t all[] = {1, 2, 3, 4}, sparse[] = {1, 2, 4}, no_pivot[] = {2, 3}, twice[] = {1, 1}, five[] = {5};
    uint64_t out[3];
    expect(unordered(ordered(601, all, 1, 5, 5, 2, out), 1, 0, out) && work_is(7, 7, 7, 7), "1 of a numbering");
    expect(unordered(ordered(2, five, 1, 5, 3, 3, out), 2, 4, out) && work_is(7, 7, 7, 7), "2 before 3");
    expect(unordered(ordered(2, five, 1, 5, 5, 3, out), 3, 1, out) && work_is(7, 7, 7, 7), "3 before 29");
    expect(unordered(ordered(2, twice, 2, 5, 5, 3, out), 4, 2, out) && work_is(7, 7, 7, 7), "4 before 29");
    expect(unordered(ordered(2, no_pivot, 2, 5, 5, 2, out), 5, 1, out) && work_is(0, 0, 0, 0), "R4, without the first pivot");
    expect(unordered(ordered(2, no_pivot, 2, 5, 5, 3, out), 5, 1, out) && work_is(0, 0, 0, 0), "R3, 5 before 29");
    expect(unordered(ordered(2, all, 3, 5, 5, 3, out), 29, 0, out) && work_is(1, 2, 3, 4), "R3 and R4, an entry too many");
    expect(unordered(ordered(2, sparse, 3, 5, 5, 1, out), 29, 0, out) && work_is(1, 2, 0, 3), "29, an entry too few");
    expect(unordered(ordered(1, all, 1, 0, 1, 0, out), 29, 0, out) && work[0] == 1 && work[1] == 7, "29, no entries");
}

#endif
#if GROUPS >= 11

static uint64_t left[140];

/* What the call returns for a plan of at most order 2 and so many words, with the words full of sevens before it. */
static uint64_t left_over(uint32_t n, const uint32_t *plan, size_t plan_len, const double *a, const double *b, const double *given_x,
                          size_t words_len) {
    size_t k;
    for (k = 0; k < COUNT(left); k++)
        left[k] = 7;
    return crout_residual(n, plan, plan_len, a, plan_len, b, n, given_x, n, left, words_len);
}

/* Whether the words from the given one on are a row: zeros below word at, this word there, and all above it alike. */
static int row_is(size_t from, size_t at, uint64_t word, uint64_t above) {
    size_t k;
    for (k = 0; k < 66; k++)
        if (left[from + k] != (k < at ? 0 : k == at ? word : above))
            return 0;
    return 1;
}

/* Whether the words from the given one on have their sevens. */
static int sevens_from(size_t from) {
    size_t k;
    for (k = from; k < COUNT(left); k++)
        if (left[k] != 7)
            return 0;
    return 1;
}

static void leftovers(void) {
    const uint32_t plan[] = {2, 3}, full[] = {1, 2, 3, 4};
    const double a[] = {1, 3}, b[] = {5, 7}, two_four[] = {2, 4};
    const double v1_a[] = {2, 4, 1, 4}, v1_b[] = {4, 12}, v1_x[] = {1, 2}, printed[] = {1 + 0x1p-52, 2};
    const double half = 0.5, zero = 0, one = 1, smallest = 0x1p-1074, least_normal = 0x1p-1022, largest = 0x1.fffffffffffffp1023;
    const uint32_t first_row[] = {1, 3};
    const double there_and_back[] = {0x1p-1074, -0x1p-1074}, zeros[] = {0, -0.0}, tiny[] = {0x1p-1074, 0x1p-1074};
    expect(left_over(1, full, 1, &half, &zero, &one, 66) == 0 && row_is(0, 33, 0xfffffff800000000u, UINT64_MAX), "less a half");
    expect(sevens_from(66), "the words past a row");
    expect(left_over(1, full, 1, &smallest, &zero, &smallest, 66) == 0 && row_is(0, 0, UINT64_MAX, UINT64_MAX), "less the smallest");
    expect(left_over(1, full, 1, &least_normal, &zero, &one, 66) == 0 && row_is(0, 17, (uint64_t)-1 << 38, UINT64_MAX), "less 2^-1022");
    expect(left_over(2, first_row, 2, there_and_back, zeros, tiny, 132) == 0 && row_is(0, 0, 0, 0) && row_is(66, 0, 0, 0), "-1 and back");
    expect(left_over(2, plan, 2, a, b, two_four, 132) == 0 && row_is(0, 33, 0xffffff9000000000u, UINT64_MAX), "two rows, the first");
    expect(row_is(66, 33, 0x5000000000u, 0) && sevens_from(132), "two rows, the second");
    expect(left_over(2, full, 4, v1_a, v1_b, v1_x, 132) == 0 && row_is(0, 0, 0, 0) && row_is(66, 0, 0, 0), "an exact solution");
    expect(left_over(2, full, 4, v1_a, v1_b, printed, 132) == 0 && row_is(0, 32, (uint64_t)-1 << 49, UINT64_MAX), "a printed one, row 1");
    expect(row_is(66, 32, (uint64_t)-1 << 50, UINT64_MAX), "a printed one, row 2");
    expect(left_over(1, full, 1, &largest, &largest, &one, 66) == 0 && row_is(0, 0, 0, 0), "the largest, cancelled");
    expect(left_over(1, full, 0, a, &one, &largest, 66) == 0 && row_is(0, 33, (uint64_t)1 << 36, 0), "a row without places");
}

static void leftovers_refused(void) {
    const uint32_t all[] = {1, 2, 3, 4}, twice[] = {1, 1}, five[] = {5};
    const double ones[] = {1, 1, 1, 1};
    double wrong[] = {1, 0x1p1000, 1, 1};
    wrong[1] *= wrong[1];
    expect(left_over(0, all, 0, ones, ones, ones, 0) == refusal(1, 0) && sevens_from(0), "1 of what is left over, order 0");
    expect(left_over(601, all, 4, wrong, wrong, wrong, 132) == refusal(1, 0) && sevens_from(0), "1 of what is left over, order 601");
    expect(left_over(2, five, 1, ones, wrong, ones, 131) == refusal(3, 1) && sevens_from(0), "3 before 15 and 24");
    expect(left_over(2, twice, 2, ones, wrong, ones, 131) == refusal(4, 2) && sevens_from(0), "4 before 15 and 24");
    expect(crout_residual(2, all, 4, wrong, 3, ones, 2, ones, 2, left, 132) == refusal(14, 0) && sevens_from(0), "14, a");
    expect(crout_residual(2, all, 4, wrong, 4, ones, 3, ones, 2, left, 132) == refusal(14, 0) && sevens_from(0), "14, b");
    expect(crout_residual(2, all, 4, wrong, 4, ones, 2, ones, 1, left, 131) == refusal(14, 0) && sevens_from(0), "14, x");
    expect(left_over(2, all, 4, wrong, wrong + 1, wrong + 1, 131) == refusal(15, 2) && sevens_from(0), "15, a before b and x");
    expect(left_over(2, all, 4, ones, wrong, wrong + 1, 131) == refusal(15, 2) && sevens_from(0), "15, b before x");
    expect(left_over(2, all, 4, ones, ones, wrong + 1, 131) == refusal(15, 1) && sevens_from(0), "15, x before 24");
    expect(left_over(2, all, 4, ones, ones, ones, 131) == refusal(24, 0) && sevens_from(0), "24, a word too few");
    expect(left_over(2, all, 4, ones, ones, ones, 133) == refusal(24, 0) && sevens_from(0), "24, a word too many");
    expect(left_over(1, all, 1, ones, ones, ones, 0) == refusal(24, 0) && sevens_from(0), "24, no words");
}

#endif

int main(void) {
    labels();
#if GROUPS >= 2
    compile();
    compact();
    sweep();
#endif
#if GROUPS >= 3
    written();
    read_back();
    checked();
#endif
#if GROUPS >= 4
    run();
    limits();
    vanished();
    ran_compact();
    ran_sweeps();
    document_002();
#endif
#if GROUPS >= 5
    known_sides();
    sixty_four_sides();
    refused_sides();
#endif
#if GROUPS >= 6
    compare();
    compare_refused();
#endif
#if GROUPS >= 7
    paths();
    paths_refused();
#endif
#if GROUPS >= 8
    costs();
#endif
#if GROUPS >= 9
    counts();
#endif
#if GROUPS >= 10
    numberings();
    numberings_refused();
#endif
#if GROUPS >= 11
    leftovers();
    leftovers_refused();
#endif
    return 0;
}
