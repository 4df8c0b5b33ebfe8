/* A plan's solution, and what is left over of it, exactly: the numbers of crout_residual as doubles and as decimal numbers. */
#ifndef EXACT_H
#define EXACT_H

#include "plan.h"

/* A row's number has so many words, low word first, in two's complement, and stands for itself times 2^-2148. */
enum { EXACT_WORDS = 66 };

/* Runs the program of a compiled plan. Returns 0 or the refusal. */
uint64_t exact_solve(const struct plan *plan, const double *a, const double *b, double limit, double *x);

/* b - A x: EXACT_WORDS words for each row. Returns 0 or the refusal. */
uint64_t exact_miss(const struct plan *plan, const double *a, const double *b, const double *x, uint64_t *words);

/* The nearest double, of two the even one; infinite if it is too large for a double. */
double exact_rounded(const uint64_t words[EXACT_WORDS]);

/* The same of how many units in the last place of a finite double it is. */
double exact_units(const uint64_t words[EXACT_WORDS], double of);

/* Prints the number as a decimal one with an exponent, rounded to nine digits. The digits come from the words themselves, by long
   division and multiplication, so they are right also where no double is as large or as small. */
void exact_print(const uint64_t words[EXACT_WORDS]);

#endif
