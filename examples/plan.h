/* A text's plan as the library takes it, and what the library says of it. */
#ifndef PLAN_H
#define PLAN_H

#include "plan_text.h"

#include <stdio.h>

struct plan {
    uint32_t order;
    size_t count;
    uint32_t *labels; /* rising */
    size_t *from;     /* the coefficient of labels[k] is the text's from[k], counted from 0 */
    uint32_t *slots;  /* the library's work slice: the slot of label K is slots[K - 1], 0 if the place isn't held */
    uint32_t *words;  /* the program, once it is compiled */
    uint64_t held;
    uint64_t products;
    uint64_t records;
};

/* The places of a text, sorted; the rest is still to be asked for. */
struct plan plan_of_text(const struct plan_text *text);

void plan_free(struct plan *plan);

/* Asks the compiler for slots, held and records, and not yet for a program; counts the products. Returns 0 or the refusal. */
uint64_t plan_measure(struct plan *plan);

/* Compiles a plan that was measured: words, and the products that the compiler tells. Returns 0 or the refusal. */
uint64_t plan_compile(struct plan *plan);

/* The label that has a slot; 0 if none has. */
uint32_t plan_label_of_slot(const struct plan *plan, uint64_t slot);

/* Says a refusal in words, as one line. */
void say_refusal(FILE *file, uint64_t answer);

/* Row and column in what crout_place returns. */
uint32_t row_of(uint32_t place);
uint32_t column_of(uint32_t place);

#endif
