/* A plan and sets of values as a text:

       order 2                     first: how many unknowns
       place 1 1  2 1              places that may be nonzero, each as row and column; any number to a line
       labels 4                    or by their labels; both may be mixed, in any order
       values NAME                 then any number of sets, each with a name of one word
       2 4 0                       a coefficient for each place, in the order in which the text names the places
       right
       4 12                        the right side, one number for each row
       limit 1e-9                  only if small pivots are to be refused: up to which size
       expect 17                   only if the set is to be refused: by which number

   What follows a # on a line is a comment. Numbers may stand on as many lines as one likes; what values and right begin, the next
   word that begins a line ends. */
#ifndef PLAN_TEXT_H
#define PLAN_TEXT_H

#include <stddef.h>
#include <stdint.h>

struct numbers {
    double *entries;
    size_t count;
};

struct value_set {
    const char *name;
    size_t line;                 /* where it begins */
    struct numbers coefficients; /* in the text's order, as many as there are places */
    struct numbers right;        /* as many as the order says */
    double limit;                /* the size up to which pivots are refused, or 0 */
    uint32_t expected;           /* the refusal that is wanted, or 0 */
};

struct plan_text {
    uint32_t order;
    uint32_t *labels; /* in the text's order; all are in the table, but one may stand there twice */
    size_t label_count;
    struct value_set *sets;
    size_t set_count;
    char *bytes; /* the text itself, where the names stand */
};

/* Reads a text. A bad line is reported with its number; the answer is then 0 and there is nothing to free. */
int plan_text_read(const char *path, struct plan_text *text);

void plan_text_free(struct plan_text *text);

#endif
