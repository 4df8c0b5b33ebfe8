/* Reduced Crout for C: a plan is compiled to a program, and a program is run on coefficients.

   Documents 01 and 02 in the comments are docs/SCOPE.md, what the package is proved against. Every function answers on every input and
   writes only into what it is lent. A pointer is followed by the number of its entries; the slices of one call don't overlap, and a
   slice of no entries still has a pointer that isn't null.

   A call that can refuse returns 0, or the refusal's number times 2^32 plus its detail, and puts its further numbers into out,
   three of them, four where a limit is taken, five for the counts of plans, 257 for many right sides, zeros where none is named.
   crout_refusal and crout_detail split what was returned, crout_refusal_text says it.

   The header is C99 and C++. examples/ has programs that call it. */
#ifndef CROUT_H
#define CROUT_H

#include <stddef.h>
#include <stdint.h>

#ifdef __cplusplus
extern "C" {
#endif

/* The refusals, numbered as in documents 01 and 02. The comment is the detail; where there is none, the detail is 0. */
enum crout_refusal_number {
    CROUT_ORDER = 1,
    CROUT_WORK_SHORT = 2,    /* the numbers needed, n * n, or 4 * n * n for crout_compile_compact */
    CROUT_LABEL_RANGE = 3,   /* the label's position in the plan, from 1 */
    CROUT_LABEL_TURN = 4,    /* the label's position in the plan, from 1 */
    CROUT_PIVOT_MISSING = 5, /* the smallest m whose pivot (m, m) is missing */
    CROUT_WORDS_SHORT = 6,   /* the records; each needs four words */
    CROUT_WORD_COUNT = 7,
    CROUT_HEAD = 8,
    CROUT_NEXT = 9,          /* the record */
    CROUT_KIND = 10,         /* the record */
    CROUT_OPEN = 11,         /* the record */
    CROUT_OPERAND = 12,      /* the record */
    CROUT_UNFINISHED = 13,
    CROUT_LENGTHS = 14,
    CROUT_NOT_FINITE = 15,   /* the position, from 1, in a, if all of a is finite in b, if all of b is too in a given x */
    CROUT_OVERFLOW = 16,     /* the record */
    CROUT_ZERO = 17,         /* the record */
    CROUT_FILE_BYTES = 18,
    CROUT_OUTPUT_SHORT = 19, /* the entries needed */
    CROUT_LISTING_TEXT = 20, /* the listing program's alone: the position in its input, in bytes from 1 */
    CROUT_LIMIT = 21,
    CROUT_NOT_HELD = 22,
    CROUT_LIST_SHORT = 23,
    CROUT_REMAINDER = 24,
    CROUT_SIDES = 25,
    CROUT_DIAGONAL_MISSING = 26, /* the first row r whose place (r, r) is not in the plan */
    CROUT_UNSETTLED = 27,
    CROUT_DIFFERENT = 28,    /* the first chained record that is not the compiler's, the last one if the chain ends too soon;
                                0 if record 0 has another order or other counts */
    CROUT_NUMBERING = 29,
    CROUT_NOT_COUNTED = 30
};

/* The refusal's number in what a call returned, 0 if it didn't refuse. */
static inline uint32_t crout_refusal(uint64_t answer) {
    return (uint32_t)(answer >> 32);
}

/* The refusal's detail. One alone can pass 32 bits and so go over into the number: the words that crout_read needs for a file of
   16 GiB or more. */
static inline uint32_t crout_detail(uint64_t answer) {
    return (uint32_t)(answer & 0xffffffffu);
}

/* What a refusal's number means and what to do about it, as one sentence with no full stop. Every number has one. */
static inline const char *crout_refusal_text(uint32_t number) {
    switch (number) {
    case 0:
        return "not refused: the call did what it was asked";
    case CROUT_ORDER:
        return "the order is outside 1 to 600: give an order in that range";
    case CROUT_WORK_SHORT:
        return "the work slice is too short: lend as many numbers as the detail says";
    case CROUT_LABEL_RANGE:
        return "a label is not in the table of this order: correct the one at the position that the detail gives";
    case CROUT_LABEL_TURN:
        return "a label is not above the one before it: sort the plan and name each place once; the detail is the position";
    case CROUT_PIVOT_MISSING:
        return "a pivot is missing, so no coefficients can be solved: put the place (m, m) into the plan, m being the detail, "
               "or number the unknowns otherwise";
    case CROUT_WORDS_SHORT:
        return "the word slice is too short: lend four words for each record, as many records as the detail says";
    case CROUT_WORD_COUNT:
        return "there are no words, or their count is not a multiple of four or is above 400,000,000: "
               "the program is cut off or is none; fetch it or compile the plan again";
    case CROUT_HEAD:
        return "record 0 has an order, a count of coefficients or a count of slots out of range: "
               "the program is damaged or is none; fetch it or compile the plan again";
    case CROUT_NEXT:
        return "a record's next does not lead onward within the program: the program is damaged; fetch it or compile the plan again";
    case CROUT_KIND:
        return "a record's kind is unknown, or one for sweeps where there are slots or for Crout where there are none, "
               "or an operand that its kind does not use is not 0: "
               "the program is damaged or from another compiler; compile the plan again";
    case CROUT_OPEN:
        return "a record opens an entry while one is open, or works on one while none or one of the wrong table is: "
               "the program is damaged or from another compiler; compile the plan again";
    case CROUT_OPERAND:
        return "a record reads an entry that is out of range or not closed, or opens one out of turn: "
               "the program is damaged or from another compiler; compile the plan again";
    case CROUT_UNFINISHED:
        return "the program ends with an entry open or before all of C, Y and X are closed: "
               "the program is cut off or damaged; fetch it or compile the plan again";
    case CROUT_LENGTHS:
        return "a slice has not the length that the program or the plan wants: for a run "
               "lend a, b, c, y and x with as many entries as words 1, 0, 2, 0 and 0 say, and y with none if word 2 is 0; "
               "for many right sides b, y and x with so many for each; "
               "for what is left over a with as many as the plan has labels, b and x with as many as the order";
    case CROUT_NOT_FINITE:
        return "a coefficient, a right side or an entry of a given x is infinite or not a number: "
               "correct the one at the position that the detail gives, in a, if all of a is finite in b, if all of b is too in x";
    case CROUT_OVERFLOW:
        return "a result is too large for a double: scale the equations, or if sweeps move ever further run the Crout program; "
               "the detail is the record";
    case CROUT_ZERO:
        return "a pivot is zero or within the run's limit, or a divisor is zero, so these coefficients have no solution "
               "that can be relied on in this order: correct them or number the unknowns otherwise; the detail is the record";
    case CROUT_FILE_BYTES:
        return "the byte count is not a multiple of four: the file is cut off or is no program; fetch it again";
    case CROUT_OUTPUT_SHORT:
        return "the output slice is too short: lend as many entries as the detail says";
    case CROUT_LISTING_TEXT:
        return "the listing program's input is bad: correct it at the byte position that the detail gives";
    case CROUT_LIMIT:
        return "the limit for pivots, or a sweep's tolerance, is negative, infinite or not a number: "
               "give 0, or the size up to which a pivot counts as zero or an entry as settled";
    case CROUT_NOT_HELD:
        return "the place is not held or lies outside the table, so no path leads from its row to its column: "
               "ask for a place that has a slot";
    case CROUT_LIST_SHORT:
        return "the list for a path is too short: lend one entry more than the order";
    case CROUT_REMAINDER:
        return "the slice for what is left over has fewer or more than 66 words for each row: lend exactly 66 times the order";
    case CROUT_SIDES:
        return "the number of right sides is outside 1 to 64: run them in calls of at most 64";
    case CROUT_DIAGONAL_MISSING:
        return "a row has no diagonal coefficient, so it cannot be swept: put the place (r, r) into the plan, r being the detail, "
               "or compile the plan for Crout";
    case CROUT_UNSETTLED:
        return "300 sweeps did not settle, and x holds the last of them: run the Crout program of the plan, or give a larger tolerance";
    case CROUT_DIFFERENT:
        return "the program's chain is not the compiler's for this plan: undo the edit at the record that the detail gives; "
               "0 means another order or other counts of coefficients or slots, so give the plan that the program was compiled for";
    case CROUT_NUMBERING:
        return "the numbering has fewer or more entries than the order: lend exactly as many";
    case CROUT_NOT_COUNTED:
        return "plans are counted for the orders 1 to 4 alone: give one of these";
    default:
        return "no refusal has this number: what was split is not what a call returned, or a detail has passed 32 bits";
    }
}

/* The label of row i, column j in a table of order n; 0 if any of the three is out of range.
   The order is 1 to 600, row and column are 1 to n. */
uint32_t crout_label(uint32_t n, uint32_t i, uint32_t j);

/* The place of a label in a table of order n as 1024 * row + column; 0 if the order or the
   label is out of range. Labels are 1 to n * n. */
uint32_t crout_place(uint32_t n, uint32_t label);

/* Compiles a plan of order n: strictly rising labels. work is at least n * n numbers, words at least four times the records.
   out: slots, products, records. The program is the first 4 * records words. Refusals 1 to 6. */
uint64_t crout_compile(uint32_t n, const uint32_t *plan, size_t plan_len, uint32_t *work, size_t work_len,
                       uint32_t *words, size_t words_len, uint64_t out[3]);

/* Compiles a plan to a program with fewer slots: a slot is used again once its value has been read for the last time. A run gives the
   same y and x, c holds what each slot took last, and a refusal's number in C is a slot's. work is at least 4 * n * n numbers: the first
   n * n end as crout_compile leaves them, the others as 0. words and out as crout_compile's. Refusals 1 to 6. */
uint64_t crout_compile_compact(uint32_t n, const uint32_t *plan, size_t plan_len, uint32_t *work, size_t work_len,
                               uint32_t *words, size_t words_len, uint64_t out[3]);

/* Compiles a plan to a program of Gauss-Seidel sweeps, which has a record for each place and no slots. Row r starts from b(r), subtracts
   a times x for the other places of the row, columns rising, and divides by the coefficient of (r, r), which the plan has to have. work
   is at least n * n numbers, and number K ends as the position of label K in the plan, from 1, or 0 if it is not there; after 26 they are
   all 0. words is at least four times the records. out: 0, the products of one sweep, records. Refusals 1 to 4, 26, 6. */
uint64_t crout_compile_sweep(uint32_t n, const uint32_t *plan, size_t plan_len, uint32_t *work, size_t work_len,
                             uint32_t *words, size_t words_len, uint64_t out[3]);

/* Checks a program file's bytes where they lie, and keeps no copy of them: 18, then 7 to 13. */
uint64_t crout_check(const uint8_t *file, size_t file_len);

/* Whether a program is the one that crout_compile writes for a plan of order n, but for unused records put between its own, round which
   the chain leads. Then it runs as that one does, but for the place of the record that a refusal names. work is at least n * n numbers:
   1 to 4 leave it unchanged, after 5 its first n * n numbers are 0, else they are the plan's slots, as crout_compile leaves them.
   Refusals 1 to 5, 7 to 13, 28. */
uint64_t crout_compare(uint32_t n, const uint32_t *plan, size_t plan_len, uint32_t *work, size_t work_len,
                       const uint32_t *words, size_t words_len);

/* Why place (i, j) of a plan of order n is held, also where a pivot is missing: a list of unknowns from i to j, at least two entries. Each
   pair of neighbours in it, the row first, is a place of the plan, each entry between the ends is below both i and j, and none is there
   twice, except i as j. list is at least n + 1 entries; those past the path, and after a refusal all, keep their content. work is at least
   n * n numbers: 1 to 4 leave it unchanged, else number K ends as the slot of label K, or 0 if it is not held, also after 22 and 23. So a
   call for place (0, 0) with a list of no entries gives the slots of a plan that misses a pivot.
   out: the entries, 0, 0. Refusals 1 to 4, 22, 23. */
uint64_t crout_fill_path(uint32_t n, const uint32_t *plan, size_t plan_len, uint32_t i, uint32_t j, uint32_t *work, size_t work_len,
                         uint32_t *list, size_t list_len, uint64_t out[3]);

/* Whether a plan of order n costs as many products as a full table, n (n - 1)(2 n - 1) / 6 + n (n - 1) of them: 1 if it does, 0 if not. No
   plan of the order has more, and one that is accepted has as many exactly when its first row and its first column are whole. work is at
   least n * n numbers: 1 to 4 leave it unchanged, after 5 its first n * n numbers are 0, else they are the plan's slots. Refusals 1 to 5. */
uint64_t crout_costs_most(uint32_t n, const uint32_t *plan, size_t plan_len, uint32_t *work, size_t work_len);

/* Counts the plans of order n, 1 to 4, that is all sets of its labels. out: those that are accepted, then those that are refused for
   missing pivot m = 1, 2, 3 and 4; zeros for m above n. For another order 30, and all zeros. */
uint64_t crout_count_plans(uint32_t n, uint64_t out[5]);

/* Numbers the unknowns of a plan of order n otherwise, so that it needs fewer slots. Trial k = 0, 1, .. exchanges those at positions t and
   t + 1, t = 1 + k mod (n - 1), and keeps the exchange if the plan is still accepted and has fewer slots than with the numbering kept so
   far. All trials are made, for order 1 none. numbering has n entries, and entry p ends as the given number of the unknown now at position
   p, both from 1: the renumbered plan has the place (i, j) exactly where the given plan has (entry i, entry j). A refusal leaves numbering
   unchanged. work is at least n * n numbers: 1 to 4 leave it unchanged, after 5 its first n * n numbers are 0, after 29 they are the given
   plan's slots, else those of the renumbered plan.
   out: the slots of the renumbered plan, the trials made, the slots less plan_len, and no numbering at all saves more than these.
   Refusals 1 to 5, 29. */
uint64_t crout_order(uint32_t n, const uint32_t *plan, size_t plan_len, uint32_t trials, uint32_t *work, size_t work_len,
                     uint32_t *numbering, size_t numbering_len, uint64_t out[3]);

/* What is left over of each row of a plan of order n, exactly: b(r) minus the sum of a times x over the plan's places of row r, times
   2^2148, which makes it a whole number. a has plan_len entries, b and x have n, and x is any finite numbers; no pivot is required. words
   has 66 * n words: those of row r are words[66 * (r - 1)] and the 65 after it, two's complement, low word first, so that the number is
   zero where all 66 are and negative where the last one's top bit is set. It always fits. A refusal leaves words unchanged.
   Refusals 1, 3, 4, 14, 15, 24. */
uint64_t crout_residual(uint32_t n, const uint32_t *plan, size_t plan_len, const double *a, size_t a_len, const double *b, size_t b_len,
                        const double *x, size_t x_len, uint64_t *words, size_t words_len);

/* Writes words as a program file. out: bytes written, 0, 0. Refusals 7 and 19. */
uint64_t crout_write(const uint32_t *words, size_t words_len, uint8_t *bytes, size_t bytes_len, uint64_t out[3]);

/* Reads a program file into words, each straight from its four bytes: no copy is kept between. out: words written, 0, 0. Refusals 18
   and 19. */
uint64_t crout_read(const uint8_t *bytes, size_t bytes_len, uint32_t *words, size_t words_len, uint64_t out[3]);

/* Runs a program on coefficients a and a right side b. c, y and x take the tables and the solution. A pivot l is refused by 17
   where -limit <= l <= limit; 0 refuses zero alone.
   out: products, quotients, products that vanished, sweeps, 0 of them for Crout; after 16 and 17 the table (1 for C, 2 for Y, 3 for X),
   the target's number, 0, 0; the detail is then the record. A product vanishes where it is zero and neither of its factors is: if any
   did, a zero in x may be a number too small for a double, and scaled equations may show it.
   A program of sweeps, whose words[2] is 0, starts x at 0 and sweeps until no entry moves by more than limit, which is its tolerance, at
   most 300 times. It has no c and no y: their lengths are 0, and their pointers any that aren't null, x itself if one likes. What out
   counts is of all sweeps together. 27 leaves the last sweep in x. Refusals 7 to 17, 21 and 27. */
uint64_t crout_run_limit(const uint32_t *words, size_t words_len, const double *a, size_t a_len, const double *b, size_t b_len,
                         double limit, double *c, size_t c_len, double *y, size_t y_len, double *x, size_t x_len, uint64_t out[4]);

/* The same with limit 0, with which a sweep settles if it moves no entry at all. out: products, quotients, 0; after 16 and 17 the table,
   the target's number, 0. Refusals 7 to 17, and 27 for sweeps. */
uint64_t crout_run(const uint32_t *words, size_t words_len, const double *a, size_t a_len, const double *b, size_t b_len,
                   double *c, size_t c_len, double *y, size_t y_len, double *x, size_t x_len, uint64_t out[3]);

/* Runs a Crout program on coefficients a and on count right sides, 1 to 64, in one pass along its records: b, y and x have the sides'
   parts one after another, n entries each, c is shared. Each side ends as crout_run_limit would end it alone, and a refusal ends no
   side but its own.
   out: the records read, all of the chain if a side is solved, else up to the last one that refused a side, record 0 not counted;
   then four numbers for each side, its answer and its numbers: 0, products, quotients, products that vanished, or 16 or 17 times 2^32
   plus the record, the table, the target's number, 0; zeros for the sides past count. A side that is refused has its parts of y and x
   set to 0; c holds its values if a side is solved, else 0.
   What is returned is the call's own answer: 0 if the sides were run, also if all of them are refused; else 7 to 13, 8 for a program
   of sweeps too, 25, 14, 15 with the position in the whole of a or of b, or 21. */
uint64_t crout_run_many(const uint32_t *words, size_t words_len, uint32_t count, const double *a, size_t a_len, const double *b,
                        size_t b_len, double limit, double *c, size_t c_len, double *y, size_t y_len, double *x, size_t x_len,
                        uint64_t out[257]);

/* Compiles a plan and runs the program: crout_compile, then crout_run_limit on the program's words. Refusals 1 to 6, 14 to 17 and 21;
   out as crout_run_limit's. */
uint64_t crout_solve_limit(uint32_t n, const uint32_t *plan, size_t plan_len, const double *a, size_t a_len, const double *b,
                           size_t b_len, double limit, uint32_t *work, size_t work_len, uint32_t *words, size_t words_len,
                           double *c, size_t c_len, double *y, size_t y_len, double *x, size_t x_len, uint64_t out[4]);

/* The same with limit 0. Refusals 1 to 6, 14 to 17; out as crout_run's. */
uint64_t crout_solve(uint32_t n, const uint32_t *plan, size_t plan_len, const double *a, size_t a_len, const double *b, size_t b_len,
                     uint32_t *work, size_t work_len, uint32_t *words, size_t words_len,
                     double *c, size_t c_len, double *y, size_t y_len, double *x, size_t x_len, uint64_t out[3]);

#ifdef __cplusplus
}
#endif

#endif
