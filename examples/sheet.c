/* A worked caller of the library:

       sheet FILE.txt PROGRAM.crout

   reads a plan and sets of values (the text is described in plan_text.h), compiles the plan and writes the program to
   PROGRAM.crout. Then it does what another machine does that gets no more than this file and the values: it reads the file back,
   checks it, and runs it on every set.

   The status is 0 if every set was solved, or refused by the number that the text expects of it. */
#include "basics.h"
#include "crout.h"
#include "plan.h"
#include "plan_text.h"

#include <inttypes.h>
#include <stdio.h>
#include <stdlib.h>

struct program {
    uint32_t *words;
    size_t count;
};

/* A run's slices, as long as the program wants them. */
struct tables {
    double *a, *c, *y, *x;
};

static void say_place(const char *what, const struct plan *plan, uint32_t label) {
    const uint32_t place = crout_place(plan->order, label);
    printf("%s label %" PRIu32 ", place (%" PRIu32 ", %" PRIu32 ")", what, label, row_of(place), column_of(place));
}

/* A plan that isn't compiled. The text's reader lets only labels of the table through, so a refused one stands there twice. */
static int say_plan_refused(const struct plan *plan, uint64_t answer) {
    printf("the plan is refused\n");
    say_refusal(stdout, answer);
    if (crout_refusal(answer) == CROUT_LABEL_TURN) {
        say_place("  twice:", plan, plan->labels[crout_detail(answer) - 1]);
        printf("\n");
    }
    return 0;
}

static int compiled(struct plan *plan, const char *path) {
    uint64_t answer = plan_measure(plan);
    if (answer == 0)
        answer = plan_compile(plan);
    printf("%s: order %" PRIu32 ", places %zu", path, plan->order, plan->count);
    if (answer != 0) {
        printf("; ");
        return say_plan_refused(plan, answer);
    }
    printf(", held %" PRIu64 " (fill %" PRIu64 "), products %" PRIu64 ", records %" PRIu64 "\n", plan->held,
           plan->held - plan->count, plan->products, plan->records);
    return 1;
}

/* The program goes to a file. */
static int filed(const struct plan *plan, const char *path) {
    const size_t words_len = 4 * (size_t)plan->records, bytes_len = 4 * words_len;
    uint8_t *bytes = allocated(bytes_len, 1);
    uint64_t out[3];
    const uint64_t answer = crout_write(plan->words, words_len, bytes, bytes_len, out);
    int fine = answer == 0;
    if (fine)
        fine = bytes_to_file(path, bytes, (size_t)out[0]);
    else
        say_refusal(stdout, answer);
    free(bytes);
    return fine;
}

/* The file is checked as bytes, before anything in it is believed; then its words are read. */
static uint64_t checked_and_read(const uint8_t *bytes, size_t len, struct program *program) {
    uint64_t out[3], answer = crout_check(bytes, len);
    if (answer != 0)
        return answer;
    program->words = allocated(len / 4, sizeof *program->words);
    answer = crout_read(bytes, len, program->words, len / 4, out);
    program->count = (size_t)out[0];
    return answer;
}

/* The program comes from a file. */
static int fetched(const char *path, struct program *program) {
    size_t len;
    char *bytes = bytes_of_file(path, &len);
    uint64_t answer;
    if (bytes == NULL)
        return 0;
    answer = checked_and_read((const uint8_t *)bytes, len, program);
    free(bytes);
    printf("%s: %zu bytes, %s\n", path, len, answer == 0 ? "checked" : "not a program");
    if (answer != 0)
        say_refusal(stdout, answer);
    return answer == 0;
}

static void say_solution(const double *x, uint32_t order, const uint64_t out[4]) {
    printf("  products %" PRIu64 ", quotients %" PRIu64, out[0], out[1]);
    for (uint32_t i = 0; i < order; i++) {
        if (i % 6 == 0)
            printf("\n  x(%" PRIu32 "):", i + 1);
        printf(" %.10g", x[i]);
    }
    printf("\n");
    if (out[2] != 0)
        printf("  products that vanished: %" PRIu64 "; a 0 in the solution may stand for a small number: scale the equations\n", out[2]);
}

/* Where a run ended: the entry whose formula was being worked out. A slot's place is found by the label that has it. */
static void say_target(const struct plan *plan, const uint64_t out[4]) {
    printf("  at %c(%" PRIu64 ")", "?CYX"[out[0] & 3], out[1]);
    if (out[0] == 1)
        say_place(":", plan, plan_label_of_slot(plan, out[1]));
    printf("\n");
}

static void say_ending(const struct value_set *set, uint32_t number) {
    printf("values %s", set->name);
    if (set->limit != 0)
        printf(", limit %g", set->limit);
    printf(": %s", number == 0 ? "solved" : "refused");
    if (set->expected == 0)
        printf("\n");
    else if (number == set->expected)
        printf(", as expected\n");
    else
        printf(", but refusal %" PRIu32 " was expected\n", set->expected);
}

/* Whether the set ended as the text expects. */
static int ran(const struct program *program, const struct plan *plan, const struct value_set *set, struct tables *tables) {
    const uint32_t order = program->words[0], slots = program->words[2];
    uint64_t out[4], answer;
    for (size_t k = 0; k < plan->count; k++)
        tables->a[k] = set->coefficients.entries[plan->from[k]];
    answer = crout_run_limit(program->words, program->count, tables->a, plan->count, set->right.entries, set->right.count, set->limit,
                             tables->c, slots, tables->y, order, tables->x, order, out);
    say_ending(set, crout_refusal(answer));
    if (answer == 0)
        say_solution(tables->x, order, out);
    else
        say_refusal(stdout, answer);
    if (crout_refusal(answer) == CROUT_OVERFLOW || crout_refusal(answer) == CROUT_ZERO)
        say_target(plan, out);
    return crout_refusal(answer) == set->expected;
}

static int ran_all(const struct program *program, const struct plan *plan, const struct plan_text *text) {
    const uint32_t order = program->words[0], slots = program->words[2];
    struct tables tables = {allocated(plan->count, sizeof(double)), allocated(slots, sizeof(double)),
                            allocated(order, sizeof(double)), allocated(order, sizeof(double))};
    int fine = 1;
    for (size_t k = 0; k < text->set_count; k++)
        fine = ran(program, plan, &text->sets[k], &tables) && fine;
    free(tables.a);
    free(tables.c);
    free(tables.y);
    free(tables.x);
    return fine;
}

int main(int argc, char **argv) {
    struct program program = {NULL, 0};
    struct plan_text text;
    struct plan plan;
    int fine;
    if (argc != 3) {
        fputs("usage: sheet FILE.txt PROGRAM.crout\n", stderr);
        return 2;
    }
    if (!plan_text_read(argv[1], &text))
        return EXIT_FAILURE;
    plan = plan_of_text(&text);
    fine = compiled(&plan, argv[1]) && filed(&plan, argv[2]) && fetched(argv[2], &program) && ran_all(&program, &plan, &text);
    free(program.words);
    plan_free(&plan);
    plan_text_free(&text);
    return output_is_out() && fine ? EXIT_SUCCESS : EXIT_FAILURE;
}
