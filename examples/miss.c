/* What a solution misses, exactly:

       miss FILE.txt

   reads a plan and sets of values (the text is described in plan_text.h), solves every set, and says for each row b, what is left of it
   when A x is taken away, and how many units in the last place of b that is. What is left is exact, and its first nine decimal digits are
   printed. No unit is asked of a b that is 0.

   The status is 0 if every set was solved, or refused by the number that the text expects of it. */
#include "basics.h"
#include "crout.h"
#include "exact.h"

#include <inttypes.h>
#include <stdlib.h>

/* A set's coefficients in the plan's order, its solution, and what that leaves over. */
struct tables {
    double *a, *x;
    uint64_t *words;
};

static double size_of(double number) {
    return number < 0 ? -number : number;
}

/* The largest size of the right side. */
static double largest_of(const double *b, uint32_t order) {
    double largest = 0;
    for (uint32_t r = 0; r < order; r++)
        largest = size_of(b[r]) > largest ? size_of(b[r]) : largest;
    return largest;
}

static void say_rows(const double *b, const uint64_t *words, uint32_t order) {
    const double largest_b = largest_of(b, order);
    double most = 0;
    printf("  %4s %22s  %-15s  %s\n", "row", "b", " left over", "units of b");
    for (uint32_t r = 0; r < order; r++) {
        const uint64_t *row = words + r * (size_t)EXACT_WORDS;
        const double units = size_of(exact_units(row, largest_b));
        printf("  %4" PRIu32 " %22.17g  ", r + 1, b[r]);
        exact_print(row);
        if (b[r] == 0)
            printf("  -\n");
        else
            printf("  %.3g\n", exact_units(row, b[r]));
        most = units > most ? units : most;
    }
    printf("  the most that is left over is %.3g units in the last place of the largest b\n", most);
}

/* Whether the set ended as the text expects. */
static int measured(const struct plan *plan, const struct value_set *set, struct tables *tables) {
    const double *b = set->right.entries;
    uint64_t answer;
    for (size_t k = 0; k < plan->count; k++)
        tables->a[k] = set->coefficients.entries[plan->from[k]];
    answer = exact_solve(plan, tables->a, b, set->limit, tables->x);
    if (answer == 0)
        answer = exact_miss(plan, tables->a, b, tables->x, tables->words);
    printf("values %s\n", set->name);
    if (answer == 0)
        say_rows(b, tables->words, plan->order);
    else
        say_refusal(stdout, answer);
    return crout_refusal(answer) == set->expected;
}

static int measured_all(struct plan *plan, const struct plan_text *text) {
    struct tables tables = {allocated(plan->count, sizeof(double)), allocated(plan->order, sizeof(double)),
                            allocated(EXACT_WORDS * (size_t)plan->order, sizeof(uint64_t))};
    uint64_t answer = plan_measure(plan);
    int fine = 1;
    if (answer == 0)
        answer = plan_compile(plan);
    if (answer != 0)
        say_refusal(stderr, answer);
    for (size_t k = 0; answer == 0 && k < text->set_count; k++)
        fine = measured(plan, &text->sets[k], &tables) && fine;
    free(tables.a);
    free(tables.x);
    free(tables.words);
    return output_is_out() && answer == 0 && fine;
}

int main(int argc, char **argv) {
    struct plan_text text;
    struct plan plan;
    int fine;
    if (argc != 2) {
        fputs("usage: miss FILE.txt\n", stderr);
        return 2;
    }
    if (!plan_text_read(argv[1], &text))
        return EXIT_FAILURE;
    plan = plan_of_text(&text);
    fine = measured_all(&plan, &text);
    plan_free(&plan);
    plan_text_free(&text);
    return fine ? EXIT_SUCCESS : EXIT_FAILURE;
}
