/* Numbers the rooms of a plan otherwise, so that it needs fewer slots:

       order FILE.txt [TRIALS] > ORDERED.txt

   The text is described in plan_text.h; its values are left aside. Each trial exchanges two rooms with neighbouring numbers, and the
   exchange is kept if there are fewer slots then. Without a number of trials, each two neighbours are tried ten times.

   What is printed is the plan as a text again, which spy draws and sheet reads. Its comments say what the trials came to: slots, fill
   and products before and after, how many slots no numbering can do without, and which room has which number now. */
#include "basics.h"
#include "crout.h"
#include "plan.h"
#include "plan_text.h"

#include <inttypes.h>
#include <stdio.h>
#include <stdlib.h>

enum { ROUNDS = 10, NUMBERS_TO_A_LINE = 18 };

/* What the library answers. */
struct ordering {
    uint32_t *numbering; /* numbering[p - 1] is the given number of the room that is now number p */
    uint64_t slots, trials, distance;
};

/* Asks for a better numbering. Returns 0 or the refusal. */
static uint64_t find_ordering(struct plan *plan, uint32_t trials, struct ordering *ordering) {
    const size_t places = (size_t)plan->order * plan->order;
    uint64_t out[3], answer;
    ordering->numbering = allocated(plan->order, sizeof *ordering->numbering);
    answer = crout_order(plan->order, plan->labels, plan->count, trials, plan->slots, places, ordering->numbering, plan->order, out);
    ordering->slots = out[0];
    ordering->trials = out[1];
    ordering->distance = out[2];
    return answer;
}

/* Moves the places of a text to where the rooms are now. */
static void renumber(struct plan_text *text, const uint32_t *numbering) {
    uint32_t *now = allocated((size_t)text->order + 1, sizeof *now);
    for (uint32_t p = 1; p <= text->order; p++)
        now[numbering[p - 1]] = p;
    for (size_t k = 0; k < text->label_count; k++) {
        const uint32_t place = crout_place(text->order, text->labels[k]);
        text->labels[k] = crout_label(text->order, now[row_of(place)], now[column_of(place)]);
    }
    free(now);
}

/* Numbers in lines that begin with this word. */
static void print_numbers(const char *word, const uint32_t *numbers, size_t count) {
    for (size_t k = 0; k < count; k++) {
        if (k % NUMBERS_TO_A_LINE == 0)
            fputs(word, stdout);
        printf(" %" PRIu32 "%s", numbers[k], k + 1 == count || (k + 1) % NUMBERS_TO_A_LINE == 0 ? "\n" : "");
    }
}

static void print_counts(const char *when, const struct plan *plan) {
    printf("# %-6s  slots %" PRIu64 ", fill %" PRIu64 ", products %" PRIu64 "\n", when, plan->held, plan->held - plan->count,
           plan->products);
}

static void print_ordered(const char *path, const struct plan *before, const struct plan *after, const struct ordering *ordering) {
    printf("# %s with its rooms numbered otherwise: trials %" PRIu64 "\n", path, ordering->trials);
    print_counts("before", before);
    print_counts("after", after);
    printf("# No numbering has fewer than %" PRIu64 " slots; the distance to that is %" PRIu64 ".\n",
           ordering->slots - ordering->distance, ordering->distance);
    printf("# The rooms in their new order, by the numbers that they had:\n");
    print_numbers("#", ordering->numbering, after->order);
    printf("\norder %" PRIu32 "\n", after->order);
    print_numbers("labels", after->labels, after->count);
}

/* Orders the plan of a text and prints it; 0, with a message, if it is refused or the output is lost. */
static int ordered(const char *path, struct plan_text *text, uint32_t trials) {
    struct ordering ordering = {0};
    struct plan before = plan_of_text(text), after = {0};
    uint64_t answer = plan_measure(&before);
    if (answer == 0)
        answer = find_ordering(&before, trials, &ordering);
    if (answer == 0) {
        renumber(text, ordering.numbering);
        after = plan_of_text(text);
        answer = plan_measure(&after);
    }
    if (answer == 0)
        print_ordered(path, &before, &after, &ordering);
    else
        say_refusal(stderr, answer);
    plan_free(&before);
    plan_free(&after);
    free(ordering.numbering);
    return answer == 0 && output_is_out();
}

int main(int argc, char **argv) {
    struct plan_text text;
    uint32_t trials;
    int fine;
    if (argc != 2 && !(argc == 3 && read_whole(argv[2], &trials))) {
        fputs("usage: order FILE.txt [TRIALS] > ORDERED.txt\n", stderr);
        return 2;
    }
    if (!plan_text_read(argv[1], &text))
        return EXIT_FAILURE;
    if (argc == 2)
        trials = ROUNDS * (text.order - 1);
    fine = ordered(argv[1], &text, trials);
    plan_text_free(&text);
    return fine ? EXIT_SUCCESS : EXIT_FAILURE;
}
