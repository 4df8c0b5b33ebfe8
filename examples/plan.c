#include "plan.h"

#include "basics.h"
#include "crout.h"

#include <inttypes.h>
#include <stdlib.h>

struct entry {
    uint32_t label;
    size_t from;
};

static int by_label(const void *left, const void *right) {
    const uint32_t one = ((const struct entry *)left)->label, other = ((const struct entry *)right)->label;
    return (one > other) - (one < other);
}

struct plan plan_of_text(const struct plan_text *text) {
    struct plan plan = {0};
    struct entry *entries = allocated(text->label_count, sizeof *entries);
    plan.order = text->order;
    plan.count = text->label_count;
    plan.labels = allocated(plan.count, sizeof *plan.labels);
    plan.from = allocated(plan.count, sizeof *plan.from);
    for (size_t k = 0; k < plan.count; k++) {
        entries[k].label = text->labels[k];
        entries[k].from = k;
    }
    qsort(entries, plan.count, sizeof *entries, by_label);
    for (size_t k = 0; k < plan.count; k++) {
        plan.labels[k] = entries[k].label;
        plan.from[k] = entries[k].from;
    }
    free(entries);
    plan.slots = allocated((size_t)plan.order * plan.order, sizeof *plan.slots);
    return plan;
}

void plan_free(struct plan *plan) {
    free(plan->labels);
    free(plan->from);
    free(plan->slots);
    free(plan->words);
}

static uint64_t compile(struct plan *plan, uint32_t *words, size_t words_len, uint64_t out[3]) {
    const size_t places = (size_t)plan->order * plan->order;
    return crout_compile(plan->order, plan->labels, plan->count, plan->slots, places, words, words_len, out);
}

/* How many places are held from (row, column) on, down or to the right as far as the table goes. */
static uint64_t held_from(const struct plan *plan, uint32_t row, uint32_t column, int down) {
    uint64_t held = 0;
    for (uint32_t label; (label = crout_label(plan->order, row, column)) != 0; down ? row++ : column++)
        held += plan->slots[label - 1] != 0;
    return held;
}

/* One for each two held places of which one is below a pivot and one to the right of it, and one for each of these places. */
static uint64_t products_of(const struct plan *plan) {
    uint64_t products = 0;
    for (uint32_t m = 1; m < plan->order; m++) {
        const uint64_t below = held_from(plan, m + 1, m, 1), right = held_from(plan, m, m + 1, 0);
        products += below * right + below + right;
    }
    return products;
}

uint64_t plan_measure(struct plan *plan) {
    const size_t places = (size_t)plan->order * plan->order;
    uint32_t no_words;
    uint64_t out[3];
    /* without words an accepted plan is refused by 6, with the records needed; the slots are written all the same */
    const uint64_t answer = compile(plan, &no_words, 0, out);
    if (crout_refusal(answer) != CROUT_WORDS_SHORT)
        return answer;
    plan->records = crout_detail(answer);
    for (size_t k = 0; k < places; k++)
        plan->held += plan->slots[k] != 0;
    plan->products = products_of(plan);
    return 0;
}

uint64_t plan_compile(struct plan *plan) {
    const size_t words_len = 4 * (size_t)plan->records;
    uint64_t out[3], answer;
    plan->words = allocated(words_len, sizeof *plan->words);
    answer = compile(plan, plan->words, words_len, out);
    plan->products = out[1];
    return answer;
}

uint32_t plan_label_of_slot(const struct plan *plan, uint64_t slot) {
    const uint32_t last = plan->order * plan->order;
    for (uint32_t label = 1; label <= last; label++)
        if (plan->slots[label - 1] == slot)
            return label;
    return 0;
}

void say_refusal(FILE *file, uint64_t answer) {
    const uint32_t number = crout_refusal(answer);
    fprintf(file, "  refusal %" PRIu32 ", detail %" PRIu32 ": %s\n", number, crout_detail(answer), crout_refusal_text(number));
}

uint32_t row_of(uint32_t place) {
    return place / 1024;
}

uint32_t column_of(uint32_t place) {
    return place % 1024;
}
