/* A solution made better by what is left over of it:

       refine FILE.txt

   The text is described in plan_text.h; its places are rooms and the walls that they share, and its values are left aside. Only the first
   room loses heat to the outside, and next to none, so all temperatures hang on a small difference of large numbers, and few digits of
   the solution are right. Each step takes the exact b - A x, rounded to doubles, as the right side of a run of the same program, and adds
   what comes out. The right side is made for temperatures that are known, so the error of each solution is known too.

   The steps end when the error is 0. The status is 0 if each of them made it smaller. */
#include "basics.h"
#include "crout.h"
#include "exact.h"

#include <stdlib.h>

/* What the first room loses for each degree. */
#define LOSS 0x1p-40

/* Coefficients, right side, the temperatures that it is made for, and the solution. */
struct building {
    struct plan plan;
    double *a, *b, *known, *x;
};

/* A wall lets 1 to 2.5 through for each degree. */
static double wall(uint32_t room, uint32_t other) {
    return 1 + (room + other) * 3 % 7 / 4.0;
}

/* A room gains through its walls and loses through them, so its diagonal is their sum. */
static double diagonal(const struct plan *plan, uint32_t room) {
    double sum = room == 1 ? LOSS : 0;
    for (size_t k = 0; k < plan->count; k++) {
        const uint32_t place = crout_place(plan->order, plan->labels[k]);
        if (row_of(place) == room && column_of(place) != room)
            sum += wall(room, column_of(place));
    }
    return sum;
}

/* The temperatures are 15 to 23 degrees above the outside, 20 in the first room. No number here, and no sum on the way to one, has more
   than 53 binary digits, so none is rounded, and the known temperatures are the solution exactly. */
static struct building building_of(const struct plan_text *text) {
    const uint32_t order = text->order;
    struct building to = {0};
    to.plan = plan_of_text(text);
    to.a = allocated(to.plan.count, sizeof *to.a);
    to.b = allocated(order, sizeof *to.b);
    to.known = allocated(order, sizeof *to.known);
    to.x = allocated(order, sizeof *to.x);
    for (uint32_t room = 1; room <= order; room++)
        to.known[room - 1] = 15 + room * 5 % 9;
    for (size_t k = 0; k < to.plan.count; k++) {
        const uint32_t place = crout_place(order, to.plan.labels[k]), row = row_of(place), column = column_of(place);
        to.a[k] = row == column ? diagonal(&to.plan, row) : -wall(row, column);
        to.b[row - 1] += to.a[k] * to.known[column - 1];
    }
    return to;
}

static void building_free(struct building *building) {
    plan_free(&building->plan);
    free(building->a);
    free(building->b);
    free(building->known);
    free(building->x);
}

/* The largest error of a temperature. */
static double error_of(const struct building *building) {
    double largest = 0;
    for (uint32_t r = 0; r < building->plan.order; r++) {
        const double over = building->x[r] - building->known[r], size = over < 0 ? -over : over;
        largest = size > largest ? size : largest;
    }
    return largest;
}

/* One step: solves for what is left over, rounded to doubles, and adds that. Returns 0 or the refusal. */
static uint64_t refine(struct building *building) {
    const uint32_t order = building->plan.order;
    uint64_t *words = allocated(EXACT_WORDS * (size_t)order, sizeof *words), answer;
    double *left = allocated(order, sizeof *left), *more = allocated(order, sizeof *more);
    answer = exact_miss(&building->plan, building->a, building->b, building->x, words);
    for (uint32_t r = 0; r < order; r++)
        left[r] = exact_rounded(words + r * (size_t)EXACT_WORDS);
    if (answer == 0)
        answer = exact_solve(&building->plan, building->a, left, 0, more);
    for (uint32_t r = 0; answer == 0 && r < order; r++)
        building->x[r] += more[r];
    free(words);
    free(left);
    free(more);
    return answer;
}

/* Solves the building and refines the solution until it is right, and says the error before and after each step. Returns 0 or the refusal;
   better stays 1 if each step made the error smaller. */
static uint64_t refine_all(struct building *building, int *better) {
    uint64_t answer = exact_solve(&building->plan, building->a, building->b, 0, building->x);
    double error = error_of(building);
    if (answer == 0)
        printf("solved: largest error %.1e degrees\n", error);
    for (int step = 1; answer == 0 && *better && error != 0; step++) {
        const double before = error;
        answer = refine(building);
        error = error_of(building);
        *better = error < before;
        if (answer == 0)
            printf("step %d: largest error %.1e degrees\n", step, error);
    }
    return answer;
}

/* 0, with a message, if it is refused or a step doesn't make the error smaller. */
static int refined(struct building *building) {
    int better = 1;
    uint64_t answer = plan_measure(&building->plan);
    if (answer == 0)
        answer = plan_compile(&building->plan);
    if (answer == 0)
        answer = refine_all(building, &better);
    if (answer != 0)
        say_refusal(stderr, answer);
    return output_is_out() && answer == 0 && better;
}

int main(int argc, char **argv) {
    struct plan_text text;
    struct building building;
    int fine;
    if (argc != 2) {
        fputs("usage: refine FILE.txt\n", stderr);
        return 2;
    }
    if (!plan_text_read(argv[1], &text))
        return EXIT_FAILURE;
    building = building_of(&text);
    fine = refined(&building);
    building_free(&building);
    plan_text_free(&text);
    return fine ? EXIT_SUCCESS : EXIT_FAILURE;
}
