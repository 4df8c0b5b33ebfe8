/* A large site solved both ways:

       site

   makes a site of 600 rooms, 30 rows of 20, which share walls and lose heat to the ground. It compiles the site for Crout and for sweeps,
   runs both programs, and says what each cost, how far apart their solutions are, and how far each is from the right side. Then come two
   sites whose sweeps don't settle, one with a coupling that is too strong and one that loses too little, and what the refusal advises is
   done: the Crout program is run, and a larger tolerance is given.

   The status is 0 if all of this went as it should. */
#include "basics.h"
#include "crout.h"
#include "plan.h"

#include <inttypes.h>
#include <stdio.h>
#include <stdlib.h>

enum { WIDTH = 20, ROWS = 30, ROOMS = WIDTH * ROWS };

/* In degrees, as the entries are. */
#define TOLERANCE 1e-9
#define LARGER_TOLERANCE 1e-2

/* The site's plan, with its Crout program, the program of its sweeps, and its coefficients and right side. */
struct site {
    struct plan plan;
    uint32_t *sweep_words;
    size_t sweep_records;
    double *a, *b;
    double ground; /* how much of its loss to the ground a room has */
};

/* A program's tables and what its run answered. */
struct run {
    const char *name;
    const uint32_t *words;
    size_t words_len;
    double limit;
    double *c, *y, *x;
    uint64_t answer;
    uint64_t out[4];
};

/* The rooms that share a wall with this one; how many. */
static size_t neighbours(uint32_t room, uint32_t next[4]) {
    size_t count = 0;
    if (room > WIDTH)
        next[count++] = room - WIDTH;
    if (room % WIDTH != 1)
        next[count++] = room - 1;
    if (room % WIDTH != 0)
        next[count++] = room + 1;
    if (room <= ROOMS - WIDTH)
        next[count++] = room + WIDTH;
    return count;
}

/* What a wall lets through for each degree, from either side: 1 to 2.5. */
static double wall(uint32_t room, uint32_t other) {
    return 1 + (room + other) * 3 % 7 / 4.0;
}

/* What a room loses to the ground for each degree: 0.5 to 1, or as much of it as the site has. */
static double loss(const struct site *site, uint32_t room) {
    return site->ground * (0.5 + room % 3 / 4.0);
}

/* The ground has 8 degrees, and every sixth room is heated. */
static double right_side(const struct site *site, uint32_t room) {
    return 8 * loss(site, room) + (room % 6 == 0 ? 55 * site->ground : 0);
}

/* A room gains through its walls, and loses through them and to the ground. So the diagonal is the sum of the others and the loss. */
static double coefficient(const struct site *site, uint32_t row, uint32_t column) {
    uint32_t next[4];
    double sum = loss(site, row);
    if (row != column)
        return -wall(row, column);
    for (size_t k = neighbours(row, next); k > 0; k--)
        sum += wall(row, next[k - 1]);
    return sum;
}

static void add_place(struct plan_text *text, uint32_t row, uint32_t column) {
    text->labels = grown(text->labels, text->label_count, sizeof *text->labels);
    text->labels[text->label_count++] = crout_label(ROOMS, row, column);
}

static struct plan plan_of_site(void) {
    struct plan_text text = {0};
    struct plan plan;
    uint32_t next[4];
    text.order = ROOMS;
    for (uint32_t room = 1; room <= ROOMS; room++) {
        add_place(&text, room, room);
        for (size_t k = neighbours(room, next); k > 0; k--)
            add_place(&text, room, next[k - 1]);
    }
    plan = plan_of_text(&text);
    plan_text_free(&text);
    return plan;
}

/* Coefficients and right side of a site with so much of its loss. */
static void fill(struct site *site, double ground) {
    site->ground = ground;
    for (size_t k = 0; k < site->plan.count; k++) {
        const uint32_t place = crout_place(ROOMS, site->plan.labels[k]);
        site->a[k] = coefficient(site, row_of(place), column_of(place));
    }
    for (uint32_t room = 1; room <= ROOMS; room++)
        site->b[room - 1] = right_side(site, room);
}

static struct site site_made(void) {
    struct site site = {0};
    site.plan = plan_of_site();
    site.a = allocated(site.plan.count, sizeof *site.a);
    site.b = allocated(ROOMS, sizeof *site.b);
    return site;
}

/* The program of sweeps has a record for each place and two for each row, beside the first. */
static uint64_t compile_sweeps(struct site *site, uint64_t out[3]) {
    const size_t work_len = (size_t)ROOMS * ROOMS;
    uint32_t *work = allocated(work_len, sizeof *work);
    uint64_t answer;
    site->sweep_records = 1 + 2 * (size_t)ROOMS + site->plan.count;
    site->sweep_words = allocated(4 * site->sweep_records, sizeof *site->sweep_words);
    answer = crout_compile_sweep(ROOMS, site->plan.labels, site->plan.count, work, work_len, site->sweep_words, 4 * site->sweep_records,
                                 out);
    free(work);
    return answer;
}

static int compiled(struct site *site) {
    uint64_t out[3], answer = plan_measure(&site->plan);
    if (answer == 0)
        answer = plan_compile(&site->plan);
    if (answer == 0)
        answer = compile_sweeps(site, out);
    if (answer != 0) {
        say_refusal(stdout, answer);
        return 0;
    }
    printf("a site of %d rooms, %d rows of %d, with %zu places\n", ROOMS, ROWS, WIDTH, site->plan.count);
    printf("for Crout: records %" PRIu64 ", slots %" PRIu64 ", products %" PRIu64 "\n", site->plan.records, site->plan.held,
           site->plan.products);
    printf("for sweeps: records %" PRIu64 ", slots %" PRIu64 ", products of one sweep %" PRIu64 "\n", out[2], out[0], out[1]);
    return 1;
}

/* A program's slices, as long as its record 0 wants them. That of sweeps has no slots, so C and Y have no entries; the pointers are
   still not null. */
static struct run run_of(const char *name, const uint32_t *words, size_t records, double limit) {
    struct run run = {0};
    run.name = name;
    run.words = words;
    run.words_len = 4 * records;
    run.limit = limit;
    run.c = allocated(words[2], sizeof *run.c);
    run.y = allocated(words[2] == 0 ? 0 : ROOMS, sizeof *run.y);
    run.x = allocated(ROOMS, sizeof *run.x);
    return run;
}

static void run_free(struct run *run) {
    free(run->c);
    free(run->y);
    free(run->x);
}

/* The larger of a number and the size of another. */
static double larger(double one, double other) {
    const double size = other < 0 ? -other : other;
    return size > one ? size : one;
}

/* The largest |b - A x|: how far the solution is from the right side. */
static double residual(const struct site *site, const double *x) {
    double *left = allocated(ROOMS, sizeof *left), largest = 0;
    for (uint32_t room = 1; room <= ROOMS; room++)
        left[room - 1] = site->b[room - 1];
    for (size_t k = 0; k < site->plan.count; k++) {
        const uint32_t place = crout_place(ROOMS, site->plan.labels[k]);
        left[row_of(place) - 1] -= site->a[k] * x[column_of(place) - 1];
    }
    for (uint32_t room = 1; room <= ROOMS; room++)
        largest = larger(largest, left[room - 1]);
    free(left);
    return largest;
}

/* Runs a program on the site. Whether it ended as it should, by this refusal or by none. */
static int ran(const struct site *site, struct run *run, uint32_t expected) {
    const uint32_t slots = run->words[2];
    run->answer = crout_run_limit(run->words, run->words_len, site->a, site->plan.count, site->b, ROOMS, run->limit, run->c, slots, run->y,
                                  slots == 0 ? 0 : ROOMS, run->x, ROOMS, run->out);
    printf("%s", run->name);
    if (slots == 0)
        printf(", tolerance %g", run->limit);
    printf(": %s\n", run->answer == 0 ? "solved" : "refused");
    if (run->answer == 0) {
        printf("  products %" PRIu64 ", quotients %" PRIu64, run->out[0], run->out[1]);
        if (run->out[3] != 0)
            printf(", sweeps %" PRIu64, run->out[3]);
        printf("; largest residual %.0e\n", residual(site, run->x));
    } else
        say_refusal(stdout, run->answer);
    return crout_refusal(run->answer) == expected;
}

/* The size of the largest entry of X. */
static double largest_entry(const struct run *run) {
    double largest = 0;
    for (uint32_t room = 1; room <= ROOMS; room++)
        largest = larger(largest, run->x[room - 1]);
    return largest;
}

static void say_apart(const struct run *one, const struct run *other) {
    double apart = 0;
    for (uint32_t room = 1; room <= ROOMS; room++)
        apart = larger(apart, one->x[room - 1] - other->x[room - 1]);
    printf("the two solutions, of up to %.0f degrees, differ by at most %.0e\n", largest_entry(one), apart);
}

/* A coupling of two rooms, both ways, that their diagonals know nothing of. */
static void couple(struct site *site, uint32_t room, uint32_t other, double strength) {
    for (size_t k = 0; k < site->plan.count; k++) {
        const uint32_t label = site->plan.labels[k];
        if (label == crout_label(ROOMS, room, other) || label == crout_label(ROOMS, other, room))
            site->a[k] = -strength;
    }
}

static int as_it_is(struct site *site, struct run *crout, struct run *sweeps) {
    printf("\nThe site as it is\n");
    fill(site, 1);
    if (!ran(site, crout, 0) || !ran(site, sweeps, 0))
        return 0;
    say_apart(crout, sweeps);
    return 1;
}

/* The sweeps move ever further, and no tolerance would help. */
static int coupled(struct site *site, struct run *crout, struct run *sweeps) {
    printf("\nWith a coupling of 7 between the rooms 310 and 311\n");
    fill(site, 1);
    couple(site, 310, 311, 7);
    if (!ran(site, sweeps, CROUT_UNSETTLED))
        return 0;
    printf("  the largest entry of the last sweep is %.0e\n", largest_entry(sweeps));
    return ran(site, crout, 0);
}

/* The sweeps come nearer, but slowly: moves that are small are still far from the solution. */
static int insulated(struct site *site, struct run *crout, struct run *sweeps) {
    printf("\nWith a tenth of the loss\n");
    fill(site, 0.1);
    if (!ran(site, sweeps, CROUT_UNSETTLED))
        return 0;
    sweeps->limit = LARGER_TOLERANCE;
    if (!ran(site, sweeps, 0) || !ran(site, crout, 0))
        return 0;
    say_apart(crout, sweeps);
    return 1;
}

int main(void) {
    struct site site = site_made();
    int fine = compiled(&site);
    if (fine) {
        struct run crout = run_of("by Crout", site.plan.words, (size_t)site.plan.records, 0);
        struct run sweeps = run_of("by sweeps", site.sweep_words, site.sweep_records, TOLERANCE);
        fine = as_it_is(&site, &crout, &sweeps) && coupled(&site, &crout, &sweeps) && insulated(&site, &crout, &sweeps);
        run_free(&crout);
        run_free(&sweeps);
    }
    plan_free(&site.plan);
    free(site.sweep_words);
    free(site.a);
    free(site.b);
    return output_is_out() && fine ? EXIT_SUCCESS : EXIT_FAILURE;
}
