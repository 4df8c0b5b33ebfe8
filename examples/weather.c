/* Forty weather cases for one building, by one call:

       weather

   makes a house of eight rooms that share walls and ceilings and lose heat to the outside and to the ground. Areas and U-values stay the
   same, so there is one program and one row of coefficients; the outdoor temperatures of forty days make forty right sides. One call runs
   them all, and a table shows some of the rooms and the heating by outdoor temperature. One temperature was typed with a wrong exponent:
   its day is refused, and no other is troubled by it. It says which one that is and why, and solves the day with what the thermometer had.
   Last it runs each day by itself, and compares.

   The status is 0 if all of this went as it should. */
#include "basics.h"
#include "crout.h"
#include "plan.h"

#include <inttypes.h>
#include <stdio.h>
#include <stdlib.h>
#include <string.h>

enum { ROOMS = 8, DAYS = 40 };

/* In degrees: the ground, what the heating aims at, and the hottest water that the boiler gives. */
#define GROUND 10
#define WANTED 20
#define HOTTEST 75

/* What a square metre lets through for each degree, in watts. */
#define OUTER_WALL 0.3
#define WINDOW 1.2
#define ROOF 0.2
#define FLOOR 0.4

/* The watt hours that a cubic metre of air takes for each degree; half of a room's air is new in an hour. */
#define AIR 0.34

struct room {
    const char *name;
    double wall, window, roof, floor; /* to the outside and, the floor, to the ground, in square metres */
    double air;                       /* in cubic metres */
    double radiator;                  /* in watts for each degree that its water is warmer than the room */
};

static const struct room rooms[ROOMS] = {
    {"cellar", 24, 1, 0, 60, 130, 0},
    {"hall", 9, 3, 0, 0, 55, 13},
    {"lounge", 26, 9, 0, 0, 75, 28},
    {"kitchen", 18, 5, 0, 0, 45, 17},
    {"bath", 10, 2, 0, 0, 25, 15},
    {"bedroom", 20, 4, 0, 0, 50, 10},
    {"nursery", 17, 4, 0, 0, 45, 15},
    {"loft", 12, 1, 75, 0, 60, 0},
};

/* A wall, a door or a ceiling between two rooms, its square metres and its U-value. */
struct shared {
    uint32_t room, other;
    double area, u;
};

static const struct shared shares[] = {
    {1, 2, 14, 0.9}, {1, 3, 28, 0.6}, {1, 4, 18, 0.6}, {2, 3, 12, 2.5}, {2, 4, 9, 2.5},  {3, 4, 10, 1.8}, {2, 5, 14, 1.6}, {3, 6, 26, 1.1},
    {4, 7, 17, 1.1}, {5, 6, 9, 1.8},  {5, 7, 8, 1.8},  {6, 7, 8, 2.5},  {5, 8, 14, 0.5}, {6, 8, 26, 0.5}, {7, 8, 17, 0.5},
};

enum { SHARES = sizeof shares / sizeof shares[0] };

/* The mean of each day as it was typed. */
static const double days[DAYS] = {
    8.3,  6.1, 4.0,  2.2,  3.7,  5.9,  7.4,      4.8,  1.5,  -0.6, -2.9, -4.1, -3.3, -6.8, -9.5, -11.2, -12.4, -10.7, -8.0, -5.2,
    -2.0, 0.4, -1.3, -3.9, -7.7, -9.1, -5.6e306, -5.8, -2.7, 0.9,  3.1,  2.6,  6.6,  9.2,  10.8, 12.5,  11.7,  14.3,  15.9, 13.4,
};

/* What the thermometer had on the day that was typed wrong. */
#define THERMOMETER (-5.6)

struct house {
    struct plan plan;
    double *a;
};

/* The right sides of all days and their tables, a part for each day, and what the call answered. */
struct weather {
    double *b, *c, *y, *x;
    uint64_t answer;
    uint64_t out[257];
};

/* What a room loses to the outside for each degree. */
static double loss(const struct room *room) {
    return OUTER_WALL * room->wall + WINDOW * room->window + ROOF * room->roof + AIR / 2 * room->air;
}

/* The water in the radiators on a day: the colder, the warmer. */
static double water(double day) {
    const double curve = WANTED + 1.5 * (WANTED - day);
    return curve < WANTED ? WANTED : curve > HOTTEST ? HOTTEST : curve;
}

/* What reaches a room from outside, from the ground and from its radiator. */
static double right_side(const struct room *room, double day) {
    return loss(room) * day + FLOOR * room->floor * GROUND + room->radiator * water(day);
}

/* The room that shares this with a room; 0 if it is none of the two. */
static uint32_t across(const struct shared *shared, uint32_t room) {
    if (shared->room == room)
        return shared->other;
    return shared->other == room ? shared->room : 0;
}

/* On the diagonal all that leaves a room for each degree of its own, elsewhere minus what comes in for each degree of the other. */
static double coefficient(uint32_t row, uint32_t column) {
    const struct room *room = &rooms[row - 1];
    double sum = row == column ? loss(room) + FLOOR * room->floor + room->radiator : 0;
    for (size_t k = 0; k < SHARES; k++) {
        const uint32_t other = across(&shares[k], row);
        if (other != 0 && row == column)
            sum += shares[k].area * shares[k].u;
        else if (other == column)
            sum -= shares[k].area * shares[k].u;
    }
    return sum;
}

static void add_place(struct plan_text *text, uint32_t row, uint32_t column) {
    text->labels = grown(text->labels, text->label_count, sizeof *text->labels);
    text->labels[text->label_count++] = crout_label(ROOMS, row, column);
}

static struct house house_made(void) {
    struct plan_text text = {0};
    struct house house;
    text.order = ROOMS;
    for (uint32_t room = 1; room <= ROOMS; room++)
        add_place(&text, room, room);
    for (size_t k = 0; k < SHARES; k++) {
        add_place(&text, shares[k].room, shares[k].other);
        add_place(&text, shares[k].other, shares[k].room);
    }
    house.plan = plan_of_text(&text);
    plan_text_free(&text);
    house.a = allocated(house.plan.count, sizeof *house.a);
    for (size_t k = 0; k < house.plan.count; k++) {
        const uint32_t place = crout_place(ROOMS, house.plan.labels[k]);
        house.a[k] = coefficient(row_of(place), column_of(place));
    }
    return house;
}

static int compiled(struct plan *plan) {
    uint64_t answer = plan_measure(plan);
    if (answer == 0)
        answer = plan_compile(plan);
    if (answer != 0) {
        say_refusal(stdout, answer);
        return 0;
    }
    printf("a house of %d rooms with %zu places: records %" PRIu64 ", slots %" PRIu64 ", products %" PRIu64 "\n", ROOMS, plan->count,
           plan->records, plan->held, plan->products);
    return 1;
}

/* The right side of one day. */
static void fill(double *b, double day) {
    for (size_t k = 0; k < ROOMS; k++)
        b[k] = right_side(&rooms[k], day);
}

static struct weather weather_made(const struct plan *plan) {
    struct weather weather = {0};
    const size_t rows = (size_t)DAYS * ROOMS;
    weather.b = allocated(rows, sizeof *weather.b);
    weather.c = allocated((size_t)plan->held, sizeof *weather.c);
    weather.y = allocated(rows, sizeof *weather.y);
    weather.x = allocated(rows, sizeof *weather.x);
    for (size_t day = 0; day < DAYS; day++)
        fill(weather.b + ROOMS * day, days[day]);
    return weather;
}

static void weather_free(struct weather *weather) {
    free(weather->b);
    free(weather->c);
    free(weather->y);
    free(weather->x);
}

/* A day's four numbers: its answer and three more. */
static const uint64_t *numbers_of(const struct weather *weather, size_t day) {
    return weather->out + 1 + 4 * day;
}

/* All days at once. Whether they were run: a day that is refused doesn't refuse the call. */
static int ran(const struct house *house, struct weather *weather) {
    const struct plan *plan = &house->plan;
    const size_t rows = (size_t)DAYS * ROOMS;
    int solved = 0;
    weather->answer = crout_run_many(plan->words, 4 * (size_t)plan->records, DAYS, house->a, plan->count, weather->b, rows, 0, weather->c,
                                     (size_t)plan->held, weather->y, rows, weather->x, rows, weather->out);
    if (weather->answer != 0) {
        say_refusal(stdout, weather->answer);
        return 0;
    }
    for (size_t day = 0; day < DAYS; day++)
        solved += numbers_of(weather, day)[0] == 0;
    printf("one call for %d days: records read %" PRIu64 ", days solved %d, refused %d\n", DAYS, weather->out[0], solved, DAYS - solved);
    return 1;
}

/* What all radiators give on a day, in watts. */
static double heating(double day, const double *x) {
    double sum = 0;
    for (size_t k = 0; k < ROOMS; k++)
        sum += rooms[k].radiator * (water(day) - x[k]);
    return sum;
}

static void say_head(void) {
    printf("\n day  outside    water");
    for (size_t k = 0; k < ROOMS; k++)
        printf("  %7s", rooms[k].name);
    printf("    watts\n");
}

static void say_day(size_t day, double outside, const double *x) {
    printf("%4zu  %7.1f  %7.1f", day + 1, outside, water(outside));
    for (size_t k = 0; k < ROOMS; k++)
        printf("  %7.1f", x[k]);
    printf("  %7.0f\n", heating(outside, x));
}

static void say_all(const struct weather *weather) {
    say_head();
    for (size_t day = 0; day < DAYS; day++)
        if (numbers_of(weather, day)[0] == 0)
            say_day(day, days[day], weather->x + ROOMS * day);
        else
            printf("%4zu  %7.1e  refused\n", day + 1, days[day]);
}

/* One day by a run of its own. */
static uint64_t ran_alone(const struct house *house, const double b[ROOMS], double y[ROOMS], double x[ROOMS], uint64_t out[4]) {
    const struct plan *plan = &house->plan;
    double *c = allocated((size_t)plan->held, sizeof *c);
    const uint64_t answer = crout_run_limit(plan->words, 4 * (size_t)plan->records, house->a, plan->count, b, ROOMS, 0, c,
                                            (size_t)plan->held, y, ROOMS, x, ROOMS, out);
    free(c);
    return answer;
}

/* A refused day: where its formulas ended, and why. An entry of Y or X belongs to a room. */
static void say_refused(const struct weather *weather, size_t day) {
    const uint64_t *numbers = numbers_of(weather, day);
    printf("\nday %zu, typed as %g degrees: refused at %c(%" PRIu64 ")", day + 1, days[day], "?CYX"[numbers[1] & 3], numbers[2]);
    if (numbers[1] != 1)
        printf(", which belongs to the %s", rooms[numbers[2] - 1].name);
    printf("\n");
    say_refusal(stdout, numbers[0]);
}

static int solved_again(const struct house *house, size_t day) {
    double b[ROOMS], y[ROOMS], x[ROOMS];
    uint64_t out[4], answer;
    fill(b, THERMOMETER);
    answer = ran_alone(house, b, y, x, out);
    printf("the thermometer had %g degrees: %s\n", THERMOMETER, answer == 0 ? "solved" : "refused");
    if (answer == 0) {
        say_head();
        say_day(day, THERMOMETER, x);
    } else
        say_refusal(stdout, answer);
    return answer == 0;
}

/* Whether the day that was typed wrong is the only one that is refused, by 16, and is solved with what the thermometer had. */
static int explained(const struct house *house, const struct weather *weather) {
    int fine = 0;
    for (size_t day = 0; day < DAYS; day++) {
        const uint64_t answer = numbers_of(weather, day)[0];
        if (answer == 0)
            continue;
        say_refused(weather, day);
        if (fine != 0 || crout_refusal(answer) != CROUT_OVERFLOW || !solved_again(house, day))
            return 0;
        fine = 1;
    }
    return fine;
}

/* Whether each day by itself ends as in the call for all: its answer, its numbers, its Y and its X. */
static int compared(const struct house *house, const struct weather *weather) {
    double y[ROOMS], x[ROOMS];
    uint64_t out[4];
    int same = 0;
    for (size_t day = 0; day < DAYS; day++) {
        const uint64_t *numbers = numbers_of(weather, day), answer = ran_alone(house, weather->b + ROOMS * day, y, x, out);
        same += answer == numbers[0] && memcmp(out, numbers + 1, 3 * sizeof *out) == 0 &&
                memcmp(y, weather->y + ROOMS * day, sizeof y) == 0 && memcmp(x, weather->x + ROOMS * day, sizeof x) == 0;
    }
    printf("\nby runs of their own: %d of %d days end the same, to the last bit\n", same, DAYS);
    return same == DAYS;
}

int main(void) {
    struct house house = house_made();
    int fine = compiled(&house.plan);
    if (fine) {
        struct weather weather = weather_made(&house.plan);
        fine = ran(&house, &weather);
        if (fine) {
            say_all(&weather);
            fine = explained(&house, &weather) && compared(&house, &weather);
        }
        weather_free(&weather);
    }
    plan_free(&house.plan);
    free(house.a);
    return output_is_out() && fine ? EXIT_SUCCESS : EXIT_FAILURE;
}
