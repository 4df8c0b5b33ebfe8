/* Draws a plan as SVG on standard output:

       spy FILE.txt [ROW COLUMN] > PICTURE.svg

   The text is described in plan_text.h; its values are left aside. Every held place is a square, in one colour if it is in the
   plan and in another if it is fill; pointing at it shows slot, place and label.

   With ROW and COLUMN the picture also shows why that place is held, by the library's path i = v0, v1, .., vk = j from the row to
   the column. A closed line starts at (i, j), goes along row i to (i, v1), along column v1 to (v1, v1), along row v1 to (v1, v2),
   and so on up to (v(k-1), j), and along column j back. (i, j) has a bold outline, and each (v(t), v(t+1)), a place of the plan,
   has a ring.

   A plan with a missing pivot is refused by the compiler, but the call for paths gives its slots, so it is drawn as well, with its
   missing pivots marked. */
#include "basics.h"
#include "crout.h"
#include "plan.h"
#include "plan_text.h"

#include <inttypes.h>
#include <stdio.h>
#include <stdlib.h>

#define PLAN_COLOUR "#2f6299"
#define FILL_COLOUR "#f0b545"
#define MISSING_COLOUR "#c4161c"
#define PATH_COLOUR "#c3008c"

enum {
    ENTRIES_TO_A_LINE = 16, /* of a path, in the legend */
    LINE_HEIGHT = 19        /* pixels from one line of the legend to the next */
};

enum kind { NOT_HELD, IN_PLAN, FILL };

static const struct {
    const char *square, *slot;
} colours[] = {[IN_PLAN] = {PLAN_COLOUR, "#fff"}, [FILL] = {FILL_COLOUR, "#222"}};

struct picture {
    const struct plan *plan;
    uint32_t missing;    /* the library's smallest missing pivot, 0 if the plan is accepted */
    unsigned char *kind; /* by label, from 0 */
    uint32_t *path;      /* why the place that was asked for is held, from its row to its column */
    size_t path_len;     /* 0 if none was asked for */
    unsigned cell, left, top, side, width, height; /* pixels */
};

static uint32_t label_at(const struct picture *picture, uint32_t row, uint32_t column) {
    return crout_label(picture->plan->order, row, column);
}

static enum kind kind_at(const struct picture *picture, uint32_t row, uint32_t column) {
    return (enum kind)picture->kind[label_at(picture, row, column) - 1];
}

static void find_kinds(struct picture *picture) {
    const struct plan *plan = picture->plan;
    const size_t places = (size_t)plan->order * plan->order;
    picture->kind = allocated(places, 1);
    for (size_t k = 0; k < places; k++)
        picture->kind[k] = plan->slots[k] == 0 ? NOT_HELD : FILL;
    for (size_t k = 0; k < plan->count; k++)
        picture->kind[plan->labels[k] - 1] = IN_PLAN;
}

static unsigned between(unsigned low, unsigned number, unsigned high) {
    return number < low ? low : number > high ? high : number;
}

static int has_path(const struct picture *picture) {
    return picture->path_len != 0;
}

/* The lines of text below the legend's samples. */
static unsigned text_lines(const struct picture *picture) {
    const unsigned entry_lines = ((unsigned)picture->path_len + ENTRIES_TO_A_LINE - 1) / ENTRIES_TO_A_LINE;
    return (picture->missing != 0) + (has_path(picture) ? 1 + entry_lines : 0);
}

/* Small plans get large squares, and the largest still two pixels. */
static void measure(struct picture *picture) {
    const unsigned narrowest = has_path(picture) ? 530 : 480; /* the legend has to fit in */
    const unsigned order = picture->plan->order;
    picture->cell = between(2, 640 / order, 44);
    picture->side = order * picture->cell;
    picture->left = 40;
    picture->top = 64;
    picture->width = between(narrowest, picture->left + picture->side + 24, 2000);
    picture->height = picture->top + picture->side + 48 + text_lines(picture) * LINE_HEIGHT;
}

/* The upper left corner of row or column number i, from 1. */
static unsigned x_of(const struct picture *picture, uint32_t column) {
    return picture->left + (column - 1) * picture->cell;
}

static unsigned y_of(const struct picture *picture, uint32_t row) {
    return picture->top + (row - 1) * picture->cell;
}

static void draw_heading(const struct picture *picture) {
    const struct plan *plan = picture->plan;
    printf("<svg xmlns=\"http://www.w3.org/2000/svg\" width=\"%u\" height=\"%u\" viewBox=\"0 0 %u %u\""
           " font-family=\"sans-serif\" font-size=\"13\" fill=\"#222\">\n",
           picture->width, picture->height, picture->width, picture->height);
    printf("<rect width=\"%u\" height=\"%u\" fill=\"#fff\"/>\n", picture->width, picture->height);
    printf("<text x=\"%u\" y=\"28\" font-size=\"15\">Order %" PRIu32 ": ", picture->left, plan->order);
    if (picture->missing == 0)
        printf("places %zu, fill %" PRIu64 ", slots %" PRIu64 ", products %" PRIu64 "</text>\n", plan->count,
               plan->held - plan->count, plan->held, plan->products);
    else
        printf("places %zu, refused</text>\n", plan->count);
}

/* How far apart the numbers at the edge stand, so that they don't touch. */
static uint32_t number_step(const struct picture *picture) {
    static const uint32_t steps[] = {1, 5, 10, 20, 50};
    const unsigned needed = picture->plan->order < 100 ? 20 : 26;
    size_t k = 0;
    while (k + 1 < sizeof steps / sizeof steps[0] && steps[k] * picture->cell < needed)
        k++;
    return steps[k];
}

static void draw_numbers(const struct picture *picture) {
    const uint32_t step = number_step(picture);
    const unsigned middle = picture->cell / 2;
    printf("<g font-size=\"11\" fill=\"#666\">\n");
    for (uint32_t i = 1; i <= picture->plan->order; i++) {
        if (i != 1 && i % step != 0)
            continue;
        printf("<text x=\"%u\" y=\"%u\" text-anchor=\"middle\">%" PRIu32 "</text>", x_of(picture, i) + middle, picture->top - 7, i);
        printf("<text x=\"%u\" y=\"%u\" text-anchor=\"end\">%" PRIu32 "</text>\n", picture->left - 7, y_of(picture, i) + middle + 4, i);
    }
    printf("</g>\n");
}

static void draw_frame(const struct picture *picture) {
    const unsigned right = picture->left + picture->side, bottom = picture->top + picture->side;
    if (picture->cell >= 8) {
        printf("<path stroke=\"#e6e6e6\" d=\"");
        for (uint32_t i = 2; i <= picture->plan->order; i++)
            printf("M%u %uV%uM%u %uH%u", x_of(picture, i), picture->top, bottom, picture->left, y_of(picture, i), right);
        printf("\"/>\n");
    }
    printf("<rect x=\"%u\" y=\"%u\" width=\"%u\" height=\"%u\" fill=\"none\" stroke=\"#bbb\"/>\n", picture->left, picture->top,
           picture->side, picture->side);
}

/* What a square leaves free of its cell, above it and to its left. */
static unsigned gap_of(const struct picture *picture) {
    return picture->cell >= 8;
}

static void draw_square(const struct picture *picture, uint32_t row, uint32_t column) {
    const unsigned gap = gap_of(picture);
    const uint32_t label = label_at(picture, row, column);
    printf("<rect x=\"%u\" y=\"%u\" width=\"%u\" height=\"%u\">", x_of(picture, column) + gap, y_of(picture, row) + gap,
           picture->cell - gap, picture->cell - gap);
    printf("<title>slot %" PRIu32 ", place (%" PRIu32 ", %" PRIu32 "), label %" PRIu32 "</title></rect>\n",
           picture->plan->slots[label - 1], row, column, label);
}

/* How large the slots are written, in pixels. Where a path is drawn they leave space for its line between them. */
static unsigned slot_size(const struct picture *picture) {
    return has_path(picture) ? between(9, picture->cell / 3, 13) : 13;
}

static void draw_slot(const struct picture *picture, uint32_t row, uint32_t column) {
    const unsigned middle = picture->cell / 2, base = middle + slot_size(picture) * 2 / 5;
    printf("<text x=\"%u\" y=\"%u\">%" PRIu32 "</text>\n", x_of(picture, column) + middle, y_of(picture, row) + base,
           picture->plan->slots[label_at(picture, row, column) - 1]);
}

static void draw_each(const struct picture *picture, enum kind kind,
                      void (*draw_one)(const struct picture *picture, uint32_t row, uint32_t column)) {
    const uint32_t order = picture->plan->order;
    for (uint32_t i = 1; i <= order; i++)
        for (uint32_t j = 1; j <= order; j++)
            if (kind_at(picture, i, j) == kind)
                draw_one(picture, i, j);
}

/* Whether the squares are large enough for the slots. */
static int has_slots(const struct picture *picture) {
    return picture->cell >= 24;
}

static void draw_slots(const struct picture *picture, enum kind kind) {
    if (!has_slots(picture))
        return;
    /* the numbers let the pointer through to the squares, which have the tool tips */
    printf("<g fill=\"%s\" text-anchor=\"middle\" pointer-events=\"none\"", colours[kind].slot);
    /* and an edge in the colour of their squares keeps the line of a path off the digits */
    if (has_path(picture))
        printf(" font-size=\"%u\" stroke=\"%s\" stroke-width=\"%u\" stroke-linejoin=\"round\" paint-order=\"stroke\"",
               slot_size(picture), colours[kind].square, slot_size(picture) * 2 / 5);
    printf(">\n");
    draw_each(picture, kind, draw_slot);
    printf("</g>\n");
}

static void draw_kind(const struct picture *picture, enum kind kind) {
    printf("<g fill=\"%s\">\n", colours[kind].square);
    draw_each(picture, kind, draw_square);
    printf("</g>\n");
    if (!has_path(picture))
        draw_slots(picture, kind);
}

/* A ring with a cross in it. */
static void draw_mark(unsigned x, unsigned y, unsigned radius) {
    const unsigned arm = radius * 2 / 3;
    printf("<g fill=\"#fff\" stroke=\"" MISSING_COLOUR "\" stroke-width=\"%u\"><circle cx=\"%u\" cy=\"%u\" r=\"%u\"/>"
           "<path d=\"M%u %uL%u %uM%u %uL%u %u\"/>",
           radius < 8 ? 1 : 2, x, y, radius, x - arm, y - arm, x + arm, y + arm, x - arm, y + arm, x + arm, y - arm);
}

static void draw_missing(const struct picture *picture) {
    const unsigned middle = picture->cell / 2, radius = between(4, middle, 16) - 1;
    for (uint32_t m = 1; m <= picture->plan->order; m++)
        if (kind_at(picture, m, m) == NOT_HELD) {
            draw_mark(x_of(picture, m) + middle, y_of(picture, m) + middle, radius);
            printf("<title>missing pivot (%" PRIu32 ", %" PRIu32 "), label %" PRIu32 "</title></g>\n", m, m, label_at(picture, m, m));
        }
}

/* The middle of the squares in row or column number i, from 1, in pixels from the table's corner. */
static double middle_of(const struct picture *picture, uint32_t i) {
    return (i - 1) * picture->cell + (picture->cell + gap_of(picture)) / 2.0;
}

/* Along a row to the next entry's column, and along that to the diagonal; the last column leads back to the start. */
static void draw_line(const struct picture *picture) {
    const uint32_t *path = picture->path;
    const size_t last = picture->path_len - 1;
    printf("<path d=\"M%.1f %.1f", middle_of(picture, path[last]), middle_of(picture, path[0]));
    for (size_t t = 1; t < last; t++)
        printf("H%.1fV%.1f", middle_of(picture, path[t]), middle_of(picture, path[t]));
    printf("H%.1fZ\"/>\n", middle_of(picture, path[last]));
}

static void draw_ring(const struct picture *picture, uint32_t row, uint32_t column) {
    printf("<circle cx=\"%.1f\" cy=\"%.1f\" r=\"%.1f\"/>\n", middle_of(picture, column), middle_of(picture, row),
           2 + 0.34 * picture->cell);
}

static void draw_outline(const struct picture *picture, uint32_t row, uint32_t column, double width) {
    const double half = 3.5 + 0.42 * picture->cell;
    printf("<rect x=\"%.1f\" y=\"%.1f\" width=\"%.1f\" height=\"%.1f\" stroke-width=\"%.1f\"/>\n",
           middle_of(picture, column) - half, middle_of(picture, row) - half, 2 * half, 2 * half, width);
}

/* The path in one colour, its lines wider by edge. It grows with the squares, and can still be seen where they are smallest. */
static void draw_strokes(const struct picture *picture, const char *colour, double edge) {
    const uint32_t *path = picture->path;
    const size_t last = picture->path_len - 1;
    const double width = 1.4 + 0.05 * picture->cell;
    printf("<g stroke=\"%s\" stroke-width=\"%.1f\">\n", colour, width + edge);
    if (last > 1)
        draw_line(picture);
    for (size_t t = 0; t < last; t++)
        draw_ring(picture, path[t], path[t + 1]);
    draw_outline(picture, path[0], path[last], 1.5 * width + edge);
    printf("</g>\n");
}

/* The path has a white edge, which sets it off from the squares, and the slots stand on it. */
static void draw_path(const struct picture *picture) {
    printf("<g fill=\"none\" stroke-linejoin=\"round\" pointer-events=\"none\" transform=\"translate(%u %u)\">\n", picture->left,
           picture->top);
    draw_strokes(picture, "#fff", 2);
    draw_strokes(picture, PATH_COLOUR, 0);
    printf("</g>\n");
    draw_slots(picture, IN_PLAN);
    draw_slots(picture, FILL);
}

static void draw_sample(unsigned x, unsigned y, const char *colour, const char *meaning) {
    printf("<rect x=\"%u\" y=\"%u\" width=\"14\" height=\"14\" fill=\"%s\"/><text x=\"%u\" y=\"%u\">%s</text>\n", x, y, colour, x + 21,
           y + 12, meaning);
}

static void draw_refusal(const struct picture *picture, unsigned x, unsigned y) {
    printf("<text x=\"%u\" y=\"%u\">Refused by 5: pivot %" PRIu32 " is missing, the first of those marked.</text>\n", x, y,
           picture->missing);
}

static void draw_entries(const struct picture *picture, unsigned x, unsigned y) {
    const uint32_t *path = picture->path;
    printf("<g fill=\"" PATH_COLOUR "\">\n<text x=\"%u\" y=\"%u\">", x, y);
    printf("Why (%" PRIu32 ", %" PRIu32 ") is held: a path of %zu entries through places of the plan", path[0],
           path[picture->path_len - 1], picture->path_len);
    for (unsigned t = 0; t < picture->path_len; t++) {
        if (t % ENTRIES_TO_A_LINE == 0)
            printf("</text>\n<text x=\"%u\" y=\"%u\">", x, y + (1 + t / ENTRIES_TO_A_LINE) * LINE_HEIGHT);
        else
            printf(" ");
        printf("%" PRIu32, path[t]);
    }
    printf("</text>\n</g>\n");
}

static void draw_legend(const struct picture *picture) {
    const unsigned x = picture->left, y = picture->top + picture->side + 18;
    unsigned beside = x + 200, below = y + 38; /* where the next sample and the next line of text are to stand */
    draw_sample(x, y, PLAN_COLOUR, "in the plan");
    draw_sample(x + 120, y, FILL_COLOUR, "fill");
    if (has_slots(picture)) {
        printf("<text x=\"%u\" y=\"%u\">numbers: slots</text>\n", beside, y + 12);
        beside += 115;
    }
    if (picture->missing != 0) {
        draw_mark(beside + 6, y + 7, 7);
        printf("</g><text x=\"%u\" y=\"%u\">missing pivot</text>\n", beside + 21, y + 12);
        draw_refusal(picture, x, below);
        below += LINE_HEIGHT;
    }
    if (has_path(picture))
        draw_entries(picture, x, below);
}

static void draw(const struct picture *picture) {
    draw_heading(picture);
    draw_numbers(picture);
    draw_frame(picture);
    draw_kind(picture, IN_PLAN);
    draw_kind(picture, FILL);
    draw_missing(picture);
    if (has_path(picture))
        draw_path(picture);
    draw_legend(picture);
    printf("</svg>\n");
}

/* Asks for the slots of a plan that misses a pivot: place (0, 0) is refused, but the slots are written all the same. */
static void find_slots(struct plan *plan) {
    const size_t places = (size_t)plan->order * plan->order;
    uint32_t no_list;
    uint64_t out[3];
    crout_fill_path(plan->order, plan->labels, plan->count, 0, 0, plan->slots, places, &no_list, 0, out);
}

/* Asks why a place, row and column, is held. Returns 0 or the refusal. */
static uint64_t find_path(struct picture *picture, struct plan *plan, const uint32_t place[2]) {
    const size_t places = (size_t)plan->order * plan->order, longest = (size_t)plan->order + 1;
    uint64_t out[3], answer;
    picture->path = allocated(longest, sizeof *picture->path);
    answer = crout_fill_path(plan->order, plan->labels, plan->count, place[0], place[1], plan->slots, places,
                             picture->path, longest, out);
    picture->path_len = (size_t)out[0];
    return answer;
}

/* Draws the plan, if it is one that can be drawn: accepted, or refused for a missing pivot. The path of a place, row and column, is
   drawn over it, if the place isn't NULL; it has to be held. */
static int drawn(struct plan *plan, const uint32_t *place) {
    struct picture picture = {0};
    uint64_t answer = plan_measure(plan);
    picture.plan = plan;
    if (crout_refusal(answer) == CROUT_PIVOT_MISSING) {
        picture.missing = crout_detail(answer);
        find_slots(plan);
        answer = 0;
    }
    if (answer == 0 && place != NULL)
        answer = find_path(&picture, plan, place);
    if (answer == 0) {
        find_kinds(&picture);
        measure(&picture);
        draw(&picture);
    } else
        say_refusal(stderr, answer);
    free(picture.kind);
    free(picture.path);
    return answer == 0 && output_is_out();
}

int main(int argc, char **argv) {
    struct plan_text text;
    struct plan plan;
    uint32_t place[2];
    int fine;
    if (argc != 2 && !(argc == 4 && read_whole(argv[2], &place[0]) && read_whole(argv[3], &place[1]))) {
        fputs("usage: spy FILE.txt [ROW COLUMN] > PICTURE.svg\n", stderr);
        return 2;
    }
    if (!plan_text_read(argv[1], &text))
        return EXIT_FAILURE;
    plan = plan_of_text(&text);
    fine = drawn(&plan, argc == 4 ? place : NULL);
    plan_free(&plan);
    plan_text_free(&text);
    return fine ? EXIT_SUCCESS : EXIT_FAILURE;
}
