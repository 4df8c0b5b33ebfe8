#include "plan_text.h"

#include "basics.h"
#include "crout.h"

#include <stdarg.h>
#include <stdio.h>
#include <stdlib.h>
#include <string.h>

struct reading {
    const char *path;
    size_t line;
    struct plan_text *text;
    struct numbers *list; /* takes the numbers of the lines that begin with one; NULL outside of values and right */
    size_t list_limit;
};

static int fault(const struct reading *reading, size_t line, const char *format, ...) {
    va_list rest;
    fprintf(stderr, "%s:%zu: ", reading->path, line);
    va_start(rest, format);
    vfprintf(stderr, format, rest);
    va_end(rest);
    fputc('\n', stderr);
    return 0;
}

/* Cuts the next word off a line; NULL if there is none. */
static char *next_word(char **rest) {
    static const char blanks[] = " \t\r";
    char *word = *rest + strspn(*rest, blanks);
    char *end = word + strcspn(word, blanks);
    if (word == end)
        return NULL;
    *rest = *end == 0 ? end : end + 1;
    *end = 0;
    return word;
}

static int read_natural(const struct reading *reading, const char *word, uint32_t *number) {
    if (word == NULL)
        return fault(reading, reading->line, "a whole number is missing");
    return read_whole(word, number) || fault(reading, reading->line, "not a whole number below 2^32: %s", word);
}

static int read_number(const struct reading *reading, const char *word, double *number) {
    char *end;
    if (word == NULL)
        return fault(reading, reading->line, "a number is missing");
    *number = strtod(word, &end);
    return *end == 0 || fault(reading, reading->line, "not a number: %s", word);
}

static int line_ends(const struct reading *reading, char *rest) {
    const char *word = next_word(&rest);
    return word == NULL || fault(reading, reading->line, "the line should end before: %s", word);
}

static int read_order(struct reading *reading, char *rest) {
    struct plan_text *text = reading->text;
    if (text->order != 0)
        return fault(reading, reading->line, "the order is given twice");
    if (!read_natural(reading, next_word(&rest), &text->order))
        return 0;
    /* every order that the library takes has the place (1, 1) */
    if (crout_label(text->order, 1, 1) == 0)
        return fault(reading, reading->line, "%s", crout_refusal_text(CROUT_ORDER));
    return line_ends(reading, rest);
}

static int may_add_places(const struct reading *reading) {
    if (reading->text->order == 0)
        return fault(reading, reading->line, "the order has to come first");
    if (reading->text->set_count != 0)
        return fault(reading, reading->line, "all places have to come before the first values");
    return 1;
}

static void add_label(struct plan_text *text, uint32_t label) {
    text->labels = grown(text->labels, text->label_count, sizeof *text->labels);
    text->labels[text->label_count++] = label;
}

static int read_places(struct reading *reading, char *rest) {
    struct plan_text *text = reading->text;
    uint32_t row, column, label;
    char *word = next_word(&rest);
    if (!may_add_places(reading))
        return 0;
    do {
        if (!read_natural(reading, word, &row) || !read_natural(reading, next_word(&rest), &column))
            return 0;
        label = crout_label(text->order, row, column);
        if (label == 0)
            return fault(reading, reading->line, "the table of order %u has no place (%u, %u)", text->order, row, column);
        add_label(text, label);
    } while ((word = next_word(&rest)) != NULL);
    return 1;
}

static int read_labels(struct reading *reading, char *rest) {
    struct plan_text *text = reading->text;
    uint32_t label;
    char *word = next_word(&rest);
    if (!may_add_places(reading))
        return 0;
    do {
        if (!read_natural(reading, word, &label))
            return 0;
        if (crout_place(text->order, label) == 0)
            return fault(reading, reading->line, "the table of order %u has no label %u", text->order, label);
        add_label(text, label);
    } while ((word = next_word(&rest)) != NULL);
    return 1;
}

/* The set that is being read; NULL before the first. */
static struct value_set *last_set(const struct plan_text *text) {
    return text->set_count == 0 ? NULL : &text->sets[text->set_count - 1];
}

static int last_set_is_whole(const struct reading *reading) {
    const struct plan_text *text = reading->text;
    const struct value_set *set = last_set(text);
    if (set == NULL)
        return 1;
    if (set->coefficients.count != text->label_count)
        return fault(reading, set->line, "%s has %zu coefficients, but the plan %zu places", set->name, set->coefficients.count,
                     text->label_count);
    if (set->right.count != text->order)
        return fault(reading, set->line, "the right side of %s has %zu numbers, but the order is %u", set->name, set->right.count,
                     text->order);
    return 1;
}

static void begin_list(struct reading *reading, struct numbers *list, size_t limit) {
    reading->list = list;
    reading->list_limit = limit;
}

static int read_set(struct reading *reading, char *rest) {
    struct plan_text *text = reading->text;
    const struct value_set none = {0};
    const char *name = next_word(&rest);
    struct value_set *set;
    if (text->order == 0)
        return fault(reading, reading->line, "the order has to come first");
    if (!last_set_is_whole(reading))
        return 0;
    if (name == NULL)
        return fault(reading, reading->line, "the values have no name");
    text->sets = grown(text->sets, text->set_count, sizeof *text->sets);
    set = &text->sets[text->set_count++];
    *set = none;
    set->name = name;
    set->line = reading->line;
    begin_list(reading, &set->coefficients, text->label_count);
    return line_ends(reading, rest);
}

/* The set that a line adds to; NULL, reported, if there is none yet. */
static struct value_set *set_for(const struct reading *reading, const char *what) {
    struct value_set *set = last_set(reading->text);
    if (set == NULL)
        fault(reading, reading->line, "%s values, and there are none yet", what);
    return set;
}

static int read_right(struct reading *reading, char *rest) {
    struct value_set *set = set_for(reading, "a right side belongs to");
    if (set == NULL)
        return 0;
    begin_list(reading, &set->right, reading->text->order);
    return line_ends(reading, rest);
}

static int read_limit(struct reading *reading, char *rest) {
    struct value_set *set = set_for(reading, "a limit belongs to");
    begin_list(reading, NULL, 0);
    return set != NULL && read_number(reading, next_word(&rest), &set->limit) && line_ends(reading, rest);
}

static int read_expected(struct reading *reading, char *rest) {
    struct value_set *set = set_for(reading, "a refusal is expected of");
    begin_list(reading, NULL, 0);
    return set != NULL && read_natural(reading, next_word(&rest), &set->expected) && line_ends(reading, rest);
}

static int read_numbers(struct reading *reading, const char *word, char *rest) {
    struct numbers *list = reading->list;
    double number;
    if (list == NULL)
        return fault(reading, reading->line, "not order, place, labels, values, right, limit or expect: %s", word);
    do {
        if (!read_number(reading, word, &number))
            return 0;
        if (list->count == reading->list_limit)
            return fault(reading, reading->line, "more than %zu numbers, from here on: %s", reading->list_limit, word);
        list->entries = grown(list->entries, list->count, sizeof *list->entries);
        list->entries[list->count++] = number;
    } while ((word = next_word(&rest)) != NULL);
    return 1;
}

static int read_line(struct reading *reading, char *line) {
    static const struct {
        const char *word;
        int (*read)(struct reading *reading, char *rest);
    } beginnings[] = {{"order", read_order}, {"place", read_places}, {"labels", read_labels},  {"values", read_set},
                      {"right", read_right}, {"limit", read_limit},  {"expect", read_expected}};
    const char *word;
    line[strcspn(line, "#")] = 0;
    word = next_word(&line);
    if (word == NULL)
        return 1;
    for (size_t k = 0; k < sizeof beginnings / sizeof beginnings[0]; k++)
        if (strcmp(word, beginnings[k].word) == 0)
            return beginnings[k].read(reading, line);
    return read_numbers(reading, word, line);
}

static int read_lines(struct reading *reading, size_t len) {
    char *line = reading->text->bytes, *end = line + len, *feed;
    for (; line < end; line = feed + 1) {
        reading->line++;
        feed = line + strcspn(line, "\n");
        if (*feed == 0 && feed != end)
            return fault(reading, reading->line, "a zero byte: this is no text");
        *feed = 0;
        if (!read_line(reading, line))
            return 0;
    }
    if (reading->text->order == 0)
        return fault(reading, reading->line, "the text ends without an order");
    return last_set_is_whole(reading);
}

int plan_text_read(const char *path, struct plan_text *text) {
    const struct plan_text none = {0};
    struct reading reading = {path, 0, text, NULL, 0};
    size_t len;
    *text = none;
    text->bytes = bytes_of_file(path, &len);
    if (text->bytes == NULL)
        return 0;
    if (!read_lines(&reading, len)) {
        plan_text_free(text);
        return 0;
    }
    return 1;
}

void plan_text_free(struct plan_text *text) {
    for (size_t k = 0; k < text->set_count; k++) {
        free(text->sets[k].coefficients.entries);
        free(text->sets[k].right.entries);
    }
    free(text->sets);
    free(text->labels);
    free(text->bytes);
}
