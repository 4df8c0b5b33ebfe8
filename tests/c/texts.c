/* What crout.h itself defines, compiled as C99 and as C++: splitting what a call returned, and a text for every refusal. The first
   difference ends the program with a message and status 1. */
#include "crout.h"

#include <stdio.h>
#include <stdlib.h>
#include <string.h>

static void expect(int holds, const char *what, unsigned number) {
    if (!holds) {
        fprintf(stderr, "different: %s, %u\n", what, number);
        exit(1);
    }
}

static void answers(void) {
    const uint64_t answer = ((uint64_t)CROUT_ZERO << 32) + 13, largest = ((uint64_t)CROUT_OUTPUT_SHORT << 32) + UINT32_MAX;
    expect(crout_refusal(0) == 0 && crout_detail(0) == 0, "no refusal", 0);
    expect(crout_refusal(answer) == 17 && crout_detail(answer) == 13, "V2's answer", 17);
    expect(crout_refusal(largest) == 19 && crout_detail(largest) == UINT32_MAX, "the largest detail", 19);
}

/* The numbers that no refusal has are said alike. */
static int is_known(unsigned number) {
    return strcmp(crout_refusal_text(number), crout_refusal_text(UINT32_MAX)) != 0;
}

static void texts(void) {
    unsigned k, other;
    /* 0, the refusals 1 to 30, and unknown numbers: each is said, and no two known ones alike */
    for (k = 0; k <= 31; k++) {
        const char *text = crout_refusal_text(k);
        expect(strlen(text) > 20 && strchr(text, ':') != NULL && text[strlen(text) - 1] != '.', "a text", k);
        expect(is_known(k) == (k <= CROUT_NOT_COUNTED), "which numbers are known", k);
        for (other = 0; other < k; other++)
            expect(!is_known(k) || strcmp(text, crout_refusal_text(other)) != 0, "a text that another number has too", k);
    }
    expect(CROUT_LIMIT == 21 && CROUT_NOT_HELD == 22 && CROUT_LIST_SHORT == 23, "the last numbers", 23);
    expect(CROUT_REMAINDER == 24 && CROUT_SIDES == 25 && CROUT_DIAGONAL_MISSING == 26, "the last numbers", 26);
    expect(CROUT_UNSETTLED == 27 && CROUT_DIFFERENT == 28, "the last numbers", 28);
    expect(CROUT_NUMBERING == 29 && CROUT_NOT_COUNTED == 30, "the last numbers", 30);
}

int main(void) {
    answers();
    texts();
    return 0;
}
