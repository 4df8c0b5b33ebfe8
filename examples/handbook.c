/* The handbook's table:

       handbook > docs/HANDBOOK.md

   counts all plans of the orders 1 to 4, those that the compiler accepts and those that it refuses for each missing pivot, and prints
   the page of the handbook that lists them. The status is 0 if each order was counted. */
#include "basics.h"
#include "crout.h"

#include <inttypes.h>
#include <stdio.h>
#include <stdlib.h>

enum { LARGEST = 4 };

static const char *const PAGE =
    "# How many plans fail, and where\n"
    "\n"
    "A plan of order N is a set of labels out of 1..N². The compiler accepts it if every pivot is held, in the plan or by fill, and\n"
    "else refuses it by 5 for the first pivot that is missing. Counted over all sets, by `crout_count_plans`:\n"
    "\n"
    "| order | plans | accepted | pivot 1 missing | pivot 2 | pivot 3 | pivot 4 |\n"
    "|---|---|---|---|---|---|---|\n";

/* One order's line; 0, with a message, if it isn't counted. */
static int counted(uint32_t n) {
    uint64_t out[LARGEST + 1], plans = 0;
    const uint64_t answer = crout_count_plans(n, out);
    size_t m;
    if (answer != 0) {
        fprintf(stderr, "order %" PRIu32 ": %s\n", n, crout_refusal_text(crout_refusal(answer)));
        return 0;
    }
    for (m = 0; m <= LARGEST; m++)
        plans += out[m];
    printf("| %" PRIu32 " | %" PRIu64, n, plans);
    for (m = 0; m <= LARGEST; m++)
        printf(" | %" PRIu64, out[m]);
    puts(" |");
    return 1;
}

int main(void) {
    uint32_t n;
    fputs(PAGE, stdout);
    for (n = 1; n <= LARGEST; n++)
        if (!counted(n))
            return EXIT_FAILURE;
    fputs("\nThis page is what `examples/handbook.c` prints; the gate compares the two.\n", stdout);
    return output_is_out() ? EXIT_SUCCESS : EXIT_FAILURE;
}
