#include "exact.h"

#include "basics.h"
#include "crout.h"

#include <stdlib.h>
#include <string.h>

/* The bit of a number that stands for 1, how many bits below it the smallest double lies, how many bits a double has after its first, and
   the exponent of those that are infinite. */
enum { ONE = 2148, SMALLEST = 1074, FRACTION = 52, INFINITE = 0x7ff };

/* With its point moved to the start of a word the number has a word more: those of its fraction come first. */
enum { FRACTION_WORDS = 34, MOVED = 64 * FRACTION_WORDS - ONE, MOVED_WORDS = EXACT_WORDS + 1 };

/* How many digits are printed, and how many the largest number has before its point, at most. */
enum { DIGITS = 9, MOST_DIGITS = 640 };

uint64_t exact_solve(const struct plan *plan, const double *a, const double *b, double limit, double *x) {
    const uint32_t order = plan->order, slots = plan->words[2];
    double *c = allocated(slots, sizeof *c), *y = allocated(order, sizeof *y);
    uint64_t out[4];
    const uint64_t answer = crout_run_limit(plan->words, 4 * (size_t)plan->records, a, plan->count, b, order, limit, c, slots, y, order, x,
                                            order, out);
    free(c);
    free(y);
    return answer;
}

uint64_t exact_miss(const struct plan *plan, const double *a, const double *b, const double *x, uint64_t *words) {
    const uint32_t order = plan->order;
    return crout_residual(order, plan->labels, plan->count, a, plan->count, b, order, x, order, words, EXACT_WORDS * (size_t)order);
}

static int is_negative(const uint64_t *words) {
    return words[EXACT_WORDS - 1] >> 63 != 0;
}

/* The number without its sign: in two's complement the negative is all bits the other way round, and one more. */
static void size_of(const uint64_t *words, uint64_t *size) {
    uint64_t carry = is_negative(words);
    const uint64_t flip = -carry;
    for (int k = 0; k < EXACT_WORDS; k++) {
        size[k] = (words[k] ^ flip) + carry;
        carry = size[k] < carry;
    }
}

/* The number's bit, from 0. */
static uint64_t bit(const uint64_t *size, int at) {
    return size[at / 64] >> (at % 64) & 1;
}

/* Whether any bit below this one is set. */
static int any_below(const uint64_t *size, int end) {
    for (int at = 0; at < end; at++)
        if (bit(size, at))
            return 1;
    return 0;
}

/* The nearest double, if this bit stands for 1. The bits of a double are a whole number: its exponent grows by one with each bit that the
   last one kept lies higher, by one for the first bit kept, which isn't written, and by one if rounding carries out of it. */
static double rounded(const uint64_t *words, int one) {
    const int smallest = one - SMALLEST;
    uint64_t size[EXACT_WORDS], kept = 0, bits;
    int top = 64 * EXACT_WORDS - 1, last;
    double value;
    size_of(words, size);
    while (top > smallest + FRACTION && !bit(size, top))
        top--;
    last = top - FRACTION;
    for (int at = top; at >= last; at--)
        kept = 2 * kept + bit(size, at);
    if (last > 0 && bit(size, last - 1) && (any_below(size, last - 1) || kept % 2 == 1))
        kept++;
    if (last - smallest < INFINITE - 1)
        bits = ((uint64_t)(last - smallest) << FRACTION) + kept;
    else
        bits = (uint64_t)INFINITE << FRACTION;
    bits |= (uint64_t)is_negative(words) << 63;
    memcpy(&value, &bits, sizeof value);
    return value;
}

double exact_rounded(const uint64_t words[EXACT_WORDS]) {
    return rounded(words, ONE);
}

/* The unit of the smallest doubles is the smallest one, and doubles with each exponent after the first two. */
double exact_units(const uint64_t words[EXACT_WORDS], double of) {
    uint64_t bits;
    int exponent;
    memcpy(&bits, &of, sizeof bits);
    exponent = (int)(bits >> FRACTION & INFINITE);
    return rounded(words, ONE - SMALLEST + (exponent > 0 ? exponent - 1 : 0));
}

/* Divides a number by ten; the remainder. Each word goes in halves, so that no step needs more than 64 bits. */
static unsigned divide(uint64_t *number, int count) {
    uint64_t rest = 0;
    for (int k = count - 1; k >= 0; k--) {
        const uint64_t high = rest << 32 | number[k] >> 32, low = high % 10 << 32 | (number[k] & UINT32_MAX);
        number[k] = high / 10 << 32 | low / 10;
        rest = low % 10;
    }
    return (unsigned)rest;
}

/* Multiplies a number by ten; what goes over. */
static unsigned multiply(uint64_t *number, int count) {
    uint64_t over = 0;
    for (int k = 0; k < count; k++) {
        const uint64_t low = (number[k] & UINT32_MAX) * 10 + over, high = (number[k] >> 32) * 10 + (low >> 32);
        number[k] = high << 32 | (low & UINT32_MAX);
        over = high >> 32;
    }
    return (unsigned)over;
}

static int is_zero(const uint64_t *number, int count) {
    while (count > 0 && number[count - 1] == 0)
        count--;
    return count == 0;
}

/* The number's first digits and one more, and the power of ten of the first; the number isn't zero. What stands before the point is divided
   by ten until nothing is left, which gives its digits from the last on; what stands behind it is multiplied, which gives them from the
   first on. */
static int first_digits(uint64_t *number, unsigned digits[DIGITS + 1]) {
    unsigned whole[MOST_DIGITS];
    int before = 0, found = 0, power;
    while (!is_zero(number + FRACTION_WORDS, MOVED_WORDS - FRACTION_WORDS))
        whole[before++] = divide(number + FRACTION_WORDS, MOVED_WORDS - FRACTION_WORDS);
    power = before - 1;
    while (found <= DIGITS) {
        digits[found] = before > 0 ? whole[--before] : multiply(number, FRACTION_WORDS);
        if (found > 0 || digits[0] != 0)
            found++;
        else
            power--;
    }
    return power;
}

/* Rounds to one digit fewer, by that digit; what is to be added to the power of ten. */
static int round_digits(unsigned digits[DIGITS + 1]) {
    int k = DIGITS;
    if (digits[DIGITS] < 5)
        return 0;
    while (k > 0 && digits[k - 1] == 9)
        digits[--k] = 0;
    digits[k > 0 ? k - 1 : 0]++;
    return k == 0;
}

void exact_print(const uint64_t words[EXACT_WORDS]) {
    uint64_t size[EXACT_WORDS], number[MOVED_WORDS];
    unsigned digits[DIGITS + 1] = {0};
    int power = 0;
    size_of(words, size);
    number[0] = size[0] << MOVED;
    for (int k = 1; k < EXACT_WORDS; k++)
        number[k] = size[k] << MOVED | size[k - 1] >> (64 - MOVED);
    number[EXACT_WORDS] = size[EXACT_WORDS - 1] >> (64 - MOVED);
    if (!is_zero(size, EXACT_WORDS)) {
        power = first_digits(number, digits);
        power += round_digits(digits);
    }
    printf("%c%u.", is_negative(words) ? '-' : ' ', digits[0]);
    for (int k = 1; k < DIGITS; k++)
        printf("%u", digits[k]);
    printf("e%+03d", power);
}
