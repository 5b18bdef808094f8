#include "environment.h"

#include <stdint.h>
#include <string.h>

/* Numbers go by their bits: a comparison of floats would itself take a small number for 0. */
static const uint64_t ONE = 0x3FF0000000000000, NEXT = 0x3FF0000000000001, SECOND = 0x3FF0000000000002;
static const uint64_t TIE = 0x3CA0000000000000;   /* half of what is between 1 and the next */
static const uint64_t HALF = 0x3FE0000000000000;
static const uint64_t LEAST = 0x0010000000000000; /* of the normal numbers */
static const uint64_t BELOW = 0x0008000000000000; /* half of it */

static double of_bits(uint64_t bits) {
    double x;
    memcpy(&x, &bits, sizeof x);
    return x;
}

static uint64_t bits_of(double x) {
    uint64_t bits;
    memcpy(&bits, &x, sizeof bits);
    return bits;
}

/* Volatile, so that the sum and the product are worked out where the program runs. */
static uint64_t sum(uint64_t x, uint64_t y) {
    volatile double a = of_bits(x), b = of_bits(y), result = a + b;
    return bits_of(result);
}

static uint64_t product(uint64_t x, uint64_t y) {
    volatile double a = of_bits(x), b = of_bits(y), result = a * b;
    return bits_of(result);
}

unsigned icotable_float_environment(void) {
    unsigned environment = 0;
    /* one tie goes down to the even number, the next goes up: no other way to round does both */
    if (sum(ONE, TIE) != ONE || sum(NEXT, TIE) != SECOND)
        environment |= ICOTABLE_ROUNDING;
    if (product(LEAST, HALF) != BELOW)
        environment |= ICOTABLE_RESULTS_FLUSHED;
    if (sum(BELOW, BELOW) != LEAST)
        environment |= ICOTABLE_OPERANDS_FLUSHED;
    return environment;
}

#define R "results are not rounded to nearest (see fesetround)"
#define F "results below the normal numbers are flushed to zero (linked with -ffast-math?)"
#define O "operands below the normal numbers count as zero (linked with -ffast-math?)"

const char *icotable_float_environment_words(unsigned environment) {
    static const char *const words[] = {"as the library needs it", R, F, R "; " F, O, R "; " O, F "; " O, R "; " F "; " O};
    return environment < sizeof words / sizeof words[0] ? words[environment] : "not a number of icotable_float_environment";
}
