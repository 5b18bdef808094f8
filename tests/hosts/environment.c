/* The test of the floating-point environment, in every one that x86-64 has: four ways to round, results flushed or not,
 * operands flushed or not. environment start says how the program began instead. */
#include "environment.h"

#include <fenv.h>
#include <stdio.h>
#include <string.h>
#include <xmmintrin.h>

enum { FLUSH_RESULTS = 0x8000, FLUSH_OPERANDS = 0x40 }; /* of the register MXCSR */

static const int roundings[] = {FE_TONEAREST, FE_DOWNWARD, FE_UPWARD, FE_TOWARDZERO};
enum { ROUNDINGS = sizeof roundings / sizeof roundings[0], ENVIRONMENTS = 4 * ROUNDINGS };

/* What is found in environment k, between setting it and setting the first one again. */
static unsigned found(int k) {
    unsigned was = _mm_getcsr();
    int rounding = fegetround();
    fesetround(roundings[k / 4]);
    _mm_setcsr(_mm_getcsr() | (k & 1 ? FLUSH_RESULTS : 0) | (k & 2 ? FLUSH_OPERANDS : 0));
    unsigned result = icotable_float_environment();
    fesetround(rounding);
    _mm_setcsr(was);
    return result;
}

static unsigned wanted(int k) {
    return (k / 4 ? ICOTABLE_ROUNDING : 0) | (k & 1 ? ICOTABLE_RESULTS_FLUSHED : 0) | (k & 2 ? ICOTABLE_OPERANDS_FLUSHED : 0);
}

int main(int count, char **names) {
    unsigned at_start = icotable_float_environment();
    if (count > 1 && strcmp(names[1], "start") == 0) {
        printf("%u: %s\n", at_start, icotable_float_environment_words(at_start));
        return 0;
    }
    _mm_setcsr(_mm_getcsr() & ~(unsigned)(FLUSH_RESULTS | FLUSH_OPERANDS));
    int wrong = 0;
    for (int k = 0; k < ENVIRONMENTS; k++)
        if (found(k) != wanted(k)) {
            fprintf(stderr, "environment: %u where it is %u\n", found(k), wanted(k));
            wrong++;
        }
    printf("environments: %d; found to be others: %d\n", ENVIRONMENTS, wrong);
    return wrong != 0;
}
