/* The rows of docs/NARROWING.md: of each example its bits, the case, the bits that it narrows to and what became of its magnitude. What was made of the cut pattern is worked out here from
 * the two f32 around the number; the status is 1 where it is not what the case says. */
#include "icotable.h"

#include <inttypes.h>
#include <math.h>
#include <stdio.h>
#include <string.h>

static const char *const cases[] = {"none", "overflow", "below half", "half even", "half odd", "above half"};
static const char *const said[] = {"as it is", "made infinite", "cut", "cut", "raised", "raised"};

typedef struct example {
    const char *number;
    uint64_t bits;
} example;

static const example examples[] = {
    {"1", 0x3FF0000000000000},
    {"-0", 0x8000000000000000},
    {"the f64 before 1 + 2^-24", 0x3FF000000FFFFFFF},
    {"1 + 2^-24", 0x3FF0000010000000},
    {"the f64 after 1 + 2^-24", 0x3FF0000010000001},
    {"1 + 3·2^-24", 0x3FF0000030000000},
    {"16,777,217", 0x4170000010000000},
    {"16,777,219", 0x4170000030000000},
    {"2 - 2^-24", 0x3FFFFFFFF0000000},
    {"2^-149, the smallest f32", 0x36A0000000000000},
    {"the f64 before 2^-150", 0x368FFFFFFFFFFFFF},
    {"2^-150", 0x3690000000000000},
    {"the f64 after 2^-150", 0x3690000000000001},
    {"-3·2^-150", 0xB6A8000000000000},
    {"5·2^-150", 0x36B4000000000000},
    {"2^-126 - 2^-150", 0x380FFFFFE0000000},
    {"2^-1074, the smallest f64", 1},
    {"2^128 - 2^104, the largest f32", 0x47EFFFFFE0000000},
    {"the f64 before 2^128 - 2^103", 0x47EFFFFFEFFFFFFF},
    {"2^128 - 2^103", 0x47EFFFFFF0000000},
    {"-(2^128 - 2^103)", 0xC7EFFFFFF0000000},
    {"the largest f64", 0x7FEFFFFFFFFFFFFF},
    {"infinity", 0x7FF0000000000000},
    {"a NaN", 0x7FF8000000000000},
};

static uint32_t single_bits(float x) {
    uint32_t bits;
    memcpy(&bits, &x, sizeof bits);
    return bits;
}

/* The largest f32 that is not above a finite magnitude. */
static float below(double size) {
    float low = 0;
    for (uint32_t place = UINT32_C(1) << 30; place != 0; place /= 2) {
        uint32_t bits = single_bits(low) + place;
        float next;
        memcpy(&next, &bits, sizeof next);
        if (bits < 0x7F800000 && (double)next <= size)
            low = next;
    }
    return low;
}

static const char *became(double x, float y) {
    if (!isfinite(x))
        return "as it is";
    if (isinf(y))
        return "made infinite";
    uint32_t low = single_bits(below(fabs(x))), made = single_bits(fabsf(y));
    return made == low ? "cut" : made == low + 1 ? "raised" : "neither";
}

int main(void) {
    int wrong = 0;
    for (size_t i = 0; i < sizeof examples / sizeof examples[0]; i++) {
        double x;
        memcpy(&x, &examples[i].bits, sizeof x);
        uint64_t n = icotable_narrow_case(x);
        float y = icotable_narrow(x);
        const char *made = became(x, y);
        wrong += n > 5 || strcmp(made, said[n]) != 0;
        printf("| %s | %016" PRIX64 " | %" PRIu64 " %s | %08" PRIX32 " | %s |\n", examples[i].number, examples[i].bits, n, n > 5 ? "?" : cases[n], single_bits(y), made);
    }
    return wrong != 0;
}
