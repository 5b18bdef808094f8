// Times the exported operations of the library that landed (where LANDED is defined) and of the new one beside the machine's own (E and ln beside the C library's exp and log). Rounds are short and interleaved, and
// the fastest of each counts, since other work on the machine can only slow a round down. That the results are equal is for tests/compare/leaves.
#include <math.h>
#include <stddef.h>
#include <stdint.h>
#include <stdio.h>
#include <string.h>
#include <time.h>

#define LIBRARY(name) \
    double name##_root(double x); \
    double name##_mul_add(double a, double b, double c); \
    float name##_narrow(double x); \
    double name##_exp(double y); \
    double name##_ln(double x); \
    void name##_narrow_all(const double *xs, size_t xs_len, float *out, size_t out_len);
LIBRARY(float)
#ifdef LANDED
LIBRARY(landed_float)
enum { FIRST = 0 };
// what the library that landed may not have yet
#pragma weak landed_float_ln
static int has_landed(const char *name) { return strcmp(name, "ln") != 0 || landed_float_ln != NULL; }
#else
// nothing of it is called
#define landed_float_root float_root
#define landed_float_mul_add float_mul_add
#define landed_float_narrow float_narrow
#define landed_float_exp float_exp
#define landed_float_ln float_ln
#define landed_float_narrow_all float_narrow_all
enum { FIRST = 1 };
static int has_landed(const char *name) { return name == NULL; }
#endif

enum { COUNT = 1024, ROUNDS = 8000 };

static double positive[COUNT], a[COUNT], b[COUNT], c[COUNT], exponents[COUNT], out[COUNT];
static float narrow_out[COUNT];

// All sides are called and not inlined, as a caller in C would have it.
#define CALLED __attribute__((noinline)) static
CALLED double root_landed(double x) { return landed_float_root(x); }
CALLED double mul_add_landed(double x, double y, double z) { return landed_float_mul_add(x, y, z); }
CALLED float narrow_landed(double x) { return landed_float_narrow(x); }
CALLED double exp_landed(double x) { return landed_float_exp(x); }
CALLED double ln_landed(double x) { return landed_float_ln(x); }
CALLED double root_ours(double x) { return float_root(x); }
CALLED double root_machine(double x) { return sqrt(x); }
CALLED double mul_add_ours(double x, double y, double z) { return float_mul_add(x, y, z); }
CALLED double mul_add_machine(double x, double y, double z) { return fma(x, y, z); }
CALLED float narrow_ours(double x) { return float_narrow(x); }
CALLED float narrow_machine(double x) { return (float)x; }
CALLED double exp_ours(double x) { return float_exp(x); }
CALLED double exp_machine(double x) { return exp(x); }
CALLED double ln_ours(double x) { return float_ln(x); }
CALLED double ln_machine(double x) { return log(x); }
// Of the lists the compiler may learn nothing either: it would make the machine's loop anew for these two arrays and this one length.
#define UNKNOWN __attribute__((noipa)) static
UNKNOWN void narrow_all_landed(const double *xs, float *to, size_t n) { landed_float_narrow_all(xs, n, to, n); }
UNKNOWN void narrow_all_ours(const double *xs, float *to, size_t n) { float_narrow_all(xs, n, to, n); }
UNKNOWN void narrow_all_machine(const double *xs, float *to, size_t n) {
    for (size_t i = 0; i < n; i++) to[i] = (float)xs[i];
}

static uint64_t state = 0x9E3779B97F4A7C15;
static uint64_t random_bits(void) {
    state ^= state << 13;
    state ^= state >> 7;
    state ^= state << 17;
    return state;
}

static double of_bits(uint64_t bits) {
    double x;
    memcpy(&x, &bits, 8);
    return x;
}

// A round of calls whose results are added up, one of calls that do not wait for each other, and one where each result feeds the next call.
// The sum mostly has to be in memory during a call, and that wait alone may take longer than the machine's operation. All sides have it.
#define LOOP(name, before, each, after) static void name(void) { before; for (int i = 0; i < COUNT; i++) each; after; }
#define SUMMED(name, value) LOOP(name, double sum = 0, sum += value, out[0] = sum)
#define APART(name, to, value) LOOP(name, , to[i] = value, )
#define LATENCY(name, value) LOOP(name, double v = 1.5, v = value, out[0] = v)

#define SIDE(name, side, to, call, ...) \
    SUMMED(name##_summed_##side, call##_##side(__VA_ARGS__)) \
    APART(name##_apart_##side, to, call##_##side(__VA_ARGS__))
#define SIDES(name, to, call, ...) \
    SIDE(name, landed, to, call, __VA_ARGS__) \
    SIDE(name, ours, to, call, __VA_ARGS__) \
    SIDE(name, machine, to, call, __VA_ARGS__)

SIDES(root, out, root, positive[i])
SIDES(mul_add, out, mul_add, a[i], b[i], c[i])
SIDES(positives, out, mul_add, fabs(a[i]), fabs(b[i]), fabs(c[i]))
SIDES(halves, out, mul_add, a[i], 0.5, 0.5)
SIDES(narrow, narrow_out, narrow, a[i])
SIDES(exp, out, exp, exponents[i])
SIDES(ln, out, ln, positive[i])
// Between two roots stands an addition, on all sides: roots alone would soon be 1.
#define ALONE(side) \
    LATENCY(root_latency_##side, root_##side(v + positive[i])) \
    LATENCY(mul_add_latency_##side, mul_add_##side(v, 0.75, c[i])) \
    static void narrow_entry_##side(void) { narrow_all_##side(a, narrow_out, COUNT); }
ALONE(landed)
ALONE(ours)
ALONE(machine)

// A bar is how many times the machine's time an operation may take; 0 for none. No operation may be slower than it was.
#define ROW(name, call, measure, bar) {name, #measure, {call##_##measure##_landed, call##_##measure##_ours, call##_##measure##_machine}, bar, {1e9, 1e9, 1e9}}
static struct {
    const char *name, *measure;
    void (*sides[3])(void);
    double bar, ns[3];
} rows[] = {
    ROW("root", root, summed, 5),
    ROW("root", root, apart, 0),
    ROW("root", root, latency, 0),
    ROW("mul_add, random signs", mul_add, summed, 5),
    ROW("mul_add, random signs", mul_add, apart, 0),
    ROW("mul_add", mul_add, latency, 0),
    ROW("mul_add, all positive", positives, summed, 5),
    ROW("mul_add, all positive", positives, apart, 0),
    ROW("mul_add, x * 0.5 + 0.5", halves, summed, 5),
    ROW("mul_add, x * 0.5 + 0.5", halves, apart, 0),
    ROW("narrow, one by one", narrow, summed, 4),
    ROW("narrow, one by one", narrow, apart, 0),
    ROW("narrow, a list", narrow, entry, 4),
    ROW("exp", exp, summed, 0),
    ROW("exp", exp, apart, 0),
    ROW("ln", ln, summed, 0),
    ROW("ln", ln, apart, 0),
};
enum { ROWS = sizeof rows / sizeof rows[0] };

// Of either sign, with a random mantissa and an exponent from -3 to 2.
static double near_one(void) { return of_bits((random_bits() & 0x800FFFFFFFFFFFFF) | (1020 + random_bits() % 6) << 52); }

// New for each round: over the same numbers again and again the processor would learn which way each branch goes.
static void draw(void) {
    for (int i = 0; i < COUNT; i++) {
        positive[i] = fabs(near_one());
        a[i] = near_one(), b[i] = near_one(), c[i] = near_one();
        exponents[i] = 4 * near_one();
    }
}

static double timed(void (*round)(void)) {
    struct timespec from, to;
    clock_gettime(CLOCK_MONOTONIC, &from);
    round();
    // what the round stored counts as read
    __asm__ volatile("" : : "r"(out), "r"(narrow_out) : "memory");
    clock_gettime(CLOCK_MONOTONIC, &to);
    return ((to.tv_sec - from.tv_sec) * 1e9 + (to.tv_nsec - from.tv_nsec)) / COUNT;
}

// A bar or the landed library's time may be passed by a tenth in one run.
static void print(int r) {
    const double *ns = rows[r].ns, bar = rows[r].bar, ratio = ns[1] / ns[2];
    int landed = has_landed(rows[r].name);
    const char *mark = (bar > 0 && ratio > 1.1 * bar) || (landed && ns[1] > 1.1 * ns[0]) ? "**" : "";
    printf("| %s, %s | ns | ", rows[r].name, rows[r].measure);
    if (FIRST == 0)
        landed ? printf("%.2f | ", ns[0]) : printf("- | ");
    printf("%.2f | %.2f | ", ns[1], ns[2]);
    if (FIRST == 0)
        landed ? printf("%.2f | ", ns[0] / ns[2]) : printf("- | ");
    printf("%s%.2f%s | ", mark, ratio, mark);
    if (bar > 0)
        printf("%.0f, ", bar);
    printf("landed |\n");
}

int main(void) {
    for (int round = 0; round < ROUNDS; round++)
        for (int r = 0; r < ROWS; r++) {
            draw();
            for (int side = has_landed(rows[r].name) ? 0 : 1; side < 3; side++) {
                double ns = timed(rows[r].sides[side]);
                if (ns < rows[r].ns[side]) rows[r].ns[side] = ns;
            }
        }
    for (int r = 0; r < ROWS; r++)
        print(r);
}
