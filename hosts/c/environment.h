/* The floating-point environment of the thread that asks. What is proved of the library holds where a result is rounded
 * to nearest, ties to even, and where no number is flushed to zero, as IEEE 754 has it and as a program begins on Linux.
 * A program that gcc links with -ffast-math, -Ofast or -funsafe-math-optimizations begins with numbers flushed to zero,
 * and fesetround alters the rounding; then a call of the library can give another number or another energy. Ask once
 * before the first call, and in each thread that alters its environment.
 *
 * Link with libicotable: cc host.c $(pkg-config --cflags --libs icotable). */
#ifndef ICOTABLE_ENVIRONMENT_H
#define ICOTABLE_ENVIRONMENT_H

#ifdef __cplusplus
extern "C" {
#endif

enum icotable_environment {
    ICOTABLE_ROUNDING = 1,        /* a sum is not rounded to nearest, ties to even */
    ICOTABLE_RESULTS_FLUSHED = 2, /* a result below the normal numbers becomes 0 (flush to zero) */
    ICOTABLE_OPERANDS_FLUSHED = 4 /* an operand below the normal numbers counts as 0 (denormals are zero) */
};

/* 0 where the environment is as the library needs it; else the sum of what is not. Found by computing, not by asking the
 * processor, and not altered by compiler flags. */
unsigned icotable_float_environment(void);

/* Such a number in words. */
const char *icotable_float_environment_words(unsigned environment);

#ifdef __cplusplus
}
#endif

#endif
