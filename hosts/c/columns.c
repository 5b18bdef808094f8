#include "handles.h"

#include <string.h>

typedef struct query {
    const icotable_reader *t;
    const icotable_columns *c;
    const double *beta;
    double *energies, *distances;
    uint64_t *numbers;
} query;

/* A block's poses and answers stay in the nearest cache. */
enum { BLOCK = 128 };

static const char *place(const void *first, ptrdiff_t stride, size_t i) {
    return (const char *)first + (ptrdiff_t)i * stride;
}

/* The columns are a copy, which no store can alter: so they stay in registers. */
static void pack_pairs(icotable_columns c, size_t from, size_t count, double *packed) {
    for (size_t i = from; i < from + count; i++, packed += 8) {
        memcpy(packed, place(c.r, c.r_stride, i), sizeof(double));
        memcpy(packed + 1, place(c.omega, c.omega_stride, i), sizeof(double));
        memcpy(packed + 2, place(c.a, c.a_stride, i), 3 * sizeof(double));
        memcpy(packed + 5, place(c.b, c.b_stride, i), 3 * sizeof(double));
    }
}

static void pack_atoms(icotable_columns c, size_t from, size_t count, double *packed) {
    for (size_t i = from; i < from + count; i++, packed += 4) {
        memcpy(packed, place(c.r, c.r_stride, i), sizeof(double));
        memcpy(packed + 1, place(c.a, c.a_stride, i), 3 * sizeof(double));
    }
}

/* Gives the number of refused poses. */
static uint64_t unpack(const query *q, size_t from, size_t count, const uint64_t *numbers, const double *answers) {
    size_t wide = q->t->atom ? 1 : 3;
    double *energies = q->energies + from;
    uint64_t refused = 0;
    for (size_t i = 0; i < count; i++) {
        energies[i] = answers[wide * i];
        refused += numbers[i] != 0;
    }
    if (q->numbers != NULL)
        memcpy(q->numbers + from, numbers, count * sizeof *numbers);
    for (size_t i = 0; q->distances != NULL && i < count; i++)
        memcpy(q->distances + 2 * (from + i), answers + 3 * i + 1, 2 * sizeof *answers);
    return refused;
}

static uint64_t answer(const void *what, size_t from, size_t to) {
    const query *q = what;
    double packed[8 * BLOCK], answers[3 * BLOCK];
    uint64_t numbers[BLOCK], refused = 0;
    for (; from < to; from += BLOCK) {
        size_t count = to - from < BLOCK ? to - from : BLOCK;
        if (q->t->atom)
            pack_atoms(*q->c, from, count, packed);
        else
            pack_pairs(*q->c, from, count, packed);
        icotable_reader_energies(q->t, packed, count, q->beta, numbers, answers, 1);
        refused += unpack(q, from, count, numbers, answers);
    }
    return refused;
}

uint64_t icotable_reader_columns(const icotable_reader *t, const icotable_columns *poses, size_t poses_count, const double *beta, double *energies,
                                 double *distances, uint64_t *numbers, unsigned threads) {
    if (t == NULL)
        return poses_count;
    return icotable_in_runs_(poses_count, threads, answer, &(query){t, poses, beta, energies, t->atom ? NULL : distances, numbers});
}
