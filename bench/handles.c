/* The time of a reading through a handle: handles TABLE [THREADS]. Single calls in a loop, then icotable_reader_energies with one thread
 * and with THREADS (2), over the same poses, drawn over the table's distances; the least of some rounds that take turns, in nanoseconds
 * of wall time a reading. Their answers are compared first. TABLE is of two molecules. Compile it over what is installed:
 *     cc -O2 -o handles bench/handles.c $(pkg-config --cflags --libs icotable) */
#include <icotable/icotable_handles.h>

#include <stdio.h>
#include <stdlib.h>
#include <string.h>
#include <time.h>

enum { POSES = 200000, ROUNDS = 15 };

static double poses[8 * POSES], answers[3 * POSES], wanted[3 * POSES];
static uint64_t numbers[POSES];

static double now(void) {
    struct timespec t;
    clock_gettime(CLOCK_MONOTONIC, &t);
    return (double)t.tv_sec * 1e9 + (double)t.tv_nsec;
}

static double drawn(void) {
    static uint64_t state = 5;
    state = state * 6364136223846793005u + 1442695040888963407u;
    return (double)(state >> 11) / 4503599627370496.0 - 1;
}

static void draw(const icotable_grid *g) {
    for (size_t i = 0; i < POSES; i++) {
        poses[8 * i] = g->rmin + (g->rmax - g->rmin) * 0.5 * (drawn() + 1);
        for (size_t k = 1; k < 8; k++)
            poses[8 * i + k] = drawn();
    }
}

static double singles(const icotable_reader *t) {
    double from = now();
    for (size_t i = 0; i < POSES; i++) {
        const double *p = poses + 8 * i;
        icotable_value v = icotable_reader_energy(t, p[0], p[1], p[2], p[3], p[4], p[5], p[6], p[7]);
        wanted[3 * i] = v.energy;
        wanted[3 * i + 1] = v.distance_a;
        wanted[3 * i + 2] = v.distance_b;
    }
    return (now() - from) / POSES;
}

static double many(const icotable_reader *t, unsigned threads) {
    double from = now();
    icotable_reader_energies(t, poses, POSES, NULL, numbers, answers, threads);
    double time = (now() - from) / POSES;
    if (memcmp(answers, wanted, sizeof answers) != 0) {
        fprintf(stderr, "handles: %u threads answer otherwise than single calls\n", threads);
        exit(1);
    }
    return time;
}

int main(int count, char **names) {
    icotable_fault fault;
    icotable_reader *t = count < 2 ? NULL : icotable_reader_open(names[1], NULL, &fault);
    unsigned threads = count > 2 ? (unsigned)atoi(names[2]) : 2;
    if (t == NULL || icotable_reader_atom(t)) {
        fprintf(stderr, "handles: %s\n", t != NULL ? "a table against an atom" : count < 2 ? "usage: handles TABLE [THREADS]" : fault.said);
        return 2;
    }
    double least[3] = {1e18, 1e18, 1e18};
    draw(&icotable_reader_table(t)->grid);
    for (int round = 0; round < ROUNDS; round++) {
        double times[3] = {singles(t), many(t, 1), many(t, threads)};
        for (int k = 0; k < 3; k++)
            least[k] = times[k] < least[k] ? times[k] : least[k];
    }
    printf("single calls %.1f ns; energies %.1f ns with one thread, %.1f ns with %u: %.2f times as fast as with one\n", least[0], least[1], least[2], threads,
           least[1] / least[2]);
    icotable_reader_close(t);
    return 0;
}
