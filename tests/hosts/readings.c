/* Many readings in one call beside single ones: readings SEED POSES. A table of levels 0 to 3 whose rows are of every kind, one
 * that is damaged among them, is read at random poses, also outside, of no length and at NaNs, by lists of random lengths: with
 * no beta, one, one that is refused, and two, of which the first counts. Number, energy and distances have to be those of the
 * single reading, and entries beyond the poses answered have to stay; 0, 18, 19, 21 and distances have to come
 * up. The status is 1 where something is otherwise. */
#include "mesh.h"

#include <math.h>
#include <stdbool.h>
#include <stdio.h>
#include <stdlib.h>
#include <string.h>

enum { TOP = 3, DISTANCES = 6, DIHEDRALS = 4, ROWS = DISTANCES * DIHEDRALS, MOST = 100, KINDS = 5 };

static uint64_t state;

/* splitmix64 */
static uint64_t random_bits(void) {
    uint64_t z = state += 0x9E3779B97F4A7C15;
    z = (z ^ z >> 30) * 0xBF58476D1CE4E5B9;
    z = (z ^ z >> 27) * 0x94D049BB133111EB;
    return z ^ z >> 31;
}

static double from_to(double low, double high) {
    return low + (high - low) * ((double)(random_bits() >> 11) * 0x1p-53);
}

/* The numbers that single readings answered, as bits, and whether one showed a distance. */
static uint64_t numbers_seen;
static bool distance_seen;

static uint8_t *file;
static size_t length;
static icotable_table table;
static icotable_meshes meshes;

static void put(uint8_t *p, uint32_t x) {
    for (int k = 0; k < 4; k++)
        p[k] = (uint8_t)(x >> 8 * k);
}

/* Rows from byte 0 on, then energies that are random bits, NaNs and infinities among them: a reading takes any table that a host
 * hands in. A row in seven has a kind or an offset that no table has. */
static bool make_table(void) {
    const uint32_t n = (uint32_t)icotable_vertices(TOP), energies = 2 * n * n;
    length = 10 * ROWS + 4 * (size_t)energies;
    file = malloc(length);
    if (!file || icotable_make_meshes(&meshes, TOP) != 0)
        return false;
    for (size_t i = 10 * ROWS; i < length; i++)
        file[i] = (uint8_t)random_bits();
    for (int s = 0; s < ROWS; s++) {
        uint8_t *row = file + 10 * s;
        row[0] = (uint8_t)(s % KINDS), row[1] = (uint8_t)(random_bits() % (TOP + 2));
        put(row + 2, s % 7 == 6 ? energies - 9 : (uint32_t)(random_bits() % (n * n)));
        put(row + 6, (uint32_t)random_bits());
    }
    table = (icotable_table){.grid = {.rmin = 1, .rmax = 1 + DISTANCES, .dr = 1, .omega_step = 6.4 / DIHEDRALS, .n_r = DISTANCES,
                                      .n_omega = DIHEDRALS},
                             .levels = TOP + 1, .rows = ROWS, .energies = energies, .start = {[4] = 10 * ROWS}};
    return true;
}

static void make_pose(double q[8]) {
    static const double odd[] = {NAN, INFINITY, -INFINITY, 0, 1e300, 5e-324};
    q[0] = from_to(0.8, 1.2 + DISTANCES);
    q[1] = from_to(-7, 7);
    for (int k = 2; k < 8; k++)
        q[k] = from_to(-1, 1);
    if (random_bits() % 8 == 0)
        q[random_bits() % 8] = odd[random_bits() % 6];
}

static icotable_value single(const double q[8], const double *beta, size_t betas) {
    if (betas)
        return icotable_boltzmann(
            &table, file, length, ICOTABLE_LOCATORS(&meshes), q[0], q[1], q[2], q[3], q[4], q[5], q[6], q[7], *beta);
    return icotable_reading(&table, file, length, ICOTABLE_LOCATORS(&meshes), q[0], q[1], q[2], q[3], q[4], q[5], q[6], q[7]);
}

typedef struct lists {
    double poses[8 * MOST], answers[3 * MOST];
    uint64_t numbers[MOST];
} lists;

static size_t least(size_t a, size_t b) {
    return a < b ? a : b;
}

/* Bit for bit; of NaNs the library has one, whose bits are not promised. */
static bool same_lists(const lists *a, const lists *b) {
    for (size_t i = 0; i < 3 * MOST; i++)
        if (memcmp(a->answers + i, b->answers + i, sizeof(double)) != 0 && !(isnan(a->answers[i]) && isnan(b->answers[i])))
            return false;
    return memcmp(a->numbers, b->numbers, sizeof a->numbers) == 0 && memcmp(a->poses, b->poses, sizeof a->poses) == 0;
}

/* One call with lists of such lengths: how many poses it read, or MOST + 1 where an answer differs. */
static size_t compared(size_t poses, size_t numbers, size_t answers, const double *beta, size_t betas) {
    static lists l, before;
    for (size_t i = 0; i < MOST; i++)
        make_pose(l.poses + 8 * i), l.numbers[i] = random_bits();
    for (size_t i = 0; i < 3 * MOST; i++)
        l.answers[i] = from_to(0, 1);
    before = l;
    size_t wanted = least(poses / 8, least(numbers, answers / 3));
    uint64_t count = icotable_readings(
        &table, file, length, ICOTABLE_LOCATORS(&meshes), l.poses, poses, beta, betas, l.numbers, numbers, l.answers, answers);
    for (size_t i = 0; i < wanted; i++) {
        icotable_value v = single(l.poses + 8 * i, beta, betas);
        before.numbers[i] = v.number;
        numbers_seen |= 1u << v.number;
        distance_seen |= v.distance_a > 0;
        memcpy(before.answers + 3 * i, &v.energy, 3 * sizeof(double));
    }
    return count == wanted && same_lists(&l, &before) ? wanted : MOST + 1;
}

int main(int words, char **names) {
    static const double betas[][2] = {{0.4, 0.4}, {0.4, NAN}, {NAN, 0.4}, {0, 1}, {3, -1}};
    if (words != 3)
        return 2;
    state = strtoull(names[1], NULL, 10);
    size_t wanted = strtoull(names[2], NULL, 10), read = 0, differ = 0;
    if (!make_table())
        return 2;
    while (read < wanted) {
        size_t count = compared(random_bits() % (8 * MOST + 1), random_bits() % (MOST + 1), random_bits() % (3 * MOST + 1),
                                betas[random_bits() % 5], random_bits() % 3);
        differ += count > MOST;
        read += count > MOST ? 1 : count + 1;
    }
    bool all_seen = numbers_seen == (1u << 0 | 1u << 18 | 1u << 19 | 1u << 21) && distance_seen;
    printf("readings: seed %s, %zu poses and calls; %zu calls differ%s\n", names[1], read, differ,
           all_seen ? "" : "; an answer never came up, or one that none should be");
    icotable_free_meshes(&meshes);
    free(file);
    return differ != 0 || !all_seen;
}
