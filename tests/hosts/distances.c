/* How far the chosen vertices lie (docs/GUIDE.md): distances SEED READINGS. For each level a table with one row that is read at
 * the nearest vertices, whose energy names the pair: i*n + j of vertices i and j. Readings at random directions have to show the
 * squared distances of these two vertices, bit for bit, a weighted one too, and never less than that of the vertex that is
 * nearest of all; the same row interpolated has to show none. Prints for each level the mean of what is shown. The status is 1
 * where a reading does otherwise. */
#include "mesh.h"

#include <math.h>
#include <stdbool.h>
#include <stdio.h>
#include <stdlib.h>
#include <string.h>

enum { TOP = 15, ROW = 3 };

static uint64_t state;

/* splitmix64, as a number from -1 to 1 */
static double unit_number(void) {
    uint64_t z = state += 0x9E3779B97F4A7C15;
    z = (z ^ z >> 30) * 0xBF58476D1CE4E5B9;
    z = (z ^ z >> 27) * 0x94D049BB133111EB;
    return (double)((z ^ z >> 31) >> 11) * 0x1p-52 - 1;
}

static void direction(double d[3]) {
    double square;
    do {
        for (int k = 0; k < 3; k++)
            d[k] = unit_number();
        square = d[0] * d[0] + d[1] * d[1] + d[2] * d[2];
    } while (square > 1 || square < 0.01);
}

/* Of the direction divided by its length. */
static double squared(const double d[3], const double *v) {
    double length = icotable_root(d[0] * d[0] + d[1] * d[1] + d[2] * d[2]), e[3];
    for (int k = 0; k < 3; k++)
        e[k] = d[k] / length - v[k];
    return e[0] * e[0] + e[1] * e[1] + e[2] * e[2];
}

static double least(const double d[3], const double *vertices, uint64_t n) {
    double s = INFINITY;
    for (uint64_t v = 0; v < n; v++)
        s = fmin(s, squared(d, vertices + 3 * v));
    return s;
}

static uint8_t *file;
static size_t length;
static icotable_table table;
static icotable_meshes meshes;

/* The file of one slab of a level. */
static bool build(uint64_t level) {
    static const icotable_grid settings = {.rmin = 0, .rmax = 1, .dr = 1, .omega_step = 6, .threshold = 0.1, .beta = 1};
    uint64_t n = icotable_vertices(level), per = n * n;
    double *store = malloc(per * sizeof *store), *energies = malloc(per * sizeof *energies);
    size_t room = 200 + 4 * per;
    uint64_t word;
    file = malloc(room);
    if (!store || !energies || !file)
        return false;
    for (uint64_t i = 0; i < per; i++)
        energies[i] = (double)i;
    icotable_built f = icotable_fresh(settings, level, store, per, &word, 1, ICOTABLE_MESHES(&meshes));
    icotable_built s = icotable_set(f.builder, store, per, &word, 1, 0, 0, energies, per);
    icotable_written w = icotable_write(s.builder, store, per, &word, 1, ICOTABLE_MESHES(&meshes), file, room);
    length = w.length;
    table = icotable_read(file, length);
    free(store);
    free(energies);
    return f.number + s.number + w.number + table.number == 0;
}

static icotable_value reading(const double a[3], const double b[3]) {
    return icotable_reading(&table, file, length, ICOTABLE_LOCATORS(&meshes), 0.5, 0, a[0], a[1], a[2], b[0], b[1], b[2]);
}

static icotable_value weighted(const double a[3], const double b[3]) {
    return icotable_boltzmann(&table, file, length, ICOTABLE_LOCATORS(&meshes), 0.5, 0, a[0], a[1], a[2], b[0], b[1], b[2], 1);
}

/* One pair of directions; what it shows is added to the sum. */
static bool tried(uint64_t level, double *sum) {
    const double *vertices = icotable_level_vertices(&meshes, level);
    uint64_t n = icotable_vertices(level);
    double a[3], b[3];
    direction(a);
    direction(b);
    uint8_t *kind = file + table.start[ROW];
    *kind = 3;
    icotable_value none = reading(a, b);
    *kind = 2;
    icotable_value v = reading(a, b), w = weighted(a, b);
    uint64_t pair = (uint64_t)v.energy;
    const double *p = vertices + 3 * (pair / n), *q = vertices + 3 * (pair % n);
    *sum += v.distance_a + v.distance_b;
    return v.number + none.number == 0 && none.distance_a == 0 && none.distance_b == 0 && memcmp(&v, &w, sizeof v) == 0
           && v.distance_a == squared(a, p) && v.distance_b == squared(b, q) && v.distance_a >= least(a, vertices, n)
           && v.distance_b >= least(b, vertices, n);
}

int main(int count, char **names) {
    if (count != 3 || icotable_make_meshes(&meshes, TOP) != 0)
        return 2;
    state = strtoull(names[1], NULL, 10);
    uint64_t readings = strtoull(names[2], NULL, 10), differ = 0;
    for (uint64_t level = 0; level <= TOP; level++) {
        if (!build(level))
            return 2;
        double sum = 0;
        for (uint64_t i = 0; i < readings; i++)
            differ += !tried(level, &sum);
        printf("%llu %.6f\n", (unsigned long long)level, sum / (2 * (double)readings));
        free(file);
    }
    printf("distances: seed %s, 16 levels, %s readings each; %llu differ\n", names[1], names[2], (unsigned long long)differ);
    icotable_free_meshes(&meshes);
    return differ != 0;
}
