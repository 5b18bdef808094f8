/* inspect --resolution FILE: whether a table's levels are fine enough. */
#include "tools.h"

#include "mesh.h"

#include <math.h>
#include <stdlib.h>

/* Of a level: the angles between neighbours, and the square of the distance to the nearest vertex that a direction can
 * have at most. */
typedef struct spread {
    double least, most, farthest;
} spread;

static double squared(const double p[3], const double q[3]) {
    double d[3] = {p[0] - q[0], p[1] - q[1], p[2] - q[2]};
    return d[0] * d[0] + d[1] * d[1] + d[2] * d[2];
}

/* The nearest of n vertices. */
static double nearest(const double *vertices, uint64_t n, const double p[3]) {
    double least = INFINITY;
    for (uint64_t v = 0; v < n; v++)
        least = fmin(least, squared(p, vertices + 3 * v));
    return least;
}

/* The direction as far from each of three vertices of a sphere as from the others, on their side of it. */
static void middle_of(const double *a, const double *b, const double *c, double p[3]) {
    double x[3], y[3];
    for (int k = 0; k < 3; k++)
        x[k] = b[k] - a[k], y[k] = c[k] - a[k];
    for (int k = 0; k < 3; k++)
        p[k] = x[(k + 1) % 3] * y[(k + 2) % 3] - x[(k + 2) % 3] * y[(k + 1) % 3];
    double length = sqrt(p[0] * p[0] + p[1] * p[1] + p[2] * p[2]);
    if (p[0] * a[0] + p[1] * a[1] + p[2] * a[2] < 0)
        length = -length;
    for (int k = 0; k < 3; k++)
        p[k] /= length;
}

static bool tied(const uint8_t *counts, const uint16_t *neighbours, uint64_t p, uint64_t q) {
    for (int k = 0; k < counts[p]; k++)
        if (neighbours[6 * p + (uint64_t)k] == q)
            return true;
    return false;
}

/* A direction that lies farther from every vertex than those beside it is the middle of a face. */
static spread spread_of(const double *vertices, const double *angles, const uint8_t *counts, const uint16_t *neighbours, uint64_t n) {
    spread s = {INFINITY, 0, 0};
    for (uint64_t v = 0; v < n; v++)
        for (int i = 0; i < counts[v]; i++) {
            uint64_t a = neighbours[6 * v + (uint64_t)i];
            s.least = fmin(s.least, angles[6 * v + (uint64_t)i]);
            s.most = fmax(s.most, angles[6 * v + (uint64_t)i]);
            for (int j = 0; j < counts[v]; j++) {
                uint64_t b = neighbours[6 * v + (uint64_t)j];
                if (!(v < a && a < b && tied(counts, neighbours, a, b)))
                    continue;
                double p[3];
                middle_of(vertices + 3 * v, vertices + 3 * a, vertices + 3 * b, p);
                s.farthest = fmax(s.farthest, nearest(vertices, n, p));
            }
        }
    return s;
}

static uint64_t rows_at(const table_file *f, unsigned kind, uint64_t level) {
    uint64_t count = 0;
    for (uint64_t s = 0; s < f->table.rows; s++) {
        row r = row_of(f, s);
        count += r.kind == kind && r.level == level;
    }
    return count;
}

static void json_level(uint64_t level, uint64_t n, const uint64_t rows[2], const spread *s) {
    json_open(NULL, '{');
    json_count("level", level);
    json_count("vertices", n);
    json_count("nearest", rows[0]);
    json_count("interpolated", rows[1]);
    json_double("least_apart", s->least);
    json_double("most_apart", s->most);
    json_double("farthest", 2 * asin(sqrt(s->farthest) / 2));
    json_double("farthest_squared", s->farthest);
    json_close('}');
}

static void print_heading(void) {
    puts("Over the icospheres of mesh.h. Apart: the angle between neighbouring vertices, in radians. Farthest: how far from its");
    puts("nearest vertex a direction can lie, in radians, and squared, as a nearest reading of two molecules shows it.");
    puts("level  vertices     nearest  interpolated  apart, least  apart, most  farthest  farthest, squared");
}

static void print_levels(const table_file *f, const icotable_meshes *m, bool json) {
    uint64_t below = 0;
    for (uint64_t level = 0; level < f->table.levels; level++) {
        uint64_t n = icotable_vertices(level), rows[2] = {rows_at(f, NEAREST, level), rows_at(f, INTERPOLATED, level)};
        spread s = spread_of(m->vertices + 3 * below, m->angles + 6 * below, m->neighbour_counts + below, m->neighbours + 6 * below, n);
        if (json)
            json_level(level, n, rows, &s);
        else
            printf("%5llu  %8llu  %10llu  %12llu  %12.4f  %11.4f  %8.4f  %17.5f\n", (unsigned long long)level, (unsigned long long)n, (unsigned long long)rows[0],
                   (unsigned long long)rows[1], s.least, s.most, 2 * asin(sqrt(s.farthest) / 2), s.farthest);
        below += n;
    }
}

int print_resolution(const table_file *f, bool json) {
    icotable_meshes m;
    uint64_t number = icotable_make_meshes(&m, f->table.levels - 1);
    if (number != 0) {
        icotable_free_meshes(&m);
        fprintf(stderr, "icotable: the meshes cannot be made: %llu\n", (unsigned long long)number);
        return TROUBLE;
    }
    if (json)
        json_open("resolution", '[');
    else
        print_heading();
    print_levels(f, &m, json);
    if (json)
        json_close(']');
    icotable_free_meshes(&m);
    return GOOD;
}
