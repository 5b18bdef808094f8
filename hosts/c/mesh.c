#include "mesh_lists.h"

#include <float.h>
#include <math.h>
#include <stdlib.h>

/* In wider registers a result is rounded twice. clang says -1 under -ffast-math, and still computes in doubles. */
#if FLT_EVAL_METHOD > 0 || (FLT_EVAL_METHOD < 0 && !defined __clang__)
#error "mesh.c needs a double to be computed as a double (on x86: -mfpmath=sse)"
#endif

enum { CORNERS = 12, EDGES = 30 };

/* One operation on doubles, rounded once. Operands and result are volatile, so that no flag lets the compiler fuse two
 * operations, reorder them or replace one: the bits of the vertices are part of what a table means. */
static double plus(double x, double y) {
    volatile double a = x, b = y, result = a + b;
    return result;
}

static double minus(double x, double y) {
    volatile double a = x, b = y, result = a - b;
    return result;
}

static double times(double x, double y) {
    volatile double a = x, b = y, result = a * b;
    return result;
}

static double over(double x, double y) {
    volatile double a = x, b = y, result = a / b;
    return result;
}

static double dot(const double p[3], const double q[3]) {
    return plus(plus(times(p[0], q[0]), times(p[1], q[1])), times(p[2], q[2]));
}

/* The corners of an icosahedron of edge 2, and its edges as pairs of corners. */
typedef struct icosahedron {
    double corner[CORNERS][3];
    int edge[CORNERS][CORNERS]; /* the edge's number, or -1 */
} icosahedron;

static icosahedron make_icosahedron(void) {
    icosahedron s;
    double golden = over(plus(1, icotable_root(5)), 2);
    for (int i = 0; i < CORNERS; i++) {
        int k = i / 4;
        s.corner[i][k] = 0;
        s.corner[i][(k + 1) % 3] = i & 1 ? -1 : 1;
        s.corner[i][(k + 2) % 3] = i & 2 ? -golden : golden;
    }
    int edges = 0;
    for (int a = 0; a < CORNERS; a++) {
        s.edge[a][a] = -1;
        for (int b = a + 1; b < CORNERS; b++) {
            double apart[3];
            for (int k = 0; k < 3; k++)
                apart[k] = minus(s.corner[a][k], s.corner[b][k]);
            s.edge[a][b] = s.edge[b][a] = dot(apart, apart) < 5 ? edges++ : -1;
        }
    }
    return s;
}

/* One level while it is made: each face of the icosahedron is cut into `parts` along each edge. A point of face (a, b, c)
 * has i parts of a, j of b and the rest of c; corners come first, then the edges' inner points, then the faces'. */
typedef struct level_part {
    const icosahedron *solid;
    int parts;
    double *vertices, *angles;
    uint8_t *counts;
    uint16_t *neighbours;
} level_part;

static int point(const level_part *l, int face, const int corner[3], int i, int j) {
    int share[3] = {i, j, l->parts - i - j};
    int inner = l->parts - 1;
    for (int k = 0; k < 3; k++)
        if (share[k] == l->parts)
            return corner[k];
    for (int k = 0; k < 3; k++)
        if (share[k] == 0) {
            int p = corner[k == 0 ? 1 : 0], q = corner[k == 2 ? 1 : 2];
            return CORNERS + l->solid->edge[p][q] * inner + share[k == 0 ? 1 : 0] - 1;
        }
    /* before point (i, j) of a face stand those with fewer parts of a, then those with fewer of b */
    int before = (i - 1) * inner - (i - 1) * i / 2 + j - 1;
    return CORNERS + EDGES * inner + face * (inner * (inner - 1) / 2) + before;
}

static void place(const level_part *l, int at, const int corner[3], int i, int j) {
    const double *a = l->solid->corner[corner[0]], *b = l->solid->corner[corner[1]], *c = l->solid->corner[corner[2]];
    double v[3];
    for (int k = 0; k < 3; k++)
        v[k] = plus(plus(times(a[k], i), times(b[k], j)), times(c[k], l->parts - i - j));
    double length = icotable_root(dot(v, v));
    for (int k = 0; k < 3; k++)
        l->vertices[3 * at + k] = over(v[k], length);
}

/* The one function of the C library that is used; volatile, so that it is called and not replaced by a vector of them. */
double icotable_angle_(const double *p, const double *q) {
    double cosine = dot(p, q);
    volatile double clamped = cosine > 1 ? 1 : cosine < -1 ? -1 : cosine;
    volatile double result = acos(clamped);
    return result;
}

/* Enters q as a neighbour of p, once. */
static void tie(const level_part *l, int p, int q) {
    for (int k = 0; k < l->counts[p]; k++)
        if (l->neighbours[6 * p + k] == q)
            return;
    if (l->counts[p] == 6)
        return;
    l->angles[6 * p + l->counts[p]] = icotable_angle_(l->vertices + 3 * p, l->vertices + 3 * q);
    l->neighbours[6 * p + l->counts[p]++] = (uint16_t)q;
}

static void place_face(const level_part *l, int face, const int corner[3]) {
    for (int i = 0; i <= l->parts; i++)
        for (int j = 0; j <= l->parts - i; j++)
            place(l, point(l, face, corner, i, j), corner, i, j);
}

static void tie_face(const level_part *l, int face, const int corner[3]) {
    for (int i = 0; i < l->parts; i++)
        for (int j = 0; j < l->parts - i; j++) {
            int t[3] = {point(l, face, corner, i, j), point(l, face, corner, i + 1, j), point(l, face, corner, i, j + 1)};
            for (int k = 0; k < 3; k++) {
                tie(l, t[k], t[(k + 1) % 3]);
                tie(l, t[(k + 1) % 3], t[k]);
            }
        }
}

/* All points first: a tie asks for the angle between two. */
static void make_level(const level_part *l) {
    for (int pass = 0; pass < 2; pass++) {
        int face = 0;
        for (int a = 0; a < CORNERS; a++)
            for (int b = a + 1; b < CORNERS; b++)
                for (int c = b + 1; c < CORNERS; c++) {
                    const int corner[3] = {a, b, c};
                    if (l->solid->edge[a][b] < 0 || l->solid->edge[b][c] < 0 || l->solid->edge[a][c] < 0)
                        continue;
                    if (pass == 0)
                        place_face(l, face, corner);
                    else
                        tie_face(l, face, corner);
                    face++;
                }
    }
}

int icotable_allocate_meshes_(icotable_meshes *m, uint64_t top) {
    size_t n = 0, cells = 0;
    *m = (icotable_meshes){.top = top};
    for (uint64_t level = 0; level <= top; level++) {
        n += icotable_vertices(level);
        cells += icotable_cells(level);
    }
    m->vertices_count = 3 * n;
    m->neighbour_counts_count = n;
    m->neighbours_count = m->angles_count = 6 * n;
    m->cell_offsets_count = cells;
    m->cell_vertices_count = 27 * n;
    m->face_offsets_count = n + m->top + 1;
    m->faces_count = 45 * n;
    m->vertices = calloc(m->vertices_count, sizeof *m->vertices);
    m->neighbour_counts = calloc(m->neighbour_counts_count, sizeof *m->neighbour_counts);
    m->neighbours = calloc(m->neighbours_count, sizeof *m->neighbours);
    m->angles = calloc(m->angles_count, sizeof *m->angles);
    m->cell_offsets = calloc(m->cell_offsets_count, sizeof *m->cell_offsets);
    m->cell_vertices = calloc(m->cell_vertices_count, sizeof *m->cell_vertices);
    m->face_offsets = calloc(m->face_offsets_count, sizeof *m->face_offsets);
    m->faces = calloc(m->faces_count, sizeof *m->faces);
    return m->vertices && m->neighbour_counts && m->neighbours && m->angles && m->cell_offsets && m->cell_vertices && m->face_offsets && m->faces;
}

uint64_t icotable_locate_level_(icotable_meshes *m, uint64_t level) {
    size_t at = 0, cells = 0, n = icotable_vertices(level);
    for (uint64_t below = 0; below < level; below++) {
        at += icotable_vertices(below);
        cells += icotable_cells(below);
    }
    return icotable_locator(
        level, m->vertices + 3 * at, 3 * n, m->neighbour_counts + at, n, m->neighbours + 6 * at, 6 * n, m->angles + 6 * at, 6 * n,
        m->cell_offsets + cells, icotable_cells(level), m->cell_vertices + 27 * at, 27 * n, m->face_offsets + at + level, n + 1,
        m->faces + 45 * at, 45 * n);
}

uint64_t icotable_make_meshes(icotable_meshes *m, uint64_t top) {
    *m = (icotable_meshes){.top = top};
    if (top > 15)
        return ICOTABLE_LEVEL;
    if (!icotable_allocate_meshes_(m, top))
        return ICOTABLE_NO_MEMORY;
    icosahedron solid = make_icosahedron();
    size_t at = 0;
    for (uint64_t level = 0; level <= top; level++) {
        level_part l = {&solid, (int)level + 1, m->vertices + 3 * at, m->angles + 6 * at, m->neighbour_counts + at, m->neighbours + 6 * at};
        make_level(&l);
        uint64_t number = icotable_locate_level_(m, level);
        if (number != 0)
            return number;
        at += icotable_vertices(level);
    }
    return 0;
}

void icotable_free_meshes(icotable_meshes *m) {
    free(m->vertices);
    free(m->neighbour_counts);
    free(m->neighbours);
    free(m->angles);
    free(m->cell_offsets);
    free(m->cell_vertices);
    free(m->face_offsets);
    free(m->faces);
    *m = (icotable_meshes){0};
}

const double *icotable_level_vertices(const icotable_meshes *m, uint64_t level) {
    size_t at = 0;
    for (uint64_t below = 0; below < level; below++)
        at += icotable_vertices(below);
    return m->vertices + 3 * at;
}
