/* Locator calls and searches, the latter without a locator, too (tests/compare/make.rs writes them). A mesh is a block: its level; vertices, neighbour
 * counts and neighbours; the locator call's answer and its four lists; then 100 directions, a line each. Every list has
 * the length that level 3 needs, and a call at a level below leaves what is beyond its own as it was. */
#include "replay.h"

#include <math.h>
#include <string.h>

enum { CALLS, ENTRIES, NEAREST, LOCATED, FOUND };

enum { N = 162, CELL_OFFSETS = 295, CELL_VERTICES = 27 * N, FACE_OFFSETS = N + 1, FACES = 45 * N, DIRECTIONS = 100 };

typedef struct mesh {
    double vertices[3 * N];
    uint8_t counts[N];
    uint16_t neighbours[6 * N];
    double angles[6 * N];
} mesh;

typedef struct locator {
    uint32_t cell_offsets[CELL_OFFSETS];
    uint16_t cell_vertices[CELL_VERTICES];
    uint32_t face_offsets[FACE_OFFSETS];
    uint16_t faces[FACES];
} locator;

/* What libsearch_c.a exports. */
typedef struct nearest {
    uint64_t number, vertex;
    double distance;
} nearest;

typedef struct located {
    uint64_t number, vertex;
    double distance;
    uint64_t face[3];
    double weights[3];
} located;

nearest search_find_nearest_vertex(
    uint8_t level,
    const uint32_t *cell_offsets, size_t cell_offsets_count,
    const uint16_t *cell_vertices, size_t cell_vertices_count,
    const double *vertices, size_t vertices_count,
    double x, double y, double z);

located search_locate(
    uint8_t level,
    const uint32_t *cell_offsets, size_t cell_offsets_count,
    const uint16_t *cell_vertices, size_t cell_vertices_count,
    const uint32_t *face_offsets, size_t face_offsets_count,
    const uint16_t *faces, size_t faces_count,
    const double *vertices, size_t vertices_count,
    double x, double y, double z);

uint64_t search_locator(
    uint64_t level,
    const double *vertices, size_t vertices_count,
    const uint8_t *neighbour_counts, size_t neighbour_counts_count,
    const uint16_t *neighbours, size_t neighbours_count,
    const double *angles, size_t angles_count,
    uint32_t *cell_offsets, size_t cell_offsets_count,
    uint16_t *cell_vertices, size_t cell_vertices_count,
    uint32_t *face_offsets, size_t face_offsets_count,
    uint16_t *faces, size_t faces_count);

/* A mesh, with angles that keep the mesh rule. */
static void read_mesh(replay *r, mesh *m) {
    for (size_t i = 0; i < 3 * N; i++)
        m->vertices[i] = number(r);
    for (size_t i = 0; i < N; i++)
        m->counts[i] = (uint8_t)word(r, 2);
    for (size_t i = 0; i < 6 * N; i++)
        m->neighbours[i] = (uint16_t)word(r, 4);
    for (size_t i = 0; i < 6 * N; i++)
        m->angles[i] = 1.0;
}

/* The locator call of libsearch_c.a, and that of the library, which has to do the same. What the lists held before is
 * ABAB. */
static uint64_t call(replay *r, uint64_t level, const mesh *m, locator *l, bool *alike) {
    static locator other;
    memset(l, 0xAB, sizeof *l);
    memset(&other, 0xAB, sizeof other);
    uint64_t number = search_locator(level, m->vertices, 3 * N, m->counts, N, m->neighbours, 6 * N, m->angles, 6 * N,
        l->cell_offsets, CELL_OFFSETS, l->cell_vertices, CELL_VERTICES, l->face_offsets, FACE_OFFSETS, l->faces, FACES);
    uint64_t again = icotable_locator(level, m->vertices, 3 * N, m->counts, N, m->neighbours, 6 * N, m->angles, 6 * N,
        other.cell_offsets, CELL_OFFSETS, other.cell_vertices, CELL_VERTICES, other.face_offsets, FACE_OFFSETS,
        other.faces, FACES);
    bool equal = number == again && memcmp(l, &other, sizeof other) == 0;
    *alike = holds(r, CALLS, equal, "search_locator and icotable_locator leave different lists");
    return number;
}

static void judge_offsets(replay *r, const uint32_t *list, size_t count) {
    for (size_t i = 0; i < count; i++)
        counted(r, ENTRIES, same(r, ENTRIES, 8, list[i]));
}

static void judge_numbers(replay *r, const uint16_t *list, size_t count) {
    for (size_t i = 0; i < count; i++)
        counted(r, ENTRIES, same(r, ENTRIES, 4, list[i]));
}

/* The search of a direction without a locator, whose answer is that of the two with it. Over a mesh that the locator call
 * refused it is refused with the same number, and with 18 where the direction has no length. */
static void judge_found(replay *r, uint8_t level, uint64_t refused, const mesh *m, double x, double y, double z) {
    icotable_found f = icotable_search(level, m->vertices, 3 * N, m->counts, N, m->neighbours, 6 * N, x, y, z);
    double length = sqrt(x * x + y * y + z * z);
    if (refused != 0 || !(isfinite(length) && length > 0)) {
        bool told = f.number == (refused != 0 ? refused : 18);
        counted(r, FOUND, holds(r, FOUND, told, "a search without a locator is not refused"));
        return;
    }
    bool agrees = same(r, FOUND, 16, f.number);
    agrees &= same(r, FOUND, 16, f.vertex);
    agrees &= same(r, FOUND, 16, bits(f.distance));
    agrees &= same(r, FOUND, 16, f.number);
    for (int k = 0; k < 3; k++)
        agrees &= same(r, FOUND, 16, f.face[k]);
    for (int k = 0; k < 3; k++)
        agrees &= same(r, FOUND, 16, bits(f.weights[k]));
    counted(r, FOUND, agrees);
}

/* A direction's line: its coordinates; number, vertex and distance; number, face and weights. */
static void judge_direction(replay *r, uint8_t level, uint64_t refused, const mesh *m, const locator *l) {
    double x = number(r), y = number(r), z = number(r);
    size_t answers = r->at;
    nearest a = search_find_nearest_vertex(
        level, l->cell_offsets, CELL_OFFSETS, l->cell_vertices, CELL_VERTICES, m->vertices, 3 * N, x, y, z);
    bool agrees = same(r, NEAREST, 16, a.number);
    agrees &= same(r, NEAREST, 16, a.vertex);
    agrees &= same(r, NEAREST, 16, bits(a.distance));
    counted(r, NEAREST, agrees);
    located b = search_locate(level, l->cell_offsets, CELL_OFFSETS, l->cell_vertices, CELL_VERTICES, l->face_offsets,
        FACE_OFFSETS, l->faces, FACES, m->vertices, 3 * N, x, y, z);
    agrees = same(r, LOCATED, 16, b.number);
    for (int k = 0; k < 3; k++)
        agrees &= same(r, LOCATED, 16, b.face[k]);
    for (int k = 0; k < 3; k++)
        agrees &= same(r, LOCATED, 16, bits(b.weights[k]));
    /* the vertex and the distance that it passes on; where it is refused, 0 for both */
    nearest passed = b.number == 0 ? a : (nearest){0};
    bool on = b.vertex == passed.vertex && bits(b.distance) == bits(passed.distance);
    agrees &= holds(r, LOCATED, on, "the nearest vertex is not passed on");
    counted(r, LOCATED, agrees);
    size_t end = r->at;
    r->at = answers;
    judge_found(r, level, refused, m, x, y, z);
    r->at = end;
}

void replay_searches(replay *r) {
    static mesh m;
    static locator l;
    while (r->at < r->count) {
        uint64_t level = word(r, 16);
        read_mesh(r, &m);
        bool alike;
        uint64_t answer = call(r, level, &m, &l, &alike);
        counted(r, CALLS, same(r, CALLS, 16, answer) && alike);
        judge_offsets(r, l.cell_offsets, CELL_OFFSETS);
        judge_numbers(r, l.cell_vertices, CELL_VERTICES);
        judge_offsets(r, l.face_offsets, FACE_OFFSETS);
        judge_numbers(r, l.faces, FACES);
        for (int i = 0; i < DIRECTIONS; i++)
            judge_direction(r, (uint8_t)level, answer, &m, &l);
    }
}
