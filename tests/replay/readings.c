/* Readings of tables (tests/compare/readings.rs writes them). A line is one of these: a reading with its stored answer,
 * before it the distances that it shows; entries of a lent list; meshes, whose letters are behind the line; a file that is read; the grid, or the counts and
 * starts, of a table that a host made. The answer is the Rust's, or document 01's where a file, a mesh or a locator is
 * damaged or a host made the table. Lines of readings against an atom are alike; their omega, second direction, omega
 * step and dihedral count are not handed in. */
#include "replay.h"
#include "tools.h"

#include <string.h>

enum { MESHES, FILES, OUTSIDE, DAMAGED = 7, QUERY, ENTRIES, CELLS, WEIGHTED, UNWEIGHTED };

/* The meshes of levels 0 and 1 and their locators, in each list one level's part after the other's. */
enum { N0 = 12, N = N0 + 42, CELLS0 = 25, CELL_OFFSETS = CELLS0 + 97, FILE_ROOM = 16384 };

typedef struct lists {
    uint8_t file[FILE_ROOM];
    double vertices[3 * N];
    uint32_t cell_offsets[CELL_OFFSETS];
    uint16_t cell_vertices[27 * N];
    uint32_t face_offsets[N + 2];
    uint16_t faces[45 * N];
} lists;

/* ---- a reading */

typedef struct lengths {
    size_t file, vertices, cell_offsets, cell_vertices, face_offsets, faces;
} lengths;

#define LENT \
    l->file, n.file, l->vertices, n.vertices, l->cell_offsets, n.cell_offsets, l->cell_vertices, n.cell_vertices, \
        l->face_offsets, n.face_offsets, l->faces, n.faces

/* Every reading stands once by itself and once as the only pose of a call for many: where the two differ it is answered 999, which
 * no stored answer is. */
static icotable_value of_molecules(
    const icotable_table *t, const lists *l, lengths n, const double q[8], const double *beta) {
    icotable_value v = beta ? icotable_boltzmann(t, LENT, q[0], q[1], q[2], q[3], q[4], q[5], q[6], q[7], *beta)
                            : icotable_reading(t, LENT, q[0], q[1], q[2], q[3], q[4], q[5], q[6], q[7]);
    uint64_t count, number = 0;
    double x[3] = {0};
    count = icotable_readings(t, LENT, q, 8, beta, beta != NULL, &number, 1, x, 3);
    bool alike = count == 1 && number == v.number && bits(x[0]) == bits(v.energy) && bits(x[1]) == bits(v.distance_a) &&
                 bits(x[2]) == bits(v.distance_b);
    return alike ? v : (icotable_value){.number = 999};
}

static icotable_value of_atom(
    const icotable_table *t, const lists *l, lengths n, const double q[8], const double *beta) {
    const icotable_grid *g = &t->grid;
    icotable_atom_table a = {
        t->number, {g->rmin, g->rmax, g->dr, g->threshold, g->beta, g->n_r}, t->levels, t->rows, t->energies, {0}};
    memcpy(a.start, t->start, sizeof a.start);
    icotable_energy e = beta ? icotable_atom_boltzmann(&a, LENT, q[0], q[2], q[3], q[4], *beta)
                             : icotable_atom_reading(&a, LENT, q[0], q[2], q[3], q[4]);
    return (icotable_value){e.number, e.energy, 0.0, 0.0};
}

/* Weighted where there is a beta. */
static icotable_value reading(replay *r, const icotable_table *t, const lists *l, const double *beta) {
    lengths n;
    n.file = lent(r, FILE_ROOM);
    n.vertices = lent(r, 3 * N);
    n.cell_offsets = lent(r, CELL_OFFSETS);
    n.cell_vertices = lent(r, 27 * N);
    n.face_offsets = lent(r, N + 2);
    n.faces = lent(r, 45 * N);
    double q[8];
    for (int k = 0; k < 8; k++)
        q[k] = number(r);
    return r->atom ? of_atom(t, l, n, q, beta) : of_molecules(t, l, n, q, beta);
}

/* By the number that is stored, then by whose answer it is: 1 to 5 the Rust's, for distances outside and each kind of
 * row; 6 a weighted reading's. */
static int kind_of(replay *r) {
    uint64_t whose = word(r, 2), wanted = digits(r, 2);
    if (whose == 6)
        return wanted == 0 ? WEIGHTED : UNWEIGHTED;
    if (wanted == 18 || wanted == 19)
        return wanted == 18 ? QUERY : ENTRIES;
    if (wanted != 0)
        return CELLS;
    return whose >= 1 && whose <= 5 ? OUTSIDE + (int)whose - 1 : DAMAGED;
}

/* The table that is held, and the place of the distances that the next reading shows, or 0: then they are +0.0. */
typedef struct state {
    icotable_table held;
    size_t far;
} state;

static bool same_distances(replay *r, int kind, size_t far, const icotable_value *a) {
    if (far == 0)
        return holds(r, kind, (bits(a->distance_a) | bits(a->distance_b)) == 0, "a distance is shown");
    r->at = far;
    bool agrees = same(r, kind, 16, bits(a->distance_a));
    agrees &= same(r, kind, 16, bits(a->distance_b));
    return agrees;
}

/* Whose answer it is, the number and the energy stand before what is asked; the energy of a refused reading is 0. */
static void replay_reading(replay *r, state *s, const lists *l, const double *beta) {
    size_t answer = r->at + 3;
    int kind = kind_of(r);
    r->at = answer + 3 + 17;
    icotable_value a = reading(r, &s->held, l, beta);
    size_t end = r->at;
    r->at = answer;
    bool agrees = same(r, kind, 2, a.number);
    agrees &= same(r, kind, 16, bits(a.energy));
    agrees &= same_distances(r, kind, s->far, &a);
    counted(r, kind, agrees);
    s->far = 0;
    r->at = end;
}

/* ---- what is lent */

/* Lists 0 the file, whose bytes have no blanks between them, 1 vertices, 2 cell offsets, 3 cell vertices, 4 face
 * offsets, 5 faces. */
static void put(replay *r, void *lent_lists, uint64_t list, size_t place) {
    lists *l = lent_lists;
    static const size_t counts[] = {FILE_ROOM, 3 * N, CELL_OFFSETS, 27 * N, N + 2, 45 * N};
    if (list > 5 || place >= counts[list])
        bad_data(r, "there is no such place in a list");
    switch (list) {
    case 0: l->file[place] = (uint8_t)digits(r, 2); break;
    case 1: l->vertices[place] = number(r); break;
    case 2: l->cell_offsets[place] = (uint32_t)word(r, 16); break;
    case 3: l->cell_vertices[place] = (uint16_t)word(r, 16); break;
    case 4: l->face_offsets[place] = (uint32_t)word(r, 16); break;
    case 5: l->faces[place] = (uint16_t)word(r, 16); break;
    }
}

/* The meshes behind the line, and the locator call of both levels, with angles that keep the mesh rule. */
static void replay_meshes(replay *r, lists *l) {
    uint8_t counts[N];
    uint16_t neighbours[6 * N];
    double angles[6 * N];
    size_t start = r->at;
    end_line(r);
    for (size_t i = 0; i < 3 * N; i++)
        l->vertices[i] = number(r);
    for (size_t i = 0; i < N; i++)
        counts[i] = (uint8_t)word(r, 2);
    for (size_t i = 0; i < 6 * N; i++)
        neighbours[i] = (uint16_t)word(r, 4), angles[i] = 1.0;
    size_t end = r->at;
    r->at = start;
    uint64_t a = icotable_locator(0, l->vertices, 3 * N, counts, N, neighbours, 6 * N, angles, 6 * N, l->cell_offsets,
        CELL_OFFSETS, l->cell_vertices, 27 * N, l->face_offsets, N + 2, l->faces, 45 * N);
    uint64_t b = icotable_locator(1, l->vertices + 3 * N0, 3 * (N - N0), counts + N0, N - N0, neighbours + 6 * N0,
        6 * (N - N0), angles, 6 * (N - N0), l->cell_offsets + CELLS0, CELL_OFFSETS - CELLS0, l->cell_vertices + 27 * N0,
        27 * (N - N0), l->face_offsets + N0 + 1, N - N0 + 1, l->faces + 45 * N0, 45 * (N - N0));
    counted(r, MESHES, holds(r, MESHES, a == 0 && b == 0, "a locator call is refused"));
    r->at = end;
}

/* ---- the table that is held */

/* Reads as much of the file as the line says; a refused answer is not held. */
static void replay_file(replay *r, size_t start, const lists *l, icotable_table *held) {
    r->at = start + 26;
    icotable_table t = read_table(l->file, lent(r, FILE_ROOM), r->atom);
    size_t end = r->at;
    r->at = start + 6;
    counted(r, FILES, same(r, FILES, 2, t.number));
    r->at = end;
    if (t.number == 0)
        *held = t;
}

static void read_sections(replay *r, icotable_table *t) {
    t->levels = word(r, 16);
    t->rows = word(r, 16);
    t->energies = word(r, 16);
    for (int k = 0; k < 5; k++)
        t->start[k] = word(r, 16);
}

/* A beta, and the reading that is weighted by it in the line behind. */
static void replay_weighted(replay *r, size_t start, state *s, const lists *l) {
    r->at = start + 56;
    double beta = number(r);
    end_line(r);
    if (word(r, 2) != 1)
        bad_data(r, "a reading should stand behind a beta");
    replay_reading(r, s, l, &beta);
}

/* A line: 1 a reading, 2 entries, 3 meshes, 4 a file, 5 and 6 parts of a table that a host made,
 * 7 a weighted reading, 8 the distances of the reading behind it. */
static void replay_line(replay *r, lists *l, state *s) {
    enum { MADE = 56 };
    icotable_table *held = &s->held;
    size_t start = r->at;
    switch (word(r, 2)) {
    case 1: replay_reading(r, s, l, NULL); break;
    case 2: read_entries(r, l, put); break;
    case 3: replay_meshes(r, l); break;
    case 4: replay_file(r, start, l, held); break;
    case 5: r->at = start + MADE, held->grid = read_grid(r); break;
    case 6: r->at = start + MADE, read_sections(r, held); break;
    case 7: replay_weighted(r, start, s, l); break;
    case 8: s->far = start + MADE, r->at = s->far + 2 * 17; break;
    default: bad_data(r, "there is no such line");
    }
}

void replay_readings(replay *r) {
    static lists l;
    state s = {0};
    while (next_line(r)) {
        replay_line(r, &l, &s);
        end_line(r);
    }
}
