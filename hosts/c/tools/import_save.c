/* A save taken apart. bincode 1: numbers little-endian at their width, a usize or a list's count as u64, an enum's case as u32,
 * a bool or an Option's case as u8, fields in the order of the Rust's declarations. */
#include "import.h"
#include "mesh_lists.h"
#include "support.h"
#include "tools.h"

#include <math.h>
#include <stdlib.h>
#include <string.h>

enum { MOST_LEVELS = 16, MOST_BINS = 65535, COORDINATES = 24 };
static const double TAU = 6.283185307179586;

typedef unsigned long long ull;

const char *import_words(uint64_t number) {
    switch (number) {
#define IMPORT_REFUSAL_(number, name, words) \
    case number: \
        return words;
        IMPORT_REFUSALS(IMPORT_REFUSAL_)
#undef IMPORT_REFUSAL_
    default:
        return icotable_words(number);
    }
}

/* Where a save is read. Once something is refused all that follows is 0, and the first number stays. */
typedef struct cursor {
    save *s;
    size_t at;
    uint64_t number;
    icotable_fault *fault;
} cursor;

#define REFUSE(c, name, ...) ((c)->number = (c)->number != 0 ? (c)->number : IMPORT_REFUSE((c)->fault, name, __VA_ARGS__))

static size_t left(const cursor *c) {
    return c->s->count - c->at;
}

/* At most 8 bytes. */
static const uint8_t *take(cursor *c, size_t bytes, const char *what) {
    static const uint8_t none[8];
    if (c->number == 0 && left(c) < bytes)
        REFUSE(c, CUT, "at byte %zu: %s has %zu bytes, and %zu are left", c->at, what, bytes, left(c));
    if (c->number != 0)
        return none;
    c->at += bytes;
    return c->s->bytes + c->at - bytes;
}

static uint8_t take_u8(cursor *c, const char *what) {
    return *take(c, 1, what);
}

static uint32_t take_u32(cursor *c, const char *what) {
    return u32_of(take(c, 4, what));
}

static uint64_t take_u64(cursor *c, const char *what) {
    const uint8_t *b = take(c, 8, what);
    return u32_of(b) | (uint64_t)u32_of(b + 4) << 32;
}

static double take_f64(cursor *c, const char *what) {
    return f64_of(take(c, 8, what));
}

/* The count of a list whose items have at least so many bytes each: what is left has to hold them. */
static uint64_t take_count(cursor *c, size_t least, const char *what) {
    uint64_t count = take_u64(c, what);
    if (c->number == 0 && count > left(c) / least)
        REFUSE(c, CUT, "at byte %zu: %llu %s of at least %zu bytes each, and %zu bytes are left", c->at - 8, (ull)count, what, least, left(c));
    return c->number == 0 ? count : 0;
}

static bool take_case(cursor *c, const char *what) {
    uint8_t some = take_u8(c, what);
    if (some > 1)
        REFUSE(c, NOT_A_SAVE, "at byte %zu: %s is %u, where it is 0 or 1", c->at - 1, what, some);
    return some == 1;
}

/* ---- grid */

/* A count that the Rust works out as its truncation; one beyond 2^63 is none. */
static bool counts(uint64_t count, double exact) {
    return exact >= 0 && exact < 9223372036854775808.0 && count == (uint64_t)exact;
}

/* The Rust's check_grid. */
static void check_ranges(cursor *c) {
    const icotable_grid *g = &c->s->grid;
    double bins = (g->rmax - g->rmin) / g->dr + 0.5, turns = TAU / g->omega_step + 0.5;
    if (!isfinite(g->rmin) || !(g->rmax > g->rmin) || !isfinite(g->dr) || !(g->dr > 0))
        REFUSE(c, NOT_A_SAVE, "at byte 0: rmin %g, rmax %g, dr %g", g->rmin, g->rmax, g->dr);
    if (!counts(g->n_r, bins))
        REFUSE(c, NOT_A_SAVE, "at byte 24: %llu distance bins, where the range gives %.0f", (ull)g->n_r, floor(bins));
    if (!c->s->atom && (!isfinite(g->omega_step) || !(g->omega_step > 0)))
        REFUSE(c, NOT_A_SAVE, "at byte 32: the omega step is %g", g->omega_step);
    if (!c->s->atom && !counts(g->n_omega, turns))
        REFUSE(c, NOT_A_SAVE, "at byte 40: %llu dihedral bins, where the step gives %.0f", (ull)g->n_omega, floor(turns));
}

/* What a table file's grid has to be beyond that. */
static void check_grid(cursor *c) {
    const icotable_grid *g = &c->s->grid;
    check_ranges(c);
    if (g->n_r < 1 || g->n_r > MOST_BINS)
        REFUSE(c, GRID, "at byte 24: %llu distance bins, where there are 1 to %d", (ull)g->n_r, MOST_BINS);
    if (g->n_omega < 1 || g->n_omega > MOST_BINS)
        REFUSE(c, GRID, "at byte 40: %llu dihedral bins, where there are 1 to %d", (ull)g->n_omega, MOST_BINS);
    double rmax = icotable_mul_add((double)g->n_r, g->dr, g->rmin);
    if (rmax != g->rmax)
        REFUSE(c, GRID, "at byte 8: rmax is %.17g, where a table file's is rmin and %llu times dr, %.17g", g->rmax, (ull)g->n_r, rmax);
}

/* The word behind n_r is a step, or against an atom a count, and as a step that would be next to nothing. A flat table has its
 * vertex count where an adaptive one has its count of levels, and once more behind it. */
static void take_grid(cursor *c) {
    icotable_grid *g = &c->s->grid;
    g->rmin = take_f64(c, "rmin");
    g->rmax = take_f64(c, "rmax");
    g->dr = take_f64(c, "dr");
    g->n_r = take_u64(c, "n_r");
    g->n_omega = 1;
    c->s->atom = take_u64(c, "the omega step or the count of levels") >> 32 == 0;
    if (c->number != 0)
        return;
    c->at -= 8;
    if (!c->s->atom) {
        g->omega_step = take_f64(c, "the omega step");
        g->n_omega = take_u64(c, "n_omega");
    }
    check_grid(c);
    size_t at = c->at;
    uint64_t first = take_u64(c, "the count of levels"), second = take_u64(c, "the first level's n_div");
    if (first == second && first >= icotable_vertices(0))
        REFUSE(c, FLAT, "at byte %zu: a %s of %llu vertices", at, c->s->atom ? "Table3DFlat" : "Table6DFlat", (ull)first);
    c->at = at;
}

/* ---- meshes */

/* A level's part of the lists. */
typedef struct part {
    uint64_t level;
    size_t first, n; /* its first vertex in the lists, and how many it has */
} part;

/* A list of a level that has an item for each vertex. */
static bool of_level(cursor *c, const part *p, size_t least, const char *what) {
    size_t at = c->at;
    uint64_t count = take_count(c, least, what);
    if (c->number == 0 && count != p->n)
        REFUSE(c, LEVELS, "at byte %zu: level %llu has %llu %s, where it is to have %zu", at, (ull)p->level, (ull)count, what, p->n);
    return c->number == 0;
}

static void take_neighbours(cursor *c, const part *p) {
    icotable_meshes *m = &c->s->meshes;
    for (size_t i = p->first; i < p->first + p->n && c->number == 0; i++) {
        size_t at = c->at;
        uint64_t count = take_count(c, 2, "neighbours");
        if (c->number == 0 && count != 5 && count != 6)
            REFUSE(c, MESH, "at byte %zu: vertex %zu of level %llu has %llu neighbours", at, i - p->first, (ull)p->level, (ull)count);
        if (c->number != 0)
            return;
        m->neighbour_counts[i] = (uint8_t)count;
        memcpy(m->neighbours + 6 * i, c->s->bytes + c->at, 2 * (size_t)count);
        c->at += 2 * (size_t)count;
    }
}

/* Angles are not in a save. A neighbour that is none is left to the mesh rule. */
static void work_out_angles(icotable_meshes *m, const part *p) {
    const double *vertices = m->vertices + 3 * p->first;
    for (size_t k = 6 * p->first; k < 6 * (p->first + p->n); k++)
        if (k % 6 < m->neighbour_counts[k / 6] && m->neighbours[k] < p->n)
            m->angles[k] = icotable_angle_(m->vertices + 3 * (k / 6), vertices + 3 * (size_t)m->neighbours[k]);
}

static void take_scheme(cursor *c, const part *p) {
    uint32_t scheme = take_u32(c, "the subdivision");
    if (scheme == 1)
        REFUSE(c, LATTICE, "at byte %zu: level %llu", c->at - 4, (ull)p->level);
    if (scheme > 1)
        REFUSE(c, NOT_A_SAVE, "at byte %zu: level %llu has the unknown subdivision %u", c->at - 4, (ull)p->level, scheme);
}

static void take_level(cursor *c, const part *p) {
    icotable_meshes *m = &c->s->meshes;
    size_t at = c->at;
    uint64_t n_div = take_u64(c, "n_div"), n = take_u64(c, "n_vertices");
    if (c->number == 0 && (n_div != p->level || n != p->n))
        REFUSE(c, LEVELS, "at byte %zu: level %llu has n_div %llu and %llu vertices, where it is to have %zu", at, (ull)p->level, (ull)n_div, (ull)n, p->n);
    if (of_level(c, p, COORDINATES, "vertices")) {
        memcpy(m->vertices + 3 * p->first, c->s->bytes + c->at, COORDINATES * p->n);
        c->at += COORDINATES * p->n;
    }
    if (of_level(c, p, 8, "weights"))
        c->at += 8 * p->n;
    if (of_level(c, p, 8, "lists of neighbours"))
        take_neighbours(c, p);
    take_scheme(c, p);
    if (c->number != 0)
        return;
    work_out_angles(m, p);
    uint64_t number = icotable_locate_level_(m, p->level);
    if (number != 0)
        REFUSE(c, MESH, "level %llu, at byte %zu, refused with %llu: %s", (ull)p->level, at, (ull)number, icotable_words(number));
}

static void take_levels(cursor *c) {
    size_t at = c->at;
    uint64_t levels = take_count(c, 8, "levels");
    if (c->number == 0 && (levels < 1 || levels > MOST_LEVELS))
        REFUSE(c, LEVELS, "at byte %zu: %llu of them", at, (ull)levels);
    if (c->number == 0 && !icotable_allocate_meshes_(&c->s->meshes, levels - 1))
        REFUSE(c, NO_ROOM, "%llu levels", (ull)levels);
    part p = {0};
    for (; p.level < levels && c->number == 0; p.level++) {
        p.n = icotable_vertices(p.level);
        take_level(c, &p);
        p.first += p.n;
    }
    c->s->levels = levels;
}

/* ---- rows */

static save_row take_row(cursor *c, uint64_t i) {
    save_row r = {0};
    size_t at = c->at;
    uint32_t kind = take_u32(c, "a row's kind");
    if (kind == 0) {
        r.level = take_u8(c, "a row's level");
        r.kind = take_case(c, "a row's interpolate") ? INTERPOLATED : NEAREST;
        if (r.level >= c->s->levels)
            REFUSE(c, ROWS, "at byte %zu: row %llu has level %u, and the save has %llu levels", at + 4, (ull)i, r.level, (ull)c->s->levels);
    } else if (kind == 1) {
        r.scalar = take_u32(c, "a row's scalar");
        r.kind = SCALAR;
    } else {
        r.kind = REPULSIVE;
        if (kind > 2)
            REFUSE(c, NOT_A_SAVE, "at byte %zu: row %llu has the unknown kind %u", at, (ull)i, kind);
    }
    return r;
}

/* A list with an item for each slab. */
static void of_slabs(cursor *c, size_t least, const char *what) {
    size_t at = c->at;
    uint64_t count = take_count(c, least, what);
    if (c->number == 0 && count != c->s->rows)
        REFUSE(c, ROWS, "at byte %zu: %llu %s, where the bins give %llu", at, (ull)count, what, (ull)c->s->rows);
}

static void take_rows(cursor *c) {
    save *s = c->s;
    s->rows = s->grid.n_r * s->grid.n_omega;
    if (s->rows > UINT32_MAX / per_level(s->atom, s->levels - 1))
        REFUSE(c, GRID, "%llu slabs of the top level hold too many energies", (ull)s->rows);
    of_slabs(c, 4, "rows");
    if (c->number == 0 && (s->row = malloc((size_t)s->rows * sizeof *s->row)) == NULL)
        REFUSE(c, NO_ROOM, "%llu rows", (ull)s->rows);
    for (uint64_t i = 0; i < s->rows && c->number == 0; i++)
        s->row[i] = take_row(c, i);
    of_slabs(c, 4, "offsets");
    s->offsets_at = c->at;
    for (uint64_t i = 0; i < s->rows && c->number == 0; i++)
        s->row[i].offset = take_u32(c, "an offset");
}

static void take_energies(cursor *c) {
    size_t at = c->at;
    c->s->energies = take_count(c, 4, "energies");
    if (c->s->energies > UINT32_MAX)
        REFUSE(c, GRID, "at byte %zu: %llu energies", at, (ull)c->s->energies);
    c->s->energies_at = c->at;
    if (c->number == 0)
        c->at += 4 * (size_t)c->s->energies;
}

/* ---- metadata */

static bool take_two(cursor *c, double two[2], const char *what) {
    bool some = take_case(c, what);
    for (int k = 0; some && k < 2; k++)
        two[k] = take_f64(c, what);
    return some;
}

static bool take_one(cursor *c, double *one, const char *what) {
    bool some = take_case(c, what);
    if (some)
        *one = take_f64(c, what);
    return some;
}

/* What a table file's sixth section refuses with 23. */
static void take_terms(cursor *c, save_metadata *m) {
    m->terms = take_count(c, 20, "tail terms");
    m->terms_at = c->at;
    for (uint64_t i = 0; i < m->terms && c->number == 0; i++) {
        double coefficient = take_f64(c, "a coefficient"), kappa = take_f64(c, "a kappa");
        uint32_t power = take_u32(c, "a power");
        if (!isfinite(coefficient) || !isfinite(kappa) || power > INT32_MAX)
            REFUSE(c, TERM, "at byte %zu: coefficient %g, kappa %g, power %u", c->at - 20, coefficient, kappa, power);
    }
    if (m->terms > UINT32_MAX)
        REFUSE(c, TERM, "at byte %zu: %llu terms", m->terms_at - 8, (ull)m->terms);
}

static void take_metadata(cursor *c) {
    save_metadata *m = &c->s->metadata;
    if (!take_case(c, "the case of the metadata"))
        return;
    take_terms(c, m);
    m->has_charges = take_two(c, m->charges, "the charges");
    m->has_dipoles = take_two(c, m->dipoles, "the dipole moments");
    m->has_temperature = take_one(c, &m->temperature, "the temperature");
    size_t at = c->at;
    m->has_prefactor = take_one(c, &m->prefactor, "the prefactor");
    if (m->terms > 0 && !m->has_prefactor)
        REFUSE(c, PREFACTOR, "at byte %zu: %llu terms", at, (ull)m->terms);
    if (m->terms > 0 && !isfinite(m->prefactor))
        REFUSE(c, TERM, "at byte %zu: the prefactor is %g", at + 1, m->prefactor);
    m->point_group = take_u32(c, "the point group");
    if (m->point_group > 1)
        REFUSE(c, NOT_A_SAVE, "at byte %zu: the unknown point group %u", c->at - 4, m->point_group);
}

/* ---- all of it */

uint64_t save_read(save *s, const uint8_t *bytes, size_t count, icotable_fault *fault) {
    *s = (save){.bytes = bytes, .count = count};
    cursor c = {.s = s, .fault = fault};
    void (*const parts[])(cursor *) = {take_grid, take_levels, take_rows, take_energies, take_metadata};
    for (size_t k = 0; k < sizeof parts / sizeof parts[0] && c.number == 0; k++)
        parts[k](&c);
    if (c.number == 0 && left(&c) > 0)
        REFUSE(&c, BEHIND, "at byte %zu: %zu of them", c.at, left(&c));
    return c.number != 0 ? c.number : icotable_accepted_(fault);
}

void save_free(save *s) {
    icotable_free_meshes(&s->meshes);
    free(s->row);
    *s = (save){0};
}

uint64_t save_row_size(const save *s, const save_row *r) {
    return r->kind < NEAREST ? 0 : per_level(s->atom, r->level);
}
