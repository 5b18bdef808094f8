#include "tools.h"

#include <errno.h>
#include <stdlib.h>
#include <string.h>
#include <sys/stat.h>

static char said[200];

int trouble(const char *name, const char *why) {
    fprintf(stderr, "icotable: %s: %s\n", name, why);
    snprintf(said, sizeof said, "%s", why);
    return TROUBLE;
}

const char *last_trouble(void) {
    return said;
}

static int read_whole(table_file *f, FILE *in) {
    size_t room = 1 << 16;
    for (;;) {
        uint8_t *grown = realloc(f->bytes, room);
        if (grown == NULL)
            return trouble(f->name, "does not fit into memory");
        f->bytes = grown;
        f->count += fread(f->bytes + f->count, 1, room - f->count, in);
        if (ferror(in))
            return trouble(f->name, strerror(errno));
        if (f->count < room)
            return GOOD;
        room *= 2;
    }
}

icotable_table read_table(const uint8_t *bytes, size_t count, bool atom) {
    if (!atom)
        return icotable_read(bytes, count);
    icotable_atom_table t = icotable_atom_read(bytes, count);
    const icotable_atom_grid *g = &t.grid;
    icotable_table held = {
        .number = t.number, .grid = {.rmin = g->rmin, .rmax = g->rmax, .dr = g->dr, .n_r = g->n_r, .n_omega = t.number == 0},
        .levels = t.levels, .rows = t.rows, .energies = t.energies,
    };
    memcpy(held.start, t.start, sizeof t.start);
    held.start[5] = t.number == 0 ? count : 0;
    return held;
}

/* A grid of two numbers has no step. */
static void look_over(table_file *f) {
    f->atom = f->count >= 4 && u32_of(f->bytes) == 2;
    f->table = read_table(f->bytes, f->count, f->atom);
}

void view_table(table_file *f) {
    f->atom = false;
    f->viewer = true;
    f->table = icotable_view(f->bytes, f->count);
}

/* Standard input is read once. */
static int read_input(table_file *f) {
    static bool taken;
    *f = (table_file){.name = "standard input", .input = true};
    if (taken)
        return trouble(f->name, "is read once, and was");
    taken = true;
    return read_whole(f, stdin);
}

int read_named(table_file *f, const char *name) {
    if (strcmp(name, "-") == 0)
        return read_input(f);
    *f = (table_file){.name = name};
    struct stat what;
    if (stat(name, &what) != 0)
        return trouble(name, strerror(errno));
    if (S_ISDIR(what.st_mode))
        return trouble(name, "is a directory");
    FILE *in = fopen(name, "rb");
    if (in == NULL)
        return trouble(name, strerror(errno));
    int status = read_whole(f, in);
    fclose(in);
    return status;
}

int open_table(table_file *f, const char *name) {
    int status = read_named(f, name);
    if (status == GOOD)
        look_over(f);
    return status;
}

void close_table(table_file *f) {
    free(f->bytes);
    *f = (table_file){0};
}

const char *table_words(bool atom) {
    return atom ? "a table against an atom" : "a table of two molecules";
}

uint32_t u32_of(const uint8_t *b) {
    return (uint32_t)b[0] | (uint32_t)b[1] << 8 | (uint32_t)b[2] << 16 | (uint32_t)b[3] << 24;
}

double f64_of(const uint8_t *b) {
    uint64_t bits = u32_of(b) | (uint64_t)u32_of(b + 4) << 32;
    double x;
    memcpy(&x, &bits, sizeof x);
    return x;
}

float f32_of(uint32_t bits) {
    float x;
    memcpy(&x, &bits, sizeof x);
    return x;
}

row row_of(const table_file *f, uint64_t slab) {
    const uint8_t *b = f->bytes + f->table.start[3] + 10 * slab;
    return (row){b[0], b[1], u32_of(b + 2), u32_of(b + 6)};
}

uint64_t per_level(bool atom, uint64_t level) {
    uint64_t n = icotable_vertices(level);
    return atom ? n : n * n;
}

uint64_t per_row(const table_file *f, const row *r) {
    return r->kind < NEAREST ? 0 : per_level(f->atom, r->level);
}

float energy_of(const table_file *f, const row *r, uint64_t i) {
    return f32_of(u32_of(f->bytes + f->table.start[4] + 4 * (r->offset + i)));
}

term term_of(const table_file *f, uint64_t i) {
    const uint8_t *b = f->bytes + f->table.start[5] + 20 * i;
    return (term){f64_of(b), f64_of(b + 8), u32_of(b + 16)};
}

double prefactor_of(const table_file *f) {
    return f64_of(f->bytes + f->table.start[5] + 20 * f->table.terms);
}

/* Whether the slabs of one table are those of the other: the kind and the bin counts are the same. */
bool same_slabs(const table_file *f, const table_file *g) {
    return f->atom == g->atom && f->table.grid.n_r == g->table.grid.n_r && f->table.grid.n_omega == g->table.grid.n_omega;
}

bool same_energies(const table_file *f, const table_file *g, const row *r, const row *s) {
    return memcmp(f->bytes + f->table.start[4] + 4 * (size_t)r->offset, g->bytes + g->table.start[4] + 4 * (size_t)s->offset, 4 * per_row(f, r)) == 0;
}

/* As document 01 compares rows: kind, level, flag, scalar bits and each energy's bits. */
bool same_row(const table_file *f, const table_file *g, uint64_t slab) {
    row r = row_of(f, slab), s = row_of(g, slab);
    if (r.kind != s.kind || r.level != s.level || r.scalar != s.scalar)
        return false;
    return r.kind < NEAREST || same_energies(f, g, &r, &s);
}

const char *kind_words(unsigned kind) {
    static const char *const words[] = {"Scalar", "Repulsive", "Mesh nearest", "Mesh interpolated"};
    return kind <= INTERPOLATED ? words[kind] : "unknown";
}

char row_letter(unsigned kind, unsigned level) {
    return kind == SCALAR ? '.' : kind == REPULSIVE ? '#' : (char)((kind == NEAREST ? 'a' : 'A') + (int)level);
}

void energy_span(const table_file *f, const row *r, float *least, float *most) {
    *least = *most = energy_of(f, r, 0);
    for (uint64_t i = 1; i < per_row(f, r); i++) {
        float e = energy_of(f, r, i);
        *least = e < *least ? e : *least;
        *most = e > *most ? e : *most;
    }
}

void print_row(FILE *out, const table_file *f, const row *r) {
    fputs(kind_words(r->kind), out);
    if (r->kind == SCALAR)
        fprintf(out, " %g", (double)f32_of(r->scalar));
    if (r->kind < NEAREST)
        return;
    float least, most;
    energy_span(f, r, &least, &most);
    fprintf(out, " level %u (%c), energies from %g to %g", r->level, row_letter(r->kind, r->level), (double)least, (double)most);
}

double distance_of(const icotable_grid *g, uint64_t ri) {
    return g->rmin + (double)ri * g->dr;
}

void print_slab(FILE *out, const table_file *f, uint64_t slab) {
    const icotable_grid *g = &f->table.grid;
    if (f->atom)
        fprintf(out, "%llu", (unsigned long long)slab);
    else
        fprintf(out, "(%llu, %llu)", (unsigned long long)(slab / g->n_omega), (unsigned long long)(slab % g->n_omega));
}

void print_bins(FILE *out, const table_file *f, uint64_t slab) {
    const icotable_grid *g = &f->table.grid;
    fprintf(out, "distance %g", distance_of(g, slab / g->n_omega));
    if (!f->atom)
        fprintf(out, ", dihedral %g rad (%.4g degrees)", (double)(slab % g->n_omega) * g->omega_step, (double)(slab % g->n_omega) * g->omega_step * DEGREES);
}
