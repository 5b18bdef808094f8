/* The stored corpus: seeds FOLDER. Small files of each kind, of the demonstration's molecules over few bins: a table of two molecules,
 * plain, with a tail and loosely packed; one against an atom; their journals and seals, a journal that is not done; mesh files; slab
 * files. */
#include "icotable_journal.h"
#include "icotable_mesh_file.h"
#include "icotable_seal.h"
#include "icotable_slab.h"
#include "molecules.h"
#include "support.h"

#include <stdio.h>
#include <stdlib.h>
#include <string.h>
#include <sys/stat.h>
#include <unistd.h>

typedef struct plan {
    const char *name;
    int atom;
    uint64_t top;
    icotable_grid grid;
} plan;

static const plan plans[] = {
    {"pair", 0, 0, {.rmin = 3.25, .rmax = 33.25, .dr = 10, .omega_step = 3, .threshold = 0.5, .beta = BETA}},
    {"atom", 1, 1, {.rmin = 1, .rmax = 21, .dr = 4, .threshold = 0.5, .beta = BETA}},
};

static const char *folder;
static uint8_t output[1 << 16];
static icotable_meshes meshes;

static void need(int good, const char *what) {
    if (!good) {
        fprintf(stderr, "seeds: %s\n", what);
        exit(1);
    }
}

static const char *name_of(const char *kind, const char *name) {
    static char names[4][1000];
    static int at;
    at = (at + 1) % 4;
    snprintf(names[at], sizeof names[at], "%s/%s", folder, kind);
    mkdir(names[at], 0777);
    snprintf(names[at], sizeof names[at], "%s/%s/%s", folder, kind, name);
    return names[at];
}

static void put(const char *kind, const char *name, const void *bytes, size_t count) {
    need(icotable_write_file_(name_of(kind, name), bytes, count, true), "a file is not written");
}

static const double *sampled(const icotable_journal *j, uint64_t ri, uint64_t oi) {
    static double energies[42 * 42];
    static pose turned[84];
    const icotable_grid *g = &j->builder.grid;
    size_t n = icotable_vertices(j->builder.level);
    const double *directions = icotable_level_vertices(&meshes, j->builder.level);
    double r = g->rmin + (double)ri * g->dr;
    if (j->atom)
        ion_slab(energies, directions, n, r);
    else
        pair_slab(energies, turned, directions, n, r, (double)oi * g->omega_step);
    return energies;
}

static uint64_t began(icotable_journal *j, const plan *p, const char *name) {
    icotable_atom_grid atom = {p->grid.rmin, p->grid.rmax, p->grid.dr, p->grid.threshold, p->grid.beta, 0};
    unlink(name);
    return p->atom ? icotable_journal_atom_begin(j, name, atom, p->top, &meshes, 0) : icotable_journal_begin(j, name, p->grid, p->top, &meshes, 0);
}

static void put_slab(const icotable_journal *j, const double *energies, uint64_t ri, uint64_t oi) {
    icotable_slab s = icotable_slab_of(j, j->builder.level, ri, oi);
    name_of("slab", "");
    need(icotable_slab_write(&s, name_of("slab", "."), energies, icotable_slab_count(&s)) == 0, "a slab file");
}

static void build(icotable_journal *j, const plan *p, uint64_t most) {
    uint64_t ri, oi, number = 0;
    enum icotable_journal_step step;
    while (number == 0 && j->records < most && (step = icotable_journal_next(j, &ri, &oi)) != ICOTABLE_JOURNAL_TO_WRITE) {
        size_t n = icotable_vertices(j->builder.level);
        if (step == ICOTABLE_JOURNAL_TO_SETTLE) {
            number = icotable_journal_settle(j, ri).number;
            continue;
        }
        const double *energies = sampled(j, ri, oi);
        if (ri == 1 && oi == 0)
            put_slab(j, energies, ri, oi);
        number = icotable_journal_set(j, ri, oi, energies, p->atom ? n : n * n);
    }
    need(number == 0, j->said);
}

/* A table whose Mesh rows all have the first one's energies. */
static void put_loose(size_t length) {
    icotable_table t = icotable_read(output, length);
    for (uint64_t i = 0; i < t.rows; i++)
        if (output[t.start[3] + 10 * i] >= 2)
            memset(output + t.start[3] + 10 * i + 2, 0, 4);
    put("table", "loose", output, length);
}

static void put_tables(icotable_journal *j, const plan *p) {
    far_field f = far_terms();
    icotable_written w = icotable_journal_write(j, output, sizeof output);
    need(w.number == 0, j->said);
    put("table", p->name, output, w.length);
    icotable_seal s = {.table_length = w.length, .atom = p->atom, .grid = j->builder.grid, .top = p->top, .levels = p->top + 1, .own_meshes = 1};
    s.journaled = p->atom; /* one with a journal, one without */
    strcpy(s.version, ICOTABLE_VERSION);
    s.meshes_hash = icotable_meshes_hash(&meshes, s.levels);
    icotable_sha256_(output, w.length, s.sha256);
    need(icotable_sha256_file_(name_of("journal", p->name), s.journal_sha256), "a journal is not read");
    need(icotable_seal_write(&s, name_of("seal", p->name), NULL) == 0, "a seal");
    if (p->atom)
        return;
    put_loose(w.length);
    w = icotable_write_tail(j->builder, ICOTABLE_JOURNAL_LISTS(j), ICOTABLE_MESHES(&meshes), f.coefficients, FAR_TERMS, f.kappas, FAR_TERMS, f.powers, FAR_TERMS,
                            &f.factor, 1, output, sizeof output);
    need(w.number == 0, "a tail");
    put("table", "tail", output, w.length);
}

static void put_meshes(uint64_t top, const char *name) {
    icotable_meshes m;
    need(icotable_make_meshes(&m, top) == 0 && icotable_meshes_save(&m, name_of("mesh", name), NULL) == 0, "a mesh file");
    icotable_free_meshes(&m);
}

int main(int count, char **words) {
    need(count == 2, "seeds FOLDER");
    folder = words[1];
    mkdir(folder, 0777);
    need(icotable_make_meshes(&meshes, 1) == 0, "the meshes");
    for (size_t i = 0; i < sizeof plans / sizeof plans[0]; i++) {
        icotable_journal j;
        need(began(&j, &plans[i], name_of("journal", plans[i].name)) == 0, j.said);
        build(&j, &plans[i], UINT64_MAX);
        put_tables(&j, &plans[i]);
        icotable_journal_close(&j);
    }
    icotable_journal j;
    need(began(&j, &plans[1], name_of("journal", "half")) == 0, j.said);
    build(&j, &plans[1], 4);
    icotable_journal_close(&j);
    put_meshes(0, "one");
    put_meshes(1, "two");
    icotable_free_meshes(&meshes);
    return 0;
}
