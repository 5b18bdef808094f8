/* One task of a build on a cluster: sample_slab JOURNAL FOLDER SLICE LEVEL TASK samples slab (SLICE, TASK) at that level, for the
 * build that the journal's head names, and writes its slab file to the folder; against an atom TASK is 0. SLICE and LEVEL are
 * those of the last line of icotable collect, and TASK is one of its missing ones.
 *
 * A host's own energies: replace `sample`. Equal calls should give equal energies, to the bit; where they cannot (a random
 * method), the file that is there when the slice is collected counts, and that is recorded in the journal.
 *
 * Over what is installed: cc -o sample_slab sample_slab.c molecules.c $(pkg-config --cflags --libs icotable) -lm
 *
 * Status 0: the file is written. 1: refused. 2: the words are not understood. */
#include "environment.h"
#include "icotable_journal.h"
#include "icotable_mesh_file.h"
#include "icotable_slab.h"
#include "molecules.h"

#include <errno.h>
#include <stdio.h>
#include <stdlib.h>

typedef unsigned long long ull;

/* The energies of one slab over n directions, at distance r and, of two molecules, at dihedral angle omega. Of two
 * molecules energies[i * n + j] is that with direction a at vertex i and b at vertex j, in the pose that docs/GUIDE.md,
 * What a table is, says; against an atom energies[i] is that with the atom in the direction of vertex i. Here: the
 * molecules of the demonstration. */
static int sample(double *energies, int atom, const double *directions, size_t n, double r, double omega) {
    if (atom) {
        ion_slab(energies, directions, n, r);
        return 0;
    }
    pose *turned = calloc(2 * n, sizeof *turned);
    if (turned == NULL)
        return 1;
    pair_slab(energies, turned, directions, n, r, omega);
    free(turned);
    return 0;
}

static int refused(const char *name, uint64_t number, const char *said) {
    fprintf(stderr, "sample_slab: %s: refused with %llu: %s\n", name, (ull)number, said);
    return 1;
}

static int no_memory(const char *name) {
    fprintf(stderr, "sample_slab: %s: there is not enough memory for a slab\n", name);
    return 1;
}

static int whole_of(const char *word, uint64_t *n) {
    char *end;
    errno = 0;
    *n = strtoull(word, &end, 10);
    return word[0] >= '0' && word[0] <= '9' && *end == 0 && errno == 0;
}

/* The bins of a build, as the library works them out of its settings: sizes.store is what all slabs need. */
static uint64_t bins_of(const icotable_journal *j, const icotable_meshes *m, uint64_t *n_r, uint64_t *n_omega) {
    const icotable_grid *g = &j->builder.grid;
    uint64_t top = j->builder.top, n = icotable_vertices(top);
    icotable_atom_grid atom = {g->rmin, g->rmax, g->dr, g->threshold, g->beta, 0};
    icotable_size size = icotable_atom_sizing(atom, top, m->neighbour_counts, m->neighbour_counts_count, m->neighbours, m->neighbours_count);
    if (size.number != 0)
        return size.number;
    *n_r = size.store / n;
    *n_omega = 1;
    if (!j->atom) {
        size = icotable_sizing(*g, top, m->neighbour_counts, m->neighbour_counts_count, m->neighbours, m->neighbours_count, 0);
        *n_omega = size.number == 0 ? size.store / (n * n * *n_r) : 0;
    }
    return size.number;
}

/* Whether there is such a slab in the build of the journal, over the meshes that this program makes. */
static int check(const char *name, const icotable_journal *j, const icotable_meshes *m, const icotable_slab *s) {
    uint64_t n_r, n_omega, number = bins_of(j, m, &n_r, &n_omega);
    if (number != 0)
        return refused(name, number, icotable_words(number));
    if (icotable_meshes_hash(m, j->builder.top + 1) != j->meshes_hash)
        return refused(name, ICOTABLE_JOURNAL_OTHER_MESHES, icotable_journal_words(ICOTABLE_JOURNAL_OTHER_MESHES));
    if (s->ri < n_r && s->oi < n_omega && s->level <= j->builder.top)
        return 0;
    fprintf(stderr, "sample_slab: %s: there is no slab (%llu, %llu) of level %llu: %llu distance bins, %llu dihedral bins, levels 0 to %llu\n", name, (ull)s->ri,
            (ull)s->oi, (ull)s->level, (ull)n_r, (ull)n_omega, (ull)j->builder.top);
    return 1;
}

static int sample_and_write(const icotable_journal *j, const icotable_meshes *m, icotable_slab *s, const char *folder) {
    const icotable_grid *g = &j->builder.grid;
    size_t count = icotable_slab_count(s);
    double *energies = calloc(count, sizeof *energies);
    if (energies == NULL || sample(energies, s->atom, icotable_level_vertices(m, s->level), icotable_vertices(s->level), g->rmin + (double)s->ri * g->dr,
                                   (double)s->oi * g->omega_step) != 0) {
        free(energies);
        return no_memory(folder);
    }
    uint64_t number = icotable_slab_write(s, folder, energies, count);
    free(energies);
    if (number != 0)
        return refused(folder, number, s->said);
    char name[ICOTABLE_SLAB_NAME];
    icotable_slab_name(s, name);
    printf("%s/%s: %llu energies\n", folder, name, (ull)count);
    return 0;
}

static int run(const char *name, const char *folder, icotable_slab *s) {
    icotable_journal j;
    icotable_meshes meshes = {0};
    uint64_t number = icotable_journal_look(&j, name);
    if (number != 0)
        return refused(name, number, j.said);
    number = icotable_make_meshes(&meshes, j.builder.top);
    int status = number == 0 ? check(name, &j, &meshes, s) : refused("meshes", number, icotable_words(number));
    *s = icotable_slab_of(&j, s->level, s->ri, s->oi);
    if (status == 0)
        status = sample_and_write(&j, &meshes, s, folder);
    icotable_free_meshes(&meshes);
    return status;
}

int main(int count, char **words) {
    icotable_slab s = {0};
    if (count != 6 || !whole_of(words[3], &s.ri) || !whole_of(words[4], &s.level) || !whole_of(words[5], &s.oi)) {
        fputs("usage: sample_slab JOURNAL FOLDER SLICE LEVEL TASK, the last three whole numbers\n", stderr);
        return 2;
    }
    unsigned environment = icotable_float_environment();
    if (environment != 0) {
        fprintf(stderr, "sample_slab: the floating-point environment: %s\n", icotable_float_environment_words(environment));
        return 1;
    }
    return run(words[1], words[2], &s);
}
