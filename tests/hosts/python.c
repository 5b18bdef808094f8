/* What tests/hosts/python compares hosts/python with. `python layout` prints each struct that the package declares: its name, its size,
 * and each field's place and size. `python read TABLE [BETA]` answers poses, doubles on standard input (eight each, against an atom four),
 * by the library's own calls: a u64 number and three doubles each on standard output. */
#include "icotable_handles.h"

#include <stdio.h>
#include <stdlib.h>
#include <string.h>

#define STRUCT(type) printf("icotable_" #type " %zu", sizeof(icotable_##type))
#define FIELD(type, name) printf(" " #name ":%zu:%zu", offsetof(icotable_##type, name), sizeof(((icotable_##type *)0)->name))
#define F1(t, a) FIELD(t, a)
#define F2(t, a, b) (FIELD(t, a), FIELD(t, b))
#define F4(t, a, b, c, d) (F2(t, a, b), F2(t, c, d))
#define ENDED putchar('\n')

static void tables(void) {
    STRUCT(fault), F2(fault, number, said), ENDED;
    STRUCT(grid), F4(grid, rmin, rmax, dr, omega_step), F4(grid, threshold, beta, n_r, n_omega), ENDED;
    STRUCT(atom_grid), F4(atom_grid, rmin, rmax, dr, threshold), F2(atom_grid, beta, n_r), ENDED;
    STRUCT(builder), F4(builder, grid, top, level, packed), ENDED;
    STRUCT(table), F4(table, number, grid, levels, rows), F2(table, energies, terms), F1(table, start), ENDED;
    STRUCT(atom_table), F4(atom_table, number, grid, levels, rows), F2(atom_table, energies, start), ENDED;
    STRUCT(value), F4(value, number, energy, distance_a, distance_b), ENDED;
    STRUCT(spanned), F4(spanned, number, first, last, smallest), F2(spanned, largest, scalar_nans), ENDED;
    STRUCT(columns), F4(columns, r, omega, a, b), F4(columns, r_stride, omega_stride, a_stride, b_stride), ENDED;
    STRUCT(row), F4(row, kind, level, offset, scalar), ENDED;
}

static void builds(void) {
    STRUCT(build_settings), F4(build_settings, atom, grid, top, journal), F2(build_settings, meshes, flags),
        F2(build_settings, lent, label), ENDED;
    STRUCT(identity), F2(identity, id, label), ENDED;
    STRUCT(journal_settled), F2(journal_settled, number, gradient), F1(journal_settled, comparisons), ENDED;
    STRUCT(progress), F4(progress, n_r, n_omega, top, level), F4(progress, slabs, set, settled, length),
        F4(progress, step, ri, oi, level_lost), ENDED;
    STRUCT(journal), F4(journal, atom, guarded, builder, records), F4(journal, bytes, cut, slabs, set_count), F2(journal, settled_count, set),
        F4(journal, settled, said, build, meshes_hash), F2(journal, version, library), F1(journal, identity), ENDED;
    STRUCT(terms), F4(terms, coefficients, kappas, powers, count), F1(terms, prefactor), ENDED;
    STRUCT(seal), F4(seal, sha256, table_length, atom, grid), F4(seal, top, levels, meshes_hash, own_meshes), F2(seal, version, journaled),
        F4(seal, journal_sha256, format, guarded, whole), F1(seal, identity), ENDED;
}

typedef struct answer {
    uint64_t number;
    double shown[3];
} answer;

static answer one(const icotable_reader *t, const double *p, const double *beta) {
    size_t length;
    const uint8_t *file = icotable_reader_file(t, &length);
    const icotable_meshes *m = icotable_reader_meshes(t);
    if (icotable_reader_atom(t)) {
        const icotable_atom_table *table = icotable_reader_atom_table(t);
        icotable_energy e = beta == NULL ? icotable_atom_reading(table, file, length, ICOTABLE_LOCATORS(m), p[0], p[1], p[2], p[3])
                                         : icotable_atom_boltzmann(table, file, length, ICOTABLE_LOCATORS(m), p[0], p[1], p[2], p[3], *beta);
        return (answer){e.number, {e.energy, 0, 0}};
    }
    const icotable_table *table = icotable_reader_table(t);
    icotable_value v = beta == NULL
                           ? icotable_reading(table, file, length, ICOTABLE_LOCATORS(m), p[0], p[1], p[2], p[3], p[4], p[5], p[6], p[7])
                           : icotable_boltzmann(table, file, length, ICOTABLE_LOCATORS(m), p[0], p[1], p[2], p[3], p[4], p[5], p[6], p[7], *beta);
    return (answer){v.number, {v.energy, v.distance_a, v.distance_b}};
}

static int read_poses(const char *name, const double *beta) {
    icotable_fault fault;
    icotable_reader *t = icotable_reader_open(name, NULL, &fault);
    if (t == NULL) {
        fprintf(stderr, "python: %s\n", fault.said);
        return 1;
    }
    double pose[8];
    size_t wide = icotable_reader_atom(t) ? 4 : 8;
    while (fread(pose, sizeof *pose, wide, stdin) == wide) {
        answer found = one(t, pose, beta);
        fwrite(&found, sizeof found, 1, stdout);
    }
    icotable_reader_close(t);
    return 0;
}

int main(int count, char **names) {
    if (count == 2 && strcmp(names[1], "layout") == 0) {
        tables();
        builds();
        return 0;
    }
    if ((count == 3 || count == 4) && strcmp(names[1], "read") == 0) {
        double beta = count == 4 ? atof(names[3]) : 0;
        return read_poses(names[2], count == 4 ? &beta : NULL);
    }
    fprintf(stderr, "usage: python layout | read TABLE [BETA]\n");
    return 2;
}
