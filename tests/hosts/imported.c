/* Readings of a table with the meshes beside it against stored ones: imported TABLE MESH READINGS, or - for the library's own
 * meshes. A line of READINGS is a pose and an energy as the bits of f64: r, omega, a, b, energy or, against an atom, r,
 * direction, energy; the first line is a remark. Any NaN is as any other. The status is 1 where one is another. */
#include "icotable_mesh_file.h"
#include "support.h"

#include <inttypes.h>
#include <stdio.h>
#include <stdlib.h>
#include <string.h>

typedef struct table {
    uint8_t *file;
    size_t length;
    icotable_table pair;
    icotable_atom_table atom;
    icotable_meshes meshes;
} table;

static int open_table(table *t, const char *name, const char *mesh) {
    icotable_fault fault = {.said = "the library's own"};
    t->file = icotable_read_file_(name, SIZE_MAX - 1, &t->length);
    if (t->file == NULL)
        return fprintf(stderr, "imported: %s cannot be read\n", name), 0;
    t->pair = icotable_read(t->file, t->length);
    t->atom = icotable_atom_read(t->file, t->length);
    uint64_t levels = t->pair.number == 0 ? t->pair.levels : t->atom.levels;
    uint64_t number = strcmp(mesh, "-") == 0 ? icotable_make_meshes(&t->meshes, levels - 1) : icotable_meshes_load(&t->meshes, mesh, &fault);
    if ((t->pair.number != 0 && t->atom.number != 0) || number != 0 || t->meshes.top + 1 != levels)
        return fprintf(stderr, "imported: refused with %d and %d; meshes: %s\n", (int)t->pair.number, (int)t->atom.number, fault.said), 0;
    return 1;
}

static double energy_at(const table *t, const double *q) {
    if (t->pair.number == 0) {
        icotable_value v = icotable_reading(&t->pair, t->file, t->length, ICOTABLE_LOCATORS(&t->meshes), q[0], q[1], q[2], q[3], q[4], q[5], q[6], q[7]);
        return v.number == 0 ? v.energy : -(double)v.number;
    }
    icotable_energy v = icotable_atom_reading(&t->atom, t->file, t->length, ICOTABLE_LOCATORS(&t->meshes), q[0], q[1], q[2], q[3]);
    return v.number == 0 ? v.energy : -(double)v.number;
}

/* The numbers of a line, one after another; 0 at its end. */
static int next_line(FILE *in, double *numbers, int count) {
    for (int k = 0; k < count; k++) {
        uint64_t bits;
        if (fscanf(in, "%" SCNx64, &bits) != 1)
            return 0;
        memcpy(&numbers[k], &bits, sizeof bits);
    }
    return 1;
}

static int same(double x, double y) {
    return memcmp(&x, &y, sizeof x) == 0 || (x != x && y != y);
}

int main(int count, char **names) {
    table t = {0};
    char remark[200];
    FILE *in = count == 4 ? fopen(names[3], "r") : NULL;
    if (in == NULL || fgets(remark, sizeof remark, in) == NULL || remark[0] != '#' || !open_table(&t, names[1], names[2]))
        return fprintf(stderr, "imported: usage: imported TABLE MESH READINGS\n"), 2;
    int wide = t.pair.number == 0 ? 8 : 4, lines = 0, agree = 0;
    double numbers[9];
    for (; next_line(in, numbers, wide + 1); lines++)
        agree += same(energy_at(&t, numbers), numbers[wide]);
    printf("%d of %d readings are the Rust's\n", agree, lines);
    fclose(in);
    icotable_free_meshes(&t.meshes);
    free(t.file);
    return lines == 0 || agree < lines;
}
