/* Readings of a table: ask FILE < QUERIES. A query is a line of f64 as hexadecimal bits: r, omega, ax, ay, az, bx, by, bz or,
 * of a table against an atom, r, x, y, z. Prints for each the number and the bits of the energy; of a table of two
 * molecules also those of both distances and of the tail at r. The meshes are the C helper's. */
#include "mesh.h"

#include <inttypes.h>
#include <stdio.h>
#include <stdlib.h>
#include <string.h>

static uint8_t *load(const char *name, size_t *count) {
    FILE *in = fopen(name, "rb");
    uint8_t *bytes = NULL;
    if (in != NULL && fseek(in, 0, SEEK_END) == 0) {
        *count = (size_t)ftell(in);
        bytes = malloc(*count + 1);
        rewind(in);
        if (bytes != NULL && fread(bytes, 1, *count, in) != *count)
            *count = 0;
        fclose(in);
    }
    return bytes;
}

static int read_query(double *query, int count) {
    for (int k = 0; k < count; k++) {
        uint64_t bits;
        if (scanf("%" SCNx64, &bits) != 1)
            return 0;
        memcpy(&query[k], &bits, sizeof bits);
    }
    return 1;
}

/* The number, and numbers by their bits. */
static void print_answer(uint64_t number, const double *shown, int count) {
    printf("%d", (int)number);
    for (int k = 0; k < count; k++) {
        uint64_t bits;
        memcpy(&bits, &shown[k], sizeof bits);
        printf(" %016" PRIX64, bits);
    }
    putchar('\n');
}

int main(int count, char **names) {
    size_t length = 0;
    uint8_t *file = count == 2 ? load(names[1], &length) : NULL;
    icotable_table t = icotable_read(file, length);
    icotable_atom_table u = icotable_atom_read(file, length);
    icotable_meshes m;
    uint64_t levels = t.number == 0 ? t.levels : u.levels;
    if ((t.number != 0 && u.number != 0) || icotable_make_meshes(&m, levels - 1) != 0) {
        fprintf(stderr, "ask: refused with %d and %d\n", (int)t.number, (int)u.number);
        return 1;
    }
    double q[8];
    while (read_query(q, t.number == 0 ? 8 : 4)) {
        if (t.number == 0) {
            icotable_value v = icotable_reading(&t, file, length, ICOTABLE_LOCATORS(&m), q[0], q[1], q[2], q[3], q[4], q[5], q[6], q[7]);
            icotable_value tail = icotable_tail(&t, file, length, q[0]);
            double shown[4] = {v.energy, v.distance_a, v.distance_b, tail.energy};
            print_answer(v.number | tail.number, shown, 4);
        } else {
            icotable_energy v = icotable_atom_reading(&u, file, length, ICOTABLE_LOCATORS(&m), q[0], q[1], q[2], q[3]);
            print_answer(v.number, &v.energy, 1);
        }
    }
    icotable_free_meshes(&m);
    free(file);
    return 0;
}
