/* The loops in C that bench.py compares with: over the same arrays of poses, one reading each, energies stored; by the library's own
 * call, and by the handle's. They give the number of refused poses. */
#include "icotable_handles.h"

#define POSE r[i], omega[i], a[3 * i], a[3 * i + 1], a[3 * i + 2], b[3 * i], b[3 * i + 1], b[3 * i + 2]

uint64_t loop_library(const icotable_reader *t, size_t count, const double *r, const double *omega, const double *a, const double *b, double *energies) {
    size_t length;
    const icotable_table *table = icotable_reader_table(t);
    const uint8_t *file = icotable_reader_file(t, &length);
    const icotable_meshes *m = icotable_reader_meshes(t);
    uint64_t refused = 0;
    for (size_t i = 0; i < count; i++) {
        icotable_value v = icotable_reading(table, file, length, ICOTABLE_LOCATORS(m), POSE);
        energies[i] = v.energy;
        refused += v.number != 0;
    }
    return refused;
}

uint64_t loop_handle(const icotable_reader *t, size_t count, const double *r, const double *omega, const double *a, const double *b, double *energies) {
    uint64_t refused = 0;
    for (size_t i = 0; i < count; i++) {
        icotable_value v = icotable_reader_energy(t, POSE);
        energies[i] = v.energy;
        refused += v.number != 0;
    }
    return refused;
}
