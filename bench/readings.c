/* A C program's pass over many queries, eight numbers each: r, omega and the two directions. Compiled for each library against its own header: before 0.6.0 a reading took
 * the table by value. */
#include "icotable.h"

#if ICOTABLE_VERSION_MAJOR == 0 && ICOTABLE_VERSION_MINOR < 6
#define TABLE(t) *(t)
#else
#define TABLE(t) (t)
#endif

void read_all(
    const icotable_table *t,
    const uint8_t *file, size_t file_count,
    const double *vertices, size_t vertices_count,
    const uint32_t *cell_offsets, size_t cell_offsets_count,
    const uint16_t *cell_vertices, size_t cell_vertices_count,
    const uint32_t *face_offsets, size_t face_offsets_count,
    const uint16_t *faces, size_t faces_count,
    const double *queries, size_t count,
    icotable_value *out)
{
    for (size_t i = 0; i < count; i++) {
        const double *q = queries + 8 * i;
        out[i] = icotable_reading(
            TABLE(t), file, file_count, vertices, vertices_count, cell_offsets, cell_offsets_count, cell_vertices, cell_vertices_count,
            face_offsets, face_offsets_count, faces, faces_count, q[0], q[1], q[2], q[3], q[4], q[5], q[6], q[7]);
    }
}

/* The same of a table against an atom, which 0.9.0 is the first to have: r and the first direction of each query. */
#if ICOTABLE_VERSION_MAJOR > 0 || ICOTABLE_VERSION_MINOR >= 9
void read_atoms(
    const icotable_atom_table *t,
    const uint8_t *file, size_t file_count,
    const double *vertices, size_t vertices_count,
    const uint32_t *cell_offsets, size_t cell_offsets_count,
    const uint16_t *cell_vertices, size_t cell_vertices_count,
    const uint32_t *face_offsets, size_t face_offsets_count,
    const uint16_t *faces, size_t faces_count,
    const double *queries, size_t count,
    icotable_energy *out)
{
    for (size_t i = 0; i < count; i++) {
        const double *q = queries + 8 * i;
        out[i] = icotable_atom_reading(
            t, file, file_count, vertices, vertices_count, cell_offsets, cell_offsets_count, cell_vertices, cell_vertices_count,
            face_offsets, face_offsets_count, faces, faces_count, q[0], q[2], q[3], q[4]);
    }
}
#endif
