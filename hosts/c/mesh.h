/* Meshes for a host: icospheres of levels 0 to a top one, with the angles to their neighbours, and their locators. In each
 * list one level's part follows another's, as the library takes them. The generator is a helper and is not proved; what
 * it makes is put to the library's mesh rule by the locator call.
 *
 * A table is read with the vertices that it was built over, bit for bit. docs/FORMAT.md says how they are made and has a
 * checksum of each level; compiler flags do not alter them (mesh.c says which do not let it compile).
 *
 * Link with libicotable: cc host.c $(pkg-config --cflags --libs icotable). */
#ifndef ICOTABLE_MESH_H
#define ICOTABLE_MESH_H

#include "icotable.h"

#ifdef __cplusplus
extern "C" {
#endif

typedef struct icotable_meshes {
    uint64_t top;
    double *vertices, *angles;
    uint8_t *neighbour_counts;
    uint16_t *neighbours, *cell_vertices, *faces;
    uint32_t *cell_offsets, *face_offsets;
    size_t vertices_count, angles_count, neighbour_counts_count, neighbours_count;
    size_t cell_offsets_count, cell_vertices_count, face_offsets_count, faces_count;
} icotable_meshes;

/* Fills m, and answers 0; or the number with which the library refused a level; or ICOTABLE_NO_MEMORY. Free in any case. */
enum { ICOTABLE_NO_MEMORY = 100 };
uint64_t icotable_make_meshes(icotable_meshes *m, uint64_t top);
void icotable_free_meshes(icotable_meshes *m);

/* The vertices of a level, three coordinates each. */
const double *icotable_level_vertices(const icotable_meshes *m, uint64_t level);

/* The list arguments of the library's calls, in their order. */
#define ICOTABLE_MESHES(m) \
    (m)->vertices, (m)->vertices_count, (m)->neighbour_counts, (m)->neighbour_counts_count, (m)->neighbours, \
        (m)->neighbours_count, (m)->angles, (m)->angles_count
#define ICOTABLE_LOCATORS(m) \
    (m)->vertices, (m)->vertices_count, (m)->cell_offsets, (m)->cell_offsets_count, (m)->cell_vertices, \
        (m)->cell_vertices_count, (m)->face_offsets, (m)->face_offsets_count, (m)->faces, (m)->faces_count

#ifdef __cplusplus
}
#endif

#endif
