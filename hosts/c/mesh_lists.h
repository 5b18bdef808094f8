/* What mesh.c, mesh_file.c and the tools' import share; not installed. */
#ifndef MESH_LISTS_H
#define MESH_LISTS_H

#include "mesh.h"

/* Lists for levels 0 to the top, at most 15; 0 where there is no memory. Free in any case. */
int icotable_allocate_meshes_(icotable_meshes *m, uint64_t top);

/* The locator of a level that was filled in. The library puts the level to its mesh rule: 0, or its number. */
uint64_t icotable_locate_level_(icotable_meshes *m, uint64_t level);

/* The angle between two vertices, as the meshes of mesh.h have it. */
double icotable_angle_(const double *p, const double *q);

#endif
