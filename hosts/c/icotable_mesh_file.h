/* Mesh files: the meshes that a table was built over, in a file of their own. A table's energies mean nothing without its
 * meshes; where these are not the library's own (icotable_make_meshes), they are kept beside it. docs/FORMAT.md, Mesh files,
 * says what is in one. Not proved; what is loaded is put to the library's mesh rule.
 *
 * Link with libicotable: cc host.c $(pkg-config --cflags --libs icotable). */
#ifndef ICOTABLE_MESH_FILE_H
#define ICOTABLE_MESH_FILE_H

#include "icotable_fault.h"
#include "mesh.h"

#ifdef __cplusplus
extern "C" {
#endif

#define ICOTABLE_MESH_FILE_REFUSALS(X) \
    X(241, ABSENT, "there is no such mesh file") \
    X(242, NOT_A_MESH_FILE, "the file is not a mesh file of this library, or its head is not whole") \
    X(243, OTHER_VERSION, "the mesh file has a format version that is not known here") \
    X(244, OTHER_LENGTH, "the mesh file is shorter or longer than its levels make it") \
    X(245, DAMAGED, "the mesh file is damaged") \
    X(246, NOT_A_MESH, "a level is not a mesh of this library") \
    X(247, TROUBLE, "the mesh file cannot be opened, read or written") \
    X(248, NO_ROOM, "there is not enough memory for the meshes") \
    X(249, NOT_WHOLE, "the meshes are not whole: a list of them is missing or too short")

#define ICOTABLE_MESH_FILE_REFUSAL_(number, name, words) ICOTABLE_MESH_FILE_##name = number,
enum icotable_mesh_file_refusal { ICOTABLE_MESH_FILE_REFUSALS(ICOTABLE_MESH_FILE_REFUSAL_) ICOTABLE_MESH_FILE_ACCEPTED = 0 };
#undef ICOTABLE_MESH_FILE_REFUSAL_

/* A number of a mesh file or of the library in words. */
const char *icotable_mesh_file_words(uint64_t number);

/* All levels of m to a file, in the place of one that is there; written under another name, brought to disk and then given
 * its own. Locators are not written. Only what icotable_meshes_load accepts is saved. */
uint64_t icotable_meshes_save(const icotable_meshes *m, const char *path, icotable_fault *fault);

/* The meshes of a file, with locators; free them. Where it is refused m is empty. */
uint64_t icotable_meshes_load(icotable_meshes *m, const char *path, icotable_fault *fault);

/* FNV-1a of levels 0 to levels - 1, as a journal's head and a seal have it (docs/FORMAT.md); 0 without so many levels. */
uint64_t icotable_meshes_hash(const icotable_meshes *m, uint64_t levels);

/* 1: levels 0 to levels - 1 are those that icotable_make_meshes makes, bit for bit. 0: they are not, or there is no memory to
 * see it. */
int icotable_meshes_own(const icotable_meshes *m, uint64_t levels);

#ifdef __cplusplus
}
#endif

#endif
