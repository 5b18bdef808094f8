/* Saves of the Rust's icotable (04e40bac78): bincode 1 of its serde derives, plain or packed by gzip, of Table6DAdaptive<f32> and
 * Table3DAdaptive<f32>. A save becomes a table file, and the meshes that its energies follow. docs/FORMAT.md, Saves of the Rust,
 * says what is in one. Not proved; the packing of a table of two molecules is the library's repack. */
#ifndef IMPORT_H
#define IMPORT_H

#include "icotable_fault.h"
#include "mesh.h"

#include <stdbool.h>

#define IMPORT_REFUSALS(X) \
    X(281, NOT_A_SAVE, "the file is not a save of an adaptive table of the Rust's icotable, or it is damaged") \
    X(282, CUT, "the save ends before it is whole") \
    X(283, BEHIND, "bytes follow the end of the save") \
    X(284, LATTICE, "the save's meshes are of the Lattice subdivision: its search is not this library's") \
    X(285, FLAT, "the save is of a flat table, not of an adaptive one") \
    X(286, LEVELS, "the save's levels are not the library's, which are 0 to at most 15") \
    X(287, MESH, "a mesh of the save does not keep the mesh rule") \
    X(288, GRID, "the save's grid is not one of a table file") \
    X(289, ROWS, "the save's rows are not those of its grid") \
    X(290, OFFSET, "a row's energies are not inside those of the save") \
    X(291, ENERGY, "an energy that a row holds is a NaN") \
    X(292, PREFACTOR, "the save has tail terms and no prefactor") \
    X(293, TERM, "the save's tail is not one that a table file can hold") \
    X(294, GZIP, "the gzip stream of the save is damaged, or ends before it is whole") \
    X(295, NO_ZLIB, "the save is packed by gzip, and this tool was built without zlib: unpack it first (gzip -d)") \
    X(296, TABLE, "the library refuses the table that the save makes") \
    X(297, NO_ROOM, "there is not enough memory for the save")

#define IMPORT_REFUSAL_(number, name, words) IMPORT_##name = number,
enum import_refusal { IMPORT_REFUSALS(IMPORT_REFUSAL_) IMPORT_ACCEPTED = 0 };
#undef IMPORT_REFUSAL_

/* A number of an import or of the library in words. */
const char *import_words(uint64_t number);
#define IMPORT_REFUSE(fault, name, ...) icotable_fault_(fault, IMPORT_##name, import_words(IMPORT_##name), __VA_ARGS__)

/* What a save says beside its energies. Without a value there is a false. */
typedef struct save_metadata {
    uint64_t terms;
    size_t terms_at; /* the byte of the first one: coefficient, kappa as f64, power as u32 */
    bool has_charges, has_dipoles, has_temperature, has_prefactor;
    double charges[2], dipoles[2], temperature, prefactor;
    uint32_t point_group; /* 0 Asymmetric, 1 Exchange */
} save_metadata;

/* A row of a save. */
typedef struct save_row {
    uint8_t kind, level; /* as a table file has them */
    uint32_t scalar, offset;
} save_row;

/* A save taken apart. Its energies, and its terms, stay in its bytes. */
typedef struct save {
    const uint8_t *bytes;
    size_t count;
    bool atom;
    icotable_grid grid; /* without threshold and beta, which a save does not hold; against an atom n_omega is 1 */
    icotable_meshes meshes;
    uint64_t levels, rows, energies;
    save_row *row;
    size_t offsets_at, energies_at; /* bytes */
    save_metadata metadata;
} save;

/* import_save.c: takes a plain save apart, all of it, and puts each mesh to the mesh rule. Free in any case. */
uint64_t save_read(save *s, const uint8_t *bytes, size_t count, icotable_fault *fault);
void save_free(save *s);
/* The energies that a row holds. */
uint64_t save_row_size(const save *s, const save_row *r);

/* import_audit.c: what rows and energies have to do with each other. */
typedef struct save_audit {
    uint64_t accounted;          /* the sum of what the Mesh rows hold */
    uint64_t unread, unread_nans; /* energies that no row points to, and the NaNs among them */
    uint64_t sharing, first, second; /* rows that point into another's energies; the first of them, and one that it shares with */
    uint64_t nans;               /* Scalar rows with a NaN other than 7FC00000 */
    bool tiled;                  /* offsets follow each other from 0 on, as `build` lays them */
} save_audit;
/* Refused where a row points outside, or holds a NaN. */
uint64_t save_audit_rows(const save *s, save_audit *a, icotable_fault *fault);

/* import_gzip.c: whether bytes are a gzip stream; unpacks it to bytes to be freed. */
bool import_is_gzip(const uint8_t *bytes, size_t count);
uint64_t import_unzip(const uint8_t *bytes, size_t count, uint8_t **plain, size_t *plain_count, icotable_fault *fault);

/* import_table.c: a save as a table file and its meshes, which are freed in any case. */
typedef struct imported {
    bool atom, gzip;
    uint8_t *table;
    size_t length;
    uint64_t moved; /* rows whose offset is now another */
    icotable_meshes meshes;
    uint64_t levels, rows, energies;
    save_audit audit;
    save_metadata metadata;
} imported;
/* Bytes may be anything, plain or gzip. 0, or a number of the above. */
uint64_t import_bytes(const uint8_t *bytes, size_t count, imported *made, icotable_fault *fault);
void import_free(imported *made);

#endif
