#include "handles.h"

#include <errno.h>
#include <stdio.h>
#include <stdlib.h>
#include <string.h>
#include <sys/stat.h>

/* Kind, levels and bin counts are the table's own. */
static uint64_t look_over(const icotable_build_settings *s, const uint8_t *table, size_t length, icotable_seal *seal,
                          icotable_fault *fault) {
    icotable_table pair = {0};
    icotable_atom_table atom = {0};
    if (s->atom)
        atom = icotable_atom_read(table, length);
    else
        pair = icotable_read(table, length);
    uint64_t number = s->atom ? atom.number : pair.number, levels = s->atom ? atom.levels : pair.levels;
    if (number != 0)
        return REFUSE(fault, number, "it is not saved");
    if (levels != s->top + 1)
        return REFUSE(fault, ICOTABLE_HANDLE_OTHER_TABLE, "the table has levels 0 to %llu, of 0 to %llu", (ull)(levels - 1),
                      (ull)s->top);
    seal->grid = s->grid;
    seal->grid.n_r = s->atom ? atom.grid.n_r : pair.grid.n_r;
    seal->grid.n_omega = s->atom ? 1 : pair.grid.n_omega;
    seal->grid.omega_step = s->atom ? 0 : s->grid.omega_step;
    return 0;
}

/* What the journal of a build says of it, in memory or on disk. */
static void fill_build(const icotable_journal *j, icotable_seal *seal) {
    seal->guarded = j->guarded ? ICOTABLE_YES : ICOTABLE_NO;
    seal->whole = j->set_count == j->slabs && j->settled_count == j->builder.grid.n_r ? ICOTABLE_YES : ICOTABLE_NO;
    if (j->file >= 0)
        seal->identity = j->identity;
    else
        memcpy(seal->identity.label, j->identity.label, sizeof seal->identity.label);
}

/* What the seal says of this table. */
static uint64_t fill_seal(const icotable_build_settings *s, const uint8_t *table, size_t length, const icotable_meshes *m,
                          icotable_seal *seal, icotable_fault *fault) {
    seal->table_length = length;
    seal->atom = s->atom != 0;
    seal->top = s->top;
    seal->levels = s->top + 1;
    seal->meshes_hash = icotable_meshes_hash(m, seal->levels);
    seal->own_meshes = (s->lent == NULL && s->meshes == NULL) || icotable_meshes_own(m, seal->levels);
    seal->journaled = s->journal != NULL;
    icotable_sha256_(table, length, seal->sha256);
    strcpy(seal->version, icotable_version());
    if (seal->journaled && !icotable_sha256_file_(s->journal, seal->journal_sha256))
        return REFUSE(fault, ICOTABLE_HANDLE_NOT_WRITTEN, "its journal %s cannot be read for the seal: %s", s->journal,
                      strerror(errno));
    return 0;
}

/* Mesh file, table, seal: until the last is there, the reader refuses what it could mistake. */
static uint64_t write_files(const char *path, const uint8_t *table, size_t length, const icotable_meshes *m,
                            const icotable_seal *seal, bool replace, icotable_fault *fault) {
    uint64_t number = 0;
    struct stat what;
    if (!replace && lstat(path, &what) == 0)
        return REFUSE(fault, ICOTABLE_HANDLE_NOT_WRITTEN, "%s: %s", path, strerror(EEXIST));
    if (!seal->own_meshes) {
        char *mesh = icotable_beside_(path, ".mesh");
        number = mesh == NULL ? REFUSE(fault, ICOTABLE_HANDLE_NO_ROOM, "a name") : icotable_meshes_save(m, mesh, fault);
        free(mesh);
    }
    if (number == 0 && !icotable_write_file_(path, table, length, replace))
        number = REFUSE(fault, ICOTABLE_HANDLE_NOT_WRITTEN, "%s: %s", path, strerror(errno));
    return number != 0 ? number : icotable_seal_write(seal, path, fault);
}

uint64_t icotable_save_(const icotable_build_settings *s, const icotable_journal *j, const uint8_t *table, size_t length, const char *path,
                        bool replace, icotable_fault *fault) {
    icotable_meshes m = {0};
    icotable_seal seal = {0};
    if (path == NULL)
        return REFUSE(fault, ICOTABLE_HANDLE_NOT_WRITTEN, "there is no name for it");
    if (s->top > 15)
        return REFUSE(fault, ICOTABLE_LEVEL, "top level %llu", (ull)s->top);
    uint64_t number = look_over(s, table, length, &seal, fault);
    if (number != 0)
        return number;
    if (j != NULL)
        fill_build(j, &seal);
    else if (s->label != NULL)
        snprintf(seal.identity.label, sizeof seal.identity.label, "%s", s->label);
    number = icotable_handle_meshes_(&m, s->lent, s->meshes, s->top + 1, fault);
    if (number == 0)
        number = fill_seal(s, table, length, &m, &seal, fault);
    if (number == 0)
        number = write_files(path, table, length, &m, &seal, replace, fault);
    if (s->lent == NULL)
        icotable_free_meshes(&m);
    return number;
}

uint64_t icotable_table_save(const icotable_build_settings *s, const uint8_t *table, size_t length, const char *path,
                             icotable_fault *fault) {
    return icotable_save_(s, NULL, table, length, path, true, fault);
}
