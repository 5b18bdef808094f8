#include "handles.h"

#include <errno.h>
#include <fcntl.h>
#include <stdlib.h>
#include <string.h>
#include <sys/mman.h>
#include <sys/stat.h>
#include <unistd.h>

/* Meshes as a caller chooses them: in memory, or by the name of a mesh file; or neither. */
typedef struct chosen {
    const icotable_meshes *lent;
    const char *name;
} chosen;

/* ---- opening */

/* A file of no bytes cannot be mapped; the library refuses it by itself. */
static uint64_t map_file(icotable_reader *t, const char *path, icotable_fault *fault) {
    struct stat what;
    if (path == NULL)
        return REFUSE(fault, ICOTABLE_HANDLE_TROUBLE, "there is no name for it");
    int file = open(path, O_RDONLY | O_CLOEXEC | O_NONBLOCK);
    uint64_t number = 0;
    if (file < 0)
        return REFUSE(fault, ICOTABLE_HANDLE_TROUBLE, "%s: %s", path, strerror(errno));
    if (fstat(file, &what) != 0)
        number = REFUSE(fault, ICOTABLE_HANDLE_TROUBLE, "%s: %s", path, strerror(errno));
    else if (!S_ISREG(what.st_mode))
        number = REFUSE(fault, ICOTABLE_HANDLE_TROUBLE, "%s: not a regular file", path);
    else if (what.st_size > 0) {
        void *bytes = mmap(NULL, (size_t)what.st_size, PROT_READ, MAP_PRIVATE, file, 0);
        if (bytes == MAP_FAILED) {
            number = REFUSE(fault, ICOTABLE_HANDLE_TROUBLE, "%s: %s", path, strerror(errno));
        } else {
            t->mapped = true;
            t->file = bytes;
            t->length = (size_t)what.st_size;
        }
    }
    close(file);
    return number;
}

static const char *kind_words(int atom) {
    return atom ? "against an atom" : "of two molecules";
}

/* A grid of two numbers is that of a table against an atom. */
static uint64_t look_over(icotable_reader *t, const char *path, icotable_fault *fault) {
    uint64_t number;
    t->atom = t->length >= 4 && memcmp(t->file, "\2\0\0", 4) == 0;
    if (t->atom)
        number = (t->atom_table = icotable_atom_read(t->file, t->length)).number;
    else
        number = (t->table = icotable_read(t->file, t->length)).number;
    return number == 0 ? 0 : REFUSE(fault, number, "%s, as a table %s; `icotable verify` names the byte", path, kind_words(t->atom));
}

static uint64_t levels_of(const icotable_reader *t) {
    return t->atom ? t->atom_table.levels : t->table.levels;
}

static uint64_t check_seal(const icotable_reader *t, const icotable_seal *s, const char *path, icotable_fault *fault) {
    if (!s->atom != !t->atom || s->levels != levels_of(t))
        return REFUSE(fault, ICOTABLE_HANDLE_OTHER_TABLE, "%s is sealed as a table %s with %llu levels", path, kind_words(s->atom), (ull)s->levels);
    return icotable_seal_check(s, t->file, t->length, fault);
}

/* The meshes that are lent or named; else the library's own, unless the seal says that they are beside the table. */
static uint64_t sealed_meshes(icotable_reader *t, const char *path, const chosen *c, const icotable_seal *s,
                              icotable_fault *fault) {
    char *beside = icotable_beside_(path, ".mesh");
    if (beside == NULL)
        return REFUSE(fault, ICOTABLE_HANDLE_NO_ROOM, "a name");
    const char *name = c->name != NULL ? c->name : s != NULL && !s->own_meshes ? beside : NULL;
    uint64_t number;
    if (s == NULL && name == NULL && c->lent == NULL && access(beside, F_OK) == 0)
        number = REFUSE(fault, ICOTABLE_HANDLE_NO_SEAL, "%s", beside);
    else
        number = icotable_handle_meshes_(&t->meshes, c->lent, name, levels_of(t), fault);
    if (number == 0 && s != NULL && icotable_meshes_hash(&t->meshes, s->levels) != s->meshes_hash)
        number = REFUSE(fault, ICOTABLE_HANDLE_OTHER_MESHES, "%s",
                        c->lent != NULL ? "what is lent" : name == NULL ? "the library's own" : name);
    free(beside);
    return number;
}

static uint64_t fill(icotable_reader *t, const char *path, const chosen *c, icotable_fault *fault) {
    icotable_seal seal;
    uint64_t number = icotable_handle_environment_(fault);
    if (number == 0)
        number = map_file(t, path, fault);
    if (number == 0)
        number = look_over(t, path, fault);
    if (number != 0)
        return number;
    number = icotable_seal_read(&seal, path, fault);
    bool sealed = number != ICOTABLE_SEAL_ABSENT;
    if (sealed && number == 0)
        number = check_seal(t, &seal, path, fault);
    if (sealed && number != 0)
        return number;
    return sealed_meshes(t, path, c, sealed ? &seal : NULL, fault);
}

static uint64_t fill_over(icotable_reader *t, const icotable_meshes *meshes, icotable_fault *fault) {
    uint64_t number = icotable_handle_environment_(fault);
    if (number == 0)
        number = look_over(t, "bytes in memory", fault);
    return number != 0 ? number : icotable_handle_meshes_(&t->meshes, meshes, NULL, levels_of(t), fault);
}

static icotable_reader *empty(bool lent_meshes, icotable_fault *fault) {
    icotable_reader *t = calloc(1, sizeof *t);
    if (t == NULL)
        REFUSE(fault, ICOTABLE_HANDLE_NO_ROOM, "a reader");
    else
        t->lent_meshes = lent_meshes;
    return t;
}

/* The reader where it was filled; else NULL. */
static icotable_reader *filled(icotable_reader *t, uint64_t number, icotable_fault *fault) {
    if (number == 0) {
        icotable_accepted_(fault);
        return t;
    }
    icotable_reader_close(t);
    return NULL;
}

icotable_reader *icotable_reader_open(const char *path, const char *meshes, icotable_fault *fault) {
    icotable_reader *t = empty(false, fault);
    return t == NULL ? NULL : filled(t, fill(t, path, &(chosen){.name = meshes}, fault), fault);
}

icotable_reader *icotable_reader_open_over(const char *path, const icotable_meshes *meshes, icotable_fault *fault) {
    icotable_reader *t = empty(meshes != NULL, fault);
    return t == NULL ? NULL : filled(t, fill(t, path, &(chosen){.lent = meshes}, fault), fault);
}

icotable_reader *icotable_reader_over(const uint8_t *file, size_t length, const icotable_meshes *meshes, icotable_fault *fault) {
    icotable_reader *t = empty(meshes != NULL, fault);
    if (t == NULL)
        return NULL;
    t->file = file;
    t->length = length;
    return filled(t, fill_over(t, meshes, fault), fault);
}

void icotable_reader_close(icotable_reader *t) {
    if (t == NULL)
        return;
    if (t->mapped)
        munmap((void *)t->file, t->length);
    if (!t->lent_meshes)
        icotable_free_meshes(&t->meshes);
    free(t);
}

/* ---- what it holds */

int icotable_reader_atom(const icotable_reader *t) {
    return t != NULL && t->atom;
}

const icotable_table *icotable_reader_table(const icotable_reader *t) {
    return t == NULL || t->atom ? NULL : &t->table;
}

const icotable_atom_table *icotable_reader_atom_table(const icotable_reader *t) {
    return t == NULL || !t->atom ? NULL : &t->atom_table;
}

const uint8_t *icotable_reader_file(const icotable_reader *t, size_t *length) {
    if (length != NULL)
        *length = t == NULL ? 0 : t->length;
    return t == NULL ? NULL : t->file;
}

const icotable_meshes *icotable_reader_meshes(const icotable_reader *t) {
    return t == NULL ? NULL : &t->meshes;
}

static uint32_t u32_at(const uint8_t *at) {
    uint32_t x;
    memcpy(&x, at, sizeof x);
    return x;
}

uint64_t icotable_reader_row(const icotable_reader *t, uint64_t ri, uint64_t oi, icotable_row *row) {
    *row = (icotable_row){0};
    if (t == NULL)
        return ICOTABLE_HANDLE_NO_HANDLE;
    uint64_t n_omega = t->atom ? 1 : t->table.grid.n_omega;
    if (ri >= (t->atom ? t->atom_table.grid.n_r : t->table.grid.n_r) || oi >= n_omega)
        return ICOTABLE_BIN;
    const uint8_t *at = t->file + (t->atom ? t->atom_table.start[3] : t->table.start[3]) + 10 * (ri * n_omega + oi);
    bool mesh = at[0] >= 2;
    float scalar;
    memcpy(&scalar, at + 6, sizeof scalar);
    *row = (icotable_row){at[0], at[1], mesh ? u32_at(at + 2) : 0, at[0] == 0 ? (double)scalar : 0};
    return 0;
}
