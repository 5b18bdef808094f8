/* Seals: FILE.meta beside a table FILE says what it was built with, and which bytes it has: the SHA-256 of the table, the
 * settings (threshold and beta among them, which the table does not hold), the hash of the meshes, the version of the library
 * and the SHA-256 of the journal. docs/FORMAT.md, Seals, says what is in one. A table without a seal is as good as before.
 * Not proved, and no signature: it finds a table that was altered or exchanged by accident, since anybody can write one.
 *
 * Link with libicotable: cc host.c $(pkg-config --cflags --libs icotable). */
#ifndef ICOTABLE_SEAL_H
#define ICOTABLE_SEAL_H

#include "icotable.h"
#include "icotable_fault.h"
#include "icotable_journal.h"

#ifdef __cplusplus
extern "C" {
#endif

#define ICOTABLE_SEAL_REFUSALS(X) \
    X(251, ABSENT, "there is no seal beside the table") \
    X(252, NOT_A_SEAL, "the file is not a seal of this library") \
    X(253, OTHER_VERSION, "the seal has a format version that is not known here") \
    X(254, DAMAGED, "the seal is damaged, or was altered") \
    X(255, OTHER_TABLE, "the table is not the one that was sealed") \
    X(256, TROUBLE, "the seal cannot be opened, read or written") \
    X(257, NOT_SEALED, "a seal does not hold this")

#define ICOTABLE_SEAL_REFUSAL_(number, name, words) ICOTABLE_SEAL_##name = number,
enum icotable_seal_refusal { ICOTABLE_SEAL_REFUSALS(ICOTABLE_SEAL_REFUSAL_) ICOTABLE_SEAL_ACCEPTED = 0 };
#undef ICOTABLE_SEAL_REFUSAL_

/* A number of a seal or of the library in words. */
const char *icotable_seal_words(uint64_t number);

enum icotable_known { ICOTABLE_UNKNOWN, ICOTABLE_YES, ICOTABLE_NO };

typedef struct icotable_seal {
    char sha256[65]; /* of the table file, in 64 hexadecimal digits, as sha256sum writes them */
    uint64_t table_length;
    int atom;
    icotable_grid grid;   /* the settings and bin counts of the build; against an atom omega_step is 0 and n_omega 1. threshold and beta
                             that are not known, of an imported table, are NaN */
    uint64_t top, levels; /* the top level, and the levels that the table names */
    uint64_t meshes_hash; /* of that many levels: icotable_meshes_hash */
    int own_meshes;       /* 1: the meshes are the library's own */
    char version[32];
    int journaled;
    char journal_sha256[65]; /* of the journal, or empty */
    unsigned format;         /* 1: of a library before 0.24, which has nothing of what follows; else 2 */
    enum icotable_known guarded; /* whether the build's guard was on (icotable_journal.h) */
    enum icotable_known whole;   /* whether every slab was set and every slice settled after its sets */
    icotable_identity identity;  /* of the journal; its id is all 0 where there was none */
} icotable_seal;

/* Writes table_path.meta, in the place of one that is there; under another name, brought to disk and then given its own. */
uint64_t icotable_seal_write(const icotable_seal *s, const char *table_path, icotable_fault *fault);

/* Reads it: 0, ICOTABLE_SEAL_ABSENT where there is none, or what refuses it. */
uint64_t icotable_seal_read(icotable_seal *s, const char *table_path, icotable_fault *fault);

/* Whether these bytes are the table that was sealed. */
uint64_t icotable_seal_check(const icotable_seal *s, const uint8_t *file, size_t length, icotable_fault *fault);

#ifdef __cplusplus
}
#endif

#endif
