/* Slab files: the energies of one slab, sampled by a task of a cluster for a build whose journal another process keeps
 * (icotable_journal.h; icotable collect). Not proved: the library takes the energies, this only brings them there.
 *
 * A file is there whole or not at all: it is written under another name beside it, brought to disk and renamed. Its name is
 * made of its bins and its level, so a task that runs twice replaces it, by equal bytes where it samples equal energies.
 *
 * Whose build. A file has the hash of its build, and the build's id and label (icotable_journal.h), which a task takes from the journal's
 * head (icotable_journal_look). The hash covers all of it, so that files of two builds with equal settings are told apart.
 *
 * File: docs/FORMAT.md, Slab files. Version 2 has id and label; version 1, of a journal of version 1, has neither.
 *
 * Link with libicotable: cc host.c $(pkg-config --cflags --libs icotable). */
#ifndef ICOTABLE_SLAB_H
#define ICOTABLE_SLAB_H

#include "icotable_journal.h"
#include "mesh.h"

#ifdef __cplusplus
extern "C" {
#endif

/* What slab files are refused with, above the numbers of journals. */
#define ICOTABLE_SLAB_REFUSALS(X) \
    X(231, NOT_A_SLAB, "the file is not a slab file of this library, or its head is not whole") \
    X(232, OTHER_VERSION, "the slab file has a format version that is not known here") \
    X(233, DAMAGED, "the slab file is damaged") \
    X(234, OTHER_BUILD, "the slab file is of another build: another kind of table, other settings, another top level or other meshes") \
    X(235, OTHER_LEVEL, "the slab file is of another level than its name, or than there is") \
    X(236, OTHER_BINS, "the slab file is of other bins than its name") \
    X(237, OTHER_COUNT, "a slab does not have this many energies at its level") \
    X(238, ABSENT, "there is no such slab file") \
    X(239, TROUBLE, "the slab file cannot be opened, read or written") \
    X(240, OTHER_IDENTITY, "the slab file is of another build with the same settings")

#define ICOTABLE_SLAB_REFUSAL_(number, name, words) ICOTABLE_SLAB_##name = number,
enum icotable_slab_refusal { ICOTABLE_SLAB_REFUSALS(ICOTABLE_SLAB_REFUSAL_) ICOTABLE_SLAB_ACCEPTED = 0 };
#undef ICOTABLE_SLAB_REFUSAL_

/* A number of slab files or of the library in words. */
const char *icotable_slab_words(uint64_t number);

/* The hash of a build whose journal is of version 1, from what a task samples over; of a table against an atom omega_step is 0. The
 * hash of version 2 covers id and label, too, and is in what icotable_journal_look gives, as build. */
uint64_t icotable_build_hash(int atom, icotable_grid settings, uint64_t top, const icotable_meshes *meshes);

/* Which slab it is. */
typedef struct icotable_slab {
    int atom;
    uint64_t build;         /* the hash */
    uint64_t level, ri, oi; /* against an atom oi is 0 */
    icotable_identity identity; /* an id that is all 0: of a journal of version 1, and so the file is */
    char said[400];         /* the last refusal in words, with its file and place */
} icotable_slab;

/* The slab of a journal's build: atom, build and identity are the journal's, open or looked at. */
icotable_slab icotable_slab_of(const icotable_journal *j, uint64_t level, uint64_t ri, uint64_t oi);

/* Which slab the file of that name is, whatever it is called; its checksum has to be right. */
uint64_t icotable_slab_look(icotable_slab *s, const char *path);

/* How many energies it has: n or n*n, n being the vertices of its level; 0 for a level above 15. */
uint64_t icotable_slab_count(const icotable_slab *s);

/* The name of its file in its folder: slab-RI-OI-LEVEL.icoslab. */
enum { ICOTABLE_SLAB_NAME = 80 };
void icotable_slab_name(const icotable_slab *s, char name[ICOTABLE_SLAB_NAME]);

/* Write its file, or read it; energies_count is icotable_slab_count. They answer 0 or one of the above; write refuses a NaN
 * as icotable_set does, with ICOTABLE_NAN_ENERGY. Where write refuses, a file of that name is as it was; where read refuses,
 * the energies are not to be used. */
uint64_t icotable_slab_write(icotable_slab *s, const char *folder, const double *energies, size_t energies_count);
uint64_t icotable_slab_read(icotable_slab *s, const char *folder, double *energies, size_t energies_count);

#ifdef __cplusplus
}
#endif

#endif
