/* A journal of a build: an append-only file of the fresh, set and settle calls that were accepted, with their answers. A job
 * that is killed resumes by playing them again from fresh, so that it ends with the table of an undisturbed one, byte for
 * byte. Not proved: the library plays the calls, this only keeps them.
 *
 * Order. A call is made, its record is written and brought to disk (fdatasync), and only then is it answered. So what was
 * answered with 0 is in the file, and a kill loses at most the one call that nobody had an answer to. Where the record
 * cannot be written the call is taken back: builder, store and rows are as before. A call that the library or the guard
 * refuses alters nothing and is not recorded.
 *
 * Guard, on unless told otherwise: no set of a slice that was settled, no set or settle before every nearer slice is
 * settled, no settle while a slab of the slice is missing, no table with a slab missing or a slice unsettled. At resume it
 * is asked of the recorded calls, too.
 *
 * A handle holds builder, store and rows, so that they are always of one moment; the meshes are lent and have to stay until
 * it is closed. One thread at a time. A second process, or a second handle, on the same journal is refused (flock; closed on
 * exec, but a forked child shares the lock).
 *
 * Whose build it is. A journal's head has an id, drawn at random when it is begun, and a label, the host's own words for what is
 * sampled: molecules, force field. Two builds with equal settings and meshes differ in them, and so do their slab files
 * (icotable_slab.h). A resume that is handed a label refuses a journal with another one.
 *
 * File: docs/FORMAT.md, Journals. A head, then a record a call, the first of them fresh. This library begins journals of version
 * 2, and resumes those of version 1, which have neither id nor label.
 *
 * A last record that is not whole, or whose end was never written (its last 8 bytes are 0), is cut off at resume. Any other
 * damage is refused with its record and byte; the calls before it are whole, and a file cut there resumes. A file that ends
 * inside head and fresh, as a kill while it was begun leaves it, is begun anew.
 *
 * Link with libicotable: cc host.c $(pkg-config --cflags --libs icotable). */
#ifndef ICOTABLE_JOURNAL_H
#define ICOTABLE_JOURNAL_H

#include "mesh.h"

#ifdef __cplusplus
extern "C" {
#endif

/* What a journal refuses with, above the library's numbers. */
#define ICOTABLE_JOURNAL_REFUSALS(X) \
    X(201, EXISTS, "the file is there already: resume it, or begin another one") \
    X(202, ABSENT, "there is no such journal: begin it") \
    X(203, IN_USE, "the journal is in use by another process, or by another handle of this one") \
    X(204, NOT_A_JOURNAL, "the file is not a journal of this library, or its head is not whole") \
    X(205, OTHER_VERSION, "the journal has a format version that is not known here") \
    X(206, DAMAGED, "a record of the journal is damaged") \
    X(207, OTHER_KIND, "the journal is of the other kind of table: of two molecules, or against an atom") \
    X(208, OTHER_SETTINGS, "the journal was begun with other settings") \
    X(209, OTHER_TOP, "the journal was begun with another top level") \
    X(210, OTHER_MESHES, "the journal was begun over other meshes") \
    X(211, OTHER_ANSWER, "a recorded call, played again, is answered otherwise than it was") \
    X(212, NOT_WRITTEN, "the record of the call could not be written to disk: the call was taken back") \
    X(213, BROKEN, "an earlier record could not be brought to disk: close the journal and resume it") \
    X(214, NOT_OPEN, "the journal is not open for calls") \
    X(215, TROUBLE, "the journal cannot be opened or read") \
    X(216, NO_ROOM, "there is not enough memory for the build") \
    X(217, ENVIRONMENT, "the floating-point environment is not the one that the library needs") \
    X(218, LABEL, "the label is not UTF-8 of at most 4,096 bytes without control characters") \
    X(219, OTHER_IDENTITY, "the journal is of another build with the same settings: its label or its id is another") \
    X(220, OTHER_LIBRARY, "the journal was kept by another version of the library, which answers a recorded call otherwise") \
    X(221, SLICE_SETTLED, "a slab of a slice that was settled is not set again") \
    X(222, SLAB_MISSING, "a slice is not settled while a slab of it was not set") \
    X(223, NEARER_UNSETTLED, "a slice is not begun before every nearer one is settled") \
    X(224, HOLES, "a table with slabs that were not set is not written") \
    X(225, UNSETTLED, "a table with a slice that was not settled is not written")

#define ICOTABLE_JOURNAL_REFUSAL_(number, name, words) ICOTABLE_JOURNAL_##name = number,
enum icotable_journal_refusal { ICOTABLE_JOURNAL_REFUSALS(ICOTABLE_JOURNAL_REFUSAL_) ICOTABLE_JOURNAL_ACCEPTED = 0 };
#undef ICOTABLE_JOURNAL_REFUSAL_

/* A number of a journal or of the library in words. */
const char *icotable_journal_words(uint64_t number);

/* How a journal is opened: a sum of these, or 0. */
enum icotable_journal_flag {
    ICOTABLE_JOURNAL_UNGUARDED = 1, /* without the guard */
    ICOTABLE_JOURNAL_READING = 2,   /* resume alone: to look at. The file is not locked and not altered, no call is taken */
    ICOTABLE_JOURNAL_FORMAT_1 = 4   /* begin alone: a file of version 1, without id and label, for a library before 0.24 */
};

/* Which build it is, beside its settings. */
enum { ICOTABLE_LABEL = 4096 };
typedef struct icotable_identity {
    uint8_t id[16];                 /* all 0 where there is none: of a journal of version 1 */
    char label[ICOTABLE_LABEL + 1]; /* UTF-8 without control characters */
} icotable_identity;

/* A build with its journal. A host reads the first part; the second is the journal's own. */
typedef struct icotable_journal {
    int atom, guarded;
    icotable_builder builder; /* against an atom n_omega is 1, omega_step 0, and packed is not kept */
    uint64_t records, bytes;  /* the calls in the file, fresh among them, and its length */
    uint64_t cut;             /* bytes behind the last whole record, cut off at resume */
    uint64_t slabs, set_count, settled_count;
    const uint8_t *set, *settled; /* of each slab, and of each slice: whether it was */
    char said[400];           /* the last refusal in words, with its bins or its place */
    uint64_t build;           /* the hash of the build, which slab files have (icotable_slab.h) */
    uint64_t meshes_hash;     /* of its meshes, by the journal's head */
    uint32_t version;         /* of the file's format */
    uint32_t library[3];      /* the version of the library that began it; of version 1 not known, and 0 */
    icotable_identity identity;

    const icotable_meshes *meshes;
    double *store, *spare;
    size_t store_count;
    uint64_t *words, *slice;
    uint8_t *kinds, *levels, *marks;
    uint32_t *values;
    int file, state, broken;
    uint32_t sum;
} icotable_journal;

/* Begin a journal, or resume one by playing its calls. They answer 0; a number of fresh; or one of the above. Where they
 * refuse, nothing is held; closing does no harm. The settings, the top level and the meshes of a resume have to be those of
 * the begin, to the bit; the meshes may have levels above the top. A begin whose name is NULL has no file: the same calls under
 * the same guard, of which nothing is kept. */
uint64_t icotable_journal_begin(icotable_journal *j, const char *name, icotable_grid settings, uint64_t top, const icotable_meshes *meshes, unsigned flags);
uint64_t icotable_journal_resume(icotable_journal *j, const char *name, icotable_grid settings, uint64_t top, const icotable_meshes *meshes, unsigned flags);
uint64_t icotable_journal_atom_begin(icotable_journal *j, const char *name, icotable_atom_grid settings, uint64_t top, const icotable_meshes *meshes, unsigned flags);
uint64_t icotable_journal_atom_resume(icotable_journal *j, const char *name, icotable_atom_grid settings, uint64_t top, const icotable_meshes *meshes, unsigned flags);

/* The same for both kinds of table; against an atom omega_step is 0. label and id (16 bytes): those of a build that begins, NULL for no
 * label and an id at random; those that a journal has to have to be resumed, NULL for any. */
uint64_t icotable_journal_begin_as(icotable_journal *j, const char *name, int atom, icotable_grid settings, uint64_t top, const icotable_meshes *meshes, unsigned flags,
                                   const char *label, const uint8_t *id);
uint64_t icotable_journal_resume_as(icotable_journal *j, const char *name, int atom, icotable_grid settings, uint64_t top, const icotable_meshes *meshes, unsigned flags,
                                    const char *label, const uint8_t *id);
void icotable_journal_close(icotable_journal *j);

/* Whose journal it is, by its head: fills atom, the settings in builder.grid, builder.top, build, meshes_hash, version, library and
 * identity; nothing stays open. */
uint64_t icotable_journal_look(icotable_journal *j, const char *name);

/* icotable_set and icotable_settle, kept; against an atom oi is 0. They answer the library's numbers and those above. */
uint64_t icotable_journal_set(icotable_journal *j, uint64_t ri, uint64_t oi, const double *energies, size_t energies_count);

typedef struct icotable_journal_settled {
    uint64_t number;
    double gradient;
    uint64_t comparisons;
} icotable_journal_settled;
icotable_journal_settled icotable_journal_settle(icotable_journal *j, uint64_t ri);

/* The table file, which is length bytes long. Writes are not recorded. */
uint64_t icotable_journal_length(const icotable_journal *j);
icotable_written icotable_journal_write(icotable_journal *j, uint8_t *output, size_t output_count);

/* Whether the table may be written now: 0; NOT_OPEN; BROKEN after a record that could not be brought to disk; or what the guard
 * says, HOLES or UNSETTLED. icotable_journal_write asks it, and so does a host that writes with a tail, before
 * icotable_write_tail(j.builder, ICOTABLE_JOURNAL_LISTS(&j), ICOTABLE_MESHES(j.meshes), ..). */
uint64_t icotable_journal_whole(icotable_journal *j);
#define ICOTABLE_JOURNAL_LISTS(j) (j)->store, (j)->store_count, (j)->words, (size_t)(j)->slabs

/* What a build does next, from contact outwards: sets slab (ri, oi) at the builder's level, settles slice ri, or writes. */
enum icotable_journal_step { ICOTABLE_JOURNAL_TO_SET, ICOTABLE_JOURNAL_TO_SETTLE, ICOTABLE_JOURNAL_TO_WRITE };
enum icotable_journal_step icotable_journal_next(const icotable_journal *j, uint64_t *ri, uint64_t *oi);

#ifdef __cplusplus
}
#endif

#endif
