/* The head of a journal, as bytes and as numbers, in both versions of its format. Not installed; names end in an underscore. */
#ifndef JOURNAL_HEAD_H
#define JOURNAL_HEAD_H

#include "icotable_journal.h"

/* What both versions have is SAME bytes. Version 2 then has the library's version, the id from byte ID on, the length of the label and the
 * label from byte LABEL on. A checksum ends it. */
enum { ICOTABLE_HEAD_SAME_ = 80, ICOTABLE_HEAD_ID_ = 92, ICOTABLE_HEAD_LABEL_ = 112, ICOTABLE_HEAD_MOST_ = ICOTABLE_HEAD_LABEL_ + ICOTABLE_LABEL + 4 };

typedef struct icotable_head_ {
    uint32_t version, kind; /* kind: 0 of two molecules, 1 against an atom */
    uint64_t top;
    double settings[6]; /* rmin, rmax, dr, omega_step, threshold, beta */
    uint64_t meshes;    /* their hash */
    uint32_t library[3];
    icotable_identity identity;
} icotable_head_;

/* The head that this library begins a build with. */
icotable_head_ icotable_head_of_(int atom, const icotable_grid *grid, uint64_t top, const icotable_meshes *meshes);

/* Its bytes but the checksum, and how many they are. */
size_t icotable_head_bytes_(const icotable_head_ *h, uint8_t bytes[ICOTABLE_HEAD_MOST_]);

/* The head that these bytes begin with, and its length with the checksum: 0, or ICOTABLE_JOURNAL_NOT_A_JOURNAL,
 * ICOTABLE_JOURNAL_DAMAGED or ICOTABLE_JOURNAL_OTHER_VERSION, and why. */
uint64_t icotable_head_taken_(icotable_head_ *h, size_t *length, const uint8_t *bytes, size_t count, const char **why);

/* The hash of the build (icotable_slab.h): kind, top level, settings and meshes; in version 2 its id and label, too. */
uint64_t icotable_head_build_(const icotable_head_ *h);

/* Whether it is UTF-8 of at most ICOTABLE_LABEL bytes without control characters. */
int icotable_label_fits_(const char *label);

#endif
