/* What builds and readers share. Not installed; names end in an underscore. */
#ifndef HANDLES_H
#define HANDLES_H

#include "icotable_handles.h"
#include "support.h"

typedef unsigned long long ull;

/* A refusal with its words and what is handed over behind them; gives the number. */
#define REFUSE(fault, number, ...) icotable_fault_(fault, number, icotable_handle_words(number), __VA_ARGS__)

/* The floating-point environment: 0, or refused. */
uint64_t icotable_handle_environment_(icotable_fault *fault);

/* The meshes of so many levels or more: those that are lent; else of a mesh file; or the library's own where both are NULL. Free
 * them in any case, unless they are lent. */
uint64_t icotable_handle_meshes_(icotable_meshes *m, const icotable_meshes *lent, const char *name, uint64_t levels,
                                 icotable_fault *fault);

/* runs.c: splits 0 to count into as many runs of equal length as there are threads, the caller's own among them; gives the sum of
 * what work gives for each. No thread is started for fewer than 256, and the caller does the run of one that cannot be started. */
typedef uint64_t (*icotable_work_)(const void *with, size_t from, size_t to);
uint64_t icotable_in_runs_(size_t count, unsigned threads, icotable_work_ work, const void *with);

/* save.c: icotable_table_save, with what a build's journal says of it, or NULL; where it is not to replace, a table of that name stays. */
uint64_t icotable_save_(const icotable_build_settings *s, const icotable_journal *j, const uint8_t *table, size_t length, const char *path,
                        bool replace, icotable_fault *fault);

/* What a reader holds: reader.c opens it, energies.c asks it. */
struct icotable_reader {
    int atom;
    bool mapped, lent_meshes;
    const uint8_t *file;
    size_t length;
    icotable_table table;
    icotable_atom_table atom_table;
    icotable_meshes meshes;
};

#endif
