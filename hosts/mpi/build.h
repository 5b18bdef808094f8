/* What the parts of icotable_mpi share. */
#ifndef BUILD_H
#define BUILD_H

#include "icotable_journal.h"
#include "plugin.h"
#include "tools/tools.h"

typedef struct plugin {
    void *object, *data;
    bool started;
    int (*start)(int rank, int ranks, int count, char **words, void **data, char *said);
    int (*energies)(void *data, const icotable_plugin_slab *slab, double *energies, uint64_t count, char *said);
    void (*finish)(void *data);
} plugin;

/* A rank's part of a build. The settings are the command line's, so every rank has the same ones. */
typedef struct build {
    int rank, ranks;
    const char *plugin_name, *journal_name, *table_name;
    int word_count; /* for the plug-in */
    char **words;
    bool atom;
    icotable_grid grid; /* against an atom omega_step is 0 */
    uint64_t top;
    icotable_meshes meshes;
    plugin plugin;
    double *energies; /* room for a slab of the top level */
    char said[600];   /* why something failed */
} build;

typedef unsigned long long ull;

/* sample.c: meshes, memory and plug-in of a rank; then a slab's energies, of which there are per_level(b->atom, level). GOOD,
 * or FOUND or TROUBLE with words in b->said. */
int start(build *b);
int sample(build *b, uint64_t ri, uint64_t oi, uint64_t level);
void finish(build *b);

/* journal.c of rank 0: begins the journal, or resumes it where it is there; keeps a slab's energies, a settle, and the table.
 * GOOD, or FOUND or TROUBLE with a line to standard error. */
int open_journal(const build *b, icotable_journal *j);
int keep_slab(const build *b, icotable_journal *j, int rank, uint64_t ri, uint64_t oi, size_t count);
int settle_slice(const build *b, icotable_journal *j, uint64_t ri);
int write_table(const build *b, icotable_journal *j);

/* ranks.c: rank 0's work and the others'. Rank 0 answers the status; where it fails while others sample, it aborts the job. */
int lead(build *b);
void follow(build *b);

#endif
