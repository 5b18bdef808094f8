#include "build.h"

#include "icotable_seal.h"

#include <errno.h>
#include <stdlib.h>
#include <string.h>
#include <sys/stat.h>

static int refused(const char *name, uint64_t number, const char *said) {
    fprintf(stderr, "icotable_mpi: %s: refused with %llu: %s\n", name, (ull)number, said);
    bool cannot = number == ICOTABLE_JOURNAL_NOT_WRITTEN || number == ICOTABLE_JOURNAL_BROKEN || number == ICOTABLE_JOURNAL_TROUBLE ||
                  number == ICOTABLE_JOURNAL_NO_ROOM;
    return cannot ? TROUBLE : FOUND;
}

static uint64_t opened(const build *b, icotable_journal *j, bool resume) {
    const icotable_grid *g = &b->grid;
    icotable_atom_grid atom = {g->rmin, g->rmax, g->dr, g->threshold, g->beta, 0};
    if (b->atom)
        return (resume ? icotable_journal_atom_resume : icotable_journal_atom_begin)(j, b->journal_name, atom, b->top, &b->meshes, 0);
    return (resume ? icotable_journal_resume : icotable_journal_begin)(j, b->journal_name, *g, b->top, &b->meshes, 0);
}

/* A table that is there is looked at before anything is sampled for it; where all is done, it may be this one. */
int open_journal(const build *b, icotable_journal *j) {
    uint64_t ri, oi, number = opened(b, j, true);
    bool there = number == 0, done = there && icotable_journal_next(j, &ri, &oi) == ICOTABLE_JOURNAL_TO_WRITE;
    if ((there || number == ICOTABLE_JOURNAL_ABSENT) && !done) {
        int status = free_name(b->journal_name, b->table_name);
        if (status != GOOD)
            return status;
    }
    if (number == ICOTABLE_JOURNAL_ABSENT)
        number = opened(b, j, false);
    if (number != 0)
        return refused(b->journal_name, number, j->said);
    printf("%s: %s; %llu of %llu slabs set, ", b->journal_name, there ? "resumed" : "begun", (ull)j->set_count, (ull)j->slabs);
    printf("%llu of %llu slices settled, level %llu\n", (ull)j->settled_count, (ull)j->builder.grid.n_r, (ull)j->builder.level);
    if (j->cut > 0)
        printf("%s: %llu bytes behind the last whole call were cut off\n", b->journal_name, (ull)j->cut);
    fflush(stdout);
    return GOOD;
}

int keep_slab(const build *b, icotable_journal *j, int rank, uint64_t ri, uint64_t oi, size_t count) {
    uint64_t number = icotable_journal_set(j, ri, oi, b->energies, count);
    if (number == 0)
        return GOOD;
    fprintf(stderr, "icotable_mpi: slab (%llu, %llu), sampled by rank %d, is not set\n", (ull)ri, (ull)oi, rank);
    return refused(b->journal_name, number, j->said);
}

int settle_slice(const build *b, icotable_journal *j, uint64_t ri) {
    uint64_t level = j->builder.level;
    icotable_journal_settled s = icotable_journal_settle(j, ri);
    if (s.number != 0)
        return refused(b->journal_name, s.number, j->said);
    printf("slice %llu of %llu: distance %g, level %llu, largest gradient %.4g%s\n", (ull)(ri + 1), (ull)j->builder.grid.n_r,
           b->grid.rmin + (double)ri * b->grid.dr, (ull)level, s.gradient, j->builder.level < level ? "; the level drops" : "");
    fflush(stdout);
    return GOOD;
}

static bool sealed(const char *name, const uint8_t *bytes, size_t count) {
    icotable_seal seal;
    return icotable_seal_read(&seal, name, NULL) == 0 && icotable_seal_check(&seal, bytes, count, NULL) == 0;
}

/* A job that was killed behind its end finds its own table, and writes the seal where the kill came before it. */
static int same_table(const build *b, icotable_journal *j, const uint8_t *bytes, size_t count) {
    table_file f;
    const char *name = b->table_name;
    int status = open_table(&f, name);
    bool same = status == GOOD && f.count == count && memcmp(f.bytes, bytes, count) == 0;
    close_table(&f);
    if (!same)
        return status != GOOD ? status : trouble(name, "is there already with other bytes, and is not replaced");
    printf("%s: is there already, with the same bytes\n", name);
    return sealed(name, bytes, count) ? GOOD : save_table(j, b->journal_name, name, bytes, count, true);
}

int write_table(const build *b, icotable_journal *j) {
    struct stat what;
    size_t length = icotable_journal_length(j);
    uint8_t *bytes = malloc(length);
    if (bytes == NULL)
        return trouble(b->table_name, "does not fit into memory");
    icotable_written w = icotable_journal_write(j, bytes, length);
    bool there = lstat(b->table_name, &what) == 0;
    int status = w.number != 0 ? refused(b->journal_name, w.number, j->said)
                 : there       ? same_table(b, j, bytes, (size_t)w.length)
                               : save_table(j, b->journal_name, b->table_name, bytes, (size_t)w.length, false);
    if (status == GOOD && !there)
        printf("%s: %llu bytes, the table of %llu calls, and its seal\n", b->table_name, (ull)w.length, (ull)j->records);
    fflush(stdout);
    free(bytes);
    return status;
}
