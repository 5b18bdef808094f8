/* icotable_mpi PLUGIN JOURNAL TABLE RMIN RMAX DR [STEP] TOP THRESHOLD BETA [-- WORD..]: a build over MPI ranks, of two molecules
 * or, without a step, against an atom. Rank 0 keeps the journal (icotable_journal.h), begins it or resumes it where it is there,
 * and writes the table; the other ranks sample slabs with the plug-in (plugin.h); a rank that is alone does both. However often a
 * job is killed and started again, and whatever the number of ranks, the table is byte for byte the one of a build in one process
 * with the same energies. Not proved: the library takes the calls, this only makes them. The status is 0 where the table is there, 1
 * where something was refused, 2 for trouble. */
#include "build.h"

#include <mpi.h>
#include <string.h>

static int usage(const build *b) {
    if (b->rank == 0)
        fputs("usage: icotable_mpi PLUGIN JOURNAL TABLE RMIN RMAX DR [STEP] TOP THRESHOLD BETA [-- WORD..]\n"
              "  builds a table of two molecules or, without STEP, against an atom, with the energies of PLUGIN, a\n"
              "  shared object (plugin.h). JOURNAL is resumed where it is there. The words behind -- go to the plug-in.\n", stderr);
    return TROUBLE;
}

/* The command line, or false. */
static bool settings_of(build *b, int count, char **words) {
    int own = 1;
    while (own < count && strcmp(words[own], "--") != 0)
        own++;
    if (own < count) {
        b->word_count = count - own - 1;
        b->words = words + own + 1;
    }
    if (own != 10 && own != 11)
        return false;
    b->atom = own == 10;
    b->plugin_name = words[1], b->journal_name = words[2], b->table_name = words[3];
    double *to[] = {&b->grid.rmin, &b->grid.rmax, &b->grid.dr, &b->grid.omega_step};
    for (int i = 0; i < 4 - b->atom; i++)
        if (!number_of(words[4 + i], to[i]))
            return false;
    return whole_of(words[own - 3], &b->top) && number_of(words[own - 2], &b->grid.threshold) && number_of(words[own - 1], &b->grid.beta);
}

/* GOOD where every rank could start; else the status of the first that could not, which says why. */
static int all_started(const build *b, int status) {
    int mine = status == GOOD ? b->ranks : b->rank, first;
    MPI_Allreduce(&mine, &first, 1, MPI_INT, MPI_MIN, MPI_COMM_WORLD);
    if (first == b->ranks)
        return GOOD;
    if (first == b->rank)
        fprintf(stderr, "icotable_mpi: rank %d: %s\n", b->rank, b->said);
    MPI_Bcast(&status, 1, MPI_INT, first, MPI_COMM_WORLD);
    return status;
}

static int run(build *b) {
    int status = all_started(b, start(b));
    if (status == GOOD && b->rank == 0)
        status = lead(b);
    else if (status == GOOD)
        follow(b);
    finish(b);
    return status;
}

int main(int count, char **words) {
    build b = {.said = ""};
    int threads; /* a plug-in's own threads make no MPI calls */
    MPI_Init_thread(&count, &words, MPI_THREAD_FUNNELED, &threads);
    MPI_Comm_rank(MPI_COMM_WORLD, &b.rank);
    MPI_Comm_size(MPI_COMM_WORLD, &b.ranks);
    int status = settings_of(&b, count, words) ? run(&b) : usage(&b);
    MPI_Finalize();
    return status;
}
