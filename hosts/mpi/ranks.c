/* Rank 0 hands out the slabs of a slice, one at a time to whoever is free, keeps them in the order in which they come in, and
 * settles the slice once it is whole; only then is the next one begun, at the level then. The other ranks sample. */
#include "build.h"

#include <mpi.h>
#include <stdlib.h>
#include <time.h>

enum tag { TASK = 1, ENERGIES, FAILED };

/* A slab to sample, or the end. As a message it is four MPI_UINT64_T. */
typedef struct task {
    uint64_t ri, oi, level, end;
} task;
enum { TASK_NUMBERS = 4 };

/* Rank 0's view: what each rank samples, and the first bin of the slice that may still have to be handed out. */
typedef struct leader {
    build *b;
    icotable_journal *j;
    task *tasks;
    bool *busy;
    uint64_t next;
} leader;

/* MPI's own waits keep a processor busy. */
static MPI_Status message_from(int rank) {
    struct timespec pause = {0, 20000};
    MPI_Status status;
    for (;;) {
        int there;
        MPI_Iprobe(rank, MPI_ANY_TAG, MPI_COMM_WORLD, &there, &status);
        if (there)
            return status;
        nanosleep(&pause, NULL);
        if (pause.tv_nsec < 2000000)
            pause.tv_nsec *= 2;
    }
}

void follow(build *b) {
    for (;;) {
        task t;
        message_from(0);
        MPI_Recv(&t, TASK_NUMBERS, MPI_UINT64_T, 0, TASK, MPI_COMM_WORLD, MPI_STATUS_IGNORE);
        if (t.end)
            return;
        if (sample(b, t.ri, t.oi, t.level) == GOOD)
            MPI_Send(b->energies, (int)per_level(b->atom, t.level), MPI_DOUBLE, 0, ENERGIES, MPI_COMM_WORLD);
        else
            MPI_Send(b->said, sizeof b->said, MPI_CHAR, 0, FAILED, MPI_COMM_WORLD);
    }
}

static void hand_out(leader *l, uint64_t ri) {
    uint64_t n_omega = l->j->builder.grid.n_omega;
    for (int rank = 1; rank < l->b->ranks; rank++) {
        if (l->busy[rank])
            continue;
        while (l->next < n_omega && l->j->set[ri * n_omega + l->next])
            l->next++;
        if (l->next == n_omega)
            return;
        l->tasks[rank] = (task){ri, l->next++, l->j->builder.level, 0};
        l->busy[rank] = true;
        MPI_Send(&l->tasks[rank], TASK_NUMBERS, MPI_UINT64_T, rank, TASK, MPI_COMM_WORLD);
    }
}

/* The next slab that comes in, from whatever rank. */
static int take_in(leader *l) {
    build *b = l->b;
    MPI_Status s = message_from(MPI_ANY_SOURCE);
    int rank = s.MPI_SOURCE;
    const task *t = &l->tasks[rank];
    l->busy[rank] = false;
    if (s.MPI_TAG == FAILED) {
        MPI_Recv(b->said, sizeof b->said, MPI_CHAR, rank, FAILED, MPI_COMM_WORLD, MPI_STATUS_IGNORE);
        fprintf(stderr, "icotable_mpi: rank %d: %s\n", rank, b->said);
        return FOUND;
    }
    int count = (int)per_level(b->atom, t->level);
    MPI_Recv(b->energies, count, MPI_DOUBLE, rank, ENERGIES, MPI_COMM_WORLD, MPI_STATUS_IGNORE);
    return keep_slab(b, l->j, rank, t->ri, t->oi, (size_t)count);
}

/* A rank that is alone samples itself. */
static int sample_alone(leader *l, uint64_t ri, uint64_t oi) {
    build *b = l->b;
    uint64_t level = l->j->builder.level;
    int status = sample(b, ri, oi, level);
    if (status == GOOD)
        return keep_slab(b, l->j, 0, ri, oi, per_level(b->atom, level));
    fprintf(stderr, "icotable_mpi: rank 0: %s\n", b->said);
    return status;
}

static int build_slices(leader *l) {
    for (;;) {
        uint64_t ri, oi;
        int status = GOOD;
        enum icotable_journal_step step = icotable_journal_next(l->j, &ri, &oi);
        if (step == ICOTABLE_JOURNAL_TO_WRITE)
            return GOOD;
        if (step == ICOTABLE_JOURNAL_TO_SETTLE) {
            status = settle_slice(l->b, l->j, ri);
            l->next = 0;
        } else if (l->b->ranks == 1) {
            status = sample_alone(l, ri, oi);
        } else {
            hand_out(l, ri);
            status = take_in(l);
        }
        if (status != GOOD)
            return status;
    }
}

/* Ranks that wait are told; those that sample do not listen, and a slab may take hours. */
static void dismiss(leader *l, int status) {
    task end = {.end = 1};
    for (int rank = 1; rank < l->b->ranks; rank++)
        if (l->busy[rank])
            MPI_Abort(MPI_COMM_WORLD, status);
    for (int rank = 1; rank < l->b->ranks; rank++)
        MPI_Send(&end, TASK_NUMBERS, MPI_UINT64_T, rank, TASK, MPI_COMM_WORLD);
}

int lead(build *b) {
    icotable_journal j;
    leader l = {.b = b, .j = &j, .tasks = calloc((size_t)b->ranks, sizeof *l.tasks), .busy = calloc((size_t)b->ranks, sizeof *l.busy)};
    if (l.tasks == NULL || l.busy == NULL) {
        fputs("icotable_mpi: there is not enough memory\n", stderr);
        MPI_Abort(MPI_COMM_WORLD, TROUBLE);
    }
    int status = open_journal(b, &j);
    if (status == GOOD)
        status = build_slices(&l);
    if (status == GOOD)
        status = write_table(b, &j);
    icotable_journal_close(&j);
    dismiss(&l, status);
    free(l.tasks);
    free(l.busy);
    return status;
}
