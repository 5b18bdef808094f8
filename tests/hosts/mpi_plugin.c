/* A plug-in for icotable_mpi that misbehaves where it is told: the molecules' energies (hosts/mpi/molecules_plugin.c, compiled
 * under other names), and WHAT RI OI FOLDER at that slab.
 *   empty    no energy is filled in         fail     it fails, with words
 *   busy     the same, while slab 0 of the slice takes a minute
 *   exit     the rank ends                  kill     the rank is killed
 *   leader   rank 0 is killed               upward   the rounding is altered
 *   late     slab 0 of every slice comes in behind another: it waits until slab 3 is begun. With three ranks that sample, slab 3 is
 *            handed out once slab 1 or 2 was set
 *   start    rank RI does not start */
#include "plugin.h"

#include <fenv.h>
#include <signal.h>
#include <stdbool.h>
#include <stdio.h>
#include <stdlib.h>
#include <string.h>
#include <time.h>
#include <unistd.h>

int molecules_energies(void *data, const icotable_plugin_slab *slab, double *energies, uint64_t count, char *said);

typedef struct orders {
    const char *what, *folder;
    uint64_t ri, oi;
} orders;

static const char *path(const orders *o, const char *name, uint64_t ri) {
    static char text[1000];
    snprintf(text, sizeof text, "%s/%s%llu", o->folder, name, (unsigned long long)ri);
    return text;
}

static int fails(char *said, const char *why) {
    snprintf(said, ICOTABLE_PLUGIN_SAID, "%s", why);
    return 7;
}

/* Rank 0 leaves its number for the one that is to kill it. */
int icotable_plugin_start(int rank, int ranks, int count, char **words, void **data, char *said) {
    (void)ranks;
    if (count == 0)
        return 0;
    orders *o = count == 4 ? malloc(sizeof *o) : NULL;
    if (o == NULL)
        return fails(said, "the words are WHAT RI OI FOLDER");
    *o = (orders){words[0], words[3], strtoull(words[1], NULL, 10), strtoull(words[2], NULL, 10)};
    *data = o;
    if (strcmp(o->what, "start") == 0 && (uint64_t)rank == o->ri)
        return fails(said, "told not to start");
    FILE *f = rank == 0 ? fopen(path(o, "leader", 0), "w") : NULL;
    if (f != NULL) {
        fprintf(f, "%ld\n", (long)getpid());
        fclose(f);
    }
    return 0;
}

static void begin_slab(const orders *o, const icotable_plugin_slab *slab) {
    static const struct timespec pause = {0, 1000000};
    FILE *f = slab->oi == 3 ? fopen(path(o, "begun", slab->ri), "w") : NULL;
    if (f != NULL)
        fclose(f);
    while (slab->oi == 0 && access(path(o, "begun", slab->ri), F_OK) != 0)
        nanosleep(&pause, NULL);
}

/* A rank that sleeps on to its end leaves a file. */
static void sleep_on(const orders *o) {
    sleep(60);
    FILE *f = fopen(path(o, "slept", o->ri), "w");
    if (f != NULL)
        fclose(f);
}

static void kill_leader(const orders *o) {
    long leader = 0;
    FILE *f = fopen(path(o, "leader", 0), "r");
    if (f == NULL || fscanf(f, "%ld", &leader) != 1 || leader <= 1)
        abort();
    fclose(f);
    kill((pid_t)leader, SIGKILL);
}

static int misbehave(const orders *o, char *said) {
    if (strcmp(o->what, "fail") == 0 || strcmp(o->what, "busy") == 0)
        return fails(said, "told to fail");
    if (strcmp(o->what, "exit") == 0)
        _exit(3);
    if (strcmp(o->what, "kill") == 0)
        kill(getpid(), SIGKILL);
    if (strcmp(o->what, "leader") == 0)
        kill_leader(o);
    if (strcmp(o->what, "upward") == 0)
        fesetround(FE_UPWARD);
    return 0;
}

int icotable_plugin_energies(void *data, const icotable_plugin_slab *slab, double *energies, uint64_t count, char *said) {
    const orders *o = data;
    if (o != NULL && strcmp(o->what, "late") == 0)
        begin_slab(o, slab);
    if (o != NULL && strcmp(o->what, "busy") == 0 && slab->ri == o->ri && slab->oi == 0)
        sleep_on(o);
    bool here = o != NULL && slab->ri == o->ri && slab->oi == o->oi;
    if (here && strcmp(o->what, "empty") == 0)
        return 0;
    int number = molecules_energies(NULL, slab, energies, count, said);
    return number == 0 && here ? misbehave(o, said) : number;
}

void icotable_plugin_finish(void *data) {
    free(data);
}
