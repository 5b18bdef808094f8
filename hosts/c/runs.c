#include "handles.h"

#include <pthread.h>

typedef struct run {
    icotable_work_ work;
    const void *with;
    size_t from, to;
    uint64_t sum;
} run;

static void *started_run(void *what) {
    run *r = what;
    r->sum = r->work(r->with, r->from, r->to);
    return NULL;
}

/* Starting a thread takes as long as some hundred readings. */
enum { MOST_THREADS = 256, FEWEST_POSES = 256 };

/* The caller's own thread has the last run, and those whose thread cannot be started. */
static uint64_t split(size_t count, unsigned threads, icotable_work_ work, const void *with) {
    pthread_t started[MOST_THREADS];
    bool running[MOST_THREADS];
    run runs[MOST_THREADS];
    size_t share = count / threads, rest = count % threads, from = 0;
    uint64_t sum = 0;
    for (unsigned k = 0; k < threads; k++) {
        runs[k] = (run){work, with, from, from + share + (k < rest), 0};
        running[k] = k + 1 < threads && pthread_create(&started[k], NULL, started_run, &runs[k]) == 0;
        from = runs[k].to;
    }
    for (unsigned k = 0; k < threads; k++)
        if (!running[k])
            started_run(&runs[k]);
    for (unsigned k = 0; k < threads; k++) {
        if (running[k])
            pthread_join(started[k], NULL);
        sum += runs[k].sum;
    }
    return sum;
}

uint64_t icotable_in_runs_(size_t count, unsigned threads, icotable_work_ work, const void *with) {
    size_t most = count / FEWEST_POSES < MOST_THREADS ? count / FEWEST_POSES : MOST_THREADS;
    if (threads > most)
        threads = (unsigned)most;
    return threads < 2 ? work(with, 0, count) : split(count, threads, work, with);
}
