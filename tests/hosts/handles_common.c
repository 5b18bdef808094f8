/* What the tests of handles share: checks, names in the folder, wrapped calls, builds whose energies are the same in each run. */
#include "handles_test.h"

#include <pthread.h>
#include <signal.h>
#include <stdio.h>
#include <stdlib.h>
#include <string.h>
#include <unistd.h>

enum { NAMES = 8 };

int checks, wrong;
const char *folder;
double energies[PER];

void is(const char *what, uint64_t wanted, uint64_t found) {
    checks++;
    if (wanted == found)
        return;
    wrong++;
    printf("%s: %llu, not %llu\n", what, (ull)found, (ull)wanted);
}

void says(const char *what, const char *words, const char *said) {
    checks++;
    if (strstr(said, words) != NULL)
        return;
    wrong++;
    printf("%s: '%s' is not in '%s'\n", what, words, said);
}

/* A refusal: its number, and words of its place. */
void faults(const char *what, const void *handle, uint64_t number, const char *words, const icotable_fault *fault) {
    is(what, 1, handle == NULL);
    is(what, number, fault->number);
    says(what, icotable_handle_words(number), fault->said);
    says(what, words, fault->said);
}

/* A name in the folder; good for eight calls. */
const char *at(const char *name) {
    static char names[NAMES][400];
    static int next;
    char *made = names[next++ % NAMES];
    snprintf(made, sizeof names[0], "%s/%s", folder, name);
    return made;
}

/* ---- what is wrapped: a countdown to 0 kills the process before the call is made */

int __real_fsync(int file);
int __real_rename(const char *old, const char *new);
int __real_pthread_create(pthread_t *thread, const pthread_attr_t *how, void *(*start)(void *), void *with);
int countdown = -1, threads_fail_from = -1;

static void count_call(void) {
    if (countdown >= 0 && countdown-- == 0)
        kill(getpid(), SIGKILL);
}

int __wrap_fsync(int file) {
    count_call();
    return __real_fsync(file);
}

int __wrap_rename(const char *old, const char *new) {
    count_call();
    return __real_rename(old, new);
}

int __wrap_pthread_create(pthread_t *thread, const pthread_attr_t *how, void *(*start)(void *), void *with) {
    if (threads_fail_from >= 0 && threads_fail_from-- == 0) {
        threads_fail_from = 0;
        return 11;
    }
    return __real_pthread_create(thread, how, start, with);
}

/* ---- builds */

icotable_build_settings settings_of(int atom) {
    icotable_build_settings s = {.grid = {.rmin = 1, .rmax = 5, .dr = 1, .omega_step = 2.1, .threshold = 0.3, .beta = 1}, .top = 1};
    s.atom = atom;
    return s;
}

/* Energies over the turned meshes are others, so that a table tells which meshes it was built over. */
static double lift;

static void lift_for(const icotable_build_settings *s) {
    lift = s->meshes != NULL && strstr(s->meshes, "turned") != NULL ? 1 : 0;
}

/* A wall, then less and less: rows of every kind, and the level drops on the way. */
void sample(uint64_t ri, uint64_t oi, size_t count) {
    static const double height[] = {900, 0.7, 0.05, 0.01};
    uint64_t state = 77 * ri + 5 * oi + 1;
    for (size_t i = 0; i < count; i++) {
        state = state * 6364136223846793005u + 1442695040888963407u;
        energies[i] = height[ri % 4] * (1 + lift + (double)(state >> 11) / 9007199254740992.0);
    }
}

size_t room_of(int atom, uint64_t level) {
    size_t n = icotable_vertices(level);
    return atom ? n : n * n;
}

/* What comes next is done; 1 where something was, else 0. */
int step(icotable_build *b, int atom) {
    icotable_progress p = icotable_build_progress(b);
    if (p.step == ICOTABLE_JOURNAL_TO_WRITE)
        return 0;
    if (p.step == ICOTABLE_JOURNAL_TO_SETTLE) {
        is("settle", 0, icotable_build_settle(b, p.ri).number);
    } else {
        sample(p.ri, p.oi, room_of(atom, p.level));
        is("set", 0, icotable_build_set(b, p.ri, p.oi, energies, room_of(atom, p.level)));
    }
    return 1;
}

icotable_build *open_build(icotable_build *(*how)(const icotable_build_settings *, icotable_fault *), const icotable_build_settings *s) {
    icotable_fault fault;
    icotable_build *b = how(s, &fault);
    lift_for(s);
    if (b == NULL) {
        printf("a build is refused with %llu: %s\n", (ull)fault.number, fault.said);
        exit(1);
    }
    is("a fault of none", 0, fault.number);
    return b;
}

void finish(icotable_build *b, int atom, const char *path) {
    while (step(b, atom))
        continue;
    uint64_t number = icotable_build_write(b, path);
    if (number != 0)
        printf("write: %s\n", icotable_build_said(b));
    is("write", 0, number);
    icotable_build_close(b);
}

icotable_reader *open_reader(const char *path, const char *meshes) {
    icotable_fault fault;
    icotable_reader *t = icotable_reader_open(path, meshes, &fault);
    if (t == NULL) {
        printf("a reader is refused with %llu: %s\n", (ull)fault.number, fault.said);
        exit(1);
    }
    return t;
}

void same_file(const char *what, const char *one, const char *other) {
    icotable_reader *s = open_reader(one, NULL), *t = open_reader(other, NULL);
    size_t m, n;
    const uint8_t *a = icotable_reader_file(s, &m), *b = icotable_reader_file(t, &n);
    is(what, m, n);
    is(what, 0, m != n || memcmp(a, b, m) != 0);
    icotable_reader_close(s);
    icotable_reader_close(t);
}

void copy(const char *from, const char *to, long cut) {
    static uint8_t bytes[1 << 20];
    FILE *in = fopen(from, "rb"), *out = fopen(to, "wb");
    if (in == NULL || out == NULL)
        exit(2);
    size_t count = fread(bytes, 1, sizeof bytes, in);
    if (cut >= 0 && (size_t)cut < count)
        count = (size_t)cut;
    if (fwrite(bytes, 1, count, out) != count || fclose(out) != 0 || fclose(in) != 0)
        exit(2);
}
