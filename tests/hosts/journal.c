/* Journals of builds (hosts/c/icotable_journal.h): journal SEED KILLS FOLDER. Small builds of both kinds are disturbed in every
 * way that a job can be, resumed, and have to end with the table and the journal of the undisturbed one, byte for byte; or the
 * damage has to be named. Nothing that was answered as kept may be lost.
 *   - the journal cut at every byte, and there filled up with zeros;
 *   - each byte of it damaged, and parts of it zeroed or drawn anew;
 *   - the building process killed (SIGKILL) at every record's end, at bytes inside records, and at any moment: KILLS in all;
 *   - a disk that fills up: a limit on the file's size (RLIMIT_FSIZE, SIGXFSZ ignored) makes writes fail with EFBIG after a
 *     part was written, which needs no rights; and fdatasync that fails (linked with --wrap=fdatasync);
 *   - the mistakes (a) to (h) of a restart; two handles, two processes; other settings, levels, meshes, kinds.
 * journal build KIND FILE TABLE [RECORDS] begins or resumes one build, and stops after so many records, for the other hosts.
 * The status is 1 where something is not as it should be. */
#include "icotable_handles.h"

#include <errno.h>
#include <fcntl.h>
#include <math.h>
#include <signal.h>
#include <stdbool.h>
#include <stdio.h>
#include <stdlib.h>
#include <string.h>
#include <sys/resource.h>
#include <sys/stat.h>
#include <sys/wait.h>
#include <time.h>
#include <unistd.h>

enum { HEAD_1 = 84, HEAD_2 = 116, FRAME = 76, MOST = 300000, RECORDS = 64, TOP = 2 };

typedef struct plan {
    const char *name;
    bool atom;
    uint64_t top, distances;
    double step;       /* of the dihedral angle */
    const char *label; /* NULL: a journal of version 1 */
} plan;

static const plan plans[] = {{"atom", true, 2, 6, 0, "a chloride ion, \xC3\xA5ngstr\xC3\xB6m"}, {"small", false, 0, 3, 3, NULL}, {"pair", false, 1, 5, 2, ""}};
enum { ATOM, SMALL, PAIR, PLANS };

/* the same one in every run, so that journals can be compared byte for byte */
static const uint8_t id[16] = "a build's own id";

static size_t head_of(const plan *p) {
    return p->label == NULL ? HEAD_1 : HEAD_2 + strlen(p->label);
}

static icotable_meshes meshes;
static char folder[1000];
static uint64_t state, checks, wrong;

/* splitmix64 */
static uint64_t mixed(uint64_t z) {
    z = (z ^ z >> 30) * 0xBF58476D1CE4E5B9;
    z = (z ^ z >> 27) * 0x94D049BB133111EB;
    return z ^ z >> 31;
}

static uint64_t below(uint64_t n) {
    return mixed(state += 0x9E3779B97F4A7C15) % n;
}

static void check(bool good, const char *what, const char *said) {
    checks++;
    if (good)
        return;
    if (wrong++ < 10)
        printf("journal: %s: %s\n", what, said);
}

static const char *path(const char *name) {
    static char names[4][1100];
    static int at;
    at = (at + 1) % 4;
    snprintf(names[at], sizeof names[at], "%s/%s", folder, name);
    return names[at];
}

/* ---- the disk */

static int syncs_left = -1;  /* until one fails; -1 for never */
static uint64_t synced;      /* the file's length when it was last brought to disk */

/* In the place of fdatasync, which would take minutes here: a killed process leaves what it wrote, synced or not. */
int __wrap_fdatasync(int file);
int __wrap_fdatasync(int file) {
    struct stat what;
    if (syncs_left < 0 || syncs_left-- > 0) {
        synced = fstat(file, &what) == 0 ? (uint64_t)what.st_size : 0;
        return 0;
    }
    errno = EIO;
    return -1;
}

/* ---- builds */

/* A wall, a rough slice, one smooth enough for the level to drop, then rough and flat ones; another salt, other energies. */
static const double *energies(const plan *p, uint64_t level, uint64_t ri, uint64_t oi, uint64_t salt) {
    static double list[162 * 162];
    static const double heights[] = {1e4, 3, 0.05, 3, 0.05, 1e-3};
    uint64_t n = icotable_vertices(level), count = p->atom ? n : n * n;
    for (uint64_t i = 0; i < count; i++) {
        uint64_t drawn = mixed((ri << 48) + (oi << 40) + (salt << 32) + i) % 1000;
        list[i] = (ri == 0 ? 1000 : 0) + heights[ri % 6] * ((double)drawn / 1000);
    }
    return list;
}

static uint64_t opened(icotable_journal *j, const plan *p, const char *name, bool resume, unsigned flags) {
    icotable_grid g = {.rmin = 0, .rmax = (double)p->distances, .dr = 1, .omega_step = p->step, .threshold = 0.5, .beta = 1};
    flags |= p->label == NULL ? ICOTABLE_JOURNAL_FORMAT_1 : 0;
    return (resume ? icotable_journal_resume_as : icotable_journal_begin_as)(j, name, p->atom, g, p->top, &meshes, flags, p->label, p->label == NULL ? NULL : id);
}

/* As a restarted job does it. */
static uint64_t begun_or_resumed(icotable_journal *j, const plan *p, const char *name, unsigned flags) {
    uint64_t number = opened(j, p, name, true, flags);
    return number == ICOTABLE_JOURNAL_ABSENT ? opened(j, p, name, false, flags) : number;
}

static uint64_t set_with(icotable_journal *j, const plan *p, uint64_t ri, uint64_t oi, uint64_t salt) {
    uint64_t n = icotable_vertices(j->builder.level);
    return icotable_journal_set(j, ri, oi, energies(p, j->builder.level, ri, oi, salt), p->atom ? n : n * n);
}

static uint64_t set(icotable_journal *j, const plan *p, uint64_t ri, uint64_t oi) {
    return set_with(j, p, ri, oi, 0);
}

/* One call more; the number that refuses it, or -1 where all is done. */
static uint64_t step(icotable_journal *j, const plan *p) {
    uint64_t ri, oi;
    switch (icotable_journal_next(j, &ri, &oi)) {
    case ICOTABLE_JOURNAL_TO_SET:
        return set(j, p, ri, oi);
    case ICOTABLE_JOURNAL_TO_SETTLE:
        return icotable_journal_settle(j, ri).number;
    default:
        return (uint64_t)-1;
    }
}

static uint64_t finish(icotable_journal *j, const plan *p) {
    uint64_t number;
    do
        number = step(j, p);
    while (number == 0);
    return number == (uint64_t)-1 ? 0 : number;
}

/* ---- files */

typedef struct bytes {
    uint8_t at[MOST];
    size_t count;
} bytes;

static void load(const char *name, bytes *b) {
    FILE *f = fopen(name, "rb");
    b->count = f == NULL ? 0 : fread(b->at, 1, MOST, f);
    if (f != NULL)
        fclose(f);
}

static void save(const char *name, const uint8_t *at, size_t count) {
    FILE *f = fopen(name, "wb");
    if (f == NULL || fwrite(at, 1, count, f) != count || fclose(f) != 0) {
        perror(name);
        exit(2);
    }
}

static uint64_t length_of(const char *name) {
    struct stat what;
    return stat(name, &what) == 0 ? (uint64_t)what.st_size : 0;
}

static bool same(const bytes *a, const bytes *b) {
    return a->count == b->count && memcmp(a->at, b->at, a->count) == 0;
}

/* The undisturbed journal and table of a plan, and where its records end. */
typedef struct whole {
    bytes journal, table;
    size_t ends[RECORDS];
    size_t records;
} whole;

static whole wholes[PLANS];
static bytes got; /* what a test reads back */

static void table_of(icotable_journal *j, bytes *b) {
    icotable_written w = icotable_journal_write(j, b->at, MOST);
    b->count = w.number == 0 ? w.length : 0;
}

/* Whether the resumed build ends with the undisturbed table and journal. */
static bool ends_well(icotable_journal *j, int which, const char *name) {
    if (finish(j, &plans[which]) != 0)
        return false;
    table_of(j, &got);
    icotable_journal_close(j);
    if (!same(&got, &wholes[which].table))
        return false;
    load(name, &got);
    return same(&got, &wholes[which].journal);
}

static void make_whole(int which) {
    whole *w = &wholes[which];
    const char *name = path("whole");
    icotable_journal j;
    unlink(name);
    uint64_t number = opened(&j, &plans[which], name, false, 0);
    while (number == 0) {
        w->ends[w->records++] = j.bytes;
        number = step(&j, &plans[which]);
        check(synced == j.bytes, "a call is answered before its record is on disk", plans[which].name);
    }
    check(number == (uint64_t)-1 && w->records < RECORDS, "an undisturbed build", j.said);
    check(j.builder.level < plans[which].top || plans[which].top == 0, "the level of an undisturbed build does not drop", "");
    table_of(&j, &w->table);
    check(w->table.count == icotable_journal_length(&j), "the length of an undisturbed table", j.said);
    icotable_journal_close(&j);
    load(name, &w->journal);
    uint64_t read = plans[which].atom ? icotable_atom_read(w->table.at, w->table.count).number : icotable_read(w->table.at, w->table.count).number;
    check(read == 0, "read of an undisturbed table", icotable_words(read));
}

/* Whole records of a journal that was cut at a byte. */
static size_t records_at(const whole *w, size_t byte) {
    size_t n = 0;
    while (n < w->records && w->ends[n] <= byte)
        n++;
    return n;
}

/* ---- cut and damaged */

/* The journal cut at a byte and, with more, filled up to there with zeros. */
static void cut_at(int which, size_t byte, size_t more) {
    static uint8_t copy[MOST];
    const whole *w = &wholes[which];
    const char *name = path("cut");
    memcpy(copy, w->journal.at, byte);
    memset(copy + byte, 0, more);
    save(name, copy, byte + more);
    icotable_journal j;
    size_t records = records_at(w, byte);
    uint64_t number = opened(&j, &plans[which], name, true, 0);
    check(number == 0, "a cut journal is refused", j.said);
    if (number != 0)
        return;
    size_t end = records == 0 ? 0 : w->ends[records - 1];
    check(j.records == (records == 0 ? 1 : records) && j.cut == byte + more - end, "a cut journal has other records", plans[which].name);
    check(length_of(name) == j.bytes, "what is behind the last whole record stays", plans[which].name);
    check(ends_well(&j, which, name), "a cut journal does not end with the undisturbed table", j.said);
}

static void cuts(int which) {
    const whole *w = &wholes[which];
    for (size_t byte = 0; byte < w->journal.count; byte++) {
        cut_at(which, byte, 0);
        size_t records = records_at(w, byte), end = w->ends[records], left = end - byte;
        if (left >= 8)
            cut_at(which, byte, left);
    }
}

/* A journal that was altered from a byte on, and nowhere else where it is one byte alone: refused, and where it is said which record is
 * damaged, that is the one. A version and more behind it that are others may be those of a later format. */
static void refused(int which, const uint8_t *copy, size_t from, bool alone) {
    const whole *w = &wholes[which];
    const char *name = path("damaged");
    save(name, copy, w->journal.count);
    icotable_journal j;
    uint64_t number = opened(&j, &plans[which], name, true, 0);
    bool later = !alone && from >= 8 && from < 12 && number == ICOTABLE_JOURNAL_OTHER_VERSION;
    bool named = number == ICOTABLE_JOURNAL_DAMAGED || (from < 8 && number == ICOTABLE_JOURNAL_NOT_A_JOURNAL) || later;
    check(named && j.records == (from < head_of(&plans[which]) ? 0 : records_at(w, from)), "a damaged journal is not refused with its place", j.said);
    icotable_journal_close(&j);
    load(name, &got);
    check(got.count == w->journal.count && memcmp(got.at, copy, got.count) == 0, "a refused journal is altered", j.said);
}

static void damages(int which, size_t every, size_t ranges) {
    static uint8_t copy[MOST];
    const bytes *b = &wholes[which].journal;
    for (size_t byte = every > 1 ? below(every) : 0; byte < b->count; byte += every) {
        memcpy(copy, b->at, b->count);
        copy[byte] ^= (uint8_t)(1 + below(255));
        refused(which, copy, byte, true);
    }
    for (size_t k = 0; k < ranges; k++) {
        size_t from = below(b->count - 8), count = 1 + below(b->count - 8 - from);
        memcpy(copy, b->at, b->count);
        bool zero = below(2);
        for (size_t i = from; i < from + count; i++)
            copy[i] = zero ? 0 : (uint8_t)below(256);
        size_t first = from;
        while (first < b->count && copy[first] == b->at[first])
            first++;
        if (first < b->count)
            refused(which, copy, first, false);
    }
}

/* ---- kills */

static void killed(int signal) {
    (void)signal;
    kill(getpid(), SIGKILL);
}

/* A process that builds, and tells each record once it was answered. A limit on the file's size kills it at that byte. */
static pid_t builder_of(int which, const char *name, size_t limit, int *told) {
    int ends[2];
    fflush(stdout);
    if (pipe(ends) != 0)
        exit(2);
    pid_t child = fork();
    if (child < 0)
        exit(2);
    if (child > 0) {
        close(ends[1]);
        *told = ends[0];
        return child;
    }
    close(ends[0]);
    signal(SIGXFSZ, killed);
    struct rlimit room = {limit, RLIM_INFINITY};
    if (limit > 0)
        setrlimit(RLIMIT_FSIZE, &room);
    icotable_journal j;
    uint64_t number = begun_or_resumed(&j, &plans[which], name, 0);
    while (number == 0) {
        uint8_t records = (uint8_t)j.records;
        if (write(ends[1], &records, 1) != 1)
            _exit(3);
        number = step(&j, &plans[which]);
    }
    _exit(number == (uint64_t)-1 ? 0 : 3);
}

/* Its end: whether it was killed, and the records that it, or one before it, had answered. */
static bool ended(pid_t child, int told, size_t *answered) {
    uint8_t list[256];
    int status;
    waitpid(child, &status, 0);
    ssize_t count = read(told, list, sizeof list);
    close(told);
    *answered = count > 0 ? list[count - 1] : *answered;
    check(WIFSIGNALED(status) ? WTERMSIG(status) == SIGKILL : WEXITSTATUS(status) == 0, "a building process ends otherwise", "");
    return WIFSIGNALED(status);
}

/* After a kill: every record that was answered is there, at most one more, and the file is a beginning of the undisturbed one. The
 * one more counts from now on: the next process finds it. */
static void look(int which, const char *name, size_t *answered) {
    const whole *w = &wholes[which];
    load(name, &got);
    check(got.count <= w->journal.count && memcmp(got.at, w->journal.at, got.count) == 0, "a killed journal is not a beginning of the undisturbed one", "");
    size_t records = records_at(w, got.count);
    check(records >= *answered, "a record that was answered is lost", "");
    check(records <= *answered + 1, "there are more records than were answered", "");
    *answered = records;
}

static void end_build(int which, const char *name) {
    icotable_journal j;
    uint64_t number = begun_or_resumed(&j, &plans[which], name, 0);
    check(number == 0 && ends_well(&j, which, name), "a killed build does not end with the undisturbed table", j.said);
    unlink(name);
}

/* At a byte of the file: at the end of each record, then inside. */
static size_t kills_at_bytes(size_t kills) {
    const char *name = path("killed");
    size_t done = 0;
    while (done < kills) {
        int which = done < wholes[PAIR].records ? PAIR : (int)below(PLANS);
        const whole *w = &wholes[which];
        size_t at = 1, answered = 0;
        for (size_t k = 0; done < kills && at < w->journal.count; k++) {
            int told;
            if (done < wholes[PAIR].records && k + 1 >= w->records)
                break;
            at = done < wholes[PAIR].records ? w->ends[k] : at + 1 + below(w->journal.count / 4);
            if (at >= w->journal.count)
                break;
            pid_t child = builder_of(which, name, at, &told);
            check(ended(child, told, &answered), "a process is not killed at its byte", "");
            load(name, &got);
            check(got.count == at, "a process is killed at another byte", "");
            look(which, name, &answered);
            done++;
        }
        end_build(which, name);
    }
    return done;
}

/* At any moment. */
static size_t kills_at_times(size_t kills) {
    const char *name = path("killed");
    size_t done = 0, tries = 0;
    while (done < kills && tries++ < 20 * kills) {
        int which = (int)below(PLANS), told;
        size_t answered = 0;
        for (bool alive = true; alive && done < kills;) {
            struct timespec moment = {0, (long)below(which == PAIR ? 6000000 : 1500000)};
            pid_t child = builder_of(which, name, 0, &told);
            nanosleep(&moment, NULL);
            kill(child, SIGKILL);
            alive = ended(child, told, &answered);
            look(which, name, &answered);
            done += alive;
        }
        end_build(which, name);
    }
    return done;
}

/* ---- a disk that fills up */

static void limit_files(rlim_t bytes) {
    struct rlimit room = {bytes, RLIM_INFINITY};
    setrlimit(RLIMIT_FSIZE, &room);
}

/* What a call that is taken back may not alter. */
typedef struct held {
    icotable_builder builder;
    double store[15 * 42 * 42];
    uint64_t words[15], records, bytes, set_count, settled_count;
} held;

static void hold(const icotable_journal *j, held *h) {
    memset(h, 0, sizeof *h);
    h->builder = j->builder;
    uint64_t n = icotable_vertices(j->builder.top), per = j->atom ? n : n * n;
    for (uint64_t s = 0; s < j->slabs; s++) {
        uint64_t word = j->atom ? icotable_word(j->kinds[s], j->levels[s], j->values[s]) : j->words[s];
        h->words[s] = word;
        if (icotable_word_kind(word) >= 2)
            memcpy(h->store + s * per, j->store + s * per, per * sizeof *h->store);
    }
    h->records = j->records;
    h->bytes = j->bytes;
    h->set_count = j->set_count;
    h->settled_count = j->settled_count;
}

/* A call that finds the disk full alters nothing, and is made again once there is room. So does one that would set the last
 * slab over with other energies. */
static void full_disk(int which, size_t limit) {
    static held before, after;
    const char *name = path("full");
    icotable_journal j;
    uint64_t ri, oi, number = opened(&j, &plans[which], name, false, 0);
    limit_files(limit);
    while (number == 0) {
        hold(&j, &before);
        number = step(&j, &plans[which]);
    }
    check(number == ICOTABLE_JOURNAL_NOT_WRITTEN && strstr(j.said, "File too large") != NULL, "a full disk is not named", j.said);
    if (icotable_journal_next(&j, &ri, &oi) == ICOTABLE_JOURNAL_TO_SET ? oi > 0 : true)
        check(set_with(&j, &plans[which], ri, oi > 0 ? oi - 1 : 0, 1) == ICOTABLE_JOURNAL_NOT_WRITTEN, "a full disk takes a call", j.said);
    hold(&j, &after);
    check(memcmp(&before, &after, sizeof before) == 0, "a call on a full disk alters the build", j.said);
    load(name, &got);
    check(got.count == j.bytes, "a call on a full disk leaves a part of its record", j.said);
    limit_files(RLIM_INFINITY);
    check(ends_well(&j, which, name), "after a full disk the table is another", j.said);
    unlink(name);
}

/* A journal cannot be begun on a full disk; what there is of it is resumed later. */
static void full_at_begin(int which, size_t limit) {
    const char *name = path("full");
    icotable_journal j;
    limit_files(limit);
    check(opened(&j, &plans[which], name, false, 0) == ICOTABLE_JOURNAL_NOT_WRITTEN, "a journal is begun on a full disk", j.said);
    limit_files(RLIM_INFINITY);
    end_build(which, name);
}

/* Once the disk itself failed, nothing is taken until the journal is resumed. */
static void failing_disk(int which, int after) {
    const char *name = path("failing");
    icotable_journal j;
    uint64_t number = opened(&j, &plans[which], name, false, 0);
    syncs_left = after;
    while (number == 0)
        number = step(&j, &plans[which]);
    syncs_left = -1;
    check(number == ICOTABLE_JOURNAL_NOT_WRITTEN && j.records == (uint64_t)after + 1, "a disk that fails is not named", j.said);
    check(step(&j, &plans[which]) == ICOTABLE_JOURNAL_BROKEN && icotable_journal_write(&j, got.at, MOST).number == ICOTABLE_JOURNAL_BROKEN,
          "a call is taken after the disk has failed", j.said);
    icotable_journal_close(&j);
    end_build(which, name);
}

/* The same by a handle: no table is written, with a tail or without, until the journal is resumed. */
static void failing_disk_by_handle(void) {
    const char *name = path("failing"), *table = path("failing.table");
    icotable_build_settings s = {.grid = {.rmax = 3, .dr = 1, .omega_step = 3, .threshold = 0.5, .beta = 1},
                                 .journal = name, .flags = ICOTABLE_JOURNAL_UNGUARDED};
    double coefficient = 1, kappa = 0;
    uint32_t power = 6;
    icotable_terms tail = {&coefficient, &kappa, &power, 1, 1};
    icotable_build *b = icotable_build_begin(&s, NULL);
    check(icotable_build_set(b, 0, 0, energies(&plans[SMALL], 0, 0, 0, 0), 144) == 0, "set by a handle", icotable_build_said(b));
    syncs_left = 0;
    uint64_t number = icotable_build_set(b, 0, 1, energies(&plans[SMALL], 0, 0, 1, 0), 144);
    syncs_left = -1;
    check(number == ICOTABLE_JOURNAL_NOT_WRITTEN, "a disk that fails is not named by a handle", icotable_build_said(b));
    check(icotable_build_write(b, table) == ICOTABLE_JOURNAL_BROKEN, "a table of a broken journal", icotable_build_said(b));
    check(icotable_build_write_tail(b, table, &tail) == ICOTABLE_JOURNAL_BROKEN, "a table with a tail of a broken journal", icotable_build_said(b));
    check(access(table, F_OK) != 0, "a table of a broken journal is there", icotable_build_said(b));
    icotable_build_close(b);
    b = icotable_build_resume(&s, NULL);
    check(icotable_build_write_tail(b, table, &tail) == 0, "a table with a tail of a resumed journal", icotable_build_said(b));
    icotable_build_close(b);
    unlink(name);
}

static void full_disks(size_t tries) {
    signal(SIGXFSZ, SIG_IGN);
    for (size_t k = 0; k < tries; k++) {
        int which = (int)below(PLANS);
        const whole *w = &wholes[which];
        size_t first = head_of(&plans[which]) + FRAME;
        full_disk(which, first + below(w->journal.count - first));
        full_at_begin(which, below(first));
        failing_disk(which, (int)below(w->records - 1));
    }
    for (size_t k = 0; k + 1 < wholes[PAIR].records; k++)
        full_disk(PAIR, wholes[PAIR].ends[k]);
    failing_disk_by_handle();
    icotable_journal j;
    check(opened(&j, &plans[ATOM], "/dev/full", true, 0) == ICOTABLE_JOURNAL_NOT_A_JOURNAL, "a device is taken for a journal", j.said);
}

/* ---- the mistakes of a restart */

/* A new journal of the pair's build, with the calls before a slab of it done. */
static icotable_journal before_slab(const char *name, uint64_t ri, uint64_t oi) {
    icotable_journal j;
    uint64_t next_ri, next_oi, number;
    unlink(name);
    number = opened(&j, &plans[PAIR], name, false, 0);
    while (number == 0 && (icotable_journal_next(&j, &next_ri, &next_oi) != ICOTABLE_JOURNAL_TO_SET || next_ri < ri || next_oi < oi))
        number = step(&j, &plans[PAIR]);
    check(number == 0, "the calls before a mistake", j.said);
    return j;
}

static void refused_with(const icotable_journal *j, uint64_t number, uint64_t wanted, const char *words, const char *mistake) {
    check(number == wanted && strstr(j->said, words) != NULL, mistake, j->said);
}

static void missing_and_lost(void) {
    const plan *p = &plans[PAIR];
    icotable_journal j = before_slab(path("mistake"), 1, 1);
    check(set(&j, p, 1, 2) == 0, "(a) a slab out of its order", j.said);
    refused_with(&j, icotable_journal_settle(&j, 1).number, ICOTABLE_JOURNAL_SLAB_MISSING, "slab (1, 1), 1 of distance bin 1", "(a) a slab that was never set");
    refused_with(&j, icotable_journal_write(&j, got.at, MOST).number, ICOTABLE_JOURNAL_HOLES, "slab (1, 1), 10 in all", "(a) a table with holes");
    refused_with(&j, set(&j, p, 2, 0), ICOTABLE_JOURNAL_NEARER_UNSETTLED, "distance bin 1 is nearer than 2", "(b) a slice that was lost");
    refused_with(&j, icotable_journal_settle(&j, 2).number, ICOTABLE_JOURNAL_NEARER_UNSETTLED, "distance bin 1 is nearer than 2", "(b) a slice that was lost");
    icotable_journal_close(&j);
}

static void sampled_anew(void) {
    const plan *p = &plans[PAIR];
    const char *name = path("mistake");
    icotable_journal j = before_slab(name, 4, 0);
    check(j.builder.level < p->top, "(c) the level has not dropped", "");
    icotable_journal_close(&j);
    refused_with(&j, opened(&j, p, name, false, 0), ICOTABLE_JOURNAL_EXISTS, "mistake", "(c) a job restarted on a journal that is there");
    check(opened(&j, p, name, true, 0) == 0, "(c) resumed", j.said);
    refused_with(&j, set(&j, p, 0, 0), ICOTABLE_JOURNAL_SLICE_SETTLED, "distance bin 0 was settled; slab (0, 0)", "(c) a slice sampled anew");
    check(ends_well(&j, PAIR, name), "(c) the table is another", j.said);
}

static void far_to_near(void) {
    icotable_journal j = before_slab(path("mistake"), 0, 0);
    refused_with(&j, set(&j, &plans[PAIR], 4, 0), ICOTABLE_JOURNAL_NEARER_UNSETTLED, "distance bin 0 is nearer than 4", "(d) slices from far to near");
    icotable_journal_close(&j);
}

/* Two moments in one file: the second half of another build's journal behind the first of this one. An older copy is no mistake:
 * it lacks calls, and they are made again. */
static void two_moments(void) {
    static bytes other;
    const whole *w = &wholes[PAIR];
    const plan *p = &plans[PAIR];
    const char *name = path("mistake");
    icotable_journal j = before_slab(name, 0, 0);
    uint64_t ri, oi, number = 0;
    while (number == 0 && icotable_journal_next(&j, &ri, &oi) != ICOTABLE_JOURNAL_TO_WRITE)
        number = icotable_journal_next(&j, &ri, &oi) == ICOTABLE_JOURNAL_TO_SET ? set_with(&j, p, ri, oi, 1) : icotable_journal_settle(&j, ri).number;
    icotable_journal_close(&j);
    load(name, &other);
    size_t at = w->ends[5];
    check(number == 0 && other.count == w->journal.count, "(e) the other build", j.said);
    memcpy(other.at, w->journal.at, at);
    save(name, other.at, other.count);
    refused_with(&j, opened(&j, p, name, true, 0), ICOTABLE_JOURNAL_DAMAGED, "(record 6, at byte", "(e) records of two moments");
    memmove(other.at + w->ends[3], w->journal.at + w->ends[4], w->journal.count - w->ends[4]);
    memcpy(other.at, w->journal.at, w->ends[3]);
    save(name, other.at, w->journal.count - (w->ends[4] - w->ends[3]));
    refused_with(&j, opened(&j, p, name, true, 0), ICOTABLE_JOURNAL_DAMAGED, "(record 4, at byte", "(e) a record taken out");
    save(name, w->journal.at, at);
    check(opened(&j, p, name, true, 0) == 0 && j.records == 6 && ends_well(&j, PAIR, name), "(f) an older journal", j.said);
}

static void left_out(void) {
    const plan *p = &plans[PAIR];
    icotable_journal j = before_slab(path("mistake"), 4, 2);
    check(set(&j, p, 4, 2) == 0, "(g) the last slab", j.said);
    refused_with(&j, icotable_journal_write(&j, got.at, MOST).number, ICOTABLE_JOURNAL_UNSETTLED, "distance bin 4, 1 in all", "(g) a settle left out at the end");
    icotable_journal_close(&j);
    j = before_slab(path("mistake"), 2, 2);
    check(set(&j, p, 2, 2) == 0, "(g) the last slab of a slice", j.said);
    refused_with(&j, set(&j, p, 3, 0), ICOTABLE_JOURNAL_NEARER_UNSETTLED, "distance bin 2 is nearer than 3 and not settled", "(g) a settle left out");
    icotable_journal_close(&j);
}

static void two_players(void) {
    const plan *p = &plans[PAIR];
    const char *name = path("mistake");
    icotable_journal j = before_slab(name, 2, 0), second;
    refused_with(&second, opened(&second, p, name, true, 0), ICOTABLE_JOURNAL_IN_USE, "in use by another process", "(h) a second handle");
    int told, status;
    pid_t child = builder_of(PAIR, name, 0, &told);
    waitpid(child, &status, 0);
    close(told);
    check(WIFEXITED(status) && WEXITSTATUS(status) == 3, "(h) a second process", "is not refused");
    check(opened(&second, p, name, true, ICOTABLE_JOURNAL_READING) == 0 && second.records == j.records, "(h) a look at a journal in use", second.said);
    refused_with(&second, set(&second, p, 2, 0), ICOTABLE_JOURNAL_NOT_OPEN, "not open for calls", "(h) a call through a look");
    icotable_journal_close(&second);
    check(ends_well(&j, PAIR, name), "(h) the table is another", j.said);
}

/* Without the guard each mistake is taken, as the library takes it; a journal of one is named where the guard is on. */
static void unguarded(void) {
    const plan *p = &plans[PAIR];
    const char *name = path("mistake");
    icotable_journal j;
    unlink(name);
    check(opened(&j, p, name, false, ICOTABLE_JOURNAL_UNGUARDED) == 0, "without the guard", j.said);
    check(set(&j, p, 4, 0) == 0 && icotable_journal_settle(&j, 4).number == 0 && set(&j, p, 4, 0) == 0, "without the guard", j.said);
    check(icotable_journal_write(&j, got.at, MOST).number == 0, "without the guard", j.said);
    icotable_journal_close(&j);
    refused_with(&j, opened(&j, p, name, true, 0), ICOTABLE_JOURNAL_NEARER_UNSETTLED, "distance bin 0 is nearer than 4 and not settled (record 1, at byte 192)",
                 "a journal without the guard");
    check(opened(&j, p, name, true, ICOTABLE_JOURNAL_UNGUARDED) == 0 && j.records == 4, "a journal without the guard", j.said);
    icotable_journal_close(&j);
}

/* ---- other builds, and calls that the library refuses */

static void others(void) {
    const char *name = path("mistake");
    icotable_journal j = before_slab(name, 1, 0);
    icotable_journal_close(&j);
    icotable_grid g = {.rmin = 0, .rmax = 5, .dr = 1, .omega_step = 2, .threshold = 0.5, .beta = 1};
    refused_with(&j, opened(&j, &plans[ATOM], name, true, 0), ICOTABLE_JOURNAL_OTHER_KIND, "of two molecules", "a journal of the other kind");
    refused_with(&j, icotable_journal_resume(&j, name, g, 2, &meshes, 0), ICOTABLE_JOURNAL_OTHER_TOP, "1, not 2", "another top level");
    g.beta = 1.5;
    refused_with(&j, icotable_journal_resume(&j, name, g, 1, &meshes, 0), ICOTABLE_JOURNAL_OTHER_SETTINGS, "beta 1, not 1.5", "other settings");
    g.beta = 0;
    refused_with(&j, icotable_journal_resume(&j, name, g, 1, &meshes, 0), ICOTABLE_SETTINGS, "rmin is not finite", "settings that are none");
    g.beta = 1;
    double kept = meshes.angles[70], *last = &meshes.angles[meshes.angles_count - 1], above = *last;
    meshes.angles[70] = nextafter(kept, 4);
    refused_with(&j, icotable_journal_resume(&j, name, g, 1, &meshes, 0), ICOTABLE_JOURNAL_OTHER_MESHES, "other meshes", "other meshes");
    meshes.angles[70] = kept;
    *last += 1; /* of a level above the top, which is not used */
    check(icotable_journal_resume(&j, name, g, 1, &meshes, 0) == 0, "meshes with other levels above the top", j.said);
    icotable_journal_close(&j);
    *last = above;
    refused_with(&j, opened(&j, &plans[PAIR], path("none"), true, 0), ICOTABLE_JOURNAL_ABSENT, "none", "a journal that is not there");
    refused_with(&j, opened(&j, &plans[PAIR], path("no/such"), false, 0), ICOTABLE_JOURNAL_TROUBLE, "No such file", "a folder that is not there");
    save(name, (const uint8_t *)"a letter to a colleague", 23);
    refused_with(&j, opened(&j, &plans[PAIR], name, true, 0), ICOTABLE_JOURNAL_NOT_A_JOURNAL, "23 bytes", "a letter");
}

/* Whose build it is: by its id and its label, beside equal settings and meshes. */
static void identities(void) {
    const char *name = path("mistake");
    static const char *const wrong_labels[] = {"\x01", "a\nb", "\xC3", "\xC0\xAF", "\xED\xA0\x80", "\xF5\x80\x80\x80", "\xC2\x85"};
    static char longest[ICOTABLE_LABEL + 2];
    icotable_journal j = before_slab(name, 1, 0);
    icotable_journal_close(&j);
    icotable_grid g = {.rmin = 0, .rmax = 5, .dr = 1, .omega_step = 2, .threshold = 0.5, .beta = 1};
    static const uint8_t other[16] = {7};
    refused_with(&j, icotable_journal_resume_as(&j, name, 0, g, 1, &meshes, 0, "lysozyme", NULL), ICOTABLE_JOURNAL_OTHER_IDENTITY, "label '', not 'lysozyme'",
                 "another label");
    refused_with(&j, icotable_journal_resume_as(&j, name, 0, g, 1, &meshes, 0, NULL, other), ICOTABLE_JOURNAL_OTHER_IDENTITY,
                 "id 61206275696c642773206f776e206964", "another id");
    check(icotable_journal_resume_as(&j, name, 0, g, 1, &meshes, 0, "", id) == 0 && memcmp(j.identity.id, id, 16) == 0, "the same label and id", j.said);
    icotable_journal_close(&j);
    for (size_t i = 0; i < sizeof wrong_labels / sizeof *wrong_labels; i++) {
        unlink(name);
        refused_with(&j, icotable_journal_begin_as(&j, name, 0, g, 1, &meshes, 0, wrong_labels[i], NULL), ICOTABLE_JOURNAL_LABEL, "not UTF-8", "a label that is none");
        check(length_of(name) == 0, "a refused label leaves a file", wrong_labels[i]);
    }
    memset(longest, 'x', ICOTABLE_LABEL + 1);
    refused_with(&j, icotable_journal_begin_as(&j, name, 0, g, 1, &meshes, 0, longest, NULL), ICOTABLE_JOURNAL_LABEL, "4,096 bytes", "too long a label");
    longest[ICOTABLE_LABEL] = 0;
    check(icotable_journal_begin_as(&j, name, 0, g, 1, &meshes, 0, longest, NULL) == 0, "the longest label", j.said);
    uint64_t build = j.build;
    icotable_journal_close(&j);
    check(icotable_journal_look(&j, name) == 0 && strcmp(j.identity.label, longest) == 0 && j.build == build, "the longest label, looked at", j.said);
    unlink(name);
    check(icotable_journal_begin_as(&j, name, 0, g, 1, &meshes, 0, longest, NULL) == 0 && j.build != build, "two builds with equal settings have one hash", j.said);
    icotable_journal_close(&j);
}

/* Refused by the library: nothing is altered and nothing is recorded. */
static void refused_calls(void) {
    static held before, after;
    const plan *p = &plans[PAIR];
    const char *name = path("mistake");
    icotable_journal j = before_slab(name, 1, 1);
    double list[42 * 42] = {0};
    hold(&j, &before);
    refused_with(&j, icotable_journal_set(&j, 1, 1, list, 12), ICOTABLE_ENERGY_COUNT, "slab (1, 1)", "too few energies");
    refused_with(&j, icotable_journal_set(&j, 1, 3, list, 42 * 42), ICOTABLE_BIN, "slab (1, 3)", "a bin that is not there");
    list[7] = NAN;
    refused_with(&j, icotable_journal_set(&j, 1, 1, list, 42 * 42), ICOTABLE_NAN_ENERGY, "slab (1, 1)", "a NaN");
    refused_with(&j, icotable_journal_settle(&j, 5).number, ICOTABLE_BIN, "distance bin 5", "a slice that is not there");
    hold(&j, &after);
    check(memcmp(&before, &after, sizeof before) == 0, "a refused call alters the build", j.said);
    check(set_with(&j, p, 1, 0, 1) == 0 && set(&j, p, 1, 0) == 0 && j.records == before.records + 2, "a slab is set over before its slice is settled", j.said);
    check(finish(&j, p) == 0, "after refused calls", j.said);
    table_of(&j, &got);
    check(same(&got, &wholes[PAIR].table), "after refused calls the table is another", j.said);
    icotable_journal_close(&j);
    check(set(&j, p, 0, 0) == ICOTABLE_JOURNAL_NOT_OPEN && icotable_journal_write(&j, got.at, MOST).number == ICOTABLE_JOURNAL_NOT_OPEN, "a closed journal", j.said);
}

/* ---- */

/* A journal of another host, whatever its id and label; one that is not there is begun. */
static uint64_t resumed_by_any(icotable_journal *j, const plan *p, const char *name) {
    icotable_grid g = {.rmin = 0, .rmax = (double)p->distances, .dr = 1, .omega_step = p->step, .threshold = 0.5, .beta = 1};
    uint64_t number = icotable_journal_resume_as(j, name, p->atom, g, p->top, &meshes, 0, NULL, NULL);
    return number == ICOTABLE_JOURNAL_ABSENT ? opened(j, p, name, false, 0) : number;
}

/* journal build KIND FILE TABLE [RECORDS] */
static int build(int count, char **words) {
    int which = 0;
    while (which < PLANS && strcmp(plans[which].name, words[0]) != 0)
        which++;
    if (which == PLANS || count < 3)
        return 2;
    uint64_t most = count > 3 ? strtoull(words[3], NULL, 10) : (uint64_t)-1;
    icotable_journal j;
    uint64_t number = resumed_by_any(&j, &plans[which], words[1]);
    while (number == 0 && j.records < most)
        number = step(&j, &plans[which]);
    if (number == (uint64_t)-1) {
        table_of(&j, &got);
        save(words[2], got.at, got.count);
    }
    printf("%s: %s; %llu records\n", words[1], number == 0 ? "stopped" : number == (uint64_t)-1 ? "done" : j.said, (unsigned long long)j.records);
    icotable_journal_close(&j);
    return number != 0 && number != (uint64_t)-1;
}

static void mistakes(void) {
    missing_and_lost();
    sampled_anew();
    far_to_near();
    two_moments();
    left_out();
    two_players();
    unguarded();
    others();
    identities();
    refused_calls();
}

int main(int count, char **words) {
    if (icotable_make_meshes(&meshes, TOP) != 0)
        return 2;
    if (count >= 5 && strcmp(words[1], "build") == 0)
        return build(count - 2, words + 2);
    if (count != 4) {
        fprintf(stderr, "usage: journal SEED KILLS FOLDER, or journal build KIND FILE TABLE [RECORDS]\n");
        return 2;
    }
    state = strtoull(words[1], NULL, 10);
    size_t kills = strtoull(words[2], NULL, 10);
    snprintf(folder, sizeof folder, "%s", words[3]);
    for (int which = 0; which < PLANS; which++)
        make_whole(which);
    mistakes();
    full_disks(kills / 10);
    cuts(ATOM);
    cuts(SMALL);
    damages(ATOM, 1, kills);
    damages(SMALL, 1, kills);
    damages(PAIR, 211, kills / 4);
    size_t at_bytes = kills_at_bytes(kills / 2), at_times = kills_at_times(kills - kills / 2);
    printf("journal: seed %s: %zu kills (%zu at a byte), %llu checks, %llu wrong\n", words[1], at_bytes + at_times, at_bytes, (unsigned long long)checks,
           (unsigned long long)wrong);
    icotable_free_meshes(&meshes);
    return wrong != 0 || at_bytes + at_times < kills;
}
