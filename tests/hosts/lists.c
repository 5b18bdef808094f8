/* Random lists of calls of builds by handles, with their journals: lists make COUNT FOLDER writes what each list
 * gives, a line each; lists check FILE FOLDER makes them again and compares. hosts/cases/lists.txt has the answers
 * of version 0.22.0, so that the journals are of format version 1, and hosts/rust/tests/lists.rs makes the same lists
 * in Rust. A list draws a kind of table,
 * settings, meshes and guard, and then calls: what comes next, slabs and slices that do not come next, counts and
 * energies that are refused, tables with a tail and without, journals that are closed, cut, lengthened, damaged,
 * opened with other settings or twice. A line has three crc32: of every answer (number, message, gradient, progress;
 * then the table, opened and read), of the journal, and of the table and its mesh file. */
#include "icotable_handles.h"
#include "support.h"

#include <math.h>
#include <stdio.h>
#include <stdlib.h>
#include <string.h>
#include <unistd.h>

#define JOURNAL "list.journal"
#define TABLE "list.icotable"
enum { PER = 42 * 42, MOST = 1 << 20 };

typedef struct list {
    icotable_build_settings s;
    icotable_build *b;
    uint64_t distances, state;
    uint32_t answers;
} list;

/* splitmix64 */
static uint64_t mixed(uint64_t z) {
    z = (z ^ z >> 30) * 0xBF58476D1CE4E5B9;
    z = (z ^ z >> 27) * 0x94D049BB133111EB;
    return z ^ z >> 31;
}

static uint64_t below(list *l, uint64_t n) {
    return mixed(l->state += 0x9E3779B97F4A7C15) % n;
}

/* ---- answers */

static void fold(list *l, uint64_t number) {
    l->answers = icotable_crc32_(l->answers, &number, sizeof number);
}

static void fold_bits(list *l, double x) {
    uint64_t bits;
    memcpy(&bits, &x, sizeof bits);
    fold(l, bits);
}

static void told(list *l, uint64_t number, const char *said) {
    fold(l, number);
    if (number != 0)
        l->answers = icotable_crc32_(l->answers, said, strlen(said));
}

static void fold_progress(list *l) {
    const icotable_journal *j = icotable_build_state(l->b);
    icotable_progress p = icotable_build_progress(l->b);
    uint64_t all[] = {p.level, p.length, p.step, p.ri, p.oi, j->records, j->bytes, j->cut};
    l->answers = icotable_crc32_(l->answers, all, sizeof all);
}

/* ---- files */

static uint8_t bytes[MOST];

static size_t read_all(const char *name) {
    FILE *f = fopen(name, "rb");
    size_t count = f == NULL ? 0 : fread(bytes, 1, MOST, f);
    if (f != NULL)
        fclose(f);
    return count;
}

static void write_all(const char *name, const uint8_t *from, size_t count) {
    FILE *f = fopen(name, "wb");
    if (f == NULL || fwrite(from, 1, count, f) != count || fclose(f) != 0)
        exit(2);
}

/* ---- calls */

typedef icotable_build *opening(const icotable_build_settings *, icotable_fault *);

static void opened(list *l, opening *how, unsigned flags, double beta) {
    icotable_fault fault;
    icotable_build_settings s = l->s;
    s.flags = flags | ICOTABLE_JOURNAL_FORMAT_1;
    s.grid.beta = beta;
    icotable_build *b = how(&s, &fault);
    told(l, fault.number, fault.said);
    if (b == NULL)
        return;
    l->b = b;
    l->s.flags = flags;
}

static const double *energies(list *l, uint64_t ri, uint64_t oi, uint64_t salt, size_t *count) {
    static double drawn[PER];
    static const double heights[] = {1e4, 3, 0.05, 3, 0.05, 1e-3};
    uint64_t n = icotable_vertices(icotable_build_progress(l->b).level);
    *count = l->s.atom ? n : n * n;
    for (uint64_t i = 0; i < *count; i++) {
        uint64_t share = mixed((ri << 48) + (oi << 40) + (salt << 32) + i) % 1000;
        drawn[i] = (ri == 0 ? 1000 : 0) + heights[ri % 6] * ((double)share / 1000);
    }
    return drawn;
}

static void set(list *l, uint64_t ri, uint64_t oi, uint64_t salt, size_t fewer, bool nan) {
    size_t count;
    double *given = (double *)energies(l, ri, oi, salt, &count);
    if (nan)
        given[count / 2] = NAN;
    uint64_t number = icotable_build_set(l->b, ri, oi, given, count - fewer);
    told(l, number, icotable_build_said(l->b));
}

static void settle(list *l, uint64_t ri) {
    icotable_journal_settled s = icotable_build_settle(l->b, ri);
    told(l, s.number, icotable_build_said(l->b));
    fold_bits(l, s.gradient);
    fold(l, s.comparisons);
}

static void write_table(list *l) {
    told(l, icotable_build_write(l->b, TABLE), icotable_build_said(l->b));
}

static void write_tail(list *l) {
    double coefficients[2] = {-1.5, (double)below(l, 7) - 3}, kappas[2] = {0, (double)below(l, 3) / 8};
    uint32_t powers[2] = {6, (uint32_t)below(l, 8)};
    icotable_terms tail = {coefficients, kappas, powers, 1 + below(l, 2), 17.5};
    if (below(l, 8) == 0)
        coefficients[0] = NAN;
    if (l->s.atom)
        write_table(l);
    else
        told(l, icotable_build_write_tail(l->b, TABLE, &tail), icotable_build_said(l->b));
}

static void go_on(list *l) {
    icotable_progress p = icotable_build_progress(l->b);
    if (p.step == ICOTABLE_JOURNAL_TO_SET)
        set(l, p.ri, p.oi, 0, 0, false);
    else if (p.step == ICOTABLE_JOURNAL_TO_SETTLE)
        settle(l, p.ri);
    else
        write_table(l);
}

/* The journal as a crash or a bad disk leaves it. */
static void hurt(list *l, uint64_t how, size_t count) {
    static uint8_t longer[MOST + 100];
    memcpy(longer, bytes, count);
    uint64_t by = 1 + below(l, 80);
    if (how == 2)
        write_all(JOURNAL, longer, count < by ? 0 : count - by);
    if (how == 3) {
        memset(longer + count, 'x', by);
        write_all(JOURNAL, longer, count + by);
    }
    if (how == 4) {
        longer[below(l, count)] ^= (uint8_t)(1 << by % 8);
        write_all(JOURNAL, longer, count);
    }
}

static void reopen(list *l) {
    uint64_t how = below(l, 7);
    icotable_build_close(l->b);
    l->b = NULL;
    size_t count = read_all(JOURNAL);
    hurt(l, how, count);
    opened(l, icotable_build_resume, l->s.flags ^ (how == 6 ? ICOTABLE_JOURNAL_UNGUARDED : 0), how == 5 ? 2 : 1);
    if (l->b != NULL)
        return;
    write_all(JOURNAL, bytes, count);
    opened(l, icotable_build_resume, l->s.flags, 1);
}

static void call(list *l) {
    uint64_t drawn = below(l, 100), ri = below(l, l->distances + 1), oi = below(l, 4);
    if (drawn < 60)
        go_on(l);
    else if (drawn < 67)
        set(l, ri, oi, 1 + below(l, 3), 0, false);
    else if (drawn < 73)
        set(l, ri, oi, 0, drawn < 70, drawn >= 70);
    else if (drawn < 78)
        settle(l, ri);
    else if (drawn < 81)
        write_table(l);
    else if (drawn < 85)
        write_tail(l);
    else if (drawn < 97)
        reopen(l);
    else
        opened(l, drawn < 98 ? icotable_build_begin : drawn < 99 ? icotable_build_resume : icotable_build_open, l->s.flags,
               1);
    fold_progress(l);
}

/* ---- lists */

static void draw(list *l) {
    static const double steps[] = {6.5, 3, 2}, thresholds[] = {0.1, 0.5, 2};
    icotable_build_settings *s = &l->s;
    *s = (icotable_build_settings){.atom = below(l, 3) == 0, .journal = JOURNAL};
    s->top = below(l, 6) == 0;
    l->distances = 1 + below(l, 4);
    s->grid = (icotable_grid){.rmax = (double)l->distances, .dr = 1, .beta = 1};
    s->grid.omega_step = steps[below(l, 3)];
    s->grid.threshold = thresholds[below(l, 3)];
    s->flags = below(l, 4) == 0 ? ICOTABLE_JOURNAL_UNGUARDED : 0;
    s->meshes = below(l, 8) != 0 ? NULL : s->top == 0 ? "../turned0.mesh" : "../turned1.mesh";
}

static void read_pose(list *l, const icotable_reader *t) {
    double r = (double)below(l, 8 * l->distances + 8) / 8, omega = (double)below(l, 100) / 16, d[6];
    for (int k = 0; k < 6; k++)
        d[k] = (double)below(l, 9) - 4;
    if (l->s.atom) {
        icotable_energy e = icotable_reader_atom_energy(t, r, d[0], d[1], d[2]);
        fold(l, e.number);
        fold_bits(l, e.energy);
        return;
    }
    icotable_value v = icotable_reader_energy(t, r, omega, d[0], d[1], d[2], d[3], d[4], d[5]);
    fold(l, v.number);
    fold_bits(l, v.energy);
    fold_bits(l, v.distance_a);
    fold_bits(l, v.distance_b);
}

static void read_table(list *l) {
    icotable_fault fault;
    icotable_reader *t = icotable_reader_open(TABLE, NULL, &fault);
    told(l, fault.number, fault.said);
    for (int i = 0; t != NULL && i < 6; i++)
        read_pose(l, t);
    icotable_reader_close(t);
}

static uint32_t sum_of(uint32_t sum, const char *name) {
    return icotable_crc32_(sum, bytes, read_all(name));
}

/* What list k gives. */
static void made(uint64_t k, char line[40]) {
    list l = {.state = mixed(k + 1)};
    unlink(JOURNAL), unlink(TABLE), unlink(TABLE ".mesh"), unlink(TABLE ".meta");
    draw(&l);
    opened(&l, icotable_build_open, l.s.flags, 1);
    uint64_t calls = 4 + below(&l, 29);
    for (uint64_t i = 0; i < calls && l.b != NULL; i++)
        call(&l);
    icotable_build_close(l.b);
    read_table(&l);
    uint32_t journal = sum_of(0, JOURNAL), files = sum_of(sum_of(0, TABLE), TABLE ".mesh");
    sprintf(line, "%08X %08X %08X\n", (unsigned)l.answers, (unsigned)journal, (unsigned)files);
}

static void make(uint64_t count) {
    char line[40];
    printf("# By tests/hosts/lists.c over the C helpers of version %s; a line has the crc32 of a list's answers, journal and table\n",
           icotable_version());
    for (uint64_t k = 0; k < count; k++) {
        made(k, line);
        fputs(line, stdout);
    }
}

static int compare(FILE *stored) {
    char line[40], wanted[200];
    unsigned lists = 0, others = 0;
    while (fgets(wanted, sizeof wanted, stored) != NULL) {
        if (wanted[0] == '#')
            continue;
        made(lists, line);
        if (strcmp(line, wanted) != 0 && others++ < 10)
            printf("list %u: %.26s, where it was %.26s\n", lists, line, wanted);
        lists++;
    }
    printf("lists: %u lists of calls, %u answered otherwise\n", lists, others);
    return lists == 0 || others > 0;
}

/* The library's meshes with the axes turned round. */
static void turned(const char *name, uint64_t top) {
    icotable_meshes m;
    if (icotable_make_meshes(&m, top) != 0)
        exit(2);
    for (size_t v = 0; v < m.vertices_count; v += 3) {
        double x = m.vertices[v];
        m.vertices[v] = m.vertices[v + 1], m.vertices[v + 1] = m.vertices[v + 2], m.vertices[v + 2] = x;
    }
    if (icotable_meshes_save(&m, name, NULL) != 0)
        exit(2);
    icotable_free_meshes(&m);
}

int main(int count, char **words) {
    bool making = count == 4 && strcmp(words[1], "make") == 0;
    FILE *stored = count == 4 && strcmp(words[1], "check") == 0 ? fopen(words[2], "r") : NULL;
    if ((!making && stored == NULL) || chdir(words[3]) != 0)
        return fprintf(stderr, "usage: lists make COUNT FOLDER, lists check FILE FOLDER\n"), 2;
    turned("../turned0.mesh", 0);
    turned("../turned1.mesh", 1);
    if (!making)
        return compare(stored);
    make(strtoull(words[2], NULL, 10));
    return 0;
}
