#include "icotable_journal.h"

#include "environment.h"
#include "icotable_slab.h"
#include "journal_head.h"
#include "support.h"

#include <errno.h>
#include <fcntl.h>
#include <stdio.h>
#include <stdlib.h>
#include <string.h>
#include <sys/file.h>
#include <sys/random.h>
#include <sys/stat.h>
#include <unistd.h>

enum { CALL = 36, ANSWER = 40, LAST = 8, FIRST_MOST = ICOTABLE_HEAD_MOST_ + CALL + ANSWER, CHUNK = 4096 };
enum kind { FRESH = 1, SET = 2, SETTLE = 3 };
enum state { SHUT, READING, OPEN };
static const char END[] = "end\n";

typedef unsigned long long ull;

/* The kind of table, its settings, top level and meshes; its label and, where it begins, its id. Either may be NULL. */
typedef struct plan {
    int atom;
    icotable_grid grid;
    uint64_t top;
    const icotable_meshes *meshes;
    const char *label;
    const uint8_t *id;
} plan;

typedef struct call {
    uint64_t kind, ri, oi, count;
} call;

typedef struct answer {
    uint64_t number, level;
    double gradient;
    uint64_t comparisons;
} answer;

const char *icotable_journal_words(uint64_t number) {
    switch (number) {
#define ICOTABLE_JOURNAL_REFUSAL_(number, name, words) \
    case number: \
        return words;
        ICOTABLE_JOURNAL_REFUSALS(ICOTABLE_JOURNAL_REFUSAL_)
#undef ICOTABLE_JOURNAL_REFUSAL_
    default:
        return icotable_words(number);
    }
}

/* ---- words of a refusal */

/* The number's words, and more behind them. */
static uint64_t say(icotable_journal *j, uint64_t number, const char *more, ...) {
    va_list list;
    va_start(list, more);
    icotable_say_(j->said, sizeof j->said, icotable_journal_words(number), more, list);
    va_end(list);
    return number;
}

/* The place of the record that is read, behind what was said. */
static uint64_t say_place(icotable_journal *j, uint64_t number) {
    size_t at = strlen(j->said);
    snprintf(j->said + at, sizeof j->said - at, " (record %llu, at byte %llu)", (ull)j->records, (ull)j->bytes);
    return number;
}

static uint64_t say_errno(icotable_journal *j, uint64_t number) {
    return say(j, number, "%s", strerror(errno));
}

/* ---- the bytes of head and records */

static uint8_t *put(uint8_t *at, const void *bytes, size_t count) {
    memcpy(at, bytes, count);
    return at + count;
}

static uint8_t *put_sum(icotable_journal *j, uint8_t *from, uint8_t *at) {
    j->sum = icotable_crc32_(j->sum, from, (size_t)(at - from));
    return put(at, &j->sum, sizeof j->sum);
}

uint64_t icotable_build_hash(int atom, icotable_grid settings, uint64_t top, const icotable_meshes *meshes) {
    icotable_head_ head = icotable_head_of_(atom, &settings, top, meshes);
    head.version = 1;
    return icotable_head_build_(&head);
}

/* What the head says of the build. */
static void know(icotable_journal *j, const icotable_head_ *h) {
    j->version = h->version;
    j->meshes_hash = h->meshes;
    j->identity = h->identity;
    j->build = icotable_head_build_(h);
    memcpy(j->library, h->library, sizeof j->library);
}

static void make_call(icotable_journal *j, const call *c, uint8_t bytes[CALL]) {
    put_sum(j, bytes, put(bytes, c, sizeof *c));
}

static void make_answer(icotable_journal *j, const answer *a, uint8_t bytes[ANSWER]) {
    put(put_sum(j, bytes, put(bytes, a, sizeof *a)), END, 4);
}

/* ---- files */

static bool zeros(const uint8_t *bytes, size_t count) {
    for (size_t i = 0; i < count; i++)
        if (bytes[i] != 0)
            return false;
    return true;
}

/* Whether the file holds nothing but zeros from a place to its end, as where its length reached the disk before its bytes. */
static bool unwritten(int file, uint64_t from, uint64_t end) {
    uint8_t bytes[CHUNK];
    while (from < end) {
        size_t count = end - from < CHUNK ? (size_t)(end - from) : CHUNK;
        if (!icotable_read_at_(file, bytes, count, from) || !zeros(bytes, count))
            return false;
        from += count;
    }
    return true;
}

/* ---- calls of the library, for both kinds of table */

static uint64_t per(const icotable_journal *j, uint64_t level) {
    uint64_t n = icotable_vertices(level);
    return j->atom ? n : n * n;
}

static icotable_atom_builder atom_of(const icotable_builder *b) {
    const icotable_grid *g = &b->grid;
    return (icotable_atom_builder){{g->rmin, g->rmax, g->dr, g->threshold, g->beta, g->n_r}, b->top, b->level};
}

static icotable_grid pair_of(icotable_atom_grid g) {
    return (icotable_grid){.rmin = g.rmin, .rmax = g.rmax, .dr = g.dr, .threshold = g.threshold, .beta = g.beta, .n_r = g.n_r, .n_omega = 1};
}

#define PAIR_LISTS(j) ICOTABLE_JOURNAL_LISTS(j)
#define ATOM_LISTS(j) (j)->store, (j)->store_count, (j)->kinds, (size_t)(j)->slabs, (j)->levels, (size_t)(j)->slabs, (j)->values, (size_t)(j)->slabs

static answer make_fresh(icotable_journal *j, const plan *p) {
    uint64_t number;
    if (j->atom) {
        const icotable_grid *g = &p->grid;
        icotable_atom_grid settings = {g->rmin, g->rmax, g->dr, g->threshold, g->beta, 0};
        icotable_atom_built b = icotable_atom_fresh(settings, p->top, ATOM_LISTS(j), ICOTABLE_MESHES(j->meshes));
        number = b.number;
        j->builder = (icotable_builder){pair_of(b.builder.grid), b.builder.top, b.builder.level, 0};
    } else {
        icotable_built b = icotable_fresh(p->grid, p->top, PAIR_LISTS(j), ICOTABLE_MESHES(j->meshes));
        number = b.number;
        j->builder = b.builder;
    }
    return (answer){.number = number, .level = j->builder.level};
}

static answer make_set(icotable_journal *j, const call *c, const double *energies) {
    uint64_t number;
    if (j->atom) {
        if (c->oi != 0)
            return (answer){.number = ICOTABLE_BIN};
        icotable_atom_built b = icotable_atom_set(atom_of(&j->builder), ATOM_LISTS(j), c->ri, energies, c->count);
        number = b.number;
        j->builder.level = b.builder.level;
    } else {
        icotable_built b = icotable_set(j->builder, PAIR_LISTS(j), c->ri, c->oi, energies, c->count);
        number = b.number;
        j->builder = b.builder;
    }
    return (answer){.number = number, .level = j->builder.level};
}

static answer make_settle(icotable_journal *j, const call *c) {
    if (j->atom) {
        icotable_atom_settled s = icotable_atom_settle(atom_of(&j->builder), ATOM_LISTS(j), ICOTABLE_MESHES(j->meshes), c->ri);
        j->builder.level = s.builder.level;
        return (answer){s.number, s.builder.level, s.gradient, s.comparisons};
    }
    icotable_settled s = icotable_settle(j->builder, PAIR_LISTS(j), ICOTABLE_MESHES(j->meshes), c->ri);
    j->builder = s.builder;
    return (answer){s.number, s.builder.level, s.gradient, s.comparisons};
}

static answer make(icotable_journal *j, const call *c, const double *energies) {
    return c->kind == SET ? make_set(j, c, energies) : make_settle(j, c);
}

/* ---- taking a call back */

static uint64_t row(const icotable_journal *j, uint64_t slab) {
    return j->atom ? icotable_word(j->kinds[slab], j->levels[slab], j->values[slab]) : j->words[slab];
}

static void put_row(icotable_journal *j, uint64_t slab, uint64_t word) {
    if (j->atom) {
        j->kinds[slab] = (uint8_t)icotable_word_kind(word);
        j->levels[slab] = icotable_word_level(word);
        j->values[slab] = icotable_word_value(word);
    } else {
        j->words[slab] = word;
    }
}

static bool bins_inside(const icotable_journal *j, const call *c) {
    return c->ri < j->builder.grid.n_r && c->oi < j->builder.grid.n_omega;
}

/* What a call may alter, so that it can be put back: the rows of its slice and, where a slab that holds energies is set
 * over, these. */
static void keep(icotable_journal *j, const call *c) {
    uint64_t first = c->ri * j->builder.grid.n_omega;
    for (uint64_t oi = 0; oi < j->builder.grid.n_omega; oi++)
        j->slice[oi] = row(j, first + oi);
    if (c->kind == SET && icotable_word_kind(j->slice[c->oi]) >= 2)
        memcpy(j->spare, j->store + (first + c->oi) * per(j, j->builder.top), per(j, j->builder.top) * sizeof *j->spare);
}

static void take_back(icotable_journal *j, const call *c, icotable_builder before) {
    uint64_t first = c->ri * before.grid.n_omega;
    for (uint64_t oi = 0; oi < before.grid.n_omega; oi++)
        put_row(j, first + oi, j->slice[oi]);
    if (c->kind == SET && icotable_word_kind(j->slice[c->oi]) >= 2)
        memcpy(j->store + (first + c->oi) * per(j, before.top), j->spare, per(j, before.top) * sizeof *j->spare);
    j->builder = before;
}

/* ---- the guard */

static uint64_t missing_of(const icotable_journal *j, uint64_t ri, uint64_t *oi) {
    uint64_t missing = 0, n_omega = j->builder.grid.n_omega;
    for (uint64_t o = n_omega; o > 0; o--)
        if (!j->set[ri * n_omega + o - 1]) {
            *oi = o - 1;
            missing++;
        }
    return missing;
}

static uint64_t first_unsettled(const icotable_journal *j) {
    uint64_t ri = 0;
    while (ri < j->builder.grid.n_r && j->settled[ri])
        ri++;
    return ri;
}

/* Bins that are not there are left to the library. */
static uint64_t guard(icotable_journal *j, const call *c) {
    if (!j->guarded || !bins_inside(j, c))
        return 0;
    uint64_t nearest = first_unsettled(j), missing, oi = 0;
    if (c->kind == SET && j->settled[c->ri])
        return say(j, ICOTABLE_JOURNAL_SLICE_SETTLED, "distance bin %llu was settled; slab (%llu, %llu)", (ull)c->ri, (ull)c->ri, (ull)c->oi);
    if (nearest < c->ri)
        return say(j, ICOTABLE_JOURNAL_NEARER_UNSETTLED, "distance bin %llu is nearer than %llu and not settled", (ull)nearest, (ull)c->ri);
    if (c->kind == SETTLE && (missing = missing_of(j, c->ri, &oi)) > 0)
        return say(j, ICOTABLE_JOURNAL_SLAB_MISSING, "slab (%llu, %llu), %llu of distance bin %llu in all", (ull)c->ri, (ull)oi, (ull)missing, (ull)c->ri);
    return 0;
}

static void mark(icotable_journal *j, const call *c) {
    uint8_t *set = j->marks, *settled = j->marks + j->slabs;
    uint64_t slab = c->ri * j->builder.grid.n_omega + c->oi;
    if (c->kind == SET) {
        j->set_count += !set[slab];
        set[slab] = 1;
        /* without the guard a settled slice can be set; it wants settling again */
        j->settled_count -= settled[c->ri];
        settled[c->ri] = 0;
    } else {
        j->settled_count += !settled[c->ri];
        settled[c->ri] = 1;
    }
}

uint64_t icotable_journal_whole(icotable_journal *j) {
    uint64_t ri, slab = 0;
    if (j->state == SHUT)
        return say(j, ICOTABLE_JOURNAL_NOT_OPEN, "");
    if (j->broken)
        return say(j, ICOTABLE_JOURNAL_BROKEN, "");
    if (!j->guarded)
        return 0;
    if (j->set_count < j->slabs) {
        while (j->set[slab])
            slab++;
        return say(j, ICOTABLE_JOURNAL_HOLES, "slab (%llu, %llu), %llu in all", (ull)(slab / j->builder.grid.n_omega), (ull)(slab % j->builder.grid.n_omega),
                   (ull)(j->slabs - j->set_count));
    }
    ri = first_unsettled(j);
    if (ri < j->builder.grid.n_r)
        return say(j, ICOTABLE_JOURNAL_UNSETTLED, "distance bin %llu, %llu in all", (ull)ri, (ull)(j->builder.grid.n_r - j->settled_count));
    return 0;
}

enum icotable_journal_step icotable_journal_next(const icotable_journal *j, uint64_t *ri, uint64_t *oi) {
    *ri = *oi = 0;
    if (j->state == SHUT || (*ri = first_unsettled(j)) == j->builder.grid.n_r)
        return ICOTABLE_JOURNAL_TO_WRITE;
    return missing_of(j, *ri, oi) > 0 ? ICOTABLE_JOURNAL_TO_SET : ICOTABLE_JOURNAL_TO_SETTLE;
}

/* ---- calls, kept */

/* The record behind the last one, on disk. A file that takes no more is cut to what it was; where the disk itself failed,
 * nothing that is written later could be relied on. */
static uint64_t append(icotable_journal *j, const call *c, const double *energies, const answer *a) {
    uint8_t head[CALL], tail[ANSWER];
    uint32_t before = j->sum;
    size_t length = c->count * sizeof *energies;
    if (j->file < 0) { /* begun without a file */
        j->records++;
        return 0;
    }
    make_call(j, c, head);
    j->sum = icotable_crc32_(j->sum, energies, length);
    make_answer(j, a, tail);
    bool written = icotable_write_at_(j->file, head, CALL, j->bytes) && icotable_write_at_(j->file, energies, length, j->bytes + CALL) &&
                   icotable_write_at_(j->file, tail, ANSWER, j->bytes + CALL + length);
    bool kept = written && fdatasync(j->file) == 0;
    if (kept) {
        j->bytes += CALL + length + ANSWER;
        j->records++;
        return 0;
    }
    int why = errno;
    j->sum = before;
    if (ftruncate(j->file, (off_t)j->bytes) != 0 || written)
        j->broken = 1;
    errno = why;
    return say_errno(j, ICOTABLE_JOURNAL_NOT_WRITTEN);
}

static uint64_t may_call(icotable_journal *j) {
    if (j->state != OPEN)
        return say(j, ICOTABLE_JOURNAL_NOT_OPEN, "");
    return j->broken ? say(j, ICOTABLE_JOURNAL_BROKEN, "") : 0;
}

static answer kept(icotable_journal *j, const call *c, const double *energies) {
    answer a = {.number = may_call(j)};
    if (a.number == 0)
        a.number = guard(j, c);
    if (a.number != 0)
        return a;
    icotable_builder before = j->builder;
    if (bins_inside(j, c))
        keep(j, c);
    a = make(j, c, energies);
    if (a.number != 0) {
        say(j, a.number, c->kind == SET ? "slab (%llu, %llu)" : "distance bin %llu", (ull)c->ri, (ull)c->oi);
        return a;
    }
    uint64_t number = append(j, c, energies, &a);
    if (number != 0) {
        take_back(j, c, before);
        return (answer){.number = number};
    }
    mark(j, c);
    return a;
}

uint64_t icotable_journal_set(icotable_journal *j, uint64_t ri, uint64_t oi, const double *energies, size_t energies_count) {
    return kept(j, &(call){SET, ri, oi, energies_count}, energies).number;
}

icotable_journal_settled icotable_journal_settle(icotable_journal *j, uint64_t ri) {
    answer a = kept(j, &(call){SETTLE, ri, 0, 0}, NULL);
    return (icotable_journal_settled){a.number, a.gradient, a.comparisons};
}

uint64_t icotable_journal_length(const icotable_journal *j) {
    const icotable_builder *b = &j->builder;
    if (!j->atom)
        return 52 + 4 * (b->top + 1) + 10 * j->slabs + 4 * b->packed;
    uint64_t energies = 0;
    for (uint64_t s = 0; s < j->slabs; s++)
        energies += j->kinds[s] < 2 ? 0 : per(j, j->levels[s]);
    return 40 + 4 * (b->top + 1) + 10 * j->slabs + 4 * energies;
}

icotable_written icotable_journal_write(icotable_journal *j, uint8_t *output, size_t output_count) {
    icotable_written w = {.number = icotable_journal_whole(j)};
    if (w.number != 0)
        return w;
    w = j->atom ? icotable_atom_write(atom_of(&j->builder), ATOM_LISTS(j), ICOTABLE_MESHES(j->meshes), output, output_count)
                : icotable_write(j->builder, PAIR_LISTS(j), ICOTABLE_MESHES(j->meshes), output, output_count);
    if (w.number != 0)
        say(j, w.number, "");
    return w;
}

/* ---- opening */

static bool allocate(icotable_journal *j, const icotable_size *size, uint64_t top) {
    j->store_count = size->store;
    j->slabs = size->store / per(j, top);
    j->store = calloc(j->store_count, sizeof *j->store);
    j->spare = calloc(per(j, top), sizeof *j->spare);
    j->slice = calloc(j->slabs, sizeof *j->slice);
    j->marks = calloc(j->slabs, 2);
    if (j->atom) {
        j->kinds = calloc(j->slabs, sizeof *j->kinds);
        j->levels = calloc(j->slabs, sizeof *j->levels);
        j->values = calloc(j->slabs, sizeof *j->values);
    } else {
        j->words = calloc(j->slabs, sizeof *j->words);
    }
    j->set = j->marks;
    j->settled = j->marks + j->slabs;
    return j->store && j->spare && j->slice && j->marks && (j->atom ? j->kinds && j->levels && j->values : j->words != NULL);
}

/* The lists of a build, and fresh. */
static uint64_t prepare(icotable_journal *j, const plan *p, unsigned flags) {
    const icotable_meshes *m = p->meshes;
    const icotable_grid *g = &p->grid;
    *j = (icotable_journal){.atom = p->atom, .guarded = !(flags & ICOTABLE_JOURNAL_UNGUARDED), .meshes = m, .file = -1};
    unsigned environment = icotable_float_environment();
    if (environment != 0)
        return say(j, ICOTABLE_JOURNAL_ENVIRONMENT, "%s", icotable_float_environment_words(environment));
    icotable_atom_grid atom = {g->rmin, g->rmax, g->dr, g->threshold, g->beta, 0};
    icotable_size size = p->atom ? icotable_atom_sizing(atom, p->top, m->neighbour_counts, m->neighbour_counts_count, m->neighbours, m->neighbours_count)
                                 : icotable_sizing(*g, p->top, m->neighbour_counts, m->neighbour_counts_count, m->neighbours, m->neighbours_count, 0);
    if (size.number != 0)
        return say(j, size.number, "");
    if (!allocate(j, &size, p->top))
        return say(j, ICOTABLE_JOURNAL_NO_ROOM, "");
    answer a = make_fresh(j, p);
    return a.number == 0 ? 0 : say(j, a.number, "");
}

/* The checksum of a head, and fresh, behind its bytes; how many there are then. */
static size_t make_first(icotable_journal *j, uint8_t first[FIRST_MOST], size_t length) {
    j->sum = 0;
    uint8_t *at = put_sum(j, first, first + length);
    make_call(j, &(call){.kind = FRESH}, at);
    uint64_t top;
    memcpy(&top, first + 16, sizeof top);
    make_answer(j, &(answer){.level = top}, at + CALL);
    return (size_t)(at - first) + CALL + ANSWER;
}

/* Head and fresh, in a file that has none of it or a part. */
static uint64_t begin_file(icotable_journal *j, const char *name, const icotable_head_ *h) {
    uint8_t first[FIRST_MOST];
    size_t length = make_first(j, first, icotable_head_bytes_(h, first));
    know(j, h);
    if (!icotable_write_at_(j->file, first, length, 0) || ftruncate(j->file, (off_t)length) != 0 || fsync(j->file) != 0 || !icotable_sync_folder_(name))
        return say_errno(j, ICOTABLE_JOURNAL_NOT_WRITTEN);
    j->bytes = length;
    j->records = 1;
    j->state = OPEN;
    return 0;
}

/* The head of a build that begins. */
static uint64_t new_head(icotable_journal *j, const plan *p, unsigned flags, icotable_head_ *h) {
    icotable_identity *i = &h->identity;
    *h = icotable_head_of_(p->atom, &p->grid, p->top, p->meshes);
    if (p->label != NULL && !icotable_label_fits_(p->label))
        return say(j, ICOTABLE_JOURNAL_LABEL, "");
    if (flags & ICOTABLE_JOURNAL_FORMAT_1) {
        h->version = 1;
        memset(h->library, 0, sizeof h->library);
        return 0;
    }
    if (p->label != NULL)
        strcpy(i->label, p->label);
    if (p->id != NULL)
        memcpy(i->id, p->id, sizeof i->id);
    else if (getrandom(i->id, sizeof i->id, 0) != (ssize_t)sizeof i->id)
        return say_errno(j, ICOTABLE_JOURNAL_TROUBLE);
    return 0;
}

/* One handle at a time: the lock goes with the file, and ends with the process. */
static uint64_t lock(icotable_journal *j, uint64_t *size) {
    struct stat what;
    if (flock(j->file, LOCK_EX | LOCK_NB) != 0)
        return errno == EWOULDBLOCK ? say(j, ICOTABLE_JOURNAL_IN_USE, "") : say_errno(j, ICOTABLE_JOURNAL_TROUBLE);
    if (fstat(j->file, &what) != 0)
        return say_errno(j, ICOTABLE_JOURNAL_TROUBLE);
    *size = (uint64_t)what.st_size;
    return 0;
}

static uint64_t begin(icotable_journal *j, const char *name, const plan *p, unsigned flags) {
    icotable_head_ head;
    uint64_t size = 0, number = prepare(j, p, flags);
    if (number == 0)
        number = new_head(j, p, flags, &head);
    if (number != 0)
        return number;
    if (name == NULL) {
        know(j, &head);
        j->records = 1;
        j->state = OPEN;
        return 0;
    }
    j->file = open(name, O_RDWR | O_CREAT | O_EXCL | O_CLOEXEC, 0666);
    if (j->file < 0)
        return errno == EEXIST ? say(j, ICOTABLE_JOURNAL_EXISTS, "%s", name) : say_errno(j, ICOTABLE_JOURNAL_TROUBLE);
    number = lock(j, &size);
    if (number != 0)
        return number;
    if (size != 0) /* another process was faster, and has gone */
        return say(j, ICOTABLE_JOURNAL_EXISTS, "%s", name);
    return begin_file(j, name, &head);
}

/* ---- resuming */

typedef enum found { WHOLE, TORN, BAD } found;

/* The record at the journal's end so far, its energies in the spare list. A record that is not whole is torn where the file
 * ends inside it or its end was never written; anything else is damage. */
static found next_record(icotable_journal *j, uint64_t size, call *c, answer *a, const char **why) {
    uint8_t head[CALL], tail[ANSWER], wanted[ANSWER];
    uint64_t left = size - j->bytes;
    uint32_t sum = j->sum, read;
    *why = "it cannot be read";
    if (left < CALL + ANSWER)
        return TORN;
    if (!icotable_read_at_(j->file, head, CALL, j->bytes))
        return BAD;
    memcpy(c, head, sizeof *c);
    memcpy(&read, head + CALL - 4, 4);
    j->sum = icotable_crc32_(sum, head, CALL - 4);
    *why = "the checksum of its bins and counts is another";
    if (read != j->sum)
        return unwritten(j->file, j->bytes + CALL - 1, size) ? TORN : BAD;
    *why = "it is not a call of such a build";
    if (c->kind < SET || c->kind > SETTLE || !bins_inside(j, c) || c->count > per(j, j->builder.top) || (c->kind == SETTLE && c->count > 0))
        return BAD;
    size_t length = c->count * sizeof *j->spare;
    if (left < CALL + length + ANSWER)
        return TORN;
    *why = "it cannot be read";
    if (!icotable_read_at_(j->file, j->spare, length, j->bytes + CALL) || !icotable_read_at_(j->file, tail, ANSWER, j->bytes + CALL + length))
        return BAD;
    memcpy(a, tail, sizeof *a);
    j->sum = icotable_crc32_(j->sum, j->spare, length);
    make_answer(j, a, wanted);
    *why = "the checksum of its energies and answer is another";
    if (memcmp(tail, wanted, ANSWER) == 0)
        return WHOLE;
    return left == CALL + length + ANSWER && zeros(tail + ANSWER - LAST, LAST) ? TORN : BAD;
}

/* An answer that is another one: of another version of the library, or of something worse. */
static uint64_t other_answer(icotable_journal *j, const answer *a, const answer *recorded) {
    static const uint32_t own[] = {ICOTABLE_VERSION_MAJOR, ICOTABLE_VERSION_MINOR, ICOTABLE_VERSION_PATCH};
    const uint32_t *began = j->library;
    if (j->version > 1 && memcmp(began, own, sizeof own) != 0)
        return say(j, ICOTABLE_JOURNAL_OTHER_LIBRARY, "it is of %u.%u.%u, and this is %s", (unsigned)began[0], (unsigned)began[1], (unsigned)began[2], ICOTABLE_VERSION);
    return say(j, ICOTABLE_JOURNAL_OTHER_ANSWER, "number %llu, level %llu, gradient %.17g, comparisons %llu, where it was %llu, %llu, %.17g, %llu",
               (ull)a->number, (ull)a->level, a->gradient, (ull)a->comparisons, (ull)recorded->number, (ull)recorded->level, recorded->gradient,
               (ull)recorded->comparisons);
}

static uint64_t play(icotable_journal *j, const call *c, const answer *recorded) {
    uint64_t number = guard(j, c);
    if (number != 0)
        return say_place(j, number);
    answer a = make(j, c, j->spare);
    if (memcmp(&a, recorded, sizeof a) != 0)
        return say_place(j, other_answer(j, &a, recorded));
    mark(j, c);
    j->bytes += CALL + c->count * sizeof *j->spare + ANSWER;
    j->records++;
    return 0;
}

static uint64_t play_all(icotable_journal *j, uint64_t size) {
    while (j->bytes < size) {
        call c;
        answer a;
        const char *why = "";
        uint32_t before = j->sum;
        found what = next_record(j, size, &c, &a, &why);
        if (what == BAD)
            return say_place(j, say(j, ICOTABLE_JOURNAL_DAMAGED, "%s", why));
        if (what == TORN) {
            j->sum = before;
            break;
        }
        uint64_t number = play(j, &c, &a);
        if (number != 0)
            return number;
    }
    j->cut = size - j->bytes;
    return 0;
}

/* The first setting that is another one. */
static uint64_t other_settings(icotable_journal *j, const icotable_head_ *h, const icotable_head_ *wanted) {
    static const char *const names[] = {"rmin", "rmax", "dr", "omega_step", "threshold", "beta"};
    for (int i = 0; i < 6; i++)
        if (memcmp(&h->settings[i], &wanted->settings[i], sizeof h->settings[i]) != 0)
            return say(j, ICOTABLE_JOURNAL_OTHER_SETTINGS, "%s %.17g, not %.17g", names[i], h->settings[i], wanted->settings[i]);
    return 0;
}

/* A head by itself. */
static uint64_t check_head(icotable_journal *j, icotable_head_ *h, size_t *length, const uint8_t *bytes, size_t count) {
    const char *why = "";
    uint64_t number = icotable_head_taken_(h, length, bytes, count, &why);
    if (number == ICOTABLE_JOURNAL_OTHER_VERSION)
        return say(j, number, "%u", (unsigned)h->version);
    if (number == ICOTABLE_JOURNAL_DAMAGED)
        return say(j, number, "%s, bytes 0 to %zu", why, *length - 1);
    return number == 0 ? 0 : say(j, number, "%s", why);
}

/* The head in the file beside the one of this build. */
static uint64_t same_head(icotable_journal *j, const icotable_head_ *h, const icotable_head_ *wanted) {
    if (h->kind != wanted->kind)
        return say(j, ICOTABLE_JOURNAL_OTHER_KIND, "%s", h->kind ? "against an atom" : "of two molecules");
    if (h->top != wanted->top)
        return say(j, ICOTABLE_JOURNAL_OTHER_TOP, "%llu, not %llu", (ull)h->top, (ull)wanted->top);
    uint64_t number = other_settings(j, h, wanted);
    if (number != 0)
        return number;
    return h->meshes == wanted->meshes ? 0 : say(j, ICOTABLE_JOURNAL_OTHER_MESHES, "");
}

/* The label and the id that were asked for. */
static uint64_t same_identity(icotable_journal *j, const icotable_identity *i, const plan *p) {
    char digits[33];
    if (p->label != NULL && strcmp(p->label, i->label) != 0)
        return say(j, ICOTABLE_JOURNAL_OTHER_IDENTITY, "label '%.100s', not '%.100s'", i->label, p->label);
    if (p->id == NULL || memcmp(p->id, i->id, sizeof i->id) == 0)
        return 0;
    for (int k = 0; k < 16; k++)
        snprintf(digits + 2 * k, 3, "%02x", i->id[k]);
    return say(j, ICOTABLE_JOURNAL_OTHER_IDENTITY, "id %s", digits);
}

/* A file that was killed while it was begun: a part of head and fresh, then nothing, or nothing but zeros. Library version, id and label are
 * the file's own, as far as it goes. */
static bool half_begun(icotable_journal *j, const uint8_t *bytes, size_t count, const icotable_head_ *wanted) {
    enum { SAME = ICOTABLE_HEAD_SAME_, LABEL = ICOTABLE_HEAD_LABEL_ };
    uint8_t first[FIRST_MOST];
    size_t length = icotable_head_bytes_(wanted, first), same = 0;
    if (wanted->version > 1) {
        uint32_t label;
        if (count > SAME)
            memcpy(first + SAME, bytes + SAME, (count < LABEL ? count : LABEL) - SAME);
        memcpy(&label, first + LABEL - sizeof label, sizeof label);
        if (label > ICOTABLE_LABEL)
            return false;
        memset(first + LABEL, 0, label);
        if (count > LABEL)
            memcpy(first + LABEL, bytes + LABEL, count - LABEL < label ? count - LABEL : label);
        length = LABEL + label;
    }
    length = make_first(j, first, length);
    while (same < count && same < length && bytes[same] == first[same])
        same++;
    return same < length && zeros(bytes + same, count - same) && (same == count || count - same >= LAST);
}

/* Of either version. */
static bool half_begun_by_any(icotable_journal *j, const uint8_t *bytes, size_t count, icotable_head_ wanted) {
    if (half_begun(j, bytes, count, &wanted))
        return true;
    wanted.version = 1;
    return half_begun(j, bytes, count, &wanted);
}

/* Head and fresh; answers 0 with no record where the file is half begun. */
static uint64_t resume_first(icotable_journal *j, uint64_t size, const icotable_head_ *wanted, const plan *p) {
    uint8_t bytes[FIRST_MOST], first[FIRST_MOST];
    size_t count = size < FIRST_MOST ? (size_t)size : FIRST_MOST, length;
    icotable_head_ head;
    if (!icotable_read_at_(j->file, bytes, count, 0))
        return say_errno(j, ICOTABLE_JOURNAL_TROUBLE);
    if (size <= FIRST_MOST && half_begun_by_any(j, bytes, count, *wanted))
        return 0;
    if (size < ICOTABLE_HEAD_SAME_)
        return say(j, ICOTABLE_JOURNAL_NOT_A_JOURNAL, "%llu bytes, which are not the beginning of this build's", (ull)size);
    uint64_t number = check_head(j, &head, &length, bytes, count);
    if (number == 0)
        number = same_head(j, &head, wanted);
    if (number == 0)
        number = same_identity(j, &head.identity, p);
    if (number != 0)
        return number;
    know(j, &head);
    j->bytes = length;
    length = make_first(j, first, icotable_head_bytes_(&head, first));
    if (count < length || memcmp(bytes + j->bytes, first + j->bytes, length - j->bytes) != 0)
        return say_place(j, say(j, ICOTABLE_JOURNAL_DAMAGED, "it is not this build's fresh"));
    j->bytes = length;
    j->records = 1;
    return 0;
}

static uint64_t open_resumed(icotable_journal *j, const char *name, bool reading, uint64_t *size) {
    struct stat what;
    j->file = open(name, (reading ? O_RDONLY : O_RDWR) | O_CLOEXEC);
    if (j->file < 0)
        return errno == ENOENT ? say(j, ICOTABLE_JOURNAL_ABSENT, "%s", name) : say_errno(j, ICOTABLE_JOURNAL_TROUBLE);
    if (fstat(j->file, &what) != 0)
        return say_errno(j, ICOTABLE_JOURNAL_TROUBLE);
    if (!S_ISREG(what.st_mode))
        return say(j, ICOTABLE_JOURNAL_NOT_A_JOURNAL, "%s", name);
    *size = (uint64_t)what.st_size;
    return reading ? 0 : lock(j, size);
}

static uint64_t resume(icotable_journal *j, const char *name, const plan *p, unsigned flags) {
    icotable_head_ head;
    bool reading = flags & ICOTABLE_JOURNAL_READING;
    uint64_t size = 0, number = prepare(j, p, flags);
    if (number == 0 && p->label != NULL && !icotable_label_fits_(p->label))
        number = say(j, ICOTABLE_JOURNAL_LABEL, "");
    if (number == 0)
        number = open_resumed(j, name, reading, &size);
    if (number != 0)
        return number;
    head = icotable_head_of_(p->atom, &p->grid, p->top, p->meshes);
    number = resume_first(j, size, &head, p);
    if (number != 0)
        return number;
    if (j->records == 0 && reading)
        return say(j, ICOTABLE_JOURNAL_NOT_A_JOURNAL, "%llu bytes", (ull)size);
    if (j->records == 0) {
        j->cut = size;
        number = new_head(j, p, flags, &head);
        return number != 0 ? number : begin_file(j, name, &head);
    }
    number = play_all(j, size);
    if (number != 0)
        return number;
    if (!reading && j->cut > 0 && (ftruncate(j->file, (off_t)j->bytes) != 0 || fdatasync(j->file) != 0))
        return say_errno(j, ICOTABLE_JOURNAL_NOT_WRITTEN);
    j->state = reading ? READING : OPEN;
    return 0;
}

/* A journal that is refused holds nothing. */
static uint64_t opened(icotable_journal *j, uint64_t number) {
    if (number != 0)
        icotable_journal_close(j);
    return number;
}

uint64_t icotable_journal_begin_as(icotable_journal *j, const char *name, int atom, icotable_grid settings, uint64_t top, const icotable_meshes *meshes, unsigned flags,
                                   const char *label, const uint8_t *id) {
    return opened(j, begin(j, name, &(plan){atom, settings, top, meshes, label, id}, flags));
}

uint64_t icotable_journal_resume_as(icotable_journal *j, const char *name, int atom, icotable_grid settings, uint64_t top, const icotable_meshes *meshes, unsigned flags,
                                    const char *label, const uint8_t *id) {
    return opened(j, resume(j, name, &(plan){atom, settings, top, meshes, label, id}, flags));
}

uint64_t icotable_journal_begin(icotable_journal *j, const char *name, icotable_grid settings, uint64_t top, const icotable_meshes *meshes, unsigned flags) {
    return icotable_journal_begin_as(j, name, 0, settings, top, meshes, flags, NULL, NULL);
}

uint64_t icotable_journal_resume(icotable_journal *j, const char *name, icotable_grid settings, uint64_t top, const icotable_meshes *meshes, unsigned flags) {
    return icotable_journal_resume_as(j, name, 0, settings, top, meshes, flags, NULL, NULL);
}

uint64_t icotable_journal_atom_begin(icotable_journal *j, const char *name, icotable_atom_grid settings, uint64_t top, const icotable_meshes *meshes, unsigned flags) {
    return icotable_journal_begin_as(j, name, 1, pair_of(settings), top, meshes, flags, NULL, NULL);
}

uint64_t icotable_journal_atom_resume(icotable_journal *j, const char *name, icotable_atom_grid settings, uint64_t top, const icotable_meshes *meshes, unsigned flags) {
    return icotable_journal_resume_as(j, name, 1, pair_of(settings), top, meshes, flags, NULL, NULL);
}

uint64_t icotable_journal_look(icotable_journal *j, const char *name) {
    uint8_t bytes[ICOTABLE_HEAD_MOST_];
    uint64_t size = 0;
    size_t length;
    icotable_head_ head;
    *j = (icotable_journal){.file = -1};
    uint64_t number = open_resumed(j, name, true, &size);
    size_t count = size < sizeof bytes ? (size_t)size : sizeof bytes;
    if (number == 0 && !icotable_read_at_(j->file, bytes, count, 0))
        number = say_errno(j, ICOTABLE_JOURNAL_TROUBLE);
    if (number == 0)
        number = check_head(j, &head, &length, bytes, count);
    if (number == 0) {
        const double *x = head.settings;
        know(j, &head);
        j->atom = head.kind != 0;
        j->builder.top = head.top;
        j->builder.grid = (icotable_grid){x[0], x[1], x[2], x[3], x[4], x[5], 0, 0};
    }
    icotable_journal_close(j);
    return number;
}

/* Settings, counts and words stay, to be looked at. */
void icotable_journal_close(icotable_journal *j) {
    if (j->file >= 0)
        close(j->file);
    free(j->store);
    free(j->spare);
    free(j->slice);
    free(j->words);
    free(j->kinds);
    free(j->levels);
    free(j->values);
    free(j->marks);
    j->store = j->spare = NULL;
    j->slice = j->words = NULL;
    j->kinds = j->levels = j->marks = NULL;
    j->values = NULL;
    j->set = j->settled = NULL;
    j->store_count = 0;
    j->slabs = 0;
    j->file = -1;
    j->state = SHUT;
}
