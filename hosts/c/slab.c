#include "icotable_slab.h"

#include "journal_head.h"
#include "support.h"

#include <errno.h>
#include <fcntl.h>
#include <stddef.h>
#include <stdio.h>
#include <stdlib.h>
#include <string.h>
#include <sys/stat.h>
#include <unistd.h>

enum { SUM = 4 };
static const char MAGIC[] = "ICOTSLAB";

typedef unsigned long long ull;

/* As the bytes lie in the file. */
typedef struct head {
    char magic[8];
    uint32_t version, kind;
    uint64_t build, level, ri, oi, count;
} head;

/* What follows it in version 2, with as many letters of the label as it has. */
typedef struct whose {
    uint8_t id[16];
    uint32_t length;
    char label[ICOTABLE_LABEL];
} whose;

enum { HEAD = sizeof(head), WHOSE = 20 };
_Static_assert(sizeof(head) == 56, "the head of a slab file has no gaps");
_Static_assert(offsetof(whose, label) == WHOSE, "nor has what follows it");

const char *icotable_slab_words(uint64_t number) {
    switch (number) {
#define ICOTABLE_SLAB_REFUSAL_(number, name, words) \
    case number: \
        return words;
        ICOTABLE_SLAB_REFUSALS(ICOTABLE_SLAB_REFUSAL_)
#undef ICOTABLE_SLAB_REFUSAL_
    default:
        return icotable_words(number);
    }
}

uint64_t icotable_slab_count(const icotable_slab *s) {
    uint64_t n = icotable_vertices(s->level);
    return s->atom ? n : n * n;
}

void icotable_slab_name(const icotable_slab *s, char name[ICOTABLE_SLAB_NAME]) {
    snprintf(name, ICOTABLE_SLAB_NAME, "slab-%llu-%llu-%llu.icoslab", (ull)s->ri, (ull)s->oi, (ull)s->level);
}

/* The file, the number's words, and more behind them. */
static uint64_t say(icotable_slab *s, uint64_t number, const char *more, ...) {
    char name[ICOTABLE_SLAB_NAME];
    icotable_slab_name(s, name);
    size_t at = (size_t)snprintf(s->said, sizeof s->said, "%s: ", name);
    va_list list;
    va_start(list, more);
    icotable_say_(s->said + at, sizeof s->said - at, icotable_slab_words(number), more, list);
    va_end(list);
    return number;
}

static uint64_t say_errno(icotable_slab *s) {
    return say(s, ICOTABLE_SLAB_TROUBLE, "%s", strerror(errno));
}

static char *path_of(const icotable_slab *s, const char *folder) {
    char name[ICOTABLE_SLAB_NAME];
    icotable_slab_name(s, name);
    size_t room = strlen(folder) + sizeof name + 1;
    char *path = malloc(room);
    if (path != NULL)
        snprintf(path, room, "%s/%s", folder, name);
    return path;
}

/* What a caller can get wrong: the level, and the length of its list. */
static uint64_t check_call(icotable_slab *s, size_t energies_count) {
    uint64_t count = icotable_slab_count(s);
    if (count == 0)
        return say(s, ICOTABLE_SLAB_OTHER_LEVEL, "level %llu, of 0 to 15", (ull)s->level);
    if (energies_count != count)
        return say(s, ICOTABLE_SLAB_OTHER_COUNT, "%llu energies, where level %llu has %llu", (ull)energies_count, (ull)s->level, (ull)count);
    return 0;
}

icotable_slab icotable_slab_of(const icotable_journal *j, uint64_t level, uint64_t ri, uint64_t oi) {
    return (icotable_slab){.atom = j->atom, .build = j->build, .level = level, .ri = ri, .oi = oi, .identity = j->identity};
}

static bool named(const icotable_identity *i) {
    static const uint8_t none[16];
    return memcmp(i->id, none, sizeof none) != 0;
}

static whose whose_of(const icotable_identity *i) {
    whose w = {.length = (uint32_t)strnlen(i->label, ICOTABLE_LABEL)};
    memcpy(w.id, i->id, sizeof w.id);
    memcpy(w.label, i->label, w.length);
    return w;
}

/* ---- writing */

uint64_t icotable_slab_write(icotable_slab *s, const char *folder, const double *energies, size_t energies_count) {
    uint32_t sum;
    uint64_t number = check_call(s, energies_count);
    if (number != 0)
        return number;
    for (size_t i = 0; i < energies_count; i++)
        if (energies[i] != energies[i])
            return say(s, ICOTABLE_NAN_ENERGY, "energy %llu", (ull)i);
    head h = {.version = named(&s->identity) ? 2 : 1, .kind = s->atom ? 1 : 0, .build = s->build, .level = s->level, .ri = s->ri, .oi = s->oi, .count = energies_count};
    whose w = whose_of(&s->identity);
    memcpy(h.magic, MAGIC, sizeof h.magic);
    icotable_part_ parts[] = {{&h, HEAD}, {&w, h.version == 1 ? 0 : WHOSE + w.length}, {energies, energies_count * sizeof *energies}, {&sum, SUM}};
    sum = icotable_crc32_(icotable_crc32_(icotable_crc32_(0, &h, HEAD), &w, parts[1].count), energies, parts[2].count);
    char *path = path_of(s, folder);
    bool done = path != NULL && icotable_write_parts_(path, parts, 4, true);
    free(path);
    return done ? 0 : say_errno(s);
}

/* ---- reading */

/* What a file says of itself before its energies, and where they begin. */
typedef struct front {
    head h;
    whose w;
    uint64_t energies;
} front;

/* Whether it is an id and a label that a journal can have. */
static bool fits(const whose *w) {
    icotable_identity i = {0};
    memcpy(i.id, w->id, sizeof i.id);
    memcpy(i.label, w->label, w->length);
    return named(&i) && strlen(i.label) == w->length && icotable_label_fits_(i.label);
}

static uint64_t read_front(icotable_slab *s, int file, uint64_t size, front *f) {
    *f = (front){.energies = HEAD};
    if (size < HEAD + SUM)
        return say(s, ICOTABLE_SLAB_NOT_A_SLAB, "%llu bytes", (ull)size);
    if (!icotable_read_at_(file, &f->h, HEAD, 0))
        return say_errno(s);
    if (memcmp(f->h.magic, MAGIC, sizeof f->h.magic) != 0)
        return say(s, ICOTABLE_SLAB_NOT_A_SLAB, "it begins otherwise");
    if (f->h.version == 1)
        return 0;
    if (f->h.version != 2)
        return say(s, ICOTABLE_SLAB_OTHER_VERSION, "%u, at byte 8", (unsigned)f->h.version);
    if (size < HEAD + WHOSE + SUM || !icotable_read_at_(file, &f->w, WHOSE, HEAD) || f->w.length > ICOTABLE_LABEL || size - HEAD - WHOSE - SUM < f->w.length)
        return say(s, ICOTABLE_SLAB_DAMAGED, "its label, at byte %d, and %llu bytes long", HEAD + WHOSE - 4, (ull)size);
    f->energies = HEAD + WHOSE + f->w.length;
    if (!icotable_read_at_(file, f->w.label, f->w.length, HEAD + WHOSE))
        return say_errno(s);
    return fits(&f->w) ? 0 : say(s, ICOTABLE_SLAB_DAMAGED, "its id or label, from byte %d on", HEAD);
}

/* The length, before anything that it decides. */
static uint64_t check_length(icotable_slab *s, uint64_t size, const front *f) {
    uint64_t bytes = size - f->energies - SUM;
    if (bytes % sizeof(double) == 0 && f->h.count == bytes / sizeof(double))
        return 0;
    return say(s, ICOTABLE_SLAB_DAMAGED, "%llu energies by its head, at byte 48, and %llu bytes long", (ull)f->h.count, (ull)size);
}

static void show_id(const uint8_t id[16], char digits[33]) {
    for (int i = 0; i < 16; i++)
        snprintf(digits + 2 * i, 3, "%02x", id[i]);
}

/* Another id or label, with both; 0 where they are the same. */
static uint64_t check_identity(icotable_slab *s, const front *f) {
    char ids[2][33];
    size_t length = strnlen(s->identity.label, ICOTABLE_LABEL);
    if (memcmp(f->w.id, s->identity.id, sizeof f->w.id) == 0 && f->w.length == length && memcmp(f->w.label, s->identity.label, length) == 0)
        return 0;
    show_id(f->w.id, ids[0]);
    show_id(s->identity.id, ids[1]);
    return say(s, ICOTABLE_SLAB_OTHER_IDENTITY, "'%.*s', id %s, and this build is '%.80s', id %s", f->w.length > 80 ? 80 : (int)f->w.length, f->w.label, ids[0],
               s->identity.label, ids[1]);
}

/* The head beside what is asked for, once the checksum says that it is what was written. */
static uint64_t check_head(icotable_slab *s, const front *f) {
    const head *h = &f->h;
    if (h->kind != (s->atom ? 1u : 0u))
        return say(s, ICOTABLE_SLAB_OTHER_BUILD, "it is %s", h->kind == 1 ? "against an atom" : h->kind == 0 ? "of two molecules" : "of no kind that is known");
    uint64_t number = check_identity(s, f);
    if (number != 0)
        return number;
    if (h->build != s->build)
        return say(s, ICOTABLE_SLAB_OTHER_BUILD, "hash %016llX, not %016llX", (ull)h->build, (ull)s->build);
    if (h->ri != s->ri || h->oi != s->oi)
        return say(s, ICOTABLE_SLAB_OTHER_BINS, "slab (%llu, %llu)", (ull)h->ri, (ull)h->oi);
    if (h->level != s->level)
        return say(s, ICOTABLE_SLAB_OTHER_LEVEL, "level %llu", (ull)h->level);
    return h->count == icotable_slab_count(s) ? 0 : say(s, ICOTABLE_SLAB_OTHER_COUNT, "%llu energies, where level %llu has %llu", (ull)h->count, (ull)s->level,
                                                        (ull)icotable_slab_count(s));
}

/* The checksum of all that is before it; the energies go to the list, or past it where they are not as many as it has. */
static uint64_t check_sum(icotable_slab *s, int file, const front *f, double *energies, size_t energies_count) {
    uint8_t part[1 << 14];
    uint32_t wanted;
    uint32_t sum = icotable_crc32_(icotable_crc32_(0, &f->h, HEAD), &f->w, (size_t)f->energies - HEAD);
    uint64_t at = f->energies, end = at + f->h.count * sizeof(double);
    while (at < end) {
        size_t count = end - at < sizeof part ? (size_t)(end - at) : sizeof part;
        uint8_t *to = energies != NULL && f->h.count == energies_count ? (uint8_t *)energies + (at - f->energies) : part;
        if (!icotable_read_at_(file, to, count, at))
            return say_errno(s);
        sum = icotable_crc32_(sum, to, count);
        at += count;
    }
    if (!icotable_read_at_(file, &wanted, SUM, end))
        return say_errno(s);
    return wanted == sum ? 0 : say(s, ICOTABLE_SLAB_DAMAGED, "its checksum, at byte %llu, is %08X, and its bytes give %08X", (ull)end, (unsigned)wanted, (unsigned)sum);
}

/* All but whether it is the slab that was asked for. */
static uint64_t read_open(icotable_slab *s, int file, front *f, double *energies, size_t energies_count) {
    struct stat what;
    if (fstat(file, &what) != 0)
        return say_errno(s);
    if (!S_ISREG(what.st_mode))
        return say(s, ICOTABLE_SLAB_NOT_A_SLAB, "it is no file of bytes");
    uint64_t number = read_front(s, file, (uint64_t)what.st_size, f);
    if (number == 0)
        number = check_length(s, (uint64_t)what.st_size, f);
    return number == 0 ? check_sum(s, file, f, energies, energies_count) : number;
}

static uint64_t read_path(icotable_slab *s, const char *path, front *f, double *energies, size_t energies_count) {
    int file = path == NULL ? -1 : open(path, O_RDONLY | O_CLOEXEC | O_NONBLOCK);
    if (file < 0)
        return path != NULL && errno == ENOENT ? say(s, ICOTABLE_SLAB_ABSENT, "") : say_errno(s);
    uint64_t number = read_open(s, file, f, energies, energies_count);
    close(file);
    return number;
}

uint64_t icotable_slab_read(icotable_slab *s, const char *folder, double *energies, size_t energies_count) {
    front f;
    uint64_t number = check_call(s, energies_count);
    if (number != 0)
        return number;
    char *path = path_of(s, folder);
    number = read_path(s, path, &f, energies, energies_count);
    free(path);
    return number == 0 ? check_head(s, &f) : number;
}

uint64_t icotable_slab_look(icotable_slab *s, const char *path) {
    front f;
    *s = (icotable_slab){0};
    uint64_t number = read_path(s, path, &f, NULL, 0);
    if (number != 0)
        return number;
    *s = (icotable_slab){.atom = f.h.kind == 1, .build = f.h.build, .level = f.h.level, .ri = f.h.ri, .oi = f.h.oi};
    memcpy(s->identity.id, f.w.id, sizeof s->identity.id);
    memcpy(s->identity.label, f.w.label, f.w.length);
    return f.h.kind <= 1 ? 0 : say(s, ICOTABLE_SLAB_OTHER_BUILD, "it is of no kind that is known");
}
