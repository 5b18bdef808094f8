#include "icotable_seal.h"

#include "journal_head.h"
#include "support.h"

#include <errno.h>
#include <inttypes.h>
#include <locale.h>
#include <math.h>
#include <stdio.h>
#include <stdlib.h>
#include <string.h>

enum { MOST = 2048 + ICOTABLE_LABEL, VALUE = 80 + ICOTABLE_LABEL, DIGITS = 64 };
static const char FIRST[] = "icotable seal ", LAST[] = "checksum ";

const char *icotable_seal_words(uint64_t number) {
    switch (number) {
#define ICOTABLE_SEAL_REFUSAL_(number, name, words) \
    case number: \
        return words;
        ICOTABLE_SEAL_REFUSALS(ICOTABLE_SEAL_REFUSAL_)
#undef ICOTABLE_SEAL_REFUSAL_
    default:
        return icotable_words(number);
    }
}

#define REFUSE(fault, name, ...) icotable_fault_(fault, ICOTABLE_SEAL_##name, icotable_seal_words(ICOTABLE_SEAL_##name), __VA_ARGS__)

/* ---- the lines of a seal, in their order; those of a dihedral angle are left out against an atom, and the last ones of version 1 */

enum type { WORD, NUMBER, COUNT, HASH, KIND, OWN, KNOWN, ID };
static const char *const knowns[] = {"unknown", "yes", "no"};

typedef struct field {
    const char *name;
    enum type type;
    size_t at, room; /* where in the struct, and of a word how many bytes */
    bool pair;
} field;

#define AT(member) offsetof(icotable_seal, member)
static const field fields[] = {
    {"version", WORD, AT(version), 32, false},
    {"kind", KIND, AT(atom), 0, false},
    {"length", COUNT, AT(table_length), 0, false},
    {"sha256", WORD, AT(sha256), 65, false},
    {"rmin", NUMBER, AT(grid.rmin), 0, false},
    {"rmax", NUMBER, AT(grid.rmax), 0, false},
    {"dr", NUMBER, AT(grid.dr), 0, false},
    {"omega_step", NUMBER, AT(grid.omega_step), 0, true},
    {"threshold", NUMBER, AT(grid.threshold), 0, false},
    {"beta", NUMBER, AT(grid.beta), 0, false},
    {"n_r", COUNT, AT(grid.n_r), 0, false},
    {"n_omega", COUNT, AT(grid.n_omega), 0, true},
    {"top", COUNT, AT(top), 0, false},
    {"levels", COUNT, AT(levels), 0, false},
    {"meshes", HASH, AT(meshes_hash), 0, false},
    {"own_meshes", OWN, AT(own_meshes), 0, false},
    {"journal", WORD, AT(journal_sha256), 65, false},
    {"guarded", KNOWN, AT(guarded), 0, false},
    {"whole", KNOWN, AT(whole), 0, false},
    {"id", ID, AT(identity.id), 0, false},
    {"label", WORD, AT(identity.label), ICOTABLE_LABEL + 1, false},
};
enum { FIELDS_1 = 17 };
enum { FIELDS = sizeof fields / sizeof fields[0] };

static const char UNKNOWN[] = "unknown";

/* A value in letters. A journal that is not there is "none"; a number that is not known, a NaN, is "unknown". */
static void show(char *to, size_t room, const icotable_seal *s, const field *f) {
    const char *from = (const char *)s + f->at;
    double number;
    uint64_t count;
    int yes;
    if (f->type == WORD) {
        bool none = f->at == AT(journal_sha256) && !s->journaled;
        snprintf(to, room, "%.*s", (int)f->room - 1, none ? "none" : from);
    } else if (f->type == NUMBER) {
        memcpy(&number, from, sizeof number);
        snprintf(to, room, isnan(number) ? UNKNOWN : "%.17g", number);
    } else if (f->type == COUNT || f->type == HASH) {
        memcpy(&count, from, sizeof count);
        snprintf(to, room, f->type == HASH ? "%016" PRIX64 : "%" PRIu64, count);
    } else if (f->type == ID) {
        for (int i = 0; i < 16; i++)
            snprintf(to + 2 * i, 3, "%02x", (unsigned)(uint8_t)from[i]);
    } else {
        memcpy(&yes, from, sizeof yes);
        snprintf(to, room, "%s", f->type == KNOWN ? knowns[yes] : f->type == KIND ? (yes ? "atom" : "molecules") : yes ? "yes" : "no");
    }
}

/* A value from its letters, which may be anything; what it is not taken for is found by showing it again. */
static void take(icotable_seal *s, const field *f, const char *value) {
    char *to = (char *)s + f->at;
    if (f->type == WORD) {
        snprintf(to, f->room, "%s", value);
    } else if (f->type == NUMBER) {
        double number = strcmp(value, UNKNOWN) == 0 ? NAN : strtod(value, NULL);
        memcpy(to, &number, sizeof number);
    } else if (f->type == COUNT || f->type == HASH) {
        uint64_t count = strtoull(value, NULL, f->type == HASH ? 16 : 10);
        memcpy(to, &count, sizeof count);
    } else if (f->type == ID) {
        for (int i = 0; i < 16 && strlen(value) == 32; i++) {
            unsigned byte = 0;
            sscanf(value + 2 * i, "%2x", &byte);
            to[i] = (char)byte;
        }
    } else {
        int yes = f->type == KNOWN ? 2 * (strcmp(value, "no") == 0) : 0;
        yes += strcmp(value, f->type == KIND ? "atom" : "yes") == 0;
        memcpy(to, &yes, sizeof yes);
    }
}

static bool left_out(const icotable_seal *s, const field *f) {
    return (f->pair && s->atom) || (f >= fields + FIELDS_1 && s->format == 1);
}

/* The whole seal. */
static size_t text_of(const icotable_seal *s, char text[MOST]) {
    size_t at = (size_t)snprintf(text, MOST, "%s%d\n", FIRST, s->format == 1 ? 1 : 2);
    for (size_t i = 0; i < FIELDS; i++) {
        char value[VALUE];
        if (left_out(s, &fields[i]))
            continue;
        show(value, sizeof value, s, &fields[i]);
        at += (size_t)snprintf(text + at, MOST - at, "%s %s\n", fields[i].name, value);
    }
    unsigned sum = icotable_crc32_(0, text, at);
    return at + (size_t)snprintf(text + at, MOST - at, "%s%08X\n", LAST, sum);
}

/* ---- what a value has to be */

static bool one_word(const char *word, size_t room) {
    size_t length = strnlen(word, room);
    return length > 0 && length < room && strspn(word, "0123456789.abcdefghijklmnopqrstuvwxyz+-") == length;
}

static bool hexadecimal(const char word[65]) {
    return one_word(word, 65) && strspn(word, "0123456789abcdef") == DIGITS;
}

static bool either(int yes) {
    return yes == 0 || yes == 1;
}

/* Why no seal of a build is like this; NULL where it may be one. */
static const char *unfit(const icotable_seal *s) {
    const icotable_grid *g = &s->grid;
    double numbers[] = {g->rmin, g->rmax, g->dr, g->omega_step, g->threshold, g->beta};
    for (size_t i = 0; i < sizeof numbers / sizeof numbers[0]; i++)
        if (!isfinite(numbers[i]) && !(i >= 4 && isnan(numbers[i]) && s->format != 1))
            return "a setting that is not finite";
    if (!one_word(s->version, sizeof s->version))
        return "a version that is not one word of small letters, digits and points";
    if (!hexadecimal(s->sha256))
        return "a SHA-256 of the table that is not 64 hexadecimal digits";
    if (s->top > 15 || s->levels < 1 || s->levels > 16)
        return "a top level above 15, or a count of levels that is not 1 to 16";
    if (!either(s->atom) || !either(s->own_meshes) || !either(s->journaled) || s->guarded > ICOTABLE_NO || s->whole > ICOTABLE_NO)
        return "a yes or no that is neither";
    if (!icotable_label_fits_(s->identity.label))
        return "a label that is not UTF-8 of at most 4,096 bytes without control characters";
    return s->journaled && !hexadecimal(s->journal_sha256) ? "a SHA-256 of the journal that is not 64 hexadecimal digits" : NULL;
}

/* ---- text to a seal */

/* The next line without its end, or NULL; line ends are replaced by 0. */
static char *next_line(char **at) {
    char *line = *at, *end = strchr(line, '\n');
    if (end == NULL)
        return NULL;
    *end = 0;
    *at = end + 1;
    return line;
}

static uint64_t take_lines(icotable_seal *s, char *at, icotable_fault *fault) {
    unsigned number = 2;
    for (size_t i = 0; i < FIELDS; i++) {
        const field *f = &fields[i];
        if (left_out(s, f))
            continue;
        size_t length = strlen(f->name);
        char *line = next_line(&at);
        if (line == NULL || strncmp(line, f->name, length) != 0 || line[length] != ' ')
            return REFUSE(fault, DAMAGED, "line %u is not its '%s'", number, f->name);
        take(s, f, line + length + 1);
        number++;
    }
    s->journaled = strcmp(s->journal_sha256, "none") != 0;
    if (!s->journaled)
        memset(s->journal_sha256, 0, sizeof s->journal_sha256);
    if (s->atom)
        s->grid.n_omega = 1;
    return 0;
}

static unsigned line_of(const char *text, size_t at) {
    unsigned line = 1;
    for (size_t i = 0; i < at; i++)
        line += text[i] == '\n';
    return line;
}

/* First line and checksum. The text ends with a 0. */
static uint64_t check_text(const char *text, size_t count, icotable_fault *fault) {
    size_t first = strlen(FIRST), last = strlen(LAST) + 9;
    char sum[10];
    if (strncmp(text, FIRST, first) != 0 || strlen(text) != count)
        return REFUSE(fault, NOT_A_SEAL, "%s", strlen(text) != count ? "it is not a text" : "it begins otherwise");
    if (strncmp(text + first, "1\n", 2) != 0 && strncmp(text + first, "2\n", 2) != 0)
        return REFUSE(fault, OTHER_VERSION, "%.*s", (int)strcspn(text + first, "\n"), text + first);
    if (count < first + last || strncmp(text + count - last, LAST, strlen(LAST)) != 0)
        return REFUSE(fault, DAMAGED, "it does not end with its checksum");
    snprintf(sum, sizeof sum, "%08X\n", (unsigned)icotable_crc32_(0, text, count - last));
    if (memcmp(sum, text + count - 9, 9) != 0)
        return REFUSE(fault, DAMAGED, "its checksum is %.8s, where its lines give %.8s", text + count - 9, sum);
    return 0;
}

/* A seal that is shown again has to have the same letters: one seal has one text, and every line counts. */
static uint64_t seal_of(icotable_seal *s, const char *text, size_t count, icotable_fault *fault) {
    char lines[MOST], again[MOST];
    *s = (icotable_seal){0};
    uint64_t number = check_text(text, count, fault);
    if (number != 0)
        return number;
    memcpy(lines, text, count + 1);
    s->format = text[strlen(FIRST)] == '1' ? 1 : 2;
    number = take_lines(s, lines + strlen(FIRST) + 2, fault);
    if (number != 0)
        return number;
    size_t length = text_of(s, again), same = 0;
    while (same < count && same < length && text[same] == again[same])
        same++;
    if (same < count || same < length)
        return REFUSE(fault, DAMAGED, "line %u is not as this library writes it", line_of(text, same));
    const char *why = unfit(s);
    return why == NULL ? icotable_accepted_(fault) : REFUSE(fault, DAMAGED, "%s", why);
}

/* ---- files. A number has a point in it, whatever the program's locale. */

typedef struct point {
    locale_t plain, before;
} point;

static bool begin_point(point *p) {
    p->plain = newlocale(LC_ALL_MASK, "C", (locale_t)0);
    if (p->plain == (locale_t)0)
        return false;
    p->before = uselocale(p->plain);
    return true;
}

static void end_point(point *p) {
    uselocale(p->before);
    freelocale(p->plain);
}

static uint64_t no_room(icotable_fault *fault) {
    return REFUSE(fault, TROUBLE, "%s", strerror(ENOMEM));
}

uint64_t icotable_seal_write(const icotable_seal *s, const char *table_path, icotable_fault *fault) {
    char text[MOST];
    point p;
    const char *why = unfit(s);
    if (why != NULL)
        return REFUSE(fault, NOT_SEALED, "%s", why);
    char *path = icotable_beside_(table_path, ".meta");
    if (path == NULL || !begin_point(&p)) {
        free(path);
        return no_room(fault);
    }
    size_t count = text_of(s, text);
    end_point(&p);
    bool written = icotable_write_file_(path, text, count, true);
    uint64_t number = written ? icotable_accepted_(fault) : REFUSE(fault, TROUBLE, "%s: %s", path, strerror(errno));
    free(path);
    return number;
}

/* The seal's letters and a 0 behind them. */
static uint64_t read_text(const char *path, char text[MOST], size_t *count, icotable_fault *fault) {
    uint8_t *bytes = icotable_read_file_(path, MOST - 1, count);
    if (bytes == NULL && errno == ENOENT)
        return REFUSE(fault, ABSENT, "%s", path);
    if (bytes == NULL && (errno == EFBIG || errno == EINVAL))
        return REFUSE(fault, NOT_A_SEAL, "%s is %s", path, errno == EFBIG ? "longer than any" : "not a file");
    if (bytes == NULL)
        return REFUSE(fault, TROUBLE, "%s: %s", path, strerror(errno));
    memcpy(text, bytes, *count);
    text[*count] = 0;
    free(bytes);
    return 0;
}

uint64_t icotable_seal_read(icotable_seal *s, const char *table_path, icotable_fault *fault) {
    char text[MOST];
    size_t count = 0;
    point p;
    *s = (icotable_seal){0};
    char *path = icotable_beside_(table_path, ".meta");
    if (path == NULL)
        return no_room(fault);
    uint64_t number = read_text(path, text, &count, fault);
    free(path);
    if (number != 0)
        return number;
    if (!begin_point(&p))
        return no_room(fault);
    number = seal_of(s, text, count, fault);
    end_point(&p);
    if (number != 0)
        *s = (icotable_seal){0};
    return number;
}

uint64_t icotable_seal_check(const icotable_seal *s, const uint8_t *file, size_t length, icotable_fault *fault) {
    char sha256[65];
    if (length != s->table_length)
        return REFUSE(fault, OTHER_TABLE, "%zu bytes, and %" PRIu64 " were sealed", length, s->table_length);
    icotable_sha256_(file, length, sha256);
    if (strcmp(sha256, s->sha256) != 0)
        return REFUSE(fault, OTHER_TABLE, "its SHA-256 is %s, and %s was sealed", sha256, s->sha256);
    return icotable_accepted_(fault);
}
