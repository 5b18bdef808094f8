/* replay NAME FILE: makes the calls that a data file has through the static libraries, and compares every answer with
 * the stored one. Prints how many agree, by kind. The status is 1 where one differs, which is shown with its line, and
 * 2 where the data cannot be read. */
#include "replay.h"

#include <stdio.h>
#include <stdlib.h>
#include <string.h>

/* How many differences are shown. */
enum { SHOWN = 8 };

/* ---- the data file */

static size_t line_of(const replay *r, size_t at) {
    size_t line = 1;
    for (size_t i = 0; i < at && i < r->count; i++)
        line += r->letters[i] == '\n';
    return line;
}

static size_t letter_of(const replay *r, size_t at) {
    size_t first = at;
    while (first > 0 && r->letters[first - 1] != '\n')
        first--;
    return at - first + 1;
}

void bad_data(const replay *r, const char *why) {
    fflush(stdout);
    fprintf(stderr, "replay: %s, line %zu, letter %zu: %s\n", r->name, line_of(r, r->at), letter_of(r, r->at), why);
    exit(2);
}

uint64_t digits(replay *r, int width) {
    uint64_t n = 0;
    for (int i = 0; i < width; i++) {
        int letter = r->at < r->count ? r->letters[r->at] : 0;
        if (!((letter >= '0' && letter <= '9') || (letter >= 'A' && letter <= 'F')))
            bad_data(r, "a hexadecimal digit should stand here");
        n = 16 * n + (uint64_t)(letter >= 'A' ? letter - 'A' + 10 : letter - '0');
        r->at++;
    }
    return n;
}

uint64_t word(replay *r, int width) {
    uint64_t n = digits(r, width);
    if (r->at >= r->count || (r->letters[r->at] != ' ' && r->letters[r->at] != '\n'))
        bad_data(r, "a blank or the end of the line should stand here");
    r->at++;
    return n;
}

double number(replay *r) {
    uint64_t n = word(r, 16);
    double x;
    memcpy(&x, &n, sizeof x);
    return x;
}

uint64_t bits(double x) {
    uint64_t n = 0x7FF8000000000000;
    if (x == x)
        memcpy(&n, &x, sizeof n);
    return n;
}

size_t lent(replay *r, size_t length) {
    size_t n = word(r, 4);
    return n < length ? n : length;
}

icotable_grid read_grid(replay *r) {
    icotable_grid g;
    g.rmin = number(r);
    g.rmax = number(r);
    g.dr = number(r);
    g.omega_step = number(r);
    g.threshold = number(r);
    g.beta = number(r);
    g.n_r = word(r, 16);
    g.n_omega = word(r, 16);
    return g;
}

void read_entries(replay *r, void *lists, void (*put)(replay *r, void *lists, uint64_t list, size_t place)) {
    uint64_t list = word(r, 2);
    size_t place = word(r, 4), count = word(r, 2);
    for (size_t i = 0; i < count; i++)
        put(r, lists, list, place + i);
}

void end_line(replay *r) {
    if (r->at > 0 && r->letters[r->at - 1] == '\n')
        return;
    while (r->at < r->count && r->letters[r->at] == ' ')
        r->at++;
    if (r->at >= r->count || r->letters[r->at] != '\n')
        bad_data(r, "the line should end here");
    r->at++;
}

bool next_line(replay *r) {
    while (r->at < r->count) {
        size_t i = r->at;
        while (i < r->count && r->letters[i] == ' ')
            i++;
        if (i < r->count && r->letters[i] != '\n' && r->letters[r->at] != '#')
            return true;
        while (i < r->count && r->letters[i] != '\n')
            i++;
        r->at = i < r->count ? i + 1 : i;
    }
    return false;
}

/* ---- what agrees */

/* Whether one more difference is shown; its place stands in front of it. */
static bool shows(replay *r, int kind, size_t at) {
    if (r->shown++ >= SHOWN)
        return false;
    printf("differs: %s, line %zu, letter %zu (%s): ", r->name, line_of(r, at), letter_of(r, at), r->kinds[kind].words);
    return true;
}

bool same(replay *r, int kind, int width, uint64_t ours) {
    size_t at = r->at;
    uint64_t stored = word(r, width);
    if (stored != ours && shows(r, kind, at))
        printf("stored %0*llX, the library's %0*llX\n", width, (unsigned long long)stored, width,
            (unsigned long long)ours);
    return stored == ours;
}

bool holds(replay *r, int kind, bool it, const char *otherwise) {
    if (!it && shows(r, kind, r->at))
        printf("%s\n", otherwise);
    return it;
}

void counted(replay *r, int kind, bool agrees) {
    r->kinds[kind].all++;
    r->kinds[kind].agree += agrees;
}

/* The status: all of it agrees, and there was something. */
static int report(const replay *r) {
    size_t agree = 0, all = 0;
    for (const kind_count *k = r->kinds; k->words != NULL; k++) {
        printf("%s: %zu of %zu agree\n", k->words, k->agree, k->all);
        agree += k->agree;
        all += k->all;
    }
    return agree != all || all == 0 || r->shown != 0;
}

/* ---- the replays */

static kind_count searches[] = {
    {.words = "locator calls"},
    {.words = "entries of their lists"},
    {.words = "find_nearest_vertex"},
    {.words = "locate"},
    {.words = "search without a locator"},
    {0},
};
static kind_count calls[] = {
    {.words = "fresh, accepted"},
    {.words = "fresh, refused"},
    {.words = "set, accepted"},
    {.words = "set, refused"},
    {.words = "settle, accepted"},
    {.words = "settle, refused"},
    {.words = "gradients"},
    {.words = "comparisons"},
    {.words = "levels"},
    {.words = "rows"},
    {.words = "stores"},
    {0},
};
static kind_count readings[] = {
    {.words = "meshes and their locators"},
    {.words = "files read"},
    {.words = "outside the distances, as the Rust"},
    {.words = "Scalar, as the Rust"},
    {.words = "Repulsive, as the Rust"},
    {.words = "Mesh nearest, as the Rust"},
    {.words = "Mesh interpolated, as the Rust"},
    {.words = "energies, damaged or made by a host"},
    {.words = "refused with 18"},
    {.words = "refused with 19"},
    {.words = "refused with 20"},
    {.words = "weighted, as the Rust"},
    {.words = "weighted, refused"},
    {0},
};
static kind_count damaged[] = {
    {.words = "copies to be accepted"},
    {.words = "to be refused by 13"},
    {.words = "by 14"},
    {.words = "by 15"},
    {.words = "by 16"},
    {.words = "by 17"},
    {.words = "by another number"},
    {0},
};
static kind_count damaged_tail[] = {
    {.words = "copies to be accepted"},
    {.words = "to be refused by 13"},
    {.words = "by 14"},
    {.words = "by 15"},
    {.words = "by 16"},
    {.words = "by 17"},
    {.words = "by 23"},
    {.words = "by another number"},
    {0},
};
static kind_count tails[] = {
    {.words = "writes, accepted"},
    {.words = "writes, refused"},
    {.words = "files read, accepted"},
    {.words = "files read, refused"},
    {.words = "tails, as the Rust"},
    {.words = "tails, damaged or of a host's table"},
    {.words = "tails, refused with 18"},
    {.words = "tails, refused with 19"},
    {.words = "powers"},
    {0},
};
static kind_count spans[] = {
    {.words = "accepted"},
    {.words = "accepted, nothing but NaNs"},
    {.words = "refused with 18"},
    {.words = "refused with 26"},
    {.words = "refused with 19"},
    {0},
};
static kind_count sizes[] = {
    {.words = "sizings, accepted"},
    {.words = "stores"},
    {.words = "files"},
    {.words = "numbers by level"},
    {.words = "refused with 1"},
    {.words = "refused with 2"},
    {.words = "refused with 3"},
    {.words = "refused with 4"},
    {.words = "refused with 5"},
    {.words = "refused with 6"},
    {.words = "refused with 7"},
    {0},
};
static kind_count sizes_tail[] = {
    {.words = "sizings, accepted"},
    {.words = "stores"},
    {.words = "files"},
    {.words = "numbers by level"},
    {.words = "refused with 1"},
    {.words = "refused with 2"},
    {.words = "refused with 3"},
    {.words = "refused with 4"},
    {.words = "refused with 5"},
    {.words = "refused with 6"},
    {.words = "refused with 7"},
    {.words = "refused with 23"},
    {0},
};

static const struct {
    const char *name;
    kind_count *kinds;
    void (*run)(replay *);
    bool atom, tail;
} replays[] = {
    {"searches", searches, replay_searches, false, false},
    {"calls", calls, replay_calls, false, false},
    {"calls_atom", calls, replay_calls, true, false},
    {"readings", readings, replay_readings, false, false},
    {"readings_atom", readings, replay_readings, true, false},
    {"damaged", damaged, replay_damaged, false, false},
    {"damaged_atom", damaged, replay_damaged, true, false},
    {"damaged_tail", damaged_tail, replay_damaged, false, true},
    {"tails", tails, replay_tails, false, true},
    {"spans", spans, replay_spans, false, false},
    {"sizes", sizes, replay_sizes, false, false},
    {"sizes_atom", sizes, replay_sizes, true, false},
    {"sizes_tail", sizes_tail, replay_sizes, false, true},
};

static char *letters_of(const char *name, size_t *count) {
    FILE *in = fopen(name, "rb");
    char *letters = NULL;
    size_t room = 0, n = 0;
    *count = 0;
    if (in == NULL)
        return NULL;
    do {
        if (*count == room && (letters = realloc(letters, room = 2 * room + 65536)) == NULL)
            break;
        n = fread(letters + *count, 1, room - *count, in);
        *count += n;
    } while (n > 0);
    bool failed = ferror(in);
    fclose(in);
    return failed ? NULL : letters;
}

int main(int count, char **words) {
    for (size_t i = 0; count == 3 && i < sizeof replays / sizeof replays[0]; i++) {
        if (strcmp(words[1], replays[i].name) != 0)
            continue;
        replay r = {.name = words[2], .atom = replays[i].atom, .tail = replays[i].tail, .kinds = replays[i].kinds};
        r.letters = letters_of(words[2], &r.count);
        if (r.letters == NULL) {
            perror(words[2]);
            return 2;
        }
        replays[i].run(&r);
        free(r.letters);
        return report(&r);
    }
    fputs("usage: replay NAME FILE, the names being\n", stderr);
    for (size_t i = 0; i < sizeof replays / sizeof replays[0]; i++)
        fprintf(stderr, " %s", replays[i].name);
    fputc('\n', stderr);
    return 2;
}
