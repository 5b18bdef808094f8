/* Rows in words (docs/SPEC.md, section 25): words SEED ROUNDS. A round is a builder whose words are set, settled and then
 * altered by hand, with a rest, an unknown kind, a level that is not held, or bits in a field that the row does not use;
 * then fresh, set, settle, write and both moves, some with a list too short or a bin that is not there. What each has to
 * answer and leave is worked out here from the words alone, by docs/SPEC.md; every entry of every list is compared, those
 * beyond what is needed and all 64 bits of a word included. Prints how often each case came up. The status is 1 where an
 * answer or a list differs, or where a case never came up. */
#include "mesh.h"

#include <math.h>
#include <stdbool.h>
#include <stdio.h>
#include <stdlib.h>
#include <string.h>

enum { TOP = 1, N = 42, DISTANCES = 3, OMEGAS = 2, SLABS = DISTANCES * OMEGAS, MORE = 3, WORDS = SLABS + MORE, CALLS = 12 };
enum { STORE = SLABS * N * N, ROOM = 100 + 10 * SLABS + 4 * STORE, TAIL = 32, MOVED = 12, LONG = MOVED + MORE };

#define CASES(X) \
    X(FRESH, "fresh, accepted, words beyond as they were") \
    X(FRESH_SHORT, "fresh, 6") \
    X(SET, "set, accepted") \
    X(SET_BESIDE, "set, accepted beside a rest") \
    X(SET_REST, "set, 15 by a rest") \
    X(SET_KIND, "set, 15 by a kind") \
    X(SET_LEVEL, "set, 15 by a level") \
    X(SET_BEFORE, "set over a rest, 6, 8, 9 or 10") \
    X(SETTLE, "settle, accepted") \
    X(SETTLE_BESIDE, "settle, accepted, a rest in another slice") \
    X(SETTLE_REST, "settle, 15 by a rest") \
    X(SETTLE_OTHER, "settle, 15 by a kind or a level") \
    X(SETTLE_BEFORE, "settle of a rest, 6 or 8") \
    X(SETTLE_FIRST, "settle, 15 by a rest before 11") \
    X(SETTLE_ELSEWHERE, "settle, 11") \
    X(REPULSIVE, "row settled as Repulsive") \
    X(SCALAR, "row settled as Scalar") \
    X(NEAREST, "row settled as Mesh nearest") \
    X(STAYS, "Mesh row that stays, with bits that it does not use") \
    X(UNUSED, "Scalar or Repulsive row in a settled slice, with such bits") \
    X(WRITE, "write, accepted") \
    X(WRITE_BEYOND, "write, accepted, a rest beyond the slabs") \
    X(WRITE_REST, "write, 15 by a rest") \
    X(WRITE_OTHER, "write, 15 by a kind or a level") \
    X(WRITE_BEFORE, "write of a rest, 6") \
    X(WRITE_FIRST, "write of a rest, 15 before 12") \
    X(TO_WORDS, "rows to words and back") \
    X(TO_WORDS_SHORT, "rows to words, 6") \
    X(TO_ROWS, "words to rows and back") \
    X(TO_ROWS_BEYOND, "words to rows, a rest beyond those that move") \
    X(TO_ROWS_REST, "words to rows, 15") \
    X(TO_ROWS_BEFORE, "words to rows of a rest, 6")

#define NAMED(name, words) name,
enum { CASES(NAMED) CASE_COUNT };
#undef NAMED
#define NAMED(name, words) words,
static const char *const names[] = {CASES(NAMED)};
#undef NAMED

static uint64_t state, seen[CASE_COUNT], calls, differing;

/* splitmix64 */
static uint64_t bits(void) {
    uint64_t z = state += 0x9E3779B97F4A7C15;
    z = (z ^ z >> 30) * 0xBF58476D1CE4E5B9;
    z = (z ^ z >> 27) * 0x94D049BB133111EB;
    return z ^ z >> 31;
}

static uint64_t below(uint64_t n) {
    return bits() % n;
}

static void came_up(int name, bool so) {
    seen[name] += so;
}

static void expect(const char *what, uint64_t got, uint64_t wanted) {
    calls++;
    if (got == wanted)
        return;
    differing++;
    printf("words: %s: %llu, and it should be %llu\n", what, (unsigned long long)got, (unsigned long long)wanted);
}

/* ---- a word, by arithmetic */

static uint64_t word(uint64_t kind, uint64_t level, uint64_t value) {
    return value + level * 4294967296 + kind * 1099511627776;
}

static uint64_t kind_of(uint64_t w) {
    return w / 1099511627776;
}

static uint64_t level_of(uint64_t w) {
    return w / 4294967296 % 256;
}

static bool rest(uint64_t w) {
    return w / 281474976710656 != 0;
}

static bool is_mesh(uint64_t w) {
    return kind_of(w) == 2 || kind_of(w) == 3;
}

static bool known(uint64_t w, uint64_t top) {
    return kind_of(w) <= 1 || (is_mesh(w) && level_of(w) <= top);
}

static uint64_t vertices_of(uint64_t level) {
    return 10 * (level + 1) * (level + 1) + 2;
}

/* ---- a builder and its lists */

/* what a slab's energies settle as */
typedef enum shape { FLAT, WALL, SMOOTH, ROUGH } shape;

typedef struct world {
    icotable_builder builder;
    double store[STORE];
    uint64_t words[WORDS];
    uint8_t output[ROOM];
    shape shapes[SLABS];
} world;

static icotable_meshes meshes;
static world w, before;
static size_t slabs, words_count;

#define LISTS w.store, STORE, w.words, words_count

/* A list of words that is one short, one time in eight. */
static bool lent(void) {
    bool enough = below(8) != 0;
    words_count = enough ? slabs + below(MORE + 1) : slabs - 1;
    return enough;
}

/* The number that is wanted; where it is not 0, nothing is altered. */
static bool answered(const char *what, uint64_t got, uint64_t wanted) {
    expect(what, got, wanted);
    if (wanted != 0)
        expect("bytes altered by a refused call", memcmp(&w, &before, sizeof w) != 0, 0);
    return got == 0 && wanted == 0;
}

static uint64_t packed(const uint64_t *words) {
    uint64_t sum = 0;
    for (size_t s = 0; s < slabs; s++)
        if (is_mesh(words[s]))
            sum += vertices_of(level_of(words[s])) * vertices_of(level_of(words[s]));
    return sum;
}

static void fresh(void) {
    static const double steps[OMEGAS] = {6, 3};
    uint64_t distances = 1 + below(DISTANCES), omegas = 1 + below(OMEGAS), top = below(TOP + 1);
    icotable_grid g = {.rmin = 0, .rmax = (double)distances, .dr = 1, .omega_step = steps[omegas - 1], .threshold = 0.1, .beta = 1};
    slabs = distances * omegas;
    for (size_t s = 0; s < WORDS; s++)
        w.words[s] = bits();
    bool enough;
    do {
        enough = lent();
        before = w;
        icotable_built b = icotable_fresh(g, top, LISTS, ICOTABLE_MESHES(&meshes));
        if (answered("fresh", b.number, enough ? 0 : 6))
            w.builder = b.builder;
        came_up(enough ? FRESH : FRESH_SHORT, true);
    } while (!enough);
    for (size_t s = 0; s < WORDS; s++)
        expect("word after fresh", w.words[s], s < slabs ? 0 : before.words[s]);
    memset(w.shapes, 0, sizeof w.shapes);
}

static const double *energies(shape k, size_t count) {
    static double list[N * N + 1];
    static const double all[] = {3, 10, 0, 0}, first[] = {3, 10, 0.05, 1000};
    for (size_t i = 0; i < count; i++)
        list[i] = i == 0 ? first[k] : all[k];
    return list;
}

static void set(void) {
    icotable_grid g = w.builder.grid;
    uint64_t ri = below(g.n_r), oi = below(g.n_omega), level = w.builder.level, n = vertices_of(level), s = ri * g.n_omega + oi;
    shape k = (shape)below(4);
    double *list = (double *)energies(k, n * n);
    bool enough = lent();
    uint64_t wrong = below(12), old = w.words[s];
    if (wrong == 0)
        list[below(n * n)] = NAN;
    size_t count = n * n - (wrong == 1);
    uint64_t bin = wrong == 2 ? g.n_r : ri;
    uint64_t wanted = !enough ? 6 : wrong == 2 ? 8 : wrong == 1 ? 9 : wrong == 0 ? 10 : known(old, w.builder.top) ? 0 : 15;
    before = w;
    icotable_built b = icotable_set(w.builder, LISTS, bin, oi, list, count);
    w.builder = b.builder;
    if (answered("set", b.number, wanted)) {
        w.shapes[s] = k;
        for (size_t i = 0; i < WORDS; i++)
            expect("word after set", w.words[i], i == s ? word(3, level, 0) : before.words[i]);
        expect("packed energies that set adds", w.builder.packed - before.builder.packed, packed(w.words) - packed(before.words));
        came_up(SET, true);
        came_up(SET_BESIDE, g.n_omega == 2 && rest(w.words[s ^ 1]));
    }
    came_up(SET_REST, wanted == 15 && rest(old));
    came_up(SET_KIND, wanted == 15 && !rest(old) && !is_mesh(old));
    came_up(SET_LEVEL, wanted == 15 && is_mesh(old));
    came_up(SET_BEFORE, rest(old) && wanted >= 6 && wanted <= 10);
}

/* What a word of the settled slice becomes: one that stays keeps all its bits. */
static uint64_t settled_word(uint64_t old, shape k, uint64_t level) {
    if (!is_mesh(old)) {
        came_up(UNUSED, level_of(old) != 0);
        return old;
    }
    switch (k) {
    case FLAT:
        came_up(SCALAR, true);
        return word(0, 0, 0x40400000);
    case WALL:
        came_up(REPULSIVE, true);
        return word(1, 0, 0);
    case SMOOTH:
        came_up(NEAREST, true);
        return word(2, level, 0);
    default:
        came_up(STAYS, old % 4294967296 != 0);
        return old;
    }
}

static uint64_t settle_number(uint64_t first, uint64_t behind) {
    uint64_t number = 0;
    for (uint64_t s = first; s < behind; s++)
        if (is_mesh(w.words[s]) && level_of(w.words[s]) != w.builder.level)
            number = 11;
    for (uint64_t s = first; s < behind; s++)
        if (!known(w.words[s], w.builder.top)) {
            came_up(SETTLE_FIRST, number == 11 && rest(w.words[s]));
            return 15;
        }
    return number;
}

static void settle(void) {
    icotable_grid g = w.builder.grid;
    uint64_t ri = below(g.n_r), first = ri * g.n_omega, behind = first + g.n_omega, rests = 0, all = 0, level = w.builder.level;
    bool enough = lent(), beyond = below(12) == 0;
    for (uint64_t s = 0; s < slabs; s++) {
        all += rest(w.words[s]);
        rests += s >= first && s < behind && rest(w.words[s]);
    }
    uint64_t wanted = !enough ? 6 : beyond ? 8 : settle_number(first, behind);
    before = w;
    icotable_settled a = icotable_settle(w.builder, LISTS, ICOTABLE_MESHES(&meshes), beyond ? g.n_r : ri);
    w.builder = a.builder;
    if (answered("settle", a.number, wanted)) {
        for (uint64_t s = 0; s < WORDS; s++) {
            uint64_t old = before.words[s];
            expect("word after settle", w.words[s], s < first || s >= behind ? old : settled_word(old, w.shapes[s], level));
        }
        expect("packed energies that settle adds", w.builder.packed - before.builder.packed, packed(w.words) - packed(before.words));
        came_up(SETTLE, true);
        came_up(SETTLE_BESIDE, all > 0);
    }
    came_up(SETTLE_REST, wanted == 15 && rests > 0);
    came_up(SETTLE_OTHER, wanted == 15 && rests == 0);
    came_up(SETTLE_BEFORE, rests > 0 && (wanted == 6 || wanted == 8));
    came_up(SETTLE_ELSEWHERE, wanted == 11);
}

/* ---- write */

static uint64_t number_at(const uint8_t *at) {
    return at[0] + at[1] * 256u + at[2] * 65536u + (uint64_t)at[3] * 16777216;
}

/* The rows of the file, by docs/FORMAT.md: fields that a row does not use are as unused. */
static void written_rows(void) {
    const uint8_t *row = w.output + 48 + 4 * (w.builder.top + 1);
    uint64_t offset = 0;
    for (size_t s = 0; s < slabs; s++, row += 10) {
        uint64_t old = w.words[s], kind = kind_of(old), value = old % 4294967296, mesh = is_mesh(old);
        bool nan = value % 2147483648 > 0x7F800000;
        expect("kind of a written row", row[0], kind);
        expect("its level", row[1], mesh ? level_of(old) : 0);
        expect("its offset", number_at(row + 2), mesh ? offset : UINT32_MAX);
        expect("its scalar", number_at(row + 6), kind != 0 ? 0 : nan ? 0x7FC00000 : value);
        offset += mesh ? vertices_of(level_of(old)) * vertices_of(level_of(old)) : 0;
    }
}

static void write_table(void) {
    static const double one[1] = {1};
    static const uint32_t power[1] = {6};
    size_t terms = below(2), length = 52 + 4 * (w.builder.top + 1) + 10 * slabs + 4 * packed(w.words) + TAIL * terms, rests = 0, unknown = 0;
    bool enough = lent(), room = below(4) != 0 && length <= ROOM;
    size_t count = room ? length + below(ROOM - length + 1) : below(100);
    for (size_t s = 0; s < slabs; s++) {
        rests += rest(w.words[s]);
        unknown += !known(w.words[s], w.builder.top);
    }
    uint64_t wanted = !enough ? 6 : unknown > 0 ? 15 : count < length ? 12 : 0;
    memset(w.output, 7, sizeof w.output);
    before = w;
    icotable_written a = icotable_write_tail(w.builder, LISTS, ICOTABLE_MESHES(&meshes), one, terms, one, 1, power, 1, one, 1, w.output, count);
    if (terms == 0) {
        icotable_written b = icotable_write(w.builder, LISTS, ICOTABLE_MESHES(&meshes), w.output, count);
        expect("write's number and write_tail's without terms", b.number, a.number);
    }
    if (answered("write", a.number, wanted)) {
        expect("length of the file", a.length, length);
        expect("words altered by write", memcmp(w.words, before.words, sizeof w.words) != 0, 0);
        expect("bytes behind the file", memcmp(w.output + length, before.output + length, ROOM - length) != 0, 0);
        written_rows();
        came_up(WRITE, true);
        came_up(WRITE_BEYOND, words_count > slabs && rest(w.words[slabs]));
    }
    came_up(WRITE_REST, wanted == 15 && rests > 0);
    came_up(WRITE_OTHER, wanted == 15 && rests == 0);
    came_up(WRITE_BEFORE, wanted == 6 && rests > 0);
    came_up(WRITE_FIRST, wanted == 15 && rests > 0 && count < 60);
}

/* A word is altered by hand, or put right again. */
static void alter(void) {
    size_t s = below(slabs);
    uint64_t old = w.words[s], level = level_of(old), value = old % 4294967296;
    if (!known(old, w.builder.top)) {
        w.words[s] = word(0, 0, 0), w.shapes[s] = FLAT;
        return;
    }
    switch (below(5)) {
    case 0:
    case 1:
        w.words[s] = old + (1 + below(65535)) * 281474976710656;
        break;
    case 2:
        w.words[s] = word(4 + below(252), level, value);
        break;
    case 3:
        if (is_mesh(old))
            w.words[s] = word(kind_of(old), w.builder.top + 1 + below(200), value);
        break;
    default:
        w.words[s] = is_mesh(old) ? word(kind_of(old), level, below(4294967296)) : word(kind_of(old), below(256), kind_of(old) ? below(4294967296) : value);
    }
}

/* ---- the moves */

typedef struct lists {
    uint64_t words[LONG];
    uint8_t kinds[LONG], levels[LONG];
    uint32_t values[LONG];
} lists;

static void draw_lists(lists *l) {
    for (size_t i = 0; i < LONG; i++) {
        l->words[i] = below(8) == 0 ? bits() : bits() >> 16;
        l->kinds[i] = (uint8_t)bits();
        l->levels[i] = (uint8_t)bits();
        l->values[i] = (uint32_t)bits();
    }
}

/* The lengths of words, kinds, levels and values: each enough, but now and then one is short. */
static bool draw_counts(uint64_t rows, size_t count[4]) {
    for (size_t k = 0; k < 4; k++)
        count[k] = rows + below(MORE + 1);
    if (rows == 0 || below(4) != 0)
        return true;
    count[below(4)] = below(rows);
    return false;
}

static uint64_t moved_to_words(uint64_t rows, lists *l, const size_t c[4]) {
    return icotable_rows_to_words(rows, l->kinds, c[1], l->levels, c[2], l->values, c[3], l->words, c[0]);
}

static uint64_t moved_to_rows(uint64_t rows, lists *l, const size_t c[4]) {
    return icotable_words_to_rows(rows, l->words, c[0], l->kinds, c[1], l->levels, c[2], l->values, c[3]);
}

static void same_lists(const char *what, const lists *got, const lists *wanted) {
    for (size_t i = 0; i < LONG; i++) {
        expect(what, got->words[i], wanted->words[i]);
        expect(what, got->kinds[i], wanted->kinds[i]);
        expect(what, got->levels[i], wanted->levels[i]);
        expect(what, got->values[i], wanted->values[i]);
    }
}

static void rows_to_words(void) {
    static lists l, wanted, back;
    size_t c[4];
    uint64_t rows = below(MOVED + 1);
    draw_lists(&l);
    bool enough = draw_counts(rows, c);
    wanted = l;
    for (size_t i = 0; enough && i < rows; i++)
        wanted.words[i] = word(l.kinds[i], l.levels[i], l.values[i]);
    expect("rows to words", moved_to_words(rows, &l, c), enough ? 0 : 6);
    same_lists("after rows to words", &l, &wanted);
    came_up(TO_WORDS_SHORT, !enough);
    if (!enough)
        return;
    back = l;
    memset(back.kinds, 0, rows), memset(back.levels, 0, rows), memset(back.values, 0, rows * sizeof *back.values);
    expect("these words to rows", moved_to_rows(rows, &back, c), 0);
    same_lists("rows that were words", &back, &l);
    came_up(TO_WORDS, rows > 0);
}

static void words_to_rows(void) {
    static lists l, wanted, back;
    size_t c[4], rests = 0, all = 0;
    uint64_t rows = below(MOVED + 1);
    draw_lists(&l);
    bool enough = draw_counts(rows, c);
    for (size_t i = 0; i < c[0]; i++)
        all += rest(l.words[i]), rests += i < rows && rest(l.words[i]);
    wanted = l;
    for (size_t i = 0; enough && rests == 0 && i < rows; i++) {
        wanted.kinds[i] = (uint8_t)kind_of(l.words[i]);
        wanted.levels[i] = (uint8_t)level_of(l.words[i]);
        wanted.values[i] = (uint32_t)(l.words[i] % 4294967296);
    }
    expect("words to rows", moved_to_rows(rows, &l, c), !enough ? 6 : rests > 0 ? 15 : 0);
    same_lists("after words to rows", &l, &wanted);
    came_up(TO_ROWS_BEFORE, !enough && rests > 0);
    came_up(TO_ROWS_REST, enough && rests > 0);
    if (!enough || rests > 0)
        return;
    back = l;
    memset(back.words, 0, rows * sizeof *back.words);
    expect("these rows to words", moved_to_words(rows, &back, c), 0);
    same_lists("words that were rows", &back, &l);
    came_up(TO_ROWS, rows > 0);
    came_up(TO_ROWS_BEYOND, all > 0);
}

int main(int count, char **arguments) {
    static void (*const call[])(void) = {set, set, settle, write_table, alter};
    uint64_t rounds = count == 3 ? strtoull(arguments[2], NULL, 10) : 0, never = 0;
    if (rounds == 0 || icotable_make_meshes(&meshes, TOP) != 0) {
        fprintf(stderr, "usage: words SEED ROUNDS\n");
        return 2;
    }
    state = strtoull(arguments[1], NULL, 10);
    for (uint64_t i = 0; i < rounds && differing < 20; i++) {
        fresh();
        for (int k = 0; k < CALLS; k++)
            call[below(5)]();
        rows_to_words();
        words_to_rows();
    }
    for (int k = 0; k < CASE_COUNT; k++) {
        printf("words: %s: %llu\n", names[k], (unsigned long long)seen[k]);
        never += seen[k] == 0;
    }
    printf("words: seed %s, %llu rounds, %llu answers and entries, %llu differ; %llu of %d cases never came up\n", arguments[1], (unsigned long long)rounds,
           (unsigned long long)calls, (unsigned long long)differing, (unsigned long long)never, CASE_COUNT);
    icotable_free_meshes(&meshes);
    return differing + never != 0;
}
