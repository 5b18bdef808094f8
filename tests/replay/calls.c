/* Lists of calls of fresh, set and settle (tests/compare/calls.rs writes them). A line is one of these: a call with its
 * stored answer, the level, rows and store after it, and its arguments; entries of a lent list; a builder that is held
 * from there on. The lists and the builder are those that the calls before have left, also refused ones. Lines of calls
 * against an atom are alike; their builder is held here without omega step and dihedral count. Of two molecules a row is
 * a word: the stored kind, level and value are those of the word, and as many words are lent as the shortest of the three
 * lists has entries. */
#include "replay.h"

#include <string.h>

enum { FRESH, SET = 2, SETTLE = 4, GRADIENTS = 6, COMPARISONS, LEVELS, ROWS, STORES };

enum { STORE = 25392, SLABS = 12, N = 146, ENERGIES = 8500 };

/* Letters of a call's stored answer, and where the builder stands in a line. */
enum { ANSWER = 3 + 17 + 17 + 17 + 9 + SLABS * 15, BUILDER = 3 + ANSWER + 8 * 5 };

/* The lists, in the order in which a line says how much of each is lent. */
typedef struct lists {
    double store[STORE];
    uint64_t words[SLABS];               /* of two molecules */
    uint8_t kinds[SLABS], levels[SLABS]; /* against an atom */
    uint32_t values[SLABS];
    double vertices[3 * N];
    uint8_t counts[N];
    uint16_t neighbours[6 * N];
    double angles[6 * N];
} lists;

typedef struct lengths {
    size_t store, words, kinds, levels, values, vertices, counts, neighbours, angles;
} lengths;

/* The three numbers of a row; a word's rest stands above its kind. */
typedef struct row {
    uint64_t kind;
    uint8_t level;
    uint32_t value;
} row;

/* What a call gives, whatever it is. */
typedef struct outcome {
    uint64_t number;
    double gradient;
    uint64_t comparisons;
    icotable_builder builder;
} outcome;

static row row_at(const replay *r, const lists *l, size_t i) {
    uint64_t w = l->words[i];
    if (r->atom)
        return (row){l->kinds[i], l->levels[i], l->values[i]};
    return (row){icotable_word_kind(w), icotable_word_level(w), icotable_word_value(w)};
}

static void put_row(const replay *r, lists *l, size_t i, row x) {
    if (r->atom)
        l->kinds[i] = (uint8_t)x.kind, l->levels[i] = x.level, l->values[i] = x.value;
    else
        l->words[i] = x.kind << 40 | icotable_word(0, x.level, x.value);
}

static size_t least(size_t a, size_t b) {
    return a < b ? a : b;
}

static lengths read_lengths(replay *r) {
    lengths n;
    n.store = lent(r, STORE);
    n.kinds = lent(r, SLABS);
    n.levels = lent(r, SLABS);
    n.values = lent(r, SLABS);
    n.words = least(n.kinds, least(n.levels, n.values));
    n.vertices = lent(r, 3 * N);
    n.counts = lent(r, N);
    n.neighbours = lent(r, 6 * N);
    n.angles = lent(r, 6 * N);
    return n;
}

static icotable_builder read_builder(replay *r) {
    icotable_builder b;
    b.grid = read_grid(r);
    b.top = word(r, 16);
    b.level = word(r, 16);
    b.packed = 0;
    if (r->atom)
        b.grid.omega_step = 0, b.grid.n_omega = 0;
    return b;
}

static icotable_atom_builder to_atom(const icotable_builder *b) {
    const icotable_grid *g = &b->grid;
    return (icotable_atom_builder){{g->rmin, g->rmax, g->dr, g->threshold, g->beta, g->n_r}, b->top, b->level};
}

static icotable_builder of_atom(const icotable_atom_builder *b) {
    const icotable_atom_grid *g = &b->grid;
    return (icotable_builder){{g->rmin, g->rmax, g->dr, 0, g->threshold, g->beta, g->n_r, 0}, b->top, b->level, 0};
}

static bool same_settings(const icotable_grid *g, const icotable_grid *h) {
    return bits(g->rmin) == bits(h->rmin) && bits(g->rmax) == bits(h->rmax) && bits(g->dr) == bits(h->dr) &&
           bits(g->omega_step) == bits(h->omega_step) && bits(g->threshold) == bits(h->threshold) &&
           bits(g->beta) == bits(h->beta);
}

/* All but the level. */
static bool same_table(const icotable_builder *a, const icotable_builder *b) {
    return same_settings(&a->grid, &b->grid) && a->grid.n_r == b->grid.n_r && a->grid.n_omega == b->grid.n_omega &&
           a->top == b->top;
}

/* ---- the energies of a set, by a rule */

/* Energy i is base + step * (x % modulus), x being Park and Miller's minimal standard generator after i + 1 turns. */
static void by_rule(replay *r, double *energies) {
    uint64_t modulus = word(r, 8), x = word(r, 8);
    double base = number(r), step = number(r);
    for (size_t i = 0; i < ENERGIES; i++) {
        x = x % 2147483647 * 16807 % 2147483647;
        energies[i] = base + step * (double)(modulus == 0 ? 0 : x % modulus);
    }
}

/* How many are lent, the rule, and two places with values of their own; FFFF is no place. */
static size_t read_energies(replay *r, double *energies) {
    size_t count = lent(r, ENERGIES);
    by_rule(r, energies);
    for (int k = 0; k < 2; k++) {
        size_t place = word(r, 4);
        double e = number(r);
        if (place < ENERGIES)
            energies[place] = e;
    }
    return count;
}

/* ---- the calls */

#define LISTS l->store, n->store, l->words, n->words
#define ATOM_LISTS l->store, n->store, l->kinds, n->kinds, l->levels, n->levels, l->values, n->values
#define MESH_LISTS \
    l->vertices, n->vertices, l->counts, n->counts, l->neighbours, n->neighbours, l->angles, n->angles

static outcome call_fresh(const replay *r, lists *l, const lengths *n, icotable_builder b) {
    if (r->atom) {
        icotable_atom_built a = icotable_atom_fresh(to_atom(&b).grid, b.top, ATOM_LISTS, MESH_LISTS);
        return (outcome){.number = a.number, .builder = of_atom(&a.builder)};
    }
    icotable_built a = icotable_fresh(b.grid, b.top, LISTS, MESH_LISTS);
    return (outcome){.number = a.number, .builder = a.builder};
}

/* A refused fresh answers zeros, and the builder that was held stays. */
static outcome fresh(
    replay *r, lists *l, const lengths *n, icotable_builder settings, icotable_builder held, bool *right) {
    static const icotable_builder zeros;
    outcome a = call_fresh(r, l, n, settings);
    if (a.number == 0)
        *right = holds(r, FRESH, same_settings(&a.builder.grid, &settings.grid) && a.builder.top == settings.top && a.builder.packed == 0,
            "the builder has other settings, or packed energies");
    else
        *right = holds(r, FRESH + 1, same_table(&a.builder, &zeros) && a.builder.level == 0 && a.builder.packed == 0,
            "a refused fresh does not answer zeros");
    return (outcome){.number = a.number, .builder = a.number == 0 ? a.builder : held};
}

static outcome set(replay *r, lists *l, const lengths *n, icotable_builder held) {
    static double energies[ENERGIES];
    uint64_t ri = word(r, 16), oi = word(r, 16);
    size_t count = read_energies(r, energies);
    if (r->atom) {
        icotable_atom_built a = icotable_atom_set(to_atom(&held), ATOM_LISTS, ri, energies, count);
        return (outcome){.number = a.number, .builder = of_atom(&a.builder)};
    }
    icotable_built a = icotable_set(held, LISTS, ri, oi, energies, count);
    return (outcome){.number = a.number, .builder = a.builder};
}

static outcome settle(replay *r, lists *l, const lengths *n, icotable_builder held) {
    uint64_t ri = word(r, 16);
    if (r->atom) {
        icotable_atom_settled a = icotable_atom_settle(to_atom(&held), ATOM_LISTS, MESH_LISTS, ri);
        return (outcome){a.number, a.gradient, a.comparisons, of_atom(&a.builder)};
    }
    icotable_settled a = icotable_settle(held, LISTS, MESH_LISTS, ri);
    return (outcome){a.number, a.gradient, a.comparisons, a.builder};
}

/* A number that stands for the bits of every energy of the store. */
static uint64_t stamp(const double *store) {
    uint64_t h = 1;
    for (size_t i = 0; i < STORE; i++)
        h = (h * 16807 + bits(store[i]) % 2147483647 + 1) % 2147483647;
    return h;
}

/* Whether a word is as it was, or was replaced by one without a rest; after a refused call it is as it was. */
static bool rest_stays(uint64_t before, uint64_t after, bool refused) {
    return after == before || (!refused && after >> 48 == 0);
}

/* The stored answer: number, level, gradient, comparisons, stamp of the store, and all twelve rows, also those beyond the ones that
 * the table needs. A stored row has no place for the rest of a word. */
static void judge(replay *r, int kind, bool right, const outcome *o, const lists *l, const uint64_t *before) {
    bool agrees = same(r, kind, 2, o->number) && right;
    bool level = same(r, LEVELS, 16, o->builder.level);
    bool gradient = same(r, kind < SETTLE ? kind : GRADIENTS, 16, bits(o->gradient));
    bool comparisons = same(r, kind < SETTLE ? kind : COMPARISONS, 16, o->comparisons);
    counted(r, kind, agrees && (kind == SETTLE || (gradient && comparisons)));
    if (kind == SETTLE)
        counted(r, GRADIENTS, gradient), counted(r, COMPARISONS, comparisons);
    counted(r, LEVELS, level);
    counted(r, STORES, same(r, STORES, 8, stamp(l->store)));
    for (size_t i = 0; i < SLABS; i++) {
        row x = row_at(r, l, i);
        bool agree = same(r, ROWS, 2, x.kind & 0xFF);
        agree &= same(r, ROWS, 2, x.level);
        agree &= same(r, ROWS, 8, x.value);
        agree &= holds(r, ROWS, rest_stays(before[i], l->words[i], o->number != 0), "the rest of a word, or a refused call's word, is another");
        counted(r, ROWS, agree);
    }
}

/* n*n of the level of every Mesh row, also of those beyond the ones that the table needs. */
static uint64_t packed(const replay *r, const lists *l) {
    uint64_t sum = 0;
    for (size_t i = 0; i < SLABS; i++) {
        row x = row_at(r, l, i);
        uint64_t m = (uint64_t)x.level + 1, n = 10 * m * m + 2;
        if (x.kind == 2 || x.kind == 3)
            sum += n * n;
    }
    return sum;
}

/* A call: 1 fresh, 2 set, 3 settle. Its stored answer stands before its arguments. */
static void replay_call(replay *r, uint64_t what, lists *l, icotable_builder *held) {
    size_t answer = r->at;
    int kind = 2 * (int)(what - 1) + (digits(r, 2) != 0);
    r->at = answer + ANSWER;
    lengths n = read_lengths(r);
    icotable_builder given = read_builder(r);
    uint64_t words[SLABS];
    memcpy(words, l->words, sizeof words);
    bool right = true;
    outcome o;
    if (what == 1) {
        o = fresh(r, l, &n, given, *held, &right);
    } else {
        uint64_t before = packed(r, l);
        right = holds(r, kind, same_table(&given, held) && given.level == held->level,
            "the builder that is held is not the stored one");
        o = what == 2 ? set(r, l, &n, *held) : settle(r, l, &n, *held);
        right &= holds(r, kind, same_table(&o.builder, held), "the builder comes back with other settings");
        right &= holds(r, kind, r->atom || o.builder.packed == held->packed + packed(r, l) - before,
            "the packed energies move by another number than the rows'");
    }
    size_t end = r->at;
    r->at = answer;
    judge(r, kind, right, &o, l, words);
    *held = o.builder;
    r->at = end;
}

/* ---- entries */

/* One number of a row: 0 its kind, 1 its level, 2 its value. */
static void put_number(replay *r, lists *l, uint64_t list, size_t place) {
    row x = row_at(r, l, place);
    uint64_t n = word(r, 16);
    if (list == 0)
        x.kind = n;
    else if (list == 1)
        x.level = (uint8_t)n;
    else
        x.value = (uint32_t)n;
    put_row(r, l, place, x);
}

/* Lists 0 kinds, 1 levels, 2 values, 3 vertices, 4 counts, 5 neighbours, 6 angles. */
static void put(replay *r, void *lent_lists, uint64_t list, size_t place) {
    lists *l = lent_lists;
    static const size_t counts[] = {SLABS, SLABS, SLABS, 3 * N, N, 6 * N, 6 * N};
    if (list > 6 || place >= counts[list])
        bad_data(r, "there is no such place in a list");
    switch (list) {
    case 0:
    case 1:
    case 2: put_number(r, l, list, place); break;
    case 3: l->vertices[place] = number(r); break;
    case 4: l->counts[place] = (uint8_t)word(r, 16); break;
    case 5: l->neighbours[place] = (uint16_t)word(r, 16); break;
    case 6: l->angles[place] = number(r); break;
    }
}

/* What the lists hold before the first line. */
static void blank(const replay *r, lists *l) {
    memset(l, 0, sizeof *l);
    for (size_t i = 0; i < STORE; i++)
        l->store[i] = 1.0;
    for (size_t i = 0; i < SLABS; i++)
        put_row(r, l, i, (row){9, 9, 9});
}

void replay_calls(replay *r) {
    static lists l;
    icotable_builder held = {0};
    blank(r, &l);
    while (next_line(r)) {
        size_t start = r->at;
        uint64_t what = word(r, 2);
        if (what >= 1 && what <= 3)
            replay_call(r, what, &l, &held);
        else if (what == 4)
            read_entries(r, &l, put);
        else if (what == 5)
            r->at = start + BUILDER, held = read_builder(r);
        else
            bad_data(r, "there is no such line");
        end_line(r);
    }
}
