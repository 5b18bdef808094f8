/* Long-range tails (tests/compare/tail_data.rs writes them). A line is one of these: a reading of the tail with its
 * stored answer; entries of a list; a write with a tail into the file; a file that is read; the count of terms and their
 * start in a table that a host made; a power. The answer to a reading of a file as it was written is that of the Rust's
 * text with document 02's power and E, any other answer is document 02's. */
#include "replay.h"

#include <string.h>

enum { WRITTEN, UNWRITTEN, READ, UNREAD, RUST, DAMAGED, QUERY, ENTRIES, POWERS };

/* A mesh of level 0, a builder of two slabs, and room for the file. */
enum { N = 12, SLABS = 2, STORE = SLABS * N * N, TERMS = 16, FILE_ROOM = 1024 };

typedef struct lists {
    uint8_t file[FILE_ROOM];
    double coefficients[TERMS], kappas[TERMS], prefactor[TERMS];
    uint32_t powers[TERMS];
    double vertices[3 * N], angles[6 * N];
    uint8_t counts[N];
    uint16_t neighbours[6 * N];
    double store[STORE];
    uint64_t words[SLABS];
} lists;

#define MESHES l->vertices, 3 * N, l->counts, N, l->neighbours, 6 * N, l->angles, 6 * N

static void put(replay *r, void *lent_lists, uint64_t list, size_t place) {
    lists *l = lent_lists;
    static const size_t counts[] = {FILE_ROOM, TERMS, TERMS, TERMS, TERMS, 3 * N, N, 6 * N};
    if (list > 7 || place >= counts[list])
        bad_data(r, "there is no such place in a list");
    switch (list) {
    case 0: l->file[place] = (uint8_t)digits(r, 2); break;
    case 1: l->coefficients[place] = number(r); break;
    case 2: l->kappas[place] = number(r); break;
    case 3: l->powers[place] = (uint32_t)word(r, 8); break;
    case 4: l->prefactor[place] = number(r); break;
    case 5: l->vertices[place] = number(r); break;
    case 6: l->counts[place] = (uint8_t)word(r, 2); break;
    case 7: l->neighbours[place] = (uint16_t)word(r, 4); break;
    }
}

/* The builder of each write, and its rows, as fresh leaves them. */
static icotable_builder fresh(replay *r, lists *l) {
    const icotable_grid grid = {.rmin = 2.0, .rmax = 4.0, .dr = 1.0, .omega_step = 6.0, .threshold = 0.1, .beta = 1.0};
    for (int i = 0; i < 6 * N; i++)
        l->angles[i] = 1.0;
    icotable_built b = icotable_fresh(grid, 0, l->store, STORE, l->words, SLABS, MESHES);
    holds(r, WRITTEN, b.number == 0, "the builder is refused");
    return b.builder;
}

static uint64_t stamp(const uint8_t *file) {
    uint64_t h = 1;
    for (int i = 0; i < FILE_ROOM; i++)
        h = (h * 16807 + file[i] + 1) % 2147483647;
    return h;
}

/* Number, length and stamp stand before the number of the question that the builder's side is made to fail, and how
 * much is lent. */
static void replay_write(replay *r, lists *l) {
    size_t answer = r->at;
    int kind = word(r, 2) == 0 ? WRITTEN : UNWRITTEN;
    word(r, 4), word(r, 8);
    uint64_t flaw = word(r, 2);
    size_t n[5], store = STORE;
    for (int k = 0; k < 5; k++)
        n[k] = lent(r, k < 4 ? TERMS : FILE_ROOM);
    size_t end = r->at;
    icotable_builder b = fresh(r, l);
    uint16_t neighbour = l->neighbours[0];
    switch (flaw) {
    case ICOTABLE_SETTINGS: b.grid.dr = -1.0; break;
    case ICOTABLE_LEVEL: b.top = 16; break;
    case ICOTABLE_BIN_COUNT: b.grid.n_r = 7; break;
    case ICOTABLE_SHORT_LIST: store--; break;
    case ICOTABLE_MESH: l->neighbours[0] = N; break;
    case ICOTABLE_ROW: l->words[1] = icotable_word(9, 0, 0); break;
    case 0: break;
    default: bad_data(r, "there is no such flaw");
    }
    icotable_written w = icotable_write_tail(b, l->store, store, l->words, SLABS, MESHES, l->coefficients, n[0],
        l->kappas, n[1], l->powers, n[2], l->prefactor, n[3], l->file, n[4]);
    l->neighbours[0] = neighbour;
    r->at = answer;
    bool agrees = same(r, kind, 2, w.number);
    agrees &= same(r, kind, 4, w.length);
    agrees &= same(r, kind, 8, stamp(l->file));
    counted(r, kind, agrees);
    r->at = end;
}

/* An accepted answer is held. */
static void replay_read(replay *r, const lists *l, icotable_table *held) {
    size_t answer = r->at;
    int kind = word(r, 2) == 0 ? READ : UNREAD;
    word(r, 8), word(r, 8);
    icotable_table t = icotable_read(l->file, lent(r, FILE_ROOM));
    size_t end = r->at;
    r->at = answer;
    bool agrees = same(r, kind, 2, t.number);
    agrees &= same(r, kind, 8, t.terms);
    agrees &= same(r, kind, 8, t.start[5]);
    counted(r, kind, agrees);
    if (t.number == 0)
        *held = t;
    r->at = end;
}

/* Whose answer it is, the number and the energy stand before what is asked. */
static void replay_tail(replay *r, const lists *l, const icotable_table *held) {
    uint64_t whose = word(r, 2);
    size_t answer = r->at;
    uint64_t wanted = word(r, 2);
    int kind = wanted == ICOTABLE_QUERY ? QUERY : wanted == ICOTABLE_NOT_LENT ? ENTRIES : whose == 1 ? RUST : DAMAGED;
    word(r, 16);
    size_t n = lent(r, FILE_ROOM);
    icotable_value v = icotable_tail(held, l->file, n, number(r));
    size_t end = r->at;
    r->at = answer;
    bool agrees = same(r, kind, 2, v.number);
    agrees &= same(r, kind, 16, bits(v.energy));
    agrees &= holds(r, kind, (bits(v.distance_a) | bits(v.distance_b)) == 0, "a distance is shown");
    counted(r, kind, agrees);
    r->at = end;
}

static void replay_power(replay *r) {
    size_t answer = r->at;
    word(r, 16);
    double x = number(r);
    uint32_t n = (uint32_t)word(r, 8);
    size_t end = r->at;
    r->at = answer;
    counted(r, POWERS, same(r, POWERS, 16, bits(icotable_power(x, n))));
    r->at = end;
}

void replay_tails(replay *r) {
    static lists l;
    icotable_table held = {0};
    while (next_line(r)) {
        switch (word(r, 2)) {
        case 1: replay_tail(r, &l, &held); break;
        case 2: read_entries(r, &l, put); break;
        case 3: replay_write(r, &l); break;
        case 4: replay_read(r, &l, &held); break;
        case 5: held.terms = word(r, 16), held.start[5] = word(r, 16); break;
        case 6: replay_power(r); break;
        default: bad_data(r, "there is no such line");
        }
        end_line(r);
    }
}
