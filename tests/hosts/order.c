/* Set calls in any order (docs/PROMISE.md): order SEED LISTS. Lists of calls are drawn at random, with refused calls, settles and
 * writes among them, and no slab is accepted twice in one run of sets. Each list is called again after the same fresh with the
 * sets of every run in another order: each call has to have its partner's answer, with the bytes of a write, and builder, store,
 * rows and file have to end the same. Called a third time, with an earlier set of a slab that its run sets again, all other
 * answers and the end have to be as without it. Last, lists that accept a slab twice are called in two orders, and those that end
 * differently are counted: there the order matters. The status is 1 where an answer or an end differs that should not. */
#include "mesh.h"

#include <math.h>
#include <stdbool.h>
#include <stdio.h>
#include <stdlib.h>
#include <string.h>

enum { TOP = 1, DISTANCES = 4, OMEGAS = 3, SLABS = DISTANCES * OMEGAS, MORE = 3, CALLS = 40, WRITES = 6 };
enum { PER = 42 * 42, STORE = SLABS * PER + MORE, ROWS = SLABS + MORE, ROOM = 256 + 10 * SLABS + 4 * SLABS * PER };

static uint64_t state;

/* splitmix64 */
static uint64_t bits(void) {
    uint64_t z = state += 0x9E3779B97F4A7C15;
    z = (z ^ z >> 30) * 0xBF58476D1CE4E5B9;
    z = (z ^ z >> 27) * 0x94D049BB133111EB;
    return z ^ z >> 31;
}

static uint64_t below(uint64_t n) {
    return bits() % n;
}

/* ---- calls */

typedef enum what { SET, SETTLE, WRITE } what;

typedef struct call {
    what what;
    uint64_t ri, oi;
    size_t count;   /* energies, or bytes of output */
    uint64_t seed;  /* of the energies */
    bool nan;       /* the last energy is one */
} call;

typedef struct answer {
    uint64_t number, length, comparisons;
    double gradient;
} answer;

typedef struct world {
    icotable_builder builder;
    double store[STORE];
    uint64_t words[ROWS];
    uint8_t output[WRITES][ROOM];
    size_t writes;
} world;

static icotable_meshes meshes;
static size_t store_count, rows_count; /* as lent */

#define LISTS(w) (w)->store, store_count, (w)->words, rows_count

/* Flat, nearly flat, rough or a wall, so that every kind of row comes out and levels drop. */
static const double *energies(const call *c) {
    static double list[PER];
    static const double heights[] = {0, 1e-3, 0.05, 3, 1e4};
    uint64_t kept = state;
    state = c->seed;
    double height = heights[below(5)], base = height == 1e4 ? 1000 : (double)below(8);
    for (size_t i = 0; i < c->count; i++)
        list[i] = base + height * (double)below(1000) / 1000;
    if (c->nan)
        list[c->count - 1] = NAN;
    state = kept;
    return list;
}

static answer made(world *w, const call *c) {
    answer a = {0};
    if (c->what == SET) {
        icotable_built built = icotable_set(w->builder, LISTS(w), c->ri, c->oi, energies(c), c->count);
        a.number = built.number;
        w->builder = built.builder;
    } else if (c->what == SETTLE) {
        icotable_settled settled = icotable_settle(w->builder, LISTS(w), ICOTABLE_MESHES(&meshes), c->ri);
        a.number = settled.number;
        a.gradient = settled.gradient;
        a.comparisons = settled.comparisons;
        w->builder = settled.builder;
    } else {
        uint8_t *output = w->output[w->writes++];
        memset(output, 7, ROOM);
        icotable_written written = icotable_write(w->builder, LISTS(w), ICOTABLE_MESHES(&meshes), output, c->count);
        a.number = written.number;
        a.length = written.length;
    }
    return a;
}

/* ---- a list */

typedef struct list {
    icotable_grid grid;
    uint64_t top;
    size_t count;
    call calls[CALLS];
    answer answers[CALLS];
} list;

static world start, first, second;
static uint64_t called, refused, accepted, dropped, moved, files;

static void begin(world *w, const list *l) {
    *w = start;
    w->builder = icotable_fresh(l->grid, l->top, LISTS(w), ICOTABLE_MESHES(&meshes)).builder;
}

/* The same settings for both; now and then ones that fresh refuses. */
static void draw_start(list *l) {
    static const double steps[OMEGAS] = {6, 3, 2}, thresholds[] = {0, 0.1, 1e6};
    uint64_t distances = 1 + below(DISTANCES), omegas = 1 + below(OMEGAS);
    bool wrong = below(20) == 0;
    l->top = below(3) == 0;
    l->grid = (icotable_grid){.rmin = 0, .rmax = wrong && below(2) ? 0 : (double)distances, .dr = 1, .omega_step = steps[omegas - 1], .threshold = thresholds[below(3)], .beta = 1};
    l->grid.n_r = distances;
    l->grid.n_omega = omegas;
    size_t n = icotable_vertices(l->top);
    rows_count = distances * omegas + below(MORE);
    store_count = distances * omegas * n * n + below(MORE);
    if (wrong)
        rows_count = distances * omegas - 1;
    for (size_t i = 0; i < STORE; i++)
        start.store[i] = (double)below(1000);
    for (size_t i = 0; i < ROWS; i++)
        start.words[i] = bits();
}

/* A set of a slab that is not among those set in this run; or, where all are or one in four times, a set that is refused. */
static call drawn_set(const list *l, uint64_t level, bool set[SLABS], bool twice) {
    size_t n = icotable_vertices(level);
    call c = {.what = SET, .ri = below(l->grid.n_r), .oi = below(l->grid.n_omega), .count = n * n, .seed = bits()};
    size_t slab = c.ri * l->grid.n_omega + c.oi;
    if (below(4) != 0 && (twice || !set[slab])) {
        set[slab] = true;
        return c;
    }
    switch (below(4)) {
    case 0:
        c.ri = l->grid.n_r + below(2);
        break;
    case 1:
        c.oi = l->grid.n_omega + below(2);
        break;
    case 2:
        c.count -= 1 + below(2);
        break;
    default:
        c.nan = true;
    }
    return c;
}

/* Draws a list, and calls it in the first world. */
static void draw(list *l, bool twice) {
    bool set[SLABS] = {false};
    draw_start(l);
    begin(&first, l);
    size_t wanted = 1 + below(CALLS - 1);
    for (l->count = 0; l->count < wanted; l->count++) {
        call *c = &l->calls[l->count];
        uint64_t level = first.builder.level, kind = below(8);
        if (kind == 0)
            *c = (call){.what = SETTLE, .ri = below(l->grid.n_r + 1)};
        else if (kind == 1 && first.writes < WRITES - 1)
            *c = (call){.what = WRITE, .count = below(3) == 0 ? 60 : ROOM};
        else
            *c = drawn_set(l, level, set, twice);
        if (c->what != SET)
            memset(set, 0, sizeof set);
        answer a = l->answers[l->count] = made(&first, c);
        called++;
        refused += a.number != 0;
        accepted += a.number == 0 && c->what == SET;
        files += a.number == 0 && c->what == WRITE;
        dropped += first.builder.level != level;
    }
}

/* The calls of each run of sets in any order, as places in the list. */
static void shuffle(const list *l, size_t order[CALLS]) {
    for (size_t i = 0; i < l->count; i++)
        order[i] = i;
    for (size_t from = 0, to; from < l->count; from = to + 1) {
        for (to = from; to < l->count && l->calls[to].what == SET; to++) {
            size_t other = from + below(to - from + 1), kept = order[to];
            order[to] = order[other];
            order[other] = kept;
        }
    }
    for (size_t i = 0; i < l->count; i++)
        moved += order[i] != i;
}

/* The write after the calls, and what both worlds hold then. */
static bool same_end(void) {
    static const call last = {.what = WRITE, .count = ROOM};
    answer a = made(&first, &last), b = made(&second, &last);
    bool same = memcmp(&a, &b, sizeof a) == 0 && memcmp(&first.builder, &second.builder, sizeof first.builder) == 0 && first.writes == second.writes;
    same = same && memcmp(first.store, second.store, sizeof first.store) == 0 && memcmp(first.words, second.words, sizeof first.words) == 0;
    first.writes--;
    second.writes--;
    return same && memcmp(first.output, second.output, (first.writes + 1) * ROOM) == 0;
}

static bool same_answer(const list *l, size_t i, answer a) {
    return memcmp(&l->answers[i], &a, sizeof a) == 0;
}

static bool in_other_order(const list *l) {
    size_t order[CALLS];
    bool same = true;
    shuffle(l, order);
    begin(&second, l);
    for (size_t i = 0; i < l->count; i++)
        same &= same_answer(l, order[i], made(&second, &l->calls[order[i]]));
    return same & same_end();
}

/* An accepted set is preceded, somewhere in its run, by a set of the same slab with other energies. */
static bool with_earlier_set(const list *l) {
    size_t at = below(l->count), from = at;
    bool same = true;
    if (l->calls[at].what != SET || l->answers[at].number != 0)
        return true;
    while (from > 0 && l->calls[from - 1].what == SET)
        from--;
    from += below(at - from + 1);
    call earlier = l->calls[at];
    earlier.seed = bits();
    begin(&second, l);
    for (size_t i = 0; i < l->count; i++) {
        if (i == from)
            same &= made(&second, &earlier).number == 0;
        same &= same_answer(l, i, made(&second, &l->calls[i]));
    }
    return same & same_end();
}

int main(int count, char **words) {
    static list l;
    uint64_t lists = count == 3 ? strtoull(words[2], NULL, 10) : 0, differ = 0, traced = 0, apart = 0;
    if (lists == 0 || icotable_make_meshes(&meshes, TOP) != 0) {
        fprintf(stderr, "usage: order SEED LISTS\n");
        return 2;
    }
    state = strtoull(words[1], NULL, 10);
    for (uint64_t i = 0; i < lists; i++) {
        draw(&l, false);
        differ += !in_other_order(&l);
        traced += !with_earlier_set(&l);
    }
    printf("order: seed %s, %llu lists of %llu calls, %llu refused, %llu sets accepted, %llu files, %llu drops of the level, %llu calls moved: %llu lists differ, %llu with an earlier set\n",
        words[1], (unsigned long long)lists, (unsigned long long)called, (unsigned long long)refused, (unsigned long long)accepted, (unsigned long long)files,
        (unsigned long long)dropped, (unsigned long long)moved, (unsigned long long)differ, (unsigned long long)traced);
    for (uint64_t i = 0; i < lists; i++) {
        draw(&l, true);
        apart += !in_other_order(&l);
    }
    printf("order: where a slab is accepted twice, %s lists end differently\n", apart == 0 ? "no" : "some");
    icotable_free_meshes(&meshes);
    return differ + traced != 0 || apart == 0 || refused == 0 || dropped == 0 || files == 0;
}
