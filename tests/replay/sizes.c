/* Sizings of builds (tests/sizes/make writes them): neighbour counts and neighbours of levels 0 to 2, then a line for each
 * sizing with its answer, the settings and top level, how much is lent of both lists, an entry of each that is altered, and
 * in sizes_tail the number of terms. */
#include "replay.h"

#include <string.h>

enum { SIZINGS, STORES, FILES, LEVELS, REFUSED };

enum { N = 12 + 42 + 92, NO_PLACE = 0xFFFF };

typedef struct links {
    uint8_t counts[N];
    uint16_t neighbours[6 * N];
} links;

static icotable_size sized(
    const replay *r, icotable_grid g, uint64_t top, const links *l, size_t counts, size_t neighbours, uint64_t terms) {
    icotable_atom_grid atom = {.rmin = g.rmin, .rmax = g.rmax, .dr = g.dr, .threshold = g.threshold, .beta = g.beta, .n_r = g.n_r};
    return r->atom ? icotable_atom_sizing(atom, top, l->counts, counts, l->neighbours, neighbours)
                   : icotable_sizing(g, top, l->counts, counts, l->neighbours, neighbours, terms);
}

static uint64_t stamp(const icotable_size *s) {
    const uint64_t *const lists[] = {s->cell_offsets, s->cell_vertices, s->face_offsets, s->faces, s->comparisons};
    uint64_t h = 1;
    for (int list = 0; list < 5; list++)
        for (int m = 0; m < 16; m++)
            h = (h * 16807 + lists[list][m] % 2147483647 + 1) % 2147483647;
    return h;
}

/* An entry that is altered, by place and value. */
static size_t place(replay *r, size_t length) {
    size_t at = word(r, 4);
    if (at >= length && at != NO_PLACE)
        bad_data(r, "a place beyond the list");
    return at;
}

static void one(replay *r, const links *whole) {
    links l = *whole;
    size_t answer = r->at;
    uint64_t wanted = word(r, 2);
    if (wanted > ICOTABLE_MESH && (wanted != ICOTABLE_TERM || !r->tail))
        bad_data(r, "a number that no sizing answers");
    word(r, 16), word(r, 16), word(r, 8);
    /* whatever counts are handed in */
    icotable_grid g = {.n_r = 77, .n_omega = 77};
    double *const settings[] = {&g.rmin, &g.rmax, &g.dr, &g.omega_step, &g.threshold, &g.beta};
    for (int i = 0; i < 6; i++)
        *settings[i] = number(r);
    uint64_t top = word(r, 4);
    size_t counts = lent(r, N), neighbours = lent(r, 6 * N);
    size_t at = place(r, N);
    uint8_t count = (uint8_t)word(r, 2);
    if (at != NO_PLACE)
        l.counts[at] = count;
    at = place(r, 6 * N);
    uint16_t neighbour = (uint16_t)word(r, 4);
    if (at != NO_PLACE)
        l.neighbours[at] = neighbour;
    uint64_t terms = r->tail ? word(r, 16) : 0;
    size_t end = r->at;
    icotable_size s = sized(r, g, top, &l, counts, neighbours, terms);
    r->at = answer;
    if (wanted != 0) {
        int kind = REFUSED + (int)(wanted <= ICOTABLE_MESH ? wanted : ICOTABLE_MESH + 1) - 1;
        icotable_size none = {.number = s.number};
        bool agrees = holds(r, kind, s.number == 0 || memcmp(&s, &none, sizeof none) == 0, "a refused sizing is not 0 but for its number");
        agrees &= same(r, kind, 2, s.number);
        counted(r, kind, agrees);
    } else {
        counted(r, SIZINGS, same(r, SIZINGS, 2, s.number));
        counted(r, STORES, same(r, STORES, 16, s.store));
        counted(r, FILES, same(r, FILES, 16, s.file));
        counted(r, LEVELS, same(r, LEVELS, 8, stamp(&s)));
    }
    r->at = end;
}

void replay_sizes(replay *r) {
    static links whole;
    for (size_t i = 0; i < N; i++)
        whole.counts[i] = (uint8_t)digits(r, 2);
    end_line(r);
    for (size_t i = 0; i < 6 * N; i++)
        whole.neighbours[i] = (uint16_t)digits(r, 4);
    end_line(r);
    while (next_line(r)) {
        one(r, &whole);
        end_line(r);
    }
}
