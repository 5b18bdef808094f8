/* Where a distance lies, beside what readings and spans answer there; and levels that are lost inside the wall. */
#include "handles_test.h"

#include <math.h>
#include <stdio.h>

static const double up[3] = {0, 0, 1};

/* A span from r to r is refused with 26 where r is outside, and with 18 where it is a NaN; a reading is then 0, or
 * refused. */
static void place(const icotable_reader *t, double r, enum icotable_place wanted) {
    uint8_t many[2] = {9, 9};
    icotable_value v = icotable_reader_energy(t, r, 0, up[0], up[1], up[2], up[0], up[1], up[2]);
    icotable_reader_places(t, &r, 1, many);
    is("place", wanted, icotable_reader_place(t, r));
    is("places", wanted, many[0]);
    is("places", 9, many[1]);
    is("span", wanted == ICOTABLE_NOWHERE ? 18 : wanted == ICOTABLE_INSIDE ? 0 : 26,
       icotable_reader_span(t, r, r, 0).number);
    is("reading", wanted == ICOTABLE_NOWHERE ? 18 : 0, v.number);
    is("reading outside", 0, wanted != ICOTABLE_INSIDE && v.energy != 0);
}

static void places(void) {
    icotable_reader *t = open_reader(at("pair"), NULL);
    place(t, -INFINITY, ICOTABLE_NEARER);
    place(t, nextafter(1, 0), ICOTABLE_NEARER);
    place(t, 1, ICOTABLE_INSIDE);
    place(t, 5, ICOTABLE_INSIDE);
    place(t, nextafter(5, 6), ICOTABLE_BEYOND);
    place(t, INFINITY, ICOTABLE_BEYOND);
    place(t, NAN, ICOTABLE_NOWHERE);
    place(t, -NAN, ICOTABLE_NOWHERE);
    is("no table", ICOTABLE_NOWHERE, icotable_reader_place(NULL, 2));
    icotable_reader_close(t);
}

/* Against an atom there is no span: the demonstration of outside is that no energy of this table reads 0. */
static void atom_places(void) {
    icotable_reader *t = open_reader(at("atom"), NULL);
    for (double r = 0.25; r < 7; r += 0.25) {
        icotable_energy e = icotable_reader_atom_energy(t, r, up[0], up[1], up[2]);
        enum icotable_place p = icotable_reader_place(t, r);
        is("against an atom", e.energy == 0, p != ICOTABLE_INSIDE);
        is("nearer", r < 1, p == ICOTABLE_NEARER);
    }
    is("a NaN", ICOTABLE_NOWHERE, icotable_reader_place(t, NAN));
    icotable_reader_close(t);
}

/* Grids whose last distance is rounded: on both sides of it, as a span has it. */
static void rounded_places(void) {
    static const enum icotable_place of[] = {[0] = ICOTABLE_INSIDE, [26] = ICOTABLE_BEYOND};
    icotable_build_settings s = settings_of(0);
    s.flags = ICOTABLE_JOURNAL_UNGUARDED;
    for (int i = 0; i < 20; i++) {
        s.grid.rmin = 0.1 * i;
        s.grid.dr = 0.1 + 0.01 * i;
        s.grid.rmax = s.grid.rmin + 7 * s.grid.dr;
        icotable_build *b = open_build(icotable_build_begin, &s);
        is("write", 0, icotable_build_write(b, at("rounded")));
        icotable_build_close(b);
        icotable_reader *t = open_reader(at("rounded"), NULL);
        double r = s.grid.rmax - 4e-16;
        for (int k = 0; k < 12; k++, r = nextafter(r, 10))
            is("at the end", of[icotable_reader_span(t, r, r, 0).number], icotable_reader_place(t, r));
        icotable_reader_close(t);
    }
}

/* ---- levels that are lost */

/* A slice of a story: # a wall, ~ one whose weights are flat, n likewise and read at the nearest vertices, w a well, s
 * a smooth one, 0 nothing. */
static void sample_slice(char kind, size_t count) {
    for (size_t i = 0; i < count; i++)
        energies[i] = kind == 'w' ? 0.5 * (double)(i % 7) : kind == 's' ? 0.05 * (double)(i % 2)
                      : kind == '0' ? 0 : 1e6;
    energies[0] = kind == '~' ? 9 : kind == 'n' ? 2.5 : energies[0];
}

static void settle_slice(icotable_build *b, int atom, uint64_t ri, char kind) {
    size_t count = room_of(atom, icotable_build_progress(b).level);
    sample_slice(kind, count);
    for (uint64_t oi = 0; oi < icotable_build_progress(b).n_omega; oi++)
        is("set", 0, icotable_build_set(b, ri, oi, energies, count));
    is("settle", 0, icotable_build_settle(b, ri).number);
}

/* lost: after each slice, 1 where the level is lost. The table and the journal stay in the folder, by this name. */
static void story(int atom, const char *slices, const char *lost, const char *name) {
    char journal[100], table[100];
    snprintf(journal, sizeof journal, "%s%s.journal", name, atom ? "_atom" : "");
    snprintf(table, sizeof table, "%s%s.icotable", name, atom ? "_atom" : "");
    icotable_build_settings s = settings_of(atom);
    s.journal = at(journal);
    icotable_build *b = open_build(icotable_build_begin, &s);
    is("before", 0, (uint64_t)icotable_build_progress(b).level_lost);
    for (uint64_t ri = 0; ri < 4; ri++) {
        settle_slice(b, atom, ri, slices[ri]);
        is(slices, (uint64_t)(lost[ri] - '0'), (uint64_t)icotable_build_progress(b).level_lost);
    }
    is("write", 0, icotable_build_write(b, at(table)));
    icotable_build_close(b);
}

void test_places(void) {
    places();
    atom_places();
    rounded_places();
    for (int atom = 0; atom < 2; atom++) {
        story(atom, "~w00", "1111", "lost");
        story(atom, "#w00", "0000", "sound");
        story(atom, "nw00", "0111", "nearest");
        story(atom, "#s00", "0000", "smooth");
        story(atom, "s#00", "0000", "far");
        story(atom, "~s00", "1111", "coarse");
        story(atom, "~000", "1110", "flat");
        story(atom, "0w00", "0111", "late");
    }
}
