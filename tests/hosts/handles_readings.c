/* Energies over threads beside single readings, to the bit; rows, calls of the other kind, tails. */
#include "handles_test.h"

#include <math.h>
#include <string.h>

enum { POSES = 3000, THREADS = 7 };

static double drawn(void) {
    static uint64_t state = 3;
    state = state * 6364136223846793005u + 1442695040888963407u;
    return (double)(state >> 11) / 4503599627370496.0 - 1;
}

/* Inside and outside the table, and some that are refused. */
static void draw_poses(double *poses, size_t wide) {
    for (size_t i = 0; i < POSES; i++) {
        poses[wide * i] = 3 + 3 * drawn();
        for (size_t k = 1; k < wide; k++)
            poses[wide * i + k] = 4 * drawn();
        if (i % 50 == 7)
            poses[wide * i + i % wide] = NAN;
    }
}

static void single(const icotable_reader *t, const double *p, const double *beta, uint64_t *number, double *answer) {
    if (icotable_reader_atom(t)) {
        icotable_energy e = beta == NULL ? icotable_reader_atom_energy(t, p[0], p[1], p[2], p[3]) : icotable_reader_atom_boltzmann(t, p[0], p[1], p[2], p[3], *beta);
        *number = e.number;
        *answer = e.energy;
        return;
    }
    icotable_value v = beta == NULL ? icotable_reader_energy(t, p[0], p[1], p[2], p[3], p[4], p[5], p[6], p[7])
                                    : icotable_reader_boltzmann(t, p[0], p[1], p[2], p[3], p[4], p[5], p[6], p[7], *beta);
    *number = v.number;
    answer[0] = v.energy;
    answer[1] = v.distance_a;
    answer[2] = v.distance_b;
}

/* The poses as columns, backwards and at an odd byte, and the first pose over and over: as packed ones, to the bit. */
static void columns(const icotable_reader *t, const double *poses, const double *beta, const uint64_t *wanted_numbers, const double *wanted) {
    static char bytes[8 * POSES * sizeof(double) + 1];
    static double found[POSES], distances[2 * POSES];
    static uint64_t numbers[POSES];
    int atom = icotable_reader_atom(t);
    size_t wide = atom ? 4 : 8, refused = 0, differing = 0;
    ptrdiff_t back = -(ptrdiff_t)(wide * sizeof(double));
    for (size_t i = 0; i < POSES; i++)
        memcpy(bytes + 1 + wide * sizeof(double) * (POSES - 1 - i), poses + wide * i, wide * sizeof(double));
    char *last = bytes + 1 + wide * sizeof(double) * (POSES - 1);
    icotable_columns c = {last, last + 8, last + (atom ? 8 : 16), last + 40, back, back, back, back};
    icotable_columns one = {poses, poses + 1, poses + (atom ? 1 : 2), poses + 5, 0, 0, 0, 0};
    for (size_t i = 0; i < POSES; i++)
        refused += wanted_numbers[i] != 0;
    for (unsigned threads = 0; threads <= THREADS; threads++) {
        memset(numbers, 255, sizeof numbers);
        is("columns", refused, icotable_reader_columns(t, &c, POSES, beta, found, distances, numbers, threads));
        is("their numbers", 0, (uint64_t)memcmp(numbers, wanted_numbers, sizeof numbers) != 0);
        for (size_t i = 0; i < POSES; i++)
            differing += memcmp(found + i, wanted + (atom ? 1 : 3) * i, sizeof *found) != 0 || (!atom && memcmp(distances + 2 * i, wanted + 3 * i + 1, 16) != 0);
    }
    is("their answers", 0, differing);
    is("one pose", wanted_numbers[0] == 0 ? 0 : POSES, icotable_reader_columns(t, &one, POSES, beta, found, NULL, NULL, 1));
    is("one pose", 1, memcmp(found, wanted, sizeof *found) == 0 && memcmp(found, found + 1, (POSES - 1) * sizeof *found) == 0);
    is("no pose", 0, icotable_reader_columns(t, &one, 0, beta, NULL, NULL, NULL, 4));
}

static void many(const char *name, const double *beta) {
    static double poses[8 * POSES], answers[3 * POSES], wanted[3 * POSES];
    static uint64_t numbers[POSES], wanted_numbers[POSES];
    icotable_reader *t = open_reader(at(name), NULL);
    size_t wide = icotable_reader_atom(t) ? 4 : 8, long_ = icotable_reader_atom(t) ? 1 : 3, refused = 0;
    draw_poses(poses, wide);
    for (size_t i = 0; i < POSES; i++) {
        single(t, poses + wide * i, beta, wanted_numbers + i, wanted + long_ * i);
        refused += wanted_numbers[i] != 0;
    }
    is("some poses are refused", 1, refused > 10 && refused < POSES / 10);
    for (unsigned threads = 0; threads <= THREADS; threads++) {
        memset(numbers, 255, sizeof numbers);
        memset(answers, 255, sizeof answers);
        threads_fail_from = threads == 5 ? 1 : -1;
        is("answered", POSES, icotable_reader_energies(t, poses, POSES, beta, numbers, answers, threads));
        is("numbers", 0, (uint64_t)memcmp(numbers, wanted_numbers, sizeof numbers) != 0);
        is("answers", 0, (uint64_t)memcmp(answers, wanted, long_ * POSES * sizeof *answers) != 0);
    }
    threads_fail_from = -1;
    is("none", 0, icotable_reader_energies(t, NULL, 0, beta, NULL, NULL, 4));
    columns(t, poses, beta, wanted_numbers, wanted);
    icotable_reader_close(t);
}

/* A row of the reader beside the builder's. */
static void rows(void) {
    icotable_build_settings s = settings_of(0);
    s.journal = at("pair.journal");
    s.flags = ICOTABLE_JOURNAL_READING;
    icotable_build *b = open_build(icotable_build_resume, &s);
    icotable_reader *t = open_reader(at("pair"), NULL);
    icotable_row row;
    uint64_t offset = 0, kinds = 0;
    for (uint64_t slab = 0; slab < 12; slab++) {
        uint64_t word = icotable_build_state(b)->words[slab], kind = icotable_word_kind(word);
        float scalar;
        uint32_t bits = icotable_word_value(word);
        memcpy(&scalar, &bits, sizeof scalar);
        is("row", 0, icotable_reader_row(t, slab / 3, slab % 3, &row));
        is("row", 1, row.kind == kind && row.level == icotable_word_level(word) && row.scalar == (double)scalar && row.offset == (kind < 2 ? 0 : offset));
        offset += kind < 2 ? 0 : room_of(0, row.level);
        kinds |= (uint64_t)1 << kind;
    }
    is("rows of every kind", 15, kinds);
    is("bin", ICOTABLE_BIN, icotable_reader_row(t, 4, 0, &row));
    is("bin", ICOTABLE_BIN, icotable_reader_row(t, 0, 3, &row));
    is("a build to look at", ICOTABLE_JOURNAL_NOT_OPEN, icotable_build_settle(b, 0).number);
    icotable_build_close(b);
    icotable_reader_close(t);
}

static void other_kind(void) {
    icotable_reader *pair = open_reader(at("pair"), NULL), *atom = open_reader(at("atom"), NULL);
    icotable_row row;
    is("energy", 262, icotable_reader_energy(atom, 1, 0, 1, 0, 0, 1, 0, 0).number);
    is("boltzmann", 262, icotable_reader_boltzmann(atom, 1, 0, 1, 0, 0, 1, 0, 0, 1).number);
    is("tail", 262, icotable_reader_tail(atom, 1).number);
    is("span", 262, icotable_reader_span(atom, 1, 2, 0).number);
    is("atom energy", 262, icotable_reader_atom_energy(pair, 1, 1, 0, 0).number);
    is("atom boltzmann", 262, icotable_reader_atom_boltzmann(pair, 1, 1, 0, 0, 1).number);
    is("an atom's row", 0, icotable_reader_row(atom, 3, 0, &row));
    is("an atom's bin", ICOTABLE_BIN, icotable_reader_row(atom, 0, 1, &row));
    is("query", ICOTABLE_QUERY, icotable_reader_energy(pair, NAN, 0, 1, 0, 0, 1, 0, 0).number);
    is("span", ICOTABLE_SPAN, icotable_reader_span(pair, 3, 2, 0).number);
    is("beta", ICOTABLE_READING_BETA, icotable_reader_atom_boltzmann(atom, 2, 1, 0, 0, -1).number);
    icotable_spanned s = icotable_reader_span(pair, 2, 4, 0);
    is("span", 1, s.number == 0 && s.first == 1 && s.last == 3 && s.smallest < s.largest);
    icotable_reader_close(pair);
    icotable_reader_close(atom);
}

static void tails(void) {
    static const double coefficients[] = {2, -1}, kappas[] = {0.1, 0};
    static const uint32_t powers[] = {1, 6};
    icotable_terms terms = {coefficients, kappas, powers, 2, 3};
    for (int atom = 0; atom < 2; atom++) {
        icotable_build_settings s = settings_of(atom);
        icotable_build *b = open_build(icotable_build_begin, &s);
        while (step(b, atom))
            continue;
        is("a tail", atom ? ICOTABLE_HANDLE_OTHER_KIND : 0, icotable_build_write_tail(b, at("tail"), &terms));
        terms.prefactor = INFINITY;
        is("a term", atom ? ICOTABLE_HANDLE_OTHER_KIND : ICOTABLE_TERM, icotable_build_write_tail(b, at("none"), &terms));
        says("a term", atom ? "no long-range tail" : "a tail of 2 terms", icotable_build_said(b));
        terms.prefactor = 3;
        icotable_build_close(b);
    }
    icotable_reader *t = open_reader(at("tail"), NULL);
    icotable_value v = icotable_reader_tail(t, 7);
    is("the tail", 1, v.number == 0 && fabs(v.energy - 3 * (2 * exp(-0.7) / 7 - pow(7, -6))) < 1e-12);
    is("terms", 2, icotable_reader_table(t)->terms);
    icotable_reader_close(t);
}

void test_readings(void) {
    static const double beta = 0.7;
    many("pair", NULL);
    many("pair", &beta);
    many("atom", NULL);
    many("atom", &beta);
    rows();
    other_kind();
    tails();
}
