/* The demonstration: builds the table of two small molecules from their energies, slice by slice, writes it, opens it and
 * looks up energies, and with a long-range tail beyond its distances; then the table of one of them against an ion,
 * likewise. It uses the handles, which hold lists, meshes and files. demo FILE ION_FILE writes the tables there; the status
 * is 1 where something is not as it should be. */
#include "environment.h"
#include "icotable_handles.h"
#include "molecules.h"

#include <math.h>
#include <stdio.h>
#include <stdlib.h>
#include <string.h>

enum { TOP = 3, N = 162, N_R = 32, N_OMEGA = 12, ION_TOP = 5, ION_N = 362, ION_SLABS = 48, LOOKUPS = 20000 };

/* The distances go from contact to where the molecules hardly feel each other. */
static const icotable_build_settings settings = {
    .grid = {.rmin = 1, .rmax = 25, .dr = 0.75, .omega_step = 0.5235987755982988, .threshold = 0.5, .beta = BETA}, .top = TOP,
};
static const icotable_build_settings ion_settings = {
    .atom = 1, .grid = {.rmin = 1, .rmax = 25, .dr = 0.5, .threshold = 0.5, .beta = BETA}, .top = ION_TOP,
};

static double distance(const icotable_build_settings *s, uint64_t ri) {
    return s->grid.rmin + (double)ri * s->grid.dr;
}

static void stop(const char *what, uint64_t number, const char *said) {
    fprintf(stderr, "demo: %s was refused with %llu: %s\n", what, (unsigned long long)number, said);
    exit(1);
}

static icotable_build *begun(const icotable_build_settings *s) {
    icotable_fault fault;
    icotable_build *b = icotable_build_begin(s, &fault);
    if (b == NULL)
        stop("a build", fault.number, fault.said);
    return b;
}

static icotable_reader *opened(const char *name) {
    icotable_fault fault;
    icotable_reader *t = icotable_reader_open(name, NULL, &fault);
    if (t == NULL)
        stop("a table", fault.number, fault.said);
    return t;
}

static void set_slab(icotable_build *b, uint64_t level, uint64_t ri, uint64_t oi) {
    static pose turned[2 * N];
    static double energies[N * N];
    uint64_t n, number;
    const double *v = icotable_build_vertices(b, level, &n);
    pair_slab(energies, turned, v, n, distance(&settings, ri), (double)oi * settings.grid.omega_step);
    if ((number = icotable_build_set(b, ri, oi, energies, n * n)) != 0)
        stop("set", number, icotable_build_said(b));
}

/* A slab's row as a letter, as icotable inspect has it: # Repulsive, . Scalar, A, B, .. Mesh interpolated of level 0, 1, .., a, b, .. nearest. */
static int letter(uint64_t kind, uint8_t level) {
    return kind == 0 ? '.' : kind == 1 ? '#' : (kind == 2 ? 'a' : 'A') + level;
}

static void show_slice(const icotable_build *b, uint64_t ri) {
    const uint64_t *words = icotable_build_state(b)->words;
    for (size_t s = ri * N_OMEGA; s < (ri + 1) * N_OMEGA; s++)
        putchar(letter(icotable_word_kind(words[s]), icotable_word_level(words[s])));
}

/* Every slice, from contact outwards: its slabs are set, then it is settled, which may lower the level. */
static void build(icotable_build *b) {
    icotable_progress p = icotable_build_progress(b);
    printf("Meshes of levels 0 to %llu, and a builder of %llu distances by %llu dihedral angles\n", (unsigned long long)p.top, (unsigned long long)p.n_r,
           (unsigned long long)p.n_omega);
    puts("\nslice  distance  level  largest gradient  done  file bytes  slabs (# wall, . one number, A B C D mesh of level 0 to 3, a b c d read at the nearest vertices)");
    for (uint64_t ri = 0; ri < N_R; ri++) {
        uint64_t level = p.level;
        for (uint64_t oi = 0; oi < N_OMEGA; oi++)
            set_slab(b, level, ri, oi);
        icotable_journal_settled s = icotable_build_settle(b, ri);
        if (s.number != 0)
            stop("settle", s.number, icotable_build_said(b));
        p = icotable_build_progress(b);
        printf("%5llu  %8g  %5llu  %16.4g  %3llu%%  %10llu  ", (unsigned long long)ri, distance(&settings, ri), (unsigned long long)level, s.gradient,
               (unsigned long long)(100 * p.settled / p.n_r), (unsigned long long)p.length);
        show_slice(b, ri);
        puts(p.level < level ? "  the level drops" : "");
        fflush(stdout);
    }
}

/* Table and seal. */
static void save(icotable_build *b, const char *name) {
    uint64_t number = icotable_build_write(b, name);
    if (number != 0)
        stop("write", number, icotable_build_said(b));
}

static void show_saved(const icotable_build *b, const char *name) {
    printf("\nWrote %s, %llu bytes, and its seal %s.meta\n", name, (unsigned long long)icotable_build_progress(b).length, name);
}

/* A slice that was settled at a level that has gone is settled again, as by a job that is restarted. */
static int restarted(icotable_build *b, const char *name) {
    const uint64_t *words = icotable_build_state(b)->words;
    uint64_t ri = 0, level = icotable_build_progress(b).level;
    size_t length, again;
    while (ri < N_R && (icotable_word_kind(words[ri * N_OMEGA]) < 2 || icotable_word_level(words[ri * N_OMEGA]) == level))
        ri++;
    icotable_reader *before = opened(name);
    uint64_t number = icotable_build_settle(b, ri).number;
    save(b, name);
    icotable_reader *after = opened(name);
    const uint8_t *old = icotable_reader_file(before, &length), *new = icotable_reader_file(after, &again);
    int same = length == again && length == icotable_build_progress(b).length && memcmp(old, new, length) == 0;
    icotable_reader_close(before);
    icotable_reader_close(after);
    printf("\nA restarted job settles slice %llu again: refused with %llu (%s); the table is %s\n", (unsigned long long)ri, (unsigned long long)number,
           icotable_words(number), same ? "the same, byte for byte" : "ANOTHER ONE");
    return number == ICOTABLE_OTHER_LEVEL && same;
}

/* Numbers from -1 to 1, the same in each run. */
static double drawn(uint64_t *state) {
    *state = *state * 6364136223846793005u + 1442695040888963407u;
    return (double)(*state >> 11) / 4503599627370496.0 - 1;
}

static void direction(uint64_t *state, double v[3]) {
    double squared;
    do {
        squared = 0;
        for (int k = 0; k < 3; k++) {
            v[k] = drawn(state);
            squared += v[k] * v[k];
        }
    } while (squared > 1 || squared < 0.01);
    for (int k = 0; k < 3; k++)
        v[k] /= sqrt(squared);
}

/* What a simulation does: readings at any distance and orientation, here beside the energy worked out directly at the middle
 * of the bins. */
static int look_up(const char *name) {
    icotable_reader *t = opened(name);
    puts("\n distance  dihedral    direct energy     from the table  (kJ/mol)");
    uint64_t state = 1;
    int answered = 0, near = 0, refused = 0;
    for (int i = 0; i < LOOKUPS; i++) {
        double a[3], b[3];
        uint64_t ri = (uint64_t)((drawn(&state) + 1) * 0.5 * N_R), oi = (uint64_t)((drawn(&state) + 1) * 0.5 * N_OMEGA);
        double r = distance(&settings, ri), omega = (double)oi * settings.grid.omega_step;
        direction(&state, a);
        direction(&state, b);
        icotable_value v = icotable_reader_energy(t, r, omega, a[0], a[1], a[2], b[0], b[1], b[2]);
        pose first = first_pose(a), second = second_pose(b, omega);
        double direct = pair_energy(&first, &second, r);
        refused += v.number != 0;
        answered += v.number == 0;
        near += v.number == 0 && fabs(exp(-BETA * v.energy) - exp(-BETA * direct)) < 0.25;
        if (i % (LOOKUPS / 10) == 0)
            printf("%9.3g  %8.4g  %15.5g  %17.5g\n", r, omega, direct, v.energy);
    }
    printf("%d readings, %d refused; the Boltzmann weight is within 0.25 of the direct one in %.1f %%\n", answered + refused, refused, 100.0 * near / LOOKUPS);
    icotable_reader_close(t);
    return refused == 0 && near > LOOKUPS * 9 / 10;
}

/* The same table with a long-range tail, in memory, by the library's own call: within its distances a host takes the reading,
 * beyond them the tail. icotable_build_write_tail would write it to a file. */
static int look_far(const icotable_build *b, const char *name) {
    static const double up[3] = {0, 0, 1};
    const icotable_journal *j = icotable_build_state(b);
    far_field far = far_terms();
    icotable_reader *near = opened(name);
    size_t room = icotable_build_progress(b).length + 12 + 20 * FAR_TERMS;
    uint8_t *file = malloc(room);
    if (file == NULL)
        stop("memory", ICOTABLE_HANDLE_NO_ROOM, icotable_handle_words(ICOTABLE_HANDLE_NO_ROOM));
    icotable_written f = icotable_write_tail(j->builder, ICOTABLE_JOURNAL_LISTS(j), ICOTABLE_MESHES(j->meshes), far.coefficients, FAR_TERMS, far.kappas, FAR_TERMS,
                                             far.powers, FAR_TERMS, &far.factor, 1, file, room);
    if (f.number != 0)
        stop("write with a tail", f.number, icotable_words(f.number));
    icotable_table t = icotable_read(file, f.length);
    printf("\nWith a long-range tail of %llu terms the file has %llu bytes\n\n distance     from the table           the tail  (kJ/mol)\n",
           (unsigned long long)t.terms, (unsigned long long)f.length);
    int good = t.number == 0 && f.length == room;
    for (double r = 23; r < 32; r += 2) {
        icotable_value v = icotable_reader_energy(near, r, 0, up[0], up[1], up[2], up[0], up[1], up[2]);
        icotable_value x = icotable_tail(&t, file, f.length, r);
        double sum = 0;
        for (int i = 0; i < FAR_TERMS; i++)
            sum += far.coefficients[i] * exp(-far.kappas[i] * r) / pow(r, far.powers[i]);
        printf("%9.3g  %17.5g  %17.5g\n", r, v.energy, x.energy);
        good &= v.number == 0 && x.number == 0 && fabs(x.energy - far.factor * sum) < 1e-12 * fabs(x.energy);
    }
    free(file);
    icotable_reader_close(near);
    return good;
}

/* ---- one molecule against an ion */

static void set_ion_slab(icotable_build *b, uint64_t level, uint64_t ri) {
    double energies[ION_N];
    uint64_t n, number;
    const double *v = icotable_build_vertices(b, level, &n);
    ion_slab(energies, v, n, distance(&ion_settings, ri));
    if ((number = icotable_build_set(b, ri, 0, energies, n)) != 0)
        stop("set", number, icotable_build_said(b));
}

static void build_ion(icotable_build *b) {
    const icotable_journal *j = icotable_build_state(b);
    icotable_progress p = icotable_build_progress(b);
    printf("\nThe first molecule against an ion: a builder of %llu distances\n", (unsigned long long)p.n_r);
    puts("\ndistance  level  gradient  slab");
    for (uint64_t ri = 0; ri < ION_SLABS; ri++) {
        uint64_t level = p.level;
        set_ion_slab(b, level, ri);
        icotable_journal_settled s = icotable_build_settle(b, ri);
        if (s.number != 0)
            stop("settle", s.number, icotable_build_said(b));
        p = icotable_build_progress(b);
        printf("%8g  %5llu  %8.4g  %c%s\n", distance(&ion_settings, ri), (unsigned long long)level, s.gradient, letter(j->kinds[ri], j->levels[ri]),
               p.level < level ? "  the level drops" : "");
    }
}

/* Readings of the file, plain and weighted, beside the energy worked out directly. No weighted one is above the plain one
 * but for rounding: none here is the infinite one that docs/GUIDE.md speaks of. */
static int look_up_ion(const icotable_reader *t) {
    puts("\n distance    direct energy     from the table           weighted  (kJ/mol)");
    uint64_t state = 2;
    int near = 0, refused = 0, above = 0;
    for (int i = 0; i < LOOKUPS; i++) {
        double a[3], r = distance(&ion_settings, (uint64_t)((drawn(&state) + 1) * 0.5 * ION_SLABS));
        direction(&state, a);
        icotable_energy v = icotable_reader_atom_energy(t, r, a[0], a[1], a[2]);
        icotable_energy x = icotable_reader_atom_boltzmann(t, r, a[0], a[1], a[2], BETA);
        pose turned = first_pose(a);
        double direct = ion_energy(&turned, r);
        refused += v.number != 0 || x.number != 0;
        above += x.energy > v.energy && x.energy - v.energy > 1e-9 * fabs(v.energy);
        near += fabs(exp(-BETA * v.energy) - exp(-BETA * direct)) < 0.25;
        if (i % (LOOKUPS / 10) == 0)
            printf("%9.3g  %15.5g  %17.5g  %17.5g\n", r, direct, v.energy, x.energy);
    }
    printf("%d readings, %d refused, %d weighted ones above the plain one; the Boltzmann weight is within 0.25 of the direct one in %.1f %%\n", LOOKUPS,
           refused, above, 100.0 * near / LOOKUPS);
    return refused == 0 && above == 0 && near > LOOKUPS * 9 / 10;
}

static int ion(const char *name) {
    icotable_build *b = begun(&ion_settings);
    build_ion(b);
    save(b, name);
    show_saved(b, name);
    icotable_build_close(b);
    icotable_reader *t = opened(name);
    size_t length;
    const uint8_t *file = icotable_reader_file(t, &length);
    uint64_t other = icotable_read(file, length).number;
    printf("The reader for two molecules refuses it with %llu (%s)\n", (unsigned long long)other, icotable_words(other));
    int good = look_up_ion(t);
    icotable_reader_close(t);
    return good && other == ICOTABLE_SECTIONS;
}

int main(int count, char **names) {
    if (count != 3) {
        fprintf(stderr, "usage: demo FILE ION_FILE\n");
        return 2;
    }
    unsigned environment = icotable_float_environment();
    if (environment != 0) {
        fprintf(stderr, "demo: the floating-point environment: %s\n", icotable_float_environment_words(environment));
        return 1;
    }
    icotable_build *b = begun(&settings);
    build(b);
    save(b, names[1]);
    int safe = restarted(b, names[1]);
    show_saved(b, names[1]);
    int good = look_up(names[1]) && look_far(b, names[1]);
    icotable_build_close(b);
    good &= ion(names[2]);
    return !(safe && good);
}
