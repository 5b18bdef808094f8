/* Every number that a call can be refused with, each given by an example, 1 to 21 by one against an atom, 1 to 7 and 23 by a
 * sizing, those of a search without a locator, and those of moving rows to words and back:
 * writes docs/REFUSALS.md, and the status is 1 where an example gives another number. The table has two distances, two
 * dihedral bins and two levels; that against an atom has two distances and two levels. */
#include "mesh.h"

#include <math.h>
#include <stdio.h>
#include <stdlib.h>
#include <string.h>

enum { TOP_LEVEL = 1, N = 42, PER = N * N, SLABS = 4, ROOM = 30000, STORE = SLABS * PER };

static const icotable_grid settings = {.rmin = 0, .rmax = 2, .dr = 1, .omega_step = 3, .threshold = 0.1, .beta = 1};

static icotable_meshes held;
static double store[STORE], energies[PER];
static uint64_t words[SLABS];
static uint8_t file[ROOM];

static icotable_built fresh(icotable_grid grid, uint64_t top, size_t store_count) {
    return icotable_fresh(grid, top, store, store_count, words, SLABS, ICOTABLE_MESHES(&held));
}

static uint64_t fresh_with(icotable_grid grid, uint64_t top) {
    return fresh(grid, top, STORE).number;
}

static icotable_built set(icotable_builder b, uint64_t ri, uint64_t oi, size_t count) {
    return icotable_set(b, store, STORE, words, SLABS, ri, oi, energies, count);
}

static icotable_settled settle(icotable_builder b, uint64_t ri) {
    return icotable_settle(b, store, STORE, words, SLABS, ICOTABLE_MESHES(&held), ri);
}

static icotable_written write_to(icotable_builder b, size_t room) {
    return icotable_write(b, store, STORE, words, SLABS, ICOTABLE_MESHES(&held), file, room);
}

/* A builder whose first slab holds energies: zeros but for one of 0.05. */
static icotable_builder begun(void) {
    memset(energies, 0, sizeof energies);
    energies[100] = 0.05;
    return set(fresh(settings, TOP_LEVEL, STORE).builder, 0, 0, PER).builder;
}

/* The length of that builder's file, which stands in `file`: items of rows from byte 56, the energies' from byte 100. */
static size_t whole_file(void) {
    return write_to(begun(), ROOM).length;
}

static uint64_t read_with(size_t at, uint8_t byte) {
    size_t length = whole_file();
    file[at] = byte;
    return icotable_read(file, length).number;
}

static uint64_t reading(icotable_table t, const icotable_meshes *m, double x) {
    return icotable_reading(&t, file, ROOM, ICOTABLE_LOCATORS(m), 0, 0, x, 0, 0, 0, 0, 1).number;
}

static uint64_t settings_wrong(void) {
    icotable_grid g = settings;
    g.dr = 0;
    return fresh_with(g, TOP_LEVEL);
}

static uint64_t level_above(void) {
    return fresh_with(settings, 16);
}

static uint64_t no_bin(void) {
    icotable_grid g = settings;
    g.rmax = 0.4;
    return fresh_with(g, TOP_LEVEL);
}

static uint64_t other_count(void) {
    icotable_grid g = settings;
    g.rmax = 1.79e308;
    g.dr = 1.1e308;
    return fresh_with(g, TOP_LEVEL);
}

static uint64_t too_many(void) {
    icotable_grid g = settings;
    g.rmax = 655;
    g.omega_step = 6;
    return fresh_with(g, 15);
}

static uint64_t short_list(void) {
    return fresh(settings, TOP_LEVEL, STORE - 1).number;
}

static uint64_t mesh_broken(void) {
    double kept = held.vertices[0];
    held.vertices[0] = INFINITY;
    uint64_t number = fresh_with(settings, TOP_LEVEL);
    held.vertices[0] = kept;
    return number;
}

static uint64_t bin_beyond(void) {
    return set(begun(), 2, 0, PER).number;
}

static uint64_t few_energies(void) {
    return set(begun(), 0, 0, 144).number;
}

static uint64_t nan_energy(void) {
    icotable_builder b = begun();
    energies[7] = NAN;
    return set(b, 0, 1, PER).number;
}

static uint64_t settled_twice(void) {
    icotable_settled first = settle(begun(), 0);
    return first.number != 0 || first.builder.level != 0 ? 100 : settle(first.builder, 0).number;
}

static uint64_t short_output(void) {
    return write_to(begun(), 1000).number;
}

static uint64_t cut_off(void) {
    return icotable_read(file, whole_file() - 1).number;
}

static uint64_t file_grid(void) {
    return read_with(36, 3); /* dihedral bins */
}

static uint64_t unknown_kind(void) {
    icotable_builder b = begun();
    words[0] = icotable_word(4, 0, 0);
    if (set(b, 0, 0, PER).number != ICOTABLE_ROW)
        return 100;
    words[0] = (uint64_t)1 << 48;
    return settle(b, 0).number != ICOTABLE_ROW ? 100 : read_with(56, 4);
}

static uint64_t wrong_offset(void) {
    return read_with(58, 1);
}

static uint64_t file_nan(void) {
    size_t length = whole_file();
    memset(file + 100, 0xFF, 4);
    return icotable_read(file, length).number;
}

static uint64_t no_direction(void) {
    return reading(icotable_read(file, whole_file()), &held, 0);
}

static uint64_t no_rows(void) {
    icotable_table t = icotable_read(file, whole_file());
    t.rows = 0;
    return reading(t, &held, 1);
}

/* A reading over vertices that are all 0: these keep the mesh rule, and lie in no cell of a direction but one. */
static uint64_t over_flat(uint64_t (*read_over)(const icotable_meshes *m)) {
    icotable_meshes flat;
    uint64_t number = icotable_make_meshes(&flat, TOP_LEVEL);
    memset(flat.vertices, 0, flat.vertices_count * sizeof *flat.vertices);
    size_t at = 3 * 12, cells = icotable_cells(0);
    if (number == 0)
        number = icotable_locator(1, flat.vertices + at, 3 * N, flat.neighbour_counts + 12, N, flat.neighbours + 6 * 12, 6 * N, flat.angles + 6 * 12, 6 * N,
                                  flat.cell_offsets + cells, icotable_cells(1), flat.cell_vertices + 27 * 12, 27 * N, flat.face_offsets + 13, N + 1,
                                  flat.faces + 45 * 12, 45 * N);
    if (number == 0)
        number = read_over(&flat);
    icotable_free_meshes(&flat);
    return number;
}

static uint64_t reading_over(const icotable_meshes *m) {
    return reading(icotable_read(file, whole_file()), m, 1);
}

static uint64_t empty_cell(void) {
    return over_flat(reading_over);
}

/* Asked whatever the row is, and before the distance: 9 is outside the table. */
static uint64_t no_beta(void) {
    icotable_table t = icotable_read(file, whole_file());
    return icotable_boltzmann(&t, file, ROOM, ICOTABLE_LOCATORS(&held), 9, 0, 1, 0, 0, 0, 0, 1, 0).number;
}

static const double coefficients[] = {-1.5, 2}, kappas[] = {0, 0.25}, prefactor[] = {4};

static uint64_t write_terms(const uint32_t powers[2], size_t prefactors) {
    return icotable_write_tail(begun(), store, STORE, words, SLABS, ICOTABLE_MESHES(&held), coefficients, 2, kappas, 2, powers, 2,
                               prefactor, prefactors, file, ROOM).number;
}

static uint64_t no_prefactor(void) {
    static const uint32_t powers[] = {6, 1};
    return write_terms(powers, 0);
}

static uint64_t large_power(void) {
    static const uint32_t powers[] = {6, 2147483648};
    return write_terms(powers, 1);
}

/* An empty table of one slab and five levels, by hand. */
static uint64_t five_levels(void) {
    static const uint8_t head[] = {3, 0, 0, 0, 0, 0, 0, 0, 0, 0, 0, 0, 0, 0, 0, 0, 0, 0, 0xF0, 0x3F, 0, 0, 0, 0, 0, 0, 0x18, 0x40,
                                   2, 0, 0, 0, 1, 0, 0, 0, 1, 0, 0, 0, 5, 0, 0, 0};
    static const uint8_t row[] = {1, 0, 0, 0, 0, 0, 0xFF, 0xFF, 0xFF, 0xFF, 0, 0, 0, 0, 0, 0, 0, 0};
    memcpy(file, head, sizeof head);
    for (size_t m = 0; m < 5; m++) {
        uint8_t n[4] = {(uint8_t)icotable_vertices(m), 0, 0, 0};
        memcpy(file + sizeof head + 4 * m, n, 4);
    }
    memcpy(file + sizeof head + 20, row, sizeof row);
    size_t length = sizeof head + 20 + sizeof row;
    return icotable_read(file, length).number != 0 ? 100 : icotable_view(file, length).number;
}

/* The one Mesh row of the file has 1764 energies, and so has section 5. */
static uint64_t place_beyond(void) {
    static uint8_t packed[sizeof file];
    size_t length = whole_file();
    file[58] = 1;
    return icotable_repack(file, length, packed, sizeof packed).number;
}

/* The table's own rmax is 2, and 2.5 is above it. */
static uint64_t span_beyond(void) {
    icotable_table t = icotable_read(file, whole_file());
    return icotable_span(&t, file, ROOM, 0.5, 2.5, 0).number;
}

/* ---- against an atom */

enum { ATOM_SLABS = 2, ATOM_STORE = ATOM_SLABS * N };

static uint8_t kinds[ATOM_SLABS], levels[ATOM_SLABS];
static uint32_t values[ATOM_SLABS];

static const icotable_atom_grid atom_settings = {.rmin = 0, .rmax = 2, .dr = 1, .threshold = 0.1, .beta = 1};

#define ATOM_ROWS kinds, ATOM_SLABS, levels, ATOM_SLABS, values, ATOM_SLABS

static icotable_atom_built atom_fresh(icotable_atom_grid grid, uint64_t top) {
    return icotable_atom_fresh(grid, top, store, ATOM_STORE, ATOM_ROWS, ICOTABLE_MESHES(&held));
}

static icotable_atom_built atom_set(icotable_atom_builder b, uint64_t ri, size_t count) {
    return icotable_atom_set(b, store, ATOM_STORE, ATOM_ROWS, ri, energies, count);
}

static icotable_atom_settled atom_settle(icotable_atom_builder b, uint64_t ri) {
    return icotable_atom_settle(b, store, ATOM_STORE, ATOM_ROWS, ICOTABLE_MESHES(&held), ri);
}

static icotable_written atom_write(icotable_atom_builder b, size_t room) {
    return icotable_atom_write(b, store, ATOM_STORE, ATOM_ROWS, ICOTABLE_MESHES(&held), file, room);
}

/* The first distance holds energies: zeros but for one of 0.05. */
static icotable_atom_builder atom_begun(void) {
    memset(energies, 0, sizeof energies);
    energies[10] = 0.05;
    return atom_set(atom_fresh(atom_settings, TOP_LEVEL).builder, 0, N).builder;
}

/* Its file: items of rows from byte 44, the energies' from byte 68. */
static size_t atom_file(void) {
    return atom_write(atom_begun(), ROOM).length;
}

static uint64_t atom_read_with(size_t at, uint8_t byte) {
    size_t length = atom_file();
    file[at] = byte;
    return icotable_atom_read(file, length).number;
}

static uint64_t atom_reading(icotable_atom_table t, const icotable_meshes *m, double r, double x) {
    return icotable_atom_reading(&t, file, ROOM, ICOTABLE_LOCATORS(m), r, x, 0, 0).number;
}

static uint64_t atom_settings_wrong(void) {
    icotable_atom_grid g = atom_settings;
    g.threshold = -1;
    return atom_fresh(g, TOP_LEVEL).number;
}

static uint64_t atom_level_above(void) {
    icotable_atom_builder b = atom_begun();
    b.level = 2;
    return atom_set(b, 0, N).number;
}

static uint64_t atom_many_bins(void) {
    icotable_atom_grid g = atom_settings;
    g.rmax = 65536;
    return atom_fresh(g, TOP_LEVEL).number;
}

static uint64_t atom_other_count(void) {
    icotable_atom_grid g = atom_settings;
    g.rmax = 1.79e308;
    g.dr = 1.1e308;
    return atom_fresh(g, TOP_LEVEL).number;
}

/* The most energies that the other questions let through: the next question, 6, is the one that is answered no. */
static uint64_t atom_most(void) {
    icotable_atom_grid g = atom_settings;
    g.rmax = 65535;
    return atom_fresh(g, 15).number;
}

static uint64_t atom_short_list(void) {
    return icotable_atom_set(atom_begun(), store, ATOM_STORE, kinds, ATOM_SLABS, levels, ATOM_SLABS, values, 1, 0, energies, N).number;
}

static uint64_t atom_mesh_broken(void) {
    icotable_atom_builder b = atom_begun();
    uint8_t kept = held.neighbour_counts[3];
    held.neighbour_counts[3] = 4;
    uint64_t number = atom_settle(b, 0).number;
    held.neighbour_counts[3] = kept;
    return number;
}

static uint64_t atom_bin_beyond(void) {
    return atom_settle(atom_begun(), 2).number;
}

static uint64_t atom_pairs(void) {
    return atom_set(atom_begun(), 1, PER).number;
}

static uint64_t atom_nan_energy(void) {
    icotable_atom_builder b = atom_begun();
    energies[7] = NAN;
    return atom_set(b, 1, N).number;
}

static uint64_t atom_settled_twice(void) {
    icotable_atom_settled first = atom_settle(atom_begun(), 0);
    return first.number != 0 || first.builder.level != 0 ? 100 : atom_settle(first.builder, 0).number;
}

static uint64_t atom_short_output(void) {
    return atom_write(atom_begun(), 235).number;
}

static uint64_t atom_other_kind(void) {
    return icotable_atom_read(file, whole_file()).number;
}

static uint64_t atom_file_grid(void) {
    return atom_read_with(24, 3); /* distance bins */
}

static uint64_t atom_unknown_kind(void) {
    icotable_atom_builder b = atom_begun();
    kinds[0] = 4;
    return atom_settle(b, 0).number;
}

static uint64_t atom_wrong_offset(void) {
    return atom_read_with(46, N);
}

static uint64_t atom_file_nan(void) {
    size_t length = atom_file();
    memset(file + 68, 0xFF, 4);
    return icotable_atom_read(file, length).number;
}

static uint64_t atom_no_distance(void) {
    return atom_reading(icotable_atom_read(file, atom_file()), &held, NAN, 1);
}

static uint64_t atom_no_rows(void) {
    icotable_atom_table t = icotable_atom_read(file, atom_file());
    t.rows = 0;
    return atom_reading(t, &held, 0, 1);
}

static uint64_t atom_reading_over(const icotable_meshes *m) {
    return atom_reading(icotable_atom_read(file, atom_file()), m, 0, 1);
}

static uint64_t atom_empty_cell(void) {
    return over_flat(atom_reading_over);
}

static uint64_t atom_no_beta(void) {
    icotable_atom_table t = icotable_atom_read(file, atom_file());
    return icotable_atom_boltzmann(&t, file, ROOM, ICOTABLE_LOCATORS(&held), 9, 1, 0, 0, INFINITY).number;
}

/* instead: the number that is given, where no call can be refused with the example's own. */
typedef struct example {
    uint64_t (*give)(void);
    const char *words;
    uint64_t instead;
} example;

/* In the order of the numbers. */
static const example examples[] = {
    {settings_wrong, "fresh with dr 0", 0},
    {level_above, "fresh with top level 16", 0},
    {no_bin, "fresh with rmin 0, rmax 0.4, dr 1: no distance bin", 0},
    {other_count, "fresh with rmin 0, rmax 1.79e308, dr 1.1e308", 0},
    {too_many, "fresh with top level 15, 655 distances and one dihedral bin: 655 times 2562 times 2562 energies", 0},
    {short_list, "fresh with a store of one place too few", 0},
    {mesh_broken, "fresh with a vertex whose x is infinite", 0},
    {bin_beyond, "set of distance bin 2, where there are two: 0 and 1", 0},
    {few_energies, "set of 144 energies, where the current level has 42 vertices and a slab 1764 energies", 0},
    {nan_energy, "set with a NaN among the energies", 0},
    {settled_twice, "a slice is set at level 1 and settled, so that the level drops to 0; then it is settled again, as by a job that is restarted", 0},
    {short_output, "write to 1000 bytes, where the file has 7156", 0},
    {cut_off, "read of a file without its last byte", 0},
    {file_grid, "read of a file that says 3 dihedral bins, where its step gives 2", 0},
    {unknown_kind, "read of a file whose first row has kind 4; set of a slab whose row the host gave kind 4; settle of a slice with a word 2^48", 0},
    {wrong_offset, "read of a file whose first Mesh row has offset 1", 0},
    {file_nan, "read of a file whose first energy has the bits FFFFFFFF", 0},
    {no_direction, "a reading with the direction 0, 0, 0", 0},
    {no_rows, "a reading with an answer of read in which the host put 0 rows", 0},
    {empty_cell, "a reading over a mesh whose vertices are all 0, in a direction whose cell they are not in", 0},
    {no_beta, "a weighted reading with beta 0, at a distance outside the table", 0},
    {no_prefactor, "write with two terms and an empty list for the prefactor", 0},
    {large_power, "write with a term whose power is 2147483648", 0},
    {five_levels, "view of a file of five levels, which read accepts", 0},
    {place_beyond, "repack of a file whose only Mesh row, of 1764 energies, has offset 1, where section 5 has 1764 energies", 0},
    {span_beyond, "a span of distances from 0.5 to 2.5, where the table's own rmax is 2", 0},
};

static const example atom_examples[] = {
    {atom_settings_wrong, "fresh with threshold -1", 0},
    {atom_level_above, "set with a builder in which the host put level 2, where the top is 1", 0},
    {atom_many_bins, "fresh with rmin 0, rmax 65536, dr 1: 65536 distance bins", 0},
    {atom_other_count, "fresh with rmin 0, rmax 1.79e308, dr 1.1e308", 0},
    {atom_most, "none: with top level 15 and 65535 distances, the most that 2 and 3 let through, there are 167900670 energies, and with lists of this example's length the call is refused with 6", ICOTABLE_SHORT_LIST},
    {atom_short_list, "set with one entry of values, where there are two distances", 0},
    {atom_mesh_broken, "settle with a vertex that has 4 neighbours", 0},
    {atom_bin_beyond, "settle of distance bin 2, where there are two: 0 and 1", 0},
    {atom_pairs, "set of 1764 energies, as two molecules have them, where the current level has 42 vertices", 0},
    {atom_nan_energy, "set with a NaN among the energies", 0},
    {atom_settled_twice, "a distance is set at level 1 and settled, so that the level drops to 0; then it is settled again, where the Rust panics", 0},
    {atom_short_output, "write to 235 bytes, where the file has 236", 0},
    {atom_other_kind, "read of a file of two molecules by the atom's reader", 0},
    {atom_file_grid, "read of a file that says 3 distance bins, where it has 2 rows", 0},
    {atom_unknown_kind, "settle of a distance whose row the host gave kind 4", 0},
    {atom_wrong_offset, "read of a file whose first Mesh row has offset 42", 0},
    {atom_file_nan, "read of a file whose first energy has the bits FFFFFFFF", 0},
    {atom_no_distance, "a reading whose distance is a NaN", 0},
    {atom_no_rows, "a reading with an answer of read in which the host put 0 rows", 0},
    {atom_empty_cell, "a reading over a mesh whose vertices are all 0, in a direction whose cell they are not in", 0},
    {atom_no_beta, "a weighted reading with an infinite beta, at a distance outside the table", 0},
};

static const struct {
    uint64_t number;
    const char *name;
} refusals[] = {
#define NAMED(number, name, words) {number, #name},
    ICOTABLE_REFUSALS(NAMED)
#undef NAMED
};

enum { NUMBERS = sizeof refusals / sizeof refusals[0], EXAMPLES = sizeof examples / sizeof examples[0] };
enum { ATOM_NUMBERS = sizeof atom_examples / sizeof atom_examples[0] };
_Static_assert(NUMBERS == EXAMPLES, "an example for each number");
_Static_assert(ATOM_NUMBERS == (int)ICOTABLE_READING_BETA, "one against an atom for each that is of its calls");

static const char *name_of(uint64_t number) {
    for (int i = 0; i < NUMBERS; i++)
        if (refusals[i].number == number)
            return refusals[i].name;
    return "";
}

/* Whether the example of a number gives another one. */
static int differs(const example *e, uint64_t number) {
    uint64_t given = e->give(), wanted = e->instead != 0 ? e->instead : number;
    if (given != wanted)
        fprintf(stderr, "refusals: the example of %llu, %s, gives %llu\n", (unsigned long long)number, e->words, (unsigned long long)given);
    return given != wanted;
}

/* ---- the sizing of a build: 1 to 7, as fresh puts them, 6 and 7 to the neighbour lists alone; and 23 */

static uint64_t sized_with(icotable_grid g, uint64_t top, size_t neighbours, uint64_t terms) {
    return icotable_sizing(g, top, held.neighbour_counts, held.neighbour_counts_count, held.neighbours, neighbours, terms).number;
}

static uint64_t sized(icotable_grid g, uint64_t top, size_t neighbours) {
    return sized_with(g, top, neighbours, 0);
}

static uint64_t size_settings(void) {
    icotable_grid g = settings;
    g.omega_step = INFINITY;
    return sized(g, TOP_LEVEL, held.neighbours_count);
}

static uint64_t size_level(void) {
    return sized(settings, 16, held.neighbours_count);
}

static uint64_t size_bins(void) {
    icotable_grid g = settings;
    g.omega_step = 20;
    return sized(g, TOP_LEVEL, held.neighbours_count);
}

static uint64_t size_own_count(void) {
    icotable_grid g = settings;
    g.rmin = 9007199254740991, g.rmax = 9007199254740994, g.dr = 2;
    return sized(g, TOP_LEVEL, held.neighbours_count);
}

static uint64_t size_energies(void) {
    icotable_grid g = settings;
    g.rmax = 1300000, g.dr = 20, g.omega_step = 0.1;
    return sized(g, TOP_LEVEL, held.neighbours_count);
}

static uint64_t size_short(void) {
    return sized(settings, TOP_LEVEL, held.neighbours_count - 1);
}

static uint64_t size_mesh(void) {
    uint16_t kept = held.neighbours[0];
    held.neighbours[0] = 0;
    uint64_t number = sized(settings, TOP_LEVEL, held.neighbours_count);
    held.neighbours[0] = kept;
    return number;
}

static uint64_t size_terms(void) {
    return sized_with(settings, TOP_LEVEL, held.neighbours_count, 4294967296);
}

enum { SIZED = 8 };
static const uint64_t size_numbers[SIZED] = {1, 2, 3, 4, 5, 6, 7, 23};
static const example size_examples[SIZED] = {
    {size_settings, "sizing with an infinite step", 0},
    {size_level, "sizing with top level 16", 0},
    {size_bins, "sizing with step 20: no dihedral bin", 0},
    {size_own_count, "sizing with rmin 9007199254740991, rmax 9007199254740994, dr 2", 0},
    {size_energies, "sizing of 65000 distances and 63 dihedral bins at top level 1: 4095000 times 42 times 42 energies", 0},
    {size_short, "sizing with a neighbour less than levels 0 and 1 have", 0},
    {size_mesh, "sizing with a vertex that is among its own neighbours", 0},
    {size_terms, "sizing with 4294967296 terms", 0},
};

/* ---- rows to words and back: 6, and on the way back 15 */

enum { MOVED = 3 };

static uint64_t to_words(size_t kinds_lent) {
    uint8_t a_kind[MOVED] = {0, 1, 200}, a_level[MOVED] = {0, 0, 7};
    uint32_t a_value[MOVED] = {0x3F800000, 0, 1};
    return icotable_rows_to_words(MOVED, a_kind, kinds_lent, a_level, MOVED, a_value, MOVED, words, MOVED);
}

static uint64_t to_rows(size_t words_lent) {
    uint8_t a_kind[MOVED], a_level[MOVED];
    uint32_t a_value[MOVED];
    return icotable_words_to_rows(MOVED, words, words_lent, a_kind, MOVED, a_level, MOVED, a_value, MOVED);
}

static uint64_t short_kinds(void) {
    return to_rows(MOVED - 1) != ICOTABLE_SHORT_LIST ? 100 : to_words(MOVED - 1);
}

/* The kind 200, which no row has, fits the lists and moves; a rest does not. */
static uint64_t word_rest(void) {
    if (to_words(MOVED) != 0 || to_rows(MOVED) != 0)
        return 100;
    words[1] |= (uint64_t)1 << 63;
    return to_rows(MOVED - 1) != ICOTABLE_SHORT_LIST ? 100 : to_rows(MOVED);
}

static const struct {
    uint64_t number;
    example e;
} move_examples[] = {
    {6, {short_kinds, "three rows to words with a list of two kinds; three words to rows with a list of two words", 0}},
    {15, {word_rest, "three words to rows, one of which has bit 63; the kind 200 moves", 0}},
};
enum { MOVES = sizeof move_examples / sizeof move_examples[0] };

/* ---- a search without a locator: 2, 6, 7 without the angles, 18, 20 */

static uint64_t searched(uint64_t level, size_t vertices, double x) {
    return icotable_search(level, held.vertices, vertices, held.neighbour_counts, 12, held.neighbours, 72, x, 0, 0).number;
}

static uint64_t search_level(void) {
    return searched(16, 36, 1);
}

static uint64_t search_short(void) {
    return searched(0, 35, 1);
}

static uint64_t search_mesh(void) {
    double kept = held.vertices[35];
    held.vertices[35] = INFINITY;
    uint64_t number = searched(0, 36, 0);
    held.vertices[35] = kept;
    return number;
}

static uint64_t search_direction(void) {
    return searched(0, 36, 0);
}

static uint64_t search_empty(void) {
    static const double zeros[36];
    return icotable_search(0, zeros, 36, held.neighbour_counts, 12, held.neighbours, 72, 1, 0, 0).number;
}

static const struct {
    uint64_t number;
    example e;
} search_examples[] = {
    {2, {search_level, "a search at level 16", 0}},
    {6, {search_short, "a search with a coordinate less than level 0 has", 0}},
    {7, {search_mesh, "a search over a mesh with an infinite coordinate, of a direction whose length is 0", 0}},
    {18, {search_direction, "a search of a direction whose length is 0", 0}},
    {20, {search_empty, "a search over a mesh whose vertices are all 0: no cell has one", 0}},
};
enum { SEARCHED = sizeof search_examples / sizeof search_examples[0] };

int main(void) {
    int differing = 0;
    if (icotable_make_meshes(&held, TOP_LEVEL) != 0)
        return 1;
    puts("# Refusals\n\nA call that is refused answers the number of the first question that was answered no, and alters "
         "nothing: no list, no\nbuilder, no file. `include/icotable.h` has the table (`ICOTABLE_REFUSALS`, "
         "`icotable_words`), `hosts/rust` the same as\nan enum (`Refusal`); docs/SPEC.md has each question, S5.1 to "
         "S5.20, S5.24 to S5.27, S24.3, S25.2 and\nS25.5, and their order. Each example below is run by `hosts/c/refusals.c`, which writes this "
         "page; the gate compares\nthe page with what it writes.\n\n"
         "| number | name | what was answered no | an example |\n|---|---|---|---|");
    for (int i = 0; i < NUMBERS; i++) {
        const example *e = &examples[i];
        uint64_t number = refusals[i].number;
        printf("| %llu | %s | %s | %s |\n", (unsigned long long)number, refusals[i].name, icotable_words(number), e->words);
        differing += differs(e, number);
    }
    puts("\n## Against an atom\n\nThe calls of a table against an atom (`icotable_atom_fresh` and so on) have the same "
         "numbers with the same words. What\nconcerns the step, the dihedral angle, the second direction, the long-range tail, a "
         "viewer's bounds, repack and spans\nof distances is not asked there.\n\n| number | name | an example |\n|---|---|---|");
    for (uint64_t number = 1; number <= ATOM_NUMBERS; number++) {
        const example *e = &atom_examples[number - 1];
        printf("| %llu | %s | %s |\n", (unsigned long long)number, name_of(number), e->words);
        differing += differs(e, number);
    }
    puts("\n## Sizing a build\n\n`icotable_sizing` and `icotable_atom_sizing` are refused as fresh is, before any list of a build is "
         "there: 6 and 7 are\nput to the neighbour counts and the neighbours alone. Then 23 is put to the number of terms, where two molecules\nhave "
         "them.\n\n| number | name | an example |\n|---|---|---|");
    for (int i = 0; i < SIZED; i++) {
        const example *e = &size_examples[i];
        uint64_t number = size_numbers[i];
        printf("| %llu | %s | %s |\n", (unsigned long long)number, name_of(number), e->words);
        differing += differs(e, number);
    }
    puts("\n## Searching without a locator\n\n`icotable_search` puts 2, 6 and 7 to the vertices, the neighbour counts and the neighbours, then 18 to the\n"
         "direction, then 20. It reads no list that a locator has, so that 19 cannot come of it.\n\n| number | name | an example |\n|---|---|---|");
    for (size_t i = 0; i < SEARCHED; i++) {
        uint64_t number = search_examples[i].number;
        printf("| %llu | %s | %s |\n", (unsigned long long)number, name_of(number), search_examples[i].e.words);
        differing += differs(&search_examples[i].e, number);
    }
    puts("\n## Rows to words and back\n\n`icotable_rows_to_words` puts 6 to all four lists, and then moves any three numbers of a row. "
         "`icotable_words_to_rows`\nputs 6 likewise, then 15 to the words that move: of the bits from 48 on alone, since any kind below 256 fits the "
         "lists.\n\n| number | name | an example |\n|---|---|---|");
    for (size_t i = 0; i < MOVES; i++) {
        uint64_t number = move_examples[i].number;
        printf("| %llu | %s | %s |\n", (unsigned long long)number, name_of(number), move_examples[i].e.words);
        differing += differs(&move_examples[i].e, number);
    }
    icotable_free_meshes(&held);
    return differing != 0;
}
