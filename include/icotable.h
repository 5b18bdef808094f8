/* Pair-energy tables over distance, dihedral angle and two orientations: build, write, read, look up. The same for one
 * molecule against an atom, over distance and one direction: icotable_atom_ and the same names.
 *
 * Link with libicotable: cc host.c $(pkg-config --cflags --libs icotable). Nothing checks these declarations against the
 * library's source: they are written by hand and tried by hosts/c. What is installed also holds helpers that are not proved,
 * with headers in the folder icotable: meshes, a test of the floating-point environment, journals of builds, and handles that
 * own lists and files (icotable_handles.h).
 *
 * Answers. Every function returns a number, or a struct whose first field is `number`: 0 where the call was accepted,
 * else the number of the first question that was answered no. A refused call changes nothing. All other fields of a
 * refused answer are 0, except that a refused set or settle hands the builder back as it came, so that
 * `b = icotable_set(b, ..).builder` never loses it.
 *
 * Lists. A list is a pointer and the count of its entries. It may be longer than needed: entries beyond what is needed
 * stay as they are. A pointer may be null where its count is 0. Lists must not overlap. A pointer to a struct may not be
 * null: one struct is read behind it, and nothing is kept. The library keeps no state and allocates nothing, so calls on
 * different lists may run in different threads, and calls that only read a list or a struct on the same one.
 *
 * Sizes. Level m has n = 10*(m+1)*(m+1)+2 vertices, m from 0 to 15. A slab is one distance bin and one dihedral bin,
 * slab (ri, oi) is number ri*n_omega+oi, and a slab at a level holds n*n energies. A builder with S slabs and top level
 * T needs: store, S times n*n of level T; words, S. A level's mesh is 3n vertices (x, y, z), n neighbour_counts (5 or
 * 6), 6n neighbours and 6n angles, six places a vertex, of which a sixth is not read where the count is 5. fresh, settle
 * and write take the meshes of all levels from 0 to the top, one after another in each list; locator takes one level's
 * parts; set takes no mesh. locator needs, with g = max(2, ceiling(sqrt(n/6)*1.2)): 6*g*g+1 cell_offsets, 27n
 * cell_vertices, n+1 face_offsets and 45n faces.
 *
 * Words. A word is the row of one slab: value + level*2^32 + kind*2^40, and the rest, the bits from 48 on, is 0. Kind: 0
 * Scalar, 1 Repulsive, 2 Mesh read at the nearest vertices, 3 Mesh interpolated. Level: a Mesh row's; 0 of any other.
 * Value: the bits of a Scalar row's float; 0 of any other. A word whose rest is not 0 has an unknown kind. icotable_word
 * makes a word, icotable_word_kind, _level and _value take it apart.
 *
 * Against an atom a slab is one distance bin and holds n energies, so S is n_r and the store S times n of level T. Its
 * rows are not words but three lists, kinds, levels and values, S each. Meshes and locators are as above: one set of
 * meshes serves tables of both kinds.
 *
 * Units. omega and omega_step are in radians, threshold is per radian. Distances and energies have the caller's units,
 * and beta is one over the unit of energies.
 *
 * Floating point. What is proved of these functions holds where results are rounded to nearest, ties to even, and where
 * no small number is flushed to zero: not in a program that is linked with -ffast-math, nor after fesetround. There an
 * answer can be another one. icotable_float_environment() of environment.h answers 0 where it is as it should be.
 *
 * Stack. No theorem bounds it. As measured on x86-64 and rounded up, settle takes 88 kB, locator 10 kB, readings 7 kB,
 * sizing 4 kB, a reading 3 kB and every other function 2 kB, whatever the level.
 *
 * Numbers. ICOTABLE_REFUSALS below has each one in words, and docs/REFUSALS.md an example of each.
 */
#ifndef ICOTABLE_H
#define ICOTABLE_H

#include <stddef.h>
#include <stdint.h>

/* The version, raised where a struct, a function or the table file changes (CHANGELOG.md). The pkg-config file and the
 * tool take it from here; a test compares it with hosts/rust. */
#define ICOTABLE_VERSION_MAJOR 0
#define ICOTABLE_VERSION_MINOR 24
#define ICOTABLE_VERSION_PATCH 0

#define ICOTABLE_STRING_(x) #x
#define ICOTABLE_DOTTED_(a, b, c) ICOTABLE_STRING_(a) "." ICOTABLE_STRING_(b) "." ICOTABLE_STRING_(c)
/* The same as a string. */
#define ICOTABLE_VERSION ICOTABLE_DOTTED_(ICOTABLE_VERSION_MAJOR, ICOTABLE_VERSION_MINOR, ICOTABLE_VERSION_PATCH)

/* Every number that a call can be refused with: the question that was answered no, its name and its words. */
#define ICOTABLE_REFUSALS(X) \
    X(1, SETTINGS, "rmin is not finite, rmax not above it, dr, omega_step or beta not finite and above 0, or threshold not finite or below 0") \
    X(2, LEVEL, "the top level is above 15, or the current level above the top") \
    X(3, BIN_COUNT, "a bin count is not from 1 to 65535, or in a builder not the one that its settings give") \
    X(4, OWN_COUNT, "the distance count does not come out the same with the table's own rmax") \
    X(5, TOO_MANY_ENERGIES, "slabs times n*n of the top level, n against an atom, is above 4294967295") \
    X(6, SHORT_LIST, "a list is shorter than needed") \
    X(7, MESH, "a mesh does not keep the mesh rule: finite vertices; 5 or 6 distinct neighbours each, other vertices of the level that list it in turn; angles finite and not below 0") \
    X(8, BIN, "a bin number is not below its count") \
    X(9, ENERGY_COUNT, "there are not exactly n*n energies, n against an atom, with n of the current level") \
    X(10, NAN_ENERGY, "an energy is a NaN") \
    X(11, OTHER_LEVEL, "a slab of the slice holds energies of another level than the current one") \
    X(12, SHORT_OUTPUT, "the output is shorter than the file") \
    X(13, SECTIONS, "the file's sections do not follow their counts, do not end with its last byte, or are not those of this kind of table") \
    X(14, FILE_GRID, "the file's grid, bin counts, level count, row count or vertex counts are not those of a table") \
    X(15, ROW, "a row has an unknown kind (a word has one where its bits from 48 on are not 0), a Mesh row a level above the top; or, in a file, an unused field that is used, or a scalar NaN other than 0x7FC00000") \
    X(16, TILING, "the rows' offsets do not tile the energies in row order") \
    X(17, FILE_NAN, "an energy of the file is a NaN") \
    X(18, QUERY, "r or an end of a span is a NaN, omega not finite, or the length of a direction not finite or 0") \
    X(19, NOT_LENT, "a bin count is 0, a row's kind is unknown or its level not held, or a row, energy, term, cell or mesh entry that the reading touches is not inside what was lent, an end offset is below its start, or a vertex number not below n") \
    X(20, EMPTY_CELL, "the cell that a direction falls into lists no vertex") \
    X(21, READING_BETA, "a reading's own beta is not finite and above 0") \
    X(22, PREFACTOR, "terms of a long-range tail are handed over without a prefactor") \
    X(23, TERM, "a coefficient, a kappa or the prefactor of a long-range tail is not finite, a power is above 2147483647, or there are more than 4294967295 terms") \
    X(24, VIEWER_BOUND, "the file has more than 4 levels or 4096 rows, which the viewer does not open") \
    X(25, SLAB_PLACE, "a Mesh row of a loosely packed file has energies that do not end inside section 5") \
    X(26, SPAN, "the low end of a span of distances is above its high end, or an end is below rmin or above the table's own rmax")

#define ICOTABLE_REFUSAL_(number, name, words) ICOTABLE_##name = number,
enum icotable_refusal { ICOTABLE_REFUSALS(ICOTABLE_REFUSAL_) ICOTABLE_ACCEPTED = 0 };
#undef ICOTABLE_REFUSAL_

/* A number in words. */
static inline const char *icotable_words(uint64_t number) {
    switch (number) {
    case ICOTABLE_ACCEPTED:
        return "accepted";
#define ICOTABLE_REFUSAL_(number, name, words) \
    case number: \
        return words;
        ICOTABLE_REFUSALS(ICOTABLE_REFUSAL_)
#undef ICOTABLE_REFUSAL_
    default:
        return "not a number of this library";
    }
}

#ifdef __cplusplus
extern "C" {
#endif

/* The settings and the bin counts that they give. fresh takes no notice of the two counts handed in; read fills rmax
 * with the table's own, and threshold and beta with 0. */
typedef struct icotable_grid {
    double rmin, rmax, dr, omega_step, threshold, beta;
    uint64_t n_r, n_omega;
} icotable_grid;

/* The settings, the top level, the current one, and the number of packed energies: the sum over the Mesh rows of their
 * level's n*n, as long as builder and rows come from fresh by set and settle. So at any time the file of icotable_write
 * is 52 + 4*(top+1) + 10*n_r*n_omega + 4*packed bytes long. No call looks at it; set and settle move it by the
 * difference that the rows make which they replace, modulo 2^64. */
typedef struct icotable_builder {
    icotable_grid grid;
    uint64_t top, level;
    uint64_t packed;
} icotable_builder;

typedef struct icotable_built {
    uint64_t number;
    icotable_builder builder;
} icotable_built;

/* gradient: the largest one of the slabs that still hold energies.
 * comparisons: the neighbour comparisons made, 2*n times the total of neighbour counts of the current level for each
 * slab whose gradient was worked out: one that holds energies and does not become Repulsive. */
typedef struct icotable_settled {
    uint64_t number;
    double gradient;
    uint64_t comparisons;
    icotable_builder builder;
} icotable_settled;

/* length: the file's, in bytes. */
typedef struct icotable_written {
    uint64_t number, length;
} icotable_written;

/* length: the packed file's, in bytes. moved: the rows whose offset is now another. */
typedef struct icotable_repacked {
    uint64_t number, length, moved;
} icotable_repacked;

/* What a file holds. start: for each of the six sections, grid, bins, levels, rows, energies and terms, the byte after
 * its count. A file without terms has no sixth section: terms is 0 and start[5] the file's length. */
typedef struct icotable_table {
    uint64_t number;
    icotable_grid grid;
    uint64_t levels, rows, energies, terms;
    uint64_t start[6];
} icotable_table;

/* energy: what a reading gives; infinity inside a repulsive wall, 0 outside the table's distances. distance_a and
 * distance_b: where the row is read at the nearest vertices, the square of the distance from each direction, divided by
 * its length, to the vertex that stands for it; 0 for both of any other reading. docs/GUIDE.md has how far a level's
 * vertices can lie. */
typedef struct icotable_value {
    uint64_t number;
    double energy, distance_a, distance_b;
} icotable_value;

/* The word of a row, and the three numbers of a word. The kind is all above the level: with a rest it is 256 or more. */
static inline uint64_t icotable_word(uint8_t kind, uint8_t level, uint32_t value) {
    return (uint64_t)kind << 40 | (uint64_t)level << 32 | value;
}

static inline uint64_t icotable_word_kind(uint64_t word) {
    return word >> 40;
}

static inline uint8_t icotable_word_level(uint64_t word) {
    return (uint8_t)(word >> 32);
}

static inline uint32_t icotable_word_value(uint64_t word) {
    return (uint32_t)word;
}

/* A builder with no slab set. Fills the store with 0.0 and every row with the scalar 0.0, the word 0. Questions 1 to
 * 7. */
icotable_built icotable_fresh(
    icotable_grid grid,
    uint64_t top,
    double *store, size_t store_count,
    uint64_t *words, size_t words_count,
    const double *vertices, size_t vertices_count,
    const uint8_t *neighbour_counts, size_t neighbour_counts_count,
    const uint16_t *neighbours, size_t neighbours_count,
    const double *angles, size_t angles_count);

/* Gives slab (ri, oi) its energies, n*n of the current level. Questions 1 to 6, 8, 9, 10, and 15 of the row that it
 * replaces. */
icotable_built icotable_set(
    icotable_builder builder,
    double *store, size_t store_count,
    uint64_t *words, size_t words_count,
    uint64_t ri,
    uint64_t oi,
    const double *energies, size_t energies_count);

/* Settles the slabs of distance bin ri, and may lower the builder's level. Questions 1 to 8, 15, 11. */
icotable_settled icotable_settle(
    icotable_builder builder,
    const double *store, size_t store_count,
    uint64_t *words, size_t words_count,
    const double *vertices, size_t vertices_count,
    const uint8_t *neighbour_counts, size_t neighbour_counts_count,
    const uint16_t *neighbours, size_t neighbours_count,
    const double *angles, size_t angles_count,
    uint64_t ri);

/* Writes the table file to the first bytes of output. Questions 1 to 7, 15, 12. */
icotable_written icotable_write(
    icotable_builder builder,
    const double *store, size_t store_count,
    const uint64_t *words, size_t words_count,
    const double *vertices, size_t vertices_count,
    const uint8_t *neighbour_counts, size_t neighbour_counts_count,
    const uint16_t *neighbours, size_t neighbours_count,
    const double *angles, size_t angles_count,
    uint8_t *output, size_t output_count);

/* The same with a long-range tail, what a host adds beyond rmax:
 * prefactor * the sum over the terms of coefficient * exp(-kappa*r) / r^power. There are as many terms as coefficients;
 * kappas and powers have one for each, and prefactor has one entry, or none where there are no terms. The file is
 * 12 + 20*terms bytes longer; without terms it is that of icotable_write, whatever prefactor holds. Questions 1 to 7,
 * 6 of kappas and powers too, 15, 22, 23, 12. */
icotable_written icotable_write_tail(
    icotable_builder builder,
    const double *store, size_t store_count,
    const uint64_t *words, size_t words_count,
    const double *vertices, size_t vertices_count,
    const uint8_t *neighbour_counts, size_t neighbour_counts_count,
    const uint16_t *neighbours, size_t neighbours_count,
    const double *angles, size_t angles_count,
    const double *coefficients, size_t coefficients_count,
    const double *kappas, size_t kappas_count,
    const uint32_t *powers, size_t powers_count,
    const double *prefactor, size_t prefactor_count,
    uint8_t *output, size_t output_count);

/* Moves so many rows from three lists, as a table against an atom has them, to words. Any three numbers move. Question
 * 6, of all four lists. */
uint64_t icotable_rows_to_words(
    uint64_t rows,
    const uint8_t *kinds, size_t kinds_count,
    const uint8_t *levels, size_t levels_count,
    const uint32_t *values, size_t values_count,
    uint64_t *words, size_t words_count);

/* Moves so many rows from words to three lists. Question 6, of all four lists; then 15, where the rest of one of these
 * words is not 0. An unknown kind below 256 moves. */
uint64_t icotable_words_to_rows(
    uint64_t rows,
    const uint64_t *words, size_t words_count,
    uint8_t *kinds, size_t kinds_count,
    uint8_t *levels, size_t levels_count,
    uint32_t *values, size_t values_count);

/* Looks over a file, all of it. Questions 13 to 17, 23. */
icotable_table icotable_read(const uint8_t *file, size_t file_count);

/* The same for a viewer, which opens tables of at most 4 levels and 4096 rows: what it accepts icotable_read accepts, with
 * the same answer. Questions 13, 14, 24, 15 to 17, 23. */
icotable_table icotable_view(const uint8_t *file, size_t file_count);

/* Packs a loosely packed file: one whose Mesh rows have their energies anywhere in section 5, with gaps, shared parts or in
 * another order. Each row's energies are copied to their packed place in the output; all outside section 5, its count and the
 * Mesh rows' offsets is unchanged, and every reading stays. icotable_read accepts the result, and a file that it accepts comes
 * back byte for byte. Shared parts can make the result longer than the file; bytes of the output beyond it stay. Questions 13,
 * 14, 15, 25 in the place of 16, 17 (gaps too), 23, and 12 last. */
icotable_repacked icotable_repack(const uint8_t *file, size_t file_count, uint8_t *output, size_t output_count);

/* The locator of one level's mesh. Questions 2, 6, 7. */
uint64_t icotable_locator(
    uint64_t level,
    const double *vertices, size_t vertices_count,
    const uint8_t *neighbour_counts, size_t neighbour_counts_count,
    const uint16_t *neighbours, size_t neighbours_count,
    const double *angles, size_t angles_count,
    uint32_t *cell_offsets, size_t cell_offsets_count,
    uint16_t *cell_vertices, size_t cell_vertices_count,
    uint32_t *face_offsets, size_t face_offsets_count,
    uint16_t *faces, size_t faces_count);

/* The energy at distance r, dihedral angle omega and two directions of any length: a, that of the second molecule in
 * the frame of the first; b, that of the first in the frame of the second, turned around z by omega (docs/GUIDE.md,
 * What a table is, says where omega is 0). A distance below rmin gives 0 with number 0, as one above rmax does: compare
 * r with grid.rmin first if your program would take that 0 for an energy.
 *
 * It is read from a file, what read answered for it (lent, so that no call copies it), the vertices of all its levels
 * and their locators, each level's at its needed lengths, one after another. Takes no notice of the table's number, nor
 * of its rmax, threshold and beta. Question 18; then 0 for a distance outside the table; then 19, 20. What concerns
 * meshes and locators is asked only where a Mesh row is read, and of what is touched alone. */
icotable_value icotable_reading(
    const icotable_table *table,
    const uint8_t *file, size_t file_count,
    const double *vertices, size_t vertices_count,
    const uint32_t *cell_offsets, size_t cell_offsets_count,
    const uint16_t *cell_vertices, size_t cell_vertices_count,
    const uint32_t *face_offsets, size_t face_offsets_count,
    const uint16_t *faces, size_t faces_count,
    double r,
    double omega,
    double ax, double ay, double az,
    double bx, double by, double bz);

/* The same, weighted by temperature, with a beta of its own: one over the unit of energies, and never the table's.
 * Where a Mesh row is interpolated it is -ln(the sum of w*exp(-beta*e))/beta over the nine energies e and their weights
 * w, in place of the sum of w*e; a weight not above 0 drops its energy. Rows read at the nearest vertices, Scalar and
 * Repulsive ones answer as icotable_reading does, the distances included. Question 18; then 21, where beta is not
 * finite and above 0, whatever the row is; then 0 for a distance outside the table; then 19, 20. */
icotable_value icotable_boltzmann(
    const icotable_table *table,
    const uint8_t *file, size_t file_count,
    const double *vertices, size_t vertices_count,
    const uint32_t *cell_offsets, size_t cell_offsets_count,
    const uint16_t *cell_vertices, size_t cell_vertices_count,
    const uint32_t *face_offsets, size_t face_offsets_count,
    const uint16_t *faces, size_t faces_count,
    double r,
    double omega,
    double ax, double ay, double az,
    double bx, double by, double bz,
    double beta);

/* Many readings in one call, each that of icotable_reading, or of icotable_boltzmann where there is a beta: its first
 * entry, for every pose, and further entries do not count. A pose is eight numbers, r, omega, ax, ay, az, bx, by, bz;
 * answers has three for each, energy, distance_a, distance_b, and numbers the number. As many poses are answered as the
 * shortest of poses, numbers and answers has room for, and the call returns how many; entries beyond stay as they are. A
 * refused pose has its number and 0 three times, and does not keep the next from being answered: no call is refused as a
 * whole. With a table that is larger than the processor's cache it is faster than so many single readings, since poses
 * wait for memory together (docs/PERFORMANCE.md). */
uint64_t icotable_readings(
    const icotable_table *table,
    const uint8_t *file, size_t file_count,
    const double *vertices, size_t vertices_count,
    const uint32_t *cell_offsets, size_t cell_offsets_count,
    const uint16_t *cell_vertices, size_t cell_vertices_count,
    const uint32_t *face_offsets, size_t face_offsets_count,
    const uint16_t *faces, size_t faces_count,
    const double *poses, size_t poses_count,
    const double *beta, size_t beta_count,
    uint64_t *numbers, size_t numbers_count,
    double *answers, size_t answers_count);

/* The long-range tail at distance r, from a file and what read answered for it. No reading includes it: a host adds it
 * where r is beyond rmax and icotable_reading gives 0. It is 0 without terms, and both distances are 0. It answers
 * inside the table too, and at 0, below 0 and at infinity, as IEEE 754 has product and division: with a kappa of 0 a NaN
 * at infinity. Question 18, put to r alone; then 19, where there are terms and they or the prefactor are not inside the
 * file. */
icotable_value icotable_tail(const icotable_table *table, const uint8_t *file, size_t file_count, double r);

/* Of the distances from low to high: the distance bins of both ends, the smallest and largest energy in the rows of these
 * bins at the dihedral omega, and how many of the Scalar rows among them hold a NaN.
 *
 * Every distance of the span falls in the bins from first to last. A reading there, plain or weighted, is between the two
 * energies where its row is Scalar, Repulsive (infinity) or read at the nearest vertices, and it is not a NaN. An
 * interpolated row adds its energies too, but bounds no reading: weights below 0 can take the sum beyond them, and a
 * weighted reading is another average. NaNs are passed over; where there is nothing else both energies are a NaN. Of
 * equal energies (0.0 and -0.0) the first one is shown, in the order of rows, then of a row's energies. */
typedef struct icotable_spanned {
    uint64_t number, first, last;
    double smallest, largest;
    uint64_t scalar_nans;
} icotable_spanned;

/* Question 18, put to both ends and omega; then 26; then 19 of all rows and energies that it touches. */
icotable_spanned icotable_span(const icotable_table *table, const uint8_t *file, size_t file_count, double low, double high, double omega);

/* ---- one molecule against an atom */

/* As icotable_grid, without what concerns the dihedral angle. */
typedef struct icotable_atom_grid {
    double rmin, rmax, dr, threshold, beta;
    uint64_t n_r;
} icotable_atom_grid;

typedef struct icotable_atom_builder {
    icotable_atom_grid grid;
    uint64_t top, level;
} icotable_atom_builder;

typedef struct icotable_atom_built {
    uint64_t number;
    icotable_atom_builder builder;
} icotable_atom_built;

/* gradient: that of the slab, also where it becomes Scalar; 0 where it holds no energies or becomes Repulsive.
 * comparisons: the neighbour comparisons made, the total of neighbour counts of the current level; 0 likewise. */
typedef struct icotable_atom_settled {
    uint64_t number;
    double gradient;
    uint64_t comparisons;
    icotable_atom_builder builder;
} icotable_atom_settled;

typedef struct icotable_atom_table {
    uint64_t number;
    icotable_atom_grid grid;
    uint64_t levels, rows, energies;
    uint64_t start[5];
} icotable_atom_table;

/* energy: as in icotable_value; a reading against an atom shows no distance. */
typedef struct icotable_energy {
    uint64_t number;
    double energy;
} icotable_energy;

/* A builder with no slab set, as icotable_fresh. Questions 1 to 7, of which 5 refuses none: 65535 slabs of level 15
 * hold fewer energies. */
icotable_atom_built icotable_atom_fresh(
    icotable_atom_grid grid,
    uint64_t top,
    double *store, size_t store_count,
    uint8_t *kinds, size_t kinds_count,
    uint8_t *levels, size_t levels_count,
    uint32_t *values, size_t values_count,
    const double *vertices, size_t vertices_count,
    const uint8_t *neighbour_counts, size_t neighbour_counts_count,
    const uint16_t *neighbours, size_t neighbours_count,
    const double *angles, size_t angles_count);

/* Gives distance bin ri its energies, n of the current level. Questions 1 to 6, 8, 9, 10. */
icotable_atom_built icotable_atom_set(
    icotable_atom_builder builder,
    double *store, size_t store_count,
    uint8_t *kinds, size_t kinds_count,
    uint8_t *levels, size_t levels_count,
    uint32_t *values, size_t values_count,
    uint64_t ri,
    const double *energies, size_t energies_count);

/* Settles distance bin ri. A level above 0 drops by one where the slab holds energies, does not become Repulsive and
 * has a gradient below the threshold. Questions 1 to 8, 15, 11. */
icotable_atom_settled icotable_atom_settle(
    icotable_atom_builder builder,
    const double *store, size_t store_count,
    uint8_t *kinds, size_t kinds_count,
    uint8_t *levels, size_t levels_count,
    uint32_t *values, size_t values_count,
    const double *vertices, size_t vertices_count,
    const uint8_t *neighbour_counts, size_t neighbour_counts_count,
    const uint16_t *neighbours, size_t neighbours_count,
    const double *angles, size_t angles_count,
    uint64_t ri);

/* Writes the table file, 40 + 4*levels + 10*rows + 4*energies bytes, to the first bytes of output. Questions 1 to 7,
 * 15, 12. */
icotable_written icotable_atom_write(
    icotable_atom_builder builder,
    const double *store, size_t store_count,
    const uint8_t *kinds, size_t kinds_count,
    const uint8_t *levels, size_t levels_count,
    const uint32_t *values, size_t values_count,
    const double *vertices, size_t vertices_count,
    const uint8_t *neighbour_counts, size_t neighbour_counts_count,
    const uint16_t *neighbours, size_t neighbours_count,
    const double *angles, size_t angles_count,
    uint8_t *output, size_t output_count);

/* Looks over a file, all of it. Questions 13 to 17. A file of icotable_write is refused with 13, and one of
 * icotable_atom_write by icotable_read: the first count, a u32 in the first four bytes, is 2 here and 3 there. */
icotable_atom_table icotable_atom_read(const uint8_t *file, size_t file_count);

/* The energy at distance r and one direction, in the molecule's frame toward the atom, of any length; all else as for
 * icotable_reading. */
icotable_energy icotable_atom_reading(
    const icotable_atom_table *table,
    const uint8_t *file, size_t file_count,
    const double *vertices, size_t vertices_count,
    const uint32_t *cell_offsets, size_t cell_offsets_count,
    const uint16_t *cell_vertices, size_t cell_vertices_count,
    const uint32_t *face_offsets, size_t face_offsets_count,
    const uint16_t *faces, size_t faces_count,
    double r,
    double x, double y, double z);

/* The same, weighted by temperature. Where a Mesh row is interpolated it is -ln(the sum of w*exp(-beta*e))/beta over
 * three energies e and their weights w, worked out from the least of the three, u, as u - ln(the sum of
 * w*exp(-beta*(e - u)))/beta. Unlike icotable_boltzmann an energy of weight 0 stays in: where it is the least and the
 * others are so far above that their exponentials are 0, the reading is infinity, and so it is where the least is
 * infinite. Questions as for icotable_boltzmann. */
icotable_energy icotable_atom_boltzmann(
    const icotable_atom_table *table,
    const uint8_t *file, size_t file_count,
    const double *vertices, size_t vertices_count,
    const uint32_t *cell_offsets, size_t cell_offsets_count,
    const uint16_t *cell_vertices, size_t cell_vertices_count,
    const uint32_t *face_offsets, size_t face_offsets_count,
    const uint16_t *faces, size_t faces_count,
    double r,
    double x, double y, double z,
    double beta);

/* ---- sizing a build */

/* What a build needs, before anything is sampled. store: the length of its store, and file: that of its longest file; no
 * list of calls with at most the terms asked for writes a longer one, and setting every slab at the top level without
 * settling, then writing that many terms, makes one that long. By level, from 0 to the top one, and 0 above it: the
 * lengths of a locator's lists, and the comparisons of one settle whose slabs are all filled and none Repulsive. */
typedef struct icotable_size {
    uint64_t number, store, file;
    uint64_t cell_offsets[16], cell_vertices[16], face_offsets[16], faces[16], comparisons[16];
} icotable_size;

/* From the settings, the top level, the meshes' neighbour lists, as fresh takes them, and the number of terms that a
 * long-range tail may have (0 for icotable_write); vertices and angles are not needed. Rows: store divided by n*n of the
 * top level. Questions 1 to 7 as fresh puts them, 6 to the lengths of these two lists and 7 to what they hold; then 23,
 * where there are more than 4294967295 terms. */
icotable_size icotable_sizing(
    icotable_grid grid,
    uint64_t top,
    const uint8_t *neighbour_counts, size_t neighbour_counts_count,
    const uint16_t *neighbours, size_t neighbours_count,
    uint64_t terms);

/* The same of a table against an atom, which has no terms. Rows: store divided by n of the top level. */
icotable_size icotable_atom_sizing(
    icotable_atom_grid grid,
    uint64_t top,
    const uint8_t *neighbour_counts, size_t neighbour_counts_count,
    const uint16_t *neighbours, size_t neighbours_count);

/* ---- a search without a locator */

/* vertex: the nearest one of the cell that the direction falls into, of equal ones the first. distance: the square of the
 * distance to it from the direction, divided by its length. face: of the faces that the vertex is of the one that fits
 * the direction best, its vertices ascending; weights: the direction's in it. Where no face fits, face and weights are
 * 0. */
typedef struct icotable_found {
    uint64_t number, vertex;
    double distance;
    uint64_t face[3];
    double weights[3];
} icotable_found;

/* Finds a direction of any length over one level's mesh, of which neither angles nor a locator are needed: for a host
 * that searches a mesh a few times. The answer is that of a search with the mesh's locator, bit for bit. Every call
 * looks over the whole mesh; docs/GUIDE.md has the number of searches from which a locator takes less time. Questions
 * 2, 6, 7 without the angles, 18 of the direction, 20. */
icotable_found icotable_search(
    uint64_t level,
    const double *vertices, size_t vertices_count,
    const uint8_t *neighbour_counts, size_t neighbour_counts_count,
    const uint16_t *neighbours, size_t neighbours_count,
    double x, double y, double z);

/* ---- sizes and numbers */

/* n of a level, and 6*g*g+1: what a host sizes its lists with. 0 for a level above 15. */
uint64_t icotable_vertices(uint64_t level);
uint64_t icotable_cells(uint64_t level);

/* The square root, a*b+c rounded once and the nearest float, as IEEE 754 has them; the exponential that settling and
 * weighted readings use; and the logarithm of weighted readings: NaN for a NaN or below 0, -infinity for a zero of
 * either sign. icotable_power, r^n of a tail's terms: 1 for n = 0, a NaN's too; else r^(n/2), n/2 rounded down, squared
 * and times r where n is odd, each product rounded. */
double icotable_root(double x);
double icotable_exp(double y);
double icotable_ln(double x);
double icotable_power(double r, uint32_t n);
double icotable_mul_add(double a, double b, double c);
float icotable_narrow(double x);

/* The case of IEEE 754-2019, clause 4.3.1, that icotable_narrow is in, which alone says what becomes of the magnitude:
 * 1 overflow, from 2^128 - 2^103 on: made infinite; 2 less than half of a last place discarded, or nothing: cut;
 * 3 exactly half with an even last digit: cut; 4 exactly half with an odd one: raised by one last place; 5 more than
 * half: raised. 0 for an infinity and for a NaN, which are in none. */
uint64_t icotable_narrow_case(double x);

#ifdef __cplusplus
}
#endif

#endif
