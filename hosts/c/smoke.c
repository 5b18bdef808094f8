/* A host in C: an empty table of level 0 from its settings, written, printed and read back; a slab set and settled;
 * words with a rest, and rows moved to words and back; calls that are refused; the locator of the icosahedron;
 * readings, also weighted and with locator lists that were altered; a long-range tail; the bounds of a viewer; loosely
 * packed files; spans of distances; the same of a table against an atom; the sizing of a build; a search without a
 * locator; sizes and numbers. Every answer is compared with what documents 01 and 02 say, and the status is 1 where
 * one differs. */
#include "icotable.h"

#include <math.h>
#include <stdio.h>
#include <string.h>

enum { N = 12, PER = N * N };

#define X 0.5257311121191336
#define Y 0.85065080835204

/* the icosahedron; a sixth place of a vertex is not read */
static const double vertices[3 * N] = {
    -X, 0, Y, X, 0, Y, -X, 0, -Y, X, 0, -Y, 0, Y, X, 0, Y, -X, 0, -Y, X, 0, -Y, -X, Y, X, 0, -Y, X, 0, Y, -X, 0, -Y, -X, 0,
};

static uint8_t neighbour_counts[N];
static uint16_t neighbours[6 * N];
static double angles[6 * N];

static double store[PER];
static uint64_t words[1];
/* the rows of a table against an atom */
static uint8_t kinds[1], levels[1];
static uint32_t values[1];

static int differing = 0;

static void expect(const char *what, uint64_t got, uint64_t wanted) {
    printf("%s: %llu", what, (unsigned long long)got);
    if (got == wanted) {
        printf(", as it should be\n");
    } else {
        printf(", but it should be %llu\n", (unsigned long long)wanted);
        differing++;
    }
}

/* Two vertices are neighbours where their distance is the edge's. */
static void mesh(void) {
    for (int i = 0; i < N; i++) {
        int count = 0;
        for (int j = 0; j < N; j++) {
            double d = 0;
            for (int k = 0; k < 3; k++) {
                double e = vertices[3 * i + k] - vertices[3 * j + k];
                d += e * e;
            }
            if (i != j && d < 1.2) {
                if (count < 6) {
                    neighbours[6 * i + count] = (uint16_t)j;
                    angles[6 * i + count] = 1.1071487177940904;
                }
                count++;
            }
        }
        neighbour_counts[i] = (uint8_t)count;
    }
}

static const icotable_grid settings = {
    .rmin = 0, .rmax = 1, .dr = 1, .omega_step = 6, .threshold = 0.1, .beta = 1, .n_r = 77, .n_omega = 77,
};

static icotable_built fresh(icotable_grid grid, uint64_t top) {
    return icotable_fresh(grid, top, store, PER, words, 1, vertices, 3 * N, neighbour_counts, N, neighbours, 6 * N, angles, 6 * N);
}

static icotable_settled settle(icotable_builder b, uint64_t ri) {
    return icotable_settle(b, store, PER, words, 1, vertices, 3 * N, neighbour_counts, N, neighbours, 6 * N, angles, 6 * N, ri);
}

static icotable_written written(icotable_builder b, uint8_t *output, size_t count) {
    return icotable_write(b, store, PER, words, 1, vertices, 3 * N, neighbour_counts, N, neighbours, 6 * N, angles, 6 * N, output, count);
}

/* The bytes in hexadecimal, grouped as those that are wanted; how many differ from these. */
static uint64_t print(const uint8_t *file, const char *wanted) {
    uint64_t differ = 0;
    for (; *wanted; wanted++) {
        if (*wanted == ' ') {
            putchar(' ');
            continue;
        }
        char byte[3];
        snprintf(byte, sizeof byte, "%02X", *file++);
        fputs(byte, stdout);
        differ += memcmp(byte, wanted++, 2) != 0;
    }
    putchar('\n');
    return differ;
}

static void empty_table(void) {
    static const char bytes[] =
        "03000000 0000000000000000 000000000000F03F 0000000000001840 02000000 01000000 01000000 01000000 0C000000 "
        "01000000 00 00 FFFFFFFF 00000000 00000000";
    uint8_t output[70];
    memset(output, 0xAB, sizeof output);
    memset(store, 0x7F, sizeof store);
    icotable_built f = fresh(settings, 0);
    expect("fresh", f.number, 0);
    expect("distance bins", f.builder.grid.n_r, 1);
    expect("dihedral bins", f.builder.grid.n_omega, 1);
    icotable_written w = written(f.builder, output, sizeof output);
    expect("write", w.number, 0);
    expect("bytes", w.length, 66);
    expect("bytes that differ from document 01's", print(output, bytes), 0);
    expect("the byte behind the file", output[66], 0xAB);
    icotable_table t = icotable_read(output, w.length);
    expect("read", t.number, 0);
    expect("rmax is 1", t.grid.rmax == 1, 1);
    expect("levels", t.levels, 1);
    expect("rows", t.rows, 1);
    expect("energies", t.energies, 0);
    expect("terms", t.terms, 0);
    static const uint64_t start[6] = {4, 32, 44, 52, 66, 66};
    for (int i = 0; i < 6; i++)
        expect("start of a section", t.start[i], start[i]);
    t = icotable_read(output, 67);
    expect("read of a byte more", t.number, 13);
    expect("its rows", t.rows, 0);
    expect("write to 65 bytes", written(f.builder, output, 65).number, 12);
}

static void one_slab(void) {
    double energies[PER];
    uint8_t output[700];
    icotable_builder b = fresh(settings, 0).builder;
    for (int i = 0; i < PER; i++)
        energies[i] = i == 0 ? 1000 : 0; /* Boltzmann weights 0 and 1 */
    icotable_built s = icotable_set(b, store, PER, words, 1, 0, 1, energies, PER);
    expect("set of a bin beyond the last", s.number, 8);
    expect("the builder's bins after it", s.builder.grid.n_r, 1);
    expect("its packed energies", s.builder.packed, 0);
    s = icotable_set(b, store, PER, words, 1, 0, 0, energies, PER);
    expect("set", s.number, 0);
    expect("word of a Mesh row, interpolated, of level 0", words[0], (uint64_t)3 << 40);
    expect("packed energies", s.builder.packed, PER);
    icotable_written w = written(s.builder, output, sizeof output);
    expect("bytes", w.length, 642);
    icotable_settled a = settle(s.builder, 0);
    expect("settle", a.number, 0);
    expect("packed energies", a.builder.packed, PER);
    expect("gradient is 1 over the angle", a.gradient == 1 / angles[0], 1);
    expect("comparisons, 2 * 12 times 12 vertices' five neighbours", a.comparisons, 1440);
    a = settle(s.builder, 1);
    expect("settle of a bin beyond the last", a.number, 8);
    expect("its gradient is 0", a.gradient == 0, 1);
    expect("its comparisons", a.comparisons, 0);
    expect("the builder's bins after it", a.builder.grid.n_r, 1);
    expect("its packed energies", a.builder.packed, PER);
    for (int i = 0; i < PER; i++)
        energies[i] = 10;
    s = icotable_set(s.builder, store, PER, words, 1, 0, 0, energies, PER);
    expect("set of tens", s.number, 0);
    expect("packed energies of a slab set twice", s.builder.packed, PER);
    a = settle(b, 0);
    expect("settle", a.number, 0);
    expect("word of a Repulsive row", words[0], (uint64_t)1 << 40);
    expect("comparisons of a slab that becomes Repulsive", a.comparisons, 0);
    expect("packed energies less than none", a.builder.packed, (uint64_t)0 - PER);
    words[0] = icotable_word(4, 0, 0);
    s = icotable_set(s.builder, store, PER, words, 1, 0, 0, energies, PER);
    expect("set over a row of kind 4", s.number, 15);
    expect("packed energies after it", s.builder.packed, PER);
}

/* A word and its three numbers. A rest of a word, be it one bit, is an unknown kind; beyond the rows it is not looked at. */
static void word_rests(void) {
    static const double energies[PER] = {0};
    uint8_t output[700];
    uint64_t word = icotable_word(3, 15, 0x7FC00000);
    expect("word of kind 3, level 15 and a NaN", word, 0x030F7FC00000);
    expect("its kind", icotable_word_kind(word), 3);
    expect("its level", icotable_word_level(word), 15);
    expect("its value", icotable_word_value(word), 0x7FC00000);
    expect("kind of the largest word", icotable_word_kind(UINT64_MAX), 0xFFFFFF);
    expect("its level", icotable_word_level(UINT64_MAX), 255);
    expect("its value", icotable_word_value(UINT64_MAX), UINT32_MAX);
    icotable_builder b = fresh(settings, 0).builder;
    expect("word of the scalar 0", words[0], 0);
    for (int bit = 48; bit < 64; bit++) {
        uint64_t rest = (uint64_t)1 << bit;
        words[0] = rest;
        expect("set over a word with a rest", icotable_set(b, store, PER, words, 1, 0, 0, energies, PER).number, 15);
        expect("settle of it", settle(b, 0).number, 15);
        expect("write of it", written(b, output, sizeof output).number, 15);
        expect("the word after it", words[0], rest);
    }
    uint64_t two_words[2] = {0, UINT64_MAX};
    expect("set beside a word with a rest", icotable_set(b, store, PER, two_words, 2, 0, 0, energies, PER).number, 0);
    expect("the word that it gives", two_words[0], icotable_word(3, 0, 0));
    expect("the one beside it", two_words[1], UINT64_MAX);
    words[0] = 0;
}

/* Three lists to words and back; 6 of each list, then 15 of the rows that move. */
static void moves(void) {
    static const uint8_t from_kinds[3] = {0, 200, 255}, from_levels[3] = {0, 7, 255};
    static const uint32_t from_values[3] = {0x7FC00000, 1, UINT32_MAX};
    static const uint64_t wanted[3] = {0x7FC00000, 0xC80700000001, 0xFFFFFFFFFFFF};
    uint64_t moved[4] = {5, 5, 5, 5};
    uint8_t to_kinds[4] = {9, 9, 9, 9}, to_levels[4] = {9, 9, 9, 9};
    uint32_t to_values[4] = {9, 9, 9, 9};
    expect("rows to words", icotable_rows_to_words(3, from_kinds, 3, from_levels, 3, from_values, 3, moved, 4), 0);
    expect("words that differ", memcmp(moved, wanted, sizeof wanted) != 0, 0);
    expect("the word behind them", moved[3], 5);
    moved[3] = UINT64_MAX;
    expect("words to rows", icotable_words_to_rows(3, moved, 4, to_kinds, 4, to_levels, 4, to_values, 4), 0);
    expect("kinds that differ", memcmp(to_kinds, from_kinds, 3) != 0, 0);
    expect("levels that differ", memcmp(to_levels, from_levels, 3) != 0, 0);
    expect("values that differ", memcmp(to_values, from_values, sizeof from_values) != 0, 0);
    expect("what is behind them", to_kinds[3] == 9 && to_levels[3] == 9 && to_values[3] == 9, 1);
    moved[0] = 0;
    expect("four words to rows, the last with a rest", icotable_words_to_rows(4, moved, 4, to_kinds, 4, to_levels, 4, to_values, 4), 15);
    expect("the first value after it", to_values[0], 0x7FC00000);
    for (int i = 0; i < 4; i++) {
        size_t k = 3 + (i != 0), l = 3 + (i != 1), v = 3 + (i != 2), w = 3 + (i != 3);
        expect("four words to rows, with a list of three", icotable_words_to_rows(4, moved, w, to_kinds, k, to_levels, l, to_values, v), 6);
        expect("four rows to words, with a list of three", icotable_rows_to_words(4, to_kinds, k, to_levels, l, to_values, v, moved, w), 6);
    }
    expect("the words after it", moved[0] == 0 && moved[3] == UINT64_MAX, 1);
    expect("no rows to words", icotable_rows_to_words(0, NULL, 0, NULL, 0, NULL, 0, NULL, 0), 0);
    expect("no words to rows", icotable_words_to_rows(0, NULL, 0, NULL, 0, NULL, 0, NULL, 0), 0);
    expect("2^64 - 1 rows to words", icotable_rows_to_words(UINT64_MAX, from_kinds, 3, from_levels, 3, from_values, 3, moved, 4), 6);
    expect("2^64 - 1 words to rows", icotable_words_to_rows(UINT64_MAX, moved, 4, to_kinds, 4, to_levels, 4, to_values, 4), 6);
}

/* The same slab, before it is built: 52 + 4 + 10 + 4 * 144 bytes, and 60 neighbours against 2 * 12 lines. */
static void sizing(void) {
    icotable_size s = icotable_sizing(settings, 0, neighbour_counts, N, neighbours, 6 * N, 0);
    expect("sizing", s.number, 0);
    expect("its store", s.store, PER);
    expect("its file", s.file, 642);
    expect("its cell offsets", s.cell_offsets[0], 25);
    expect("its cell vertices", s.cell_vertices[0], 27 * N);
    expect("its face offsets", s.face_offsets[0], N + 1);
    expect("its faces", s.faces[0], 45 * N);
    expect("its comparisons", s.comparisons[0], 2 * N * 60);
    expect("its comparisons of a level above the top", s.comparisons[1], 0);
    s = icotable_sizing(settings, 0, neighbour_counts, N, neighbours, 6 * N, 3);
    expect("sizing with three terms", s.number, 0);
    expect("its store", s.store, PER);
    expect("its file", s.file, 642 + 12 + 3 * 20);
    s = icotable_sizing(settings, 0, neighbour_counts, N, neighbours, 6 * N, 4294967295);
    expect("sizing with 4294967295 terms", s.number, 0);
    expect("its file", s.file, 642 + 12 + 20 * (uint64_t)4294967295);
    s = icotable_sizing(settings, 0, neighbour_counts, N, neighbours, 6 * N, 4294967296);
    expect("sizing with one more", s.number, 23);
    expect("its store", s.store, 0);
    s = icotable_sizing(settings, 0, neighbour_counts, N, neighbours, 6 * N - 1, 4294967296);
    expect("sizing with a neighbour less", s.number, 6);
    expect("its store", s.store, 0);
    icotable_atom_grid ion = {.rmin = 0, .rmax = 1, .dr = 1, .threshold = 0.1, .beta = 1};
    s = icotable_atom_sizing(ion, 0, neighbour_counts, N, neighbours, 6 * N);
    expect("sizing against an atom", s.number, 0);
    expect("its store", s.store, N);
    expect("its file", s.file, 40 + 4 + 10 + 4 * N);
    expect("its comparisons", s.comparisons[0], 60);
}

/* A direction inside face 0, 1, 4, most of it toward 4. */
static void search(void) {
    double d[3];
    for (int k = 0; k < 3; k++)
        d[k] = 2 * vertices[k] + vertices[3 + k] + 4 * vertices[12 + k];
    icotable_found f = icotable_search(0, vertices, 3 * N, neighbour_counts, N, neighbours, 6 * N, d[0], d[1], d[2]);
    expect("a search without a locator", f.number, 0);
    expect("its vertex", f.vertex, 4);
    expect("its distance is above 0 and below a quarter", f.distance > 0 && f.distance < 0.25, 1);
    expect("its face, 0", f.face[0], 0);
    expect("its face, 1", f.face[1], 1);
    expect("its face, 4", f.face[2], 4);
    expect("its weights", f.weights[1] > 0 && f.weights[0] > f.weights[1] && f.weights[2] > f.weights[0], 1);
    f = icotable_search(0, vertices, 3 * N, neighbour_counts, N, neighbours, 6 * N, 0, 0, 0);
    expect("a search of a direction without a length", f.number, 18);
    expect("its vertex", f.vertex, 0);
    expect("its weights are 0", f.weights[0] == 0 && f.weights[1] == 0 && f.weights[2] == 0, 1);
}

static void refused(void) {
    icotable_grid g = settings;
    g.dr = -1;
    icotable_built f = fresh(g, 0);
    expect("fresh with dr below 0", f.number, 1);
    expect("its distance bins", f.builder.grid.n_r, 0);
    expect("fresh with top level 16", fresh(settings, 16).number, 2);
    f = icotable_fresh(settings, 0, NULL, 0, words, 1, vertices, 3 * N, neighbour_counts, N, neighbours, 6 * N, angles, 6 * N);
    expect("fresh with no store", f.number, 6);
    expect("read of no bytes", icotable_read(NULL, 0).number, 13);
}

enum { CELLS = 25 };
static uint32_t cell_offsets[CELLS], face_offsets[N + 1];
static uint16_t cell_vertices[27 * N], faces[45 * N];

static uint64_t locate(size_t face_offsets_count) {
    return icotable_locator(0, vertices, 3 * N, neighbour_counts, N, neighbours, 6 * N, angles, 6 * N, cell_offsets, CELLS,
                            cell_vertices, 27 * N, face_offsets, face_offsets_count, faces, 45 * N);
}

static void locator(void) {
    expect("locator", locate(N + 1), 0);
    expect("faces by vertex", face_offsets[N], 60);
    expect("locator with a list too short", locate(N), 6);
}

/* A table whose one slab holds the energy 100 i + j of vertices i and j, as a reading is lent it. */
enum { FILE_ROOM = 700, ROW = 52 };
static uint8_t file[FILE_ROOM];
static icotable_table table;
static size_t file_count, faces_count;

static void small_table(void) {
    double energies[PER];
    for (int i = 0; i < PER; i++)
        energies[i] = 100 * (i / N) + i % N;
    icotable_builder b = fresh(settings, 0).builder;
    expect("set", icotable_set(b, store, PER, words, 1, 0, 0, energies, PER).number, 0);
    file_count = written(b, file, sizeof file).length;
    faces_count = 45 * N;
    table = icotable_read(file, file_count);
    expect("read", table.number, 0);
    expect("locator", locate(N + 1), 0);
}

static icotable_value reading(double r, const double *p, const double *q) {
    return icotable_reading(&table, file, file_count, vertices, 3 * N, cell_offsets, CELLS, cell_vertices, 27 * N, face_offsets,
                            N + 1, faces, faces_count, r, 0.1, p[0], p[1], p[2], q[0], q[1], q[2]);
}

/* Readings at its vertices, outside, and of what is not there. */
static void readings(void) {
    small_table();
    int far = 0;
    for (int i = 0; i < N; i++)
        for (int j = 0; j < N; j++) {
            icotable_value v = reading(0.5, vertices + 3 * i, vertices + 3 * j);
            double d = v.energy - (100 * i + j);
            if (v.number != 0 || d * d > 1e-12)
                far++;
        }
    expect("readings at vertices that are not the energy there", far, 0);
    static const double none[3] = {0, 0, 0};
    icotable_value v = reading(1.5, vertices, vertices);
    expect("reading beyond rmax", v.number, 0);
    expect("its energy is 0", v.energy == 0, 1);
    expect("reading of no direction", reading(0.5, none, vertices).number, 18);
    table.rows = 0;
    expect("reading of a table that says it has no rows", reading(0.5, vertices, vertices).number, 19);
}

static icotable_value weighted(double r, const double *p, const double *q, double beta) {
    return icotable_boltzmann(&table, file, file_count, vertices, 3 * N, cell_offsets, CELLS, cell_vertices, 27 * N, face_offsets,
                              N + 1, faces, faces_count, r, 0.1, p[0], p[1], p[2], q[0], q[1], q[2], beta);
}

/* Weighted readings: at the vertices; half way between vertex 0 and a neighbour, where the energies are 0 and at least
 * 100, each of weight a half; at the nearest vertices; and 21 after 18, before a distance outside and 19. */
static void weighted_readings(void) {
    static const double none[3] = {0, 0, 0}, refused[] = {0, -0.0, -1, INFINITY, -INFINITY, NAN};
    const double *a = vertices, *b = vertices + 3 * neighbours[0];
    double middle[3] = {a[0] + b[0], a[1] + b[1], a[2] + b[2]};
    small_table();
    int far = 0;
    for (int i = 0; i < N; i++)
        for (int j = 0; j < N; j++) {
            icotable_value v = weighted(0.5, vertices + 3 * i, vertices + 3 * j, 0.001);
            double d = v.energy - (100 * i + j);
            if (v.number != 0 || d * d > 1e-12)
                far++;
        }
    expect("weighted readings at vertices that are not the energy there", far, 0);
    icotable_value v = weighted(0.5, middle, a, 1);
    expect("weighted reading between two vertices", v.number, 0);
    expect("its energy is ln(2)", fabs(v.energy - icotable_ln(2)) < 1e-6, 1);
    expect("weighted reading with beta 5e-324", weighted(0.5, a, b, 5e-324).number, 0);
    for (size_t i = 0; i < sizeof refused / sizeof refused[0]; i++) {
        expect("weighted reading with a beta that is not finite and above 0", weighted(0.5, a, b, refused[i]).number, 21);
        expect("the same beyond rmax", weighted(1.5, a, b, refused[i]).number, 21);
        expect("the same of no direction", weighted(0.5, none, b, refused[i]).number, 18);
    }
    v = weighted(1.5, a, b, 1);
    expect("weighted reading beyond rmax", v.number, 0);
    expect("its energy is 0", v.energy == 0, 1);
    file[ROW] = 2;
    v = weighted(0.5, b, a, 1);
    expect("weighted reading at the nearest vertices", v.number, 0);
    expect("its energy is the plain one", v.energy == reading(0.5, b, a).energy && v.energy == 100 * neighbours[0], 1);
    table.rows = 0;
    expect("weighted reading of a table that says it has no rows", weighted(0.5, a, b, 1).number, 19);
    expect("the same with beta 0", weighted(0.5, a, b, 0).number, 21);
}

/* Poses of small_table, one answer after another beside the single reading; `kept` marks entries that have to stay. */
static int batch_differs(const double *poses, size_t count, const double *beta, size_t betas) {
    enum { ROOM = 4 };
    static const uint64_t kept = 77;
    uint64_t numbers[ROOM] = {kept, kept, kept, kept};
    double answers[3 * ROOM] = {77, 77, 77, 77, 77, 77, 77, 77, 77, 77, 77, 77};
    size_t held = icotable_readings(&table, file, file_count, vertices, 3 * N, cell_offsets, CELLS, cell_vertices, 27 * N, face_offsets,
                                    N + 1, faces, faces_count, poses, 8 * count + 7, beta, betas, numbers, ROOM, answers, 3 * ROOM);
    int differ = held != count || (count < ROOM && (numbers[count] != kept || answers[3 * count] != 77));
    for (size_t i = 0; i < held; i++) {
        const double *q = poses + 8 * i;
        icotable_value v = betas ? weighted(q[0], q + 2, q + 5, *beta) : reading(q[0], q + 2, q + 5);
        differ |= numbers[i] != v.number || memcmp(answers + 3 * i, &v.energy, 3 * sizeof(double)) != 0;
    }
    return differ;
}

/* Inside, beyond rmax, of no direction, at a NaN; by the sum, at the nearest vertices, Scalar and of no row; with no beta, with one,
 * with one that is refused, and with two, of which the first counts. */
static void many_readings(void) {
    static const double betas[] = {1, NAN, 2};
    double poses[5 * 8] = {0.5, 0.1, 1, 2, 3, 3, -2, 1, 1.5, 0.1, 1, 2, 3, 3, -2, 1, 0.5, 0.1, 0, 0, 0, 3, -2, 1, NAN, 0.1, 1, 2, 3, 3, -2, 1};
    small_table();
    for (int kind = 3; kind >= 0; kind--) {
        file[ROW] = (uint8_t)kind;
        for (size_t count = 0; count <= 4; count++) {
            expect("many readings", batch_differs(poses, count, betas, 0), 0);
            expect("many weighted ones", batch_differs(poses, count, betas, 1), 0);
            expect("many with a beta that is refused", batch_differs(poses, count, betas + 1, 1), 0);
            expect("many with two betas", batch_differs(poses, count, betas, 2), 0);
        }
    }
    table.rows = 0;
    expect("many readings of a table that says it has no rows", batch_differs(poses, 4, betas, 0), 0);
}

static int no_distance(icotable_value v) {
    return v.distance_a == 0 && v.distance_b == 0 && !signbit(v.distance_a) && !signbit(v.distance_b);
}

/* Half way between two neighbours of the icosahedron a vertex lies as far as its squared distance says: 2 - 2 cos of half
 * their angle; at a vertex nothing. The length of a direction is of no matter. Any other reading shows 0 twice. */
static void distances(void) {
    static const double none[3] = {0, 0, 0};
    const double *a = vertices, *b = vertices + 3 * neighbours[0];
    double middle[3] = {7 * (a[0] + b[0]), 7 * (a[1] + b[1]), 7 * (a[2] + b[2])};
    small_table();
    expect("an interpolated reading shows no distances", no_distance(reading(0.5, middle, a)), 1);
    expect("nor does a weighted one", no_distance(weighted(0.5, middle, a, 1)), 1);
    file[ROW] = 2;
    double wanted = 2 - 2 * cos(angles[0] / 2);
    icotable_value v = reading(0.5, middle, a), w = reading(0.5, a, middle);
    expect("reading at the nearest vertices", v.number + w.number, 0);
    expect("the distance half way to a neighbour", fabs(v.distance_a - wanted) < 1e-12 && v.distance_b < 1e-30, 1);
    expect("the same of the second direction", w.distance_b == v.distance_a && w.distance_a == v.distance_b, 1);
    w = weighted(0.5, middle, a, 1);
    expect("the same of a weighted reading", w.distance_a == v.distance_a && w.distance_b == v.distance_b, 1);
    expect("a reading beyond rmax shows none", no_distance(reading(1.5, middle, a)), 1);
    expect("nor does a refused one", no_distance(reading(0.5, middle, none)), 1);
    file[ROW] = 0;
    expect("nor does a Scalar row's", no_distance(reading(0.5, middle, a)), 1);
    file[ROW] = 1;
    expect("nor does a Repulsive row's", no_distance(reading(0.5, middle, a)), 1);
}

/* A span whose start is its end touches no entry, wherever its end lies: an empty cell is 20, an empty span of faces
 * leaves face 0 0 0 with weights 0. */
static void empty_spans(void) {
    const double *a = vertices + 9, *b = vertices + 15;
    small_table();
    faces_count = 0;
    for (int v = 0; v <= N; v++)
        face_offsets[v] = 1;
    icotable_value v = reading(0.5, a, b);
    expect("reading with face offsets that are all 1 and no faces", v.number, 0);
    expect("its energy is 0", v.number == 0 && v.energy == 0, 1);
    small_table();
    for (int c = 0; c < CELLS; c++)
        cell_offsets[c] = 27 * N + 1;
    expect("reading with cell offsets that are all 325 and 324 vertices", reading(0.5, a, b).number, 20);
    file[ROW] = 2;
    expect("the same where the row is read at the nearest vertices", reading(0.5, a, b).number, 20);
}

/* ---- a long-range tail */

typedef struct tail {
    double coefficients[2], kappas[2], prefactor;
    uint32_t powers[2];
} tail;

static const tail two = {.coefficients = {-1.5, 2}, .kappas = {0, 0.25}, .prefactor = 4, .powers = {6, 1}};

/* With so many entries of each list. */
static icotable_written written_tail(const tail *t, size_t terms, size_t kappas, size_t powers, size_t prefactors, size_t room) {
    return icotable_write_tail(fresh(settings, 0).builder, store, PER, words, 1, vertices, 3 * N, neighbour_counts, N, neighbours, 6 * N,
                               angles, 6 * N, t->coefficients, terms, t->kappas, kappas, t->powers, powers, &t->prefactor, prefactors, file, room);
}

static void tail_bytes(void) {
    static const char bytes[] = "02000000 000000000000F8BF 0000000000000000 06000000 0000000000000040 000000000000D03F 01000000 0000000000001040";
    uint8_t plain[66];
    memset(file, 0xAB, sizeof file);
    expect("write of an empty table", written(fresh(settings, 0).builder, plain, sizeof plain).length, 66);
    icotable_written w = written_tail(&two, 2, 2, 2, 1, sizeof file);
    expect("write with two terms", w.number, 0);
    expect("bytes", w.length, 66 + 12 + 2 * 20);
    expect("its first bytes are those without", memcmp(file, plain, 66), 0);
    expect("bytes of the tail that differ from document 02's", print(file + 66, bytes), 0);
    expect("the byte behind the file", file[118], 0xAB);
    table = icotable_read(file, w.length);
    expect("read", table.number, 0);
    expect("terms", table.terms, 2);
    expect("their start", table.start[5], 70);
    w = written_tail(&two, 0, 0, 0, 1, sizeof file);
    expect("write with no terms and a prefactor", w.length, 66);
    expect("its bytes are those without", memcmp(file, plain, 66), 0);
    expect("read", icotable_read(file, w.length).terms, 0);
    expect("its terms' start", icotable_read(file, w.length).start[5], 66);
}

static icotable_value tail_at(double r) {
    return icotable_tail(&table, file, file_count, r);
}

static void tail_readings(void) {
    file_count = written_tail(&two, 2, 2, 2, 1, sizeof file).length;
    table = icotable_read(file, file_count);
    icotable_value v = tail_at(2);
    double wanted = 4 * (((-0.0 + -1.5 * icotable_exp(-0.0 * 2) / 64) + 2 * icotable_exp(-0.25 * 2) / 2));
    expect("tail at 2", v.number, 0);
    expect("its energy is the sum's", v.energy == wanted, 1);
    expect("its distances are 0", v.distance_a == 0 && v.distance_b == 0, 1);
    expect("tail at 0, -infinity and infinity, is a NaN", isnan(tail_at(0).energy) != 0, 1);
    v = tail_at(INFINITY);
    expect("tail at infinity with a kappa of 0, 0 times infinity, is a NaN", v.number == 0 && isnan(v.energy), 1);
    expect("tail below 0", tail_at(-1).number, 0);
    expect("tail at a NaN", tail_at(NAN).number, 18);
    table.terms = 3;
    expect("tail of a table that says it has three terms", tail_at(2).number, 19);
    expect("the same at a NaN", tail_at(NAN).number, 18);
    table.terms = UINT64_MAX / 20 + 1;
    expect("tail of a table that says it has 2^64 / 20 terms and one", tail_at(2).number, 19);
    table.terms = 2, table.start[5] = UINT64_MAX;
    expect("tail of a table that says they start at the last byte of all", tail_at(2).number, 19);
    table.terms = 0;
    v = tail_at(2);
    expect("tail without terms", v.number, 0);
    expect("its energy is 0", v.energy == 0 && !signbit(v.energy), 1);
}

/* 6 of kappas and powers, 22, 23 and 12, in this order. */
static void tail_refused(void) {
    expect("write with a kappa less, and no prefactor", written_tail(&two, 2, 1, 2, 0, 1).number, 6);
    expect("write with a power less", written_tail(&two, 2, 2, 1, 1, 1).number, 6);
    tail wrong = two;
    wrong.coefficients[1] = INFINITY;
    expect("write with an infinite coefficient and no prefactor", written_tail(&wrong, 2, 2, 2, 0, 1).number, 22);
    expect("write with an infinite coefficient", written_tail(&wrong, 2, 2, 2, 1, 1).number, 23);
    expect("write of the term before it, to one byte", written_tail(&wrong, 1, 2, 2, 1, 1).number, 12);
    expect("write of no terms, to one byte", written_tail(&wrong, 0, 2, 2, 0, 1).number, 12);
    wrong = two, wrong.kappas[0] = NAN;
    expect("write with a kappa that is a NaN", written_tail(&wrong, 2, 2, 2, 1, sizeof file).number, 23);
    wrong = two, wrong.prefactor = -INFINITY;
    expect("write with an infinite prefactor", written_tail(&wrong, 2, 2, 2, 1, sizeof file).number, 23);
    wrong = two, wrong.powers[1] = 2147483648;
    expect("write with the power 2147483648", written_tail(&wrong, 2, 2, 2, 1, sizeof file).number, 23);
    wrong.powers[1] = 2147483647;
    expect("write with the power 2147483647", written_tail(&wrong, 2, 2, 2, 1, sizeof file).number, 0);
    expect("write to 117 bytes, where the file has 118", written_tail(&two, 2, 2, 2, 1, 117).number, 12);
}

/* Files with a sixth section that is not one, and values that are not those of a tail. */
static void tail_damaged(void) {
    size_t length = written_tail(&two, 2, 2, 2, 1, sizeof file).length;
    expect("read without the last byte", icotable_read(file, length - 1).number, 13);
    expect("read without the prefactor", icotable_read(file, length - 8).number, 13);
    expect("read of a byte more", icotable_read(file, length + 1).number, 13);
    expect("read as a table against an atom", icotable_atom_read(file, length).number, 13);
    file[70 + 39] = 0x80;
    expect("read with the power 2147483649", icotable_read(file, length).number, 23);
    file[70 + 39] = 0, file[70 + 46] = 0xF0, file[70 + 47] = 0x7F;
    expect("read with a prefactor that is infinite", icotable_read(file, length).number, 23);
    file[66] = 0;
    memmove(file + 70, file + 110, 8);
    expect("read with a sixth section of no terms, and a prefactor", icotable_read(file, 78).number, 13);
    expect("read with a sixth section of no terms", icotable_read(file, 70).number, 13);
}

/* ---- against an atom: a slab holds 12 energies */

static const icotable_atom_grid atom_settings = {.rmin = 0, .rmax = 1, .dr = 1, .threshold = 0.1, .beta = 1, .n_r = 77};

static icotable_atom_built atom_fresh(icotable_atom_grid grid, uint64_t top) {
    return icotable_atom_fresh(grid, top, store, N, kinds, 1, levels, 1, values, 1, vertices, 3 * N, neighbour_counts, N, neighbours, 6 * N, angles, 6 * N);
}

static icotable_atom_built atom_set(icotable_atom_builder b, uint64_t ri, const double *energies, size_t count) {
    return icotable_atom_set(b, store, N, kinds, 1, levels, 1, values, 1, ri, energies, count);
}

static icotable_atom_settled atom_settle(icotable_atom_builder b, uint64_t ri) {
    return icotable_atom_settle(b, store, N, kinds, 1, levels, 1, values, 1, vertices, 3 * N, neighbour_counts, N, neighbours, 6 * N, angles, 6 * N, ri);
}

static icotable_written atom_written(icotable_atom_builder b, uint8_t *output, size_t count) {
    return icotable_atom_write(b, store, N, kinds, 1, levels, 1, values, 1, vertices, 3 * N, neighbour_counts, N, neighbours, 6 * N, angles, 6 * N, output, count);
}

static void empty_atom_table(void) {
    static const char bytes[] = "02000000 0000000000000000 000000000000F03F 01000000 01000000 01000000 0C000000 01000000 00 00 FFFFFFFF 00000000 00000000";
    static const uint64_t start[5] = {4, 24, 32, 40, 54};
    uint8_t output[60];
    memset(output, 0xAB, sizeof output);
    memset(store, 0x7F, sizeof store);
    icotable_atom_built f = atom_fresh(atom_settings, 0);
    expect("fresh against an atom", f.number, 0);
    expect("distance bins", f.builder.grid.n_r, 1);
    expect("store entries that are not 0", (store[0] != 0) + (store[N - 1] != 0), 0);
    expect("the entry behind them is as it was", memcmp(store + N, "\x7F\x7F\x7F\x7F\x7F\x7F\x7F\x7F", 8) == 0, 1);
    icotable_written w = atom_written(f.builder, output, sizeof output);
    expect("write", w.number, 0);
    expect("bytes", w.length, 54);
    expect("bytes that differ from documents 01's and 02's", print(output, bytes), 0);
    expect("the byte behind the file", output[54], 0xAB);
    icotable_atom_table t = icotable_atom_read(output, w.length);
    expect("read", t.number, 0);
    expect("rmax is 1", t.grid.rmax == 1, 1);
    expect("distance bins", t.grid.n_r, 1);
    expect("levels, rows and energies", 100 * t.levels + 10 * t.rows + t.energies, 110);
    for (int i = 0; i < 5; i++)
        expect("start of a section", t.start[i], start[i]);
    expect("read of a byte more", icotable_atom_read(output, 55).number, 13);
    expect("read as a table of two molecules", icotable_read(output, w.length).number, 13);
    w = written(fresh(settings, 0).builder, file, sizeof file);
    expect("a table of two molecules, read as one against an atom", icotable_atom_read(file, w.length).number, 13);
}

/* A slab by its Boltzmann weights: 0 and 1, all 1, and a wall. The level is 0 and cannot drop. */
static void atom_slab(void) {
    double energies[N] = {1000};
    icotable_atom_builder b = atom_fresh(atom_settings, 0).builder;
    expect("settle of an empty distance", atom_settle(b, 0).number, 0);
    expect("its comparisons", atom_settle(b, 0).comparisons, 0);
    icotable_atom_built s = atom_set(b, 0, energies, N);
    expect("set", s.number, 0);
    expect("kind", kinds[0], 3);
    icotable_atom_settled a = atom_settle(s.builder, 0);
    expect("settle", a.number, 0);
    expect("gradient is 1 over the angle", a.gradient == 1 / angles[0], 1);
    expect("comparisons", a.comparisons, 60);
    expect("kind", kinds[0], 3);
    energies[0] = 0.001;
    expect("set of nearly equal energies", atom_set(b, 0, energies, N).number, 0);
    a = atom_settle(b, 0);
    expect("settle", a.number, 0);
    expect("the gradient of a slab that becomes Scalar is not 0", a.gradient > 0 && a.gradient < 0.01, 1);
    expect("and its comparisons are counted", a.comparisons, 60);
    expect("kind", kinds[0], 0);
    for (int i = 0; i < N; i++)
        energies[i] = 10;
    expect("set of tens", atom_set(b, 0, energies, N).number, 0);
    a = atom_settle(b, 0);
    expect("settle", a.number, 0);
    expect("its gradient is 0", a.gradient == 0, 1);
    expect("its comparisons", a.comparisons, 0);
    expect("kind", kinds[0], 1);
}

/* A refused set or settle hands the builder back; all else of a refused answer is 0. */
static void atom_refused(void) {
    double energies[PER] = {0};
    icotable_atom_grid g = atom_settings;
    g.beta = INFINITY;
    icotable_atom_built f = atom_fresh(g, 0);
    expect("fresh with an infinite beta", f.number, 1);
    expect("its distance bins", f.builder.grid.n_r, 0);
    expect("fresh with top level 16", atom_fresh(atom_settings, 16).number, 2);
    expect("fresh with no store", icotable_atom_fresh(atom_settings, 0, NULL, 0, kinds, 1, levels, 1, values, 1, vertices, 3 * N, neighbour_counts, N, neighbours,
                                                      6 * N, angles, 6 * N).number, 6);
    icotable_atom_builder b = atom_fresh(atom_settings, 0).builder;
    f = atom_set(b, 1, energies, N);
    expect("set of a distance beyond the last", f.number, 8);
    expect("the builder's bins after it", f.builder.grid.n_r, 1);
    expect("set of 144 energies", atom_set(b, 0, energies, PER).number, 9);
    energies[3] = NAN;
    expect("set with a NaN", atom_set(b, 0, energies, N).number, 10);
    icotable_atom_settled a = atom_settle(b, 1);
    expect("settle of a distance beyond the last", a.number, 8);
    expect("the builder's bins after it", a.builder.grid.n_r, 1);
    kinds[0] = 4;
    expect("settle of a row of kind 4", atom_settle(b, 0).number, 15);
    kinds[0] = 3, levels[0] = 0;
    uint8_t output[101];
    expect("write to 101 bytes, where the file has 102", atom_written(b, output, sizeof output).number, 12);
    expect("read of no bytes", icotable_atom_read(NULL, 0).number, 13);
}

static icotable_atom_table atom_table;

/* Vertex 0 has the energy of the argument, vertex i the energy i. */
static void small_atom_table(double first) {
    double energies[N];
    for (int i = 0; i < N; i++)
        energies[i] = i == 0 ? first : i;
    icotable_atom_builder b = atom_fresh(atom_settings, 0).builder;
    expect("set", atom_set(b, 0, energies, N).number, 0);
    file_count = atom_written(b, file, sizeof file).length;
    atom_table = icotable_atom_read(file, file_count);
    expect("read", atom_table.number, 0);
    faces_count = 45 * N;
    expect("locator", locate(N + 1), 0);
}

static const double *lent_vertices = vertices;

static icotable_energy atom_reading(double r, const double *p) {
    return icotable_atom_reading(&atom_table, file, file_count, lent_vertices, 3 * N, cell_offsets, CELLS, cell_vertices, 27 * N, face_offsets, N + 1, faces,
                                 faces_count, r, p[0], p[1], p[2]);
}

static icotable_energy atom_weighted(double r, const double *p, double beta) {
    return icotable_atom_boltzmann(&atom_table, file, file_count, lent_vertices, 3 * N, cell_offsets, CELLS, cell_vertices, 27 * N, face_offsets, N + 1, faces,
                                   faces_count, r, p[0], p[1], p[2], beta);
}

/* At the vertices, half way between two of them, outside, and of what is not there. */
static void atom_readings(void) {
    static const double none[3] = {0, 0, 0};
    const double *a = vertices, *b = vertices + 3 * neighbours[0];
    double middle[3] = {a[0] + b[0], a[1] + b[1], a[2] + b[2]};
    small_atom_table(0);
    int far = 0;
    for (int i = 0; i < N; i++) {
        icotable_energy v = atom_reading(0.5, vertices + 3 * i), x = atom_weighted(0.5, vertices + 3 * i, 0.001);
        far += v.number != 0 || fabs(v.energy - i) > 1e-6 || x.number != 0 || fabs(x.energy - i) > 1e-6;
    }
    expect("readings against an atom at vertices that are not the energy there", far, 0);
    icotable_energy v = atom_reading(0.5, middle);
    expect("reading between two vertices", v.number, 0);
    expect("its energy is half of the neighbour's", fabs(v.energy - neighbours[0] * 0.5) < 1e-6, 1);
    v = atom_reading(1.5, a);
    expect("reading beyond rmax", v.number, 0);
    expect("its energy is 0", v.energy == 0, 1);
    expect("reading at no distance", atom_reading(NAN, a).number, 18);
    expect("reading of no direction", atom_reading(0.5, none).number, 18);
    expect("weighted reading of no direction", atom_weighted(0.5, none, 0).number, 18);
    expect("weighted reading with beta 0, beyond rmax", atom_weighted(1.5, a, 0).number, 21);
    expect("weighted reading with an infinite beta", atom_weighted(0.5, a, INFINITY).number, 21);
    for (int c = 0; c < CELLS; c++)
        cell_offsets[c] = 0;
    expect("reading with cells that list no vertex", atom_reading(0.5, a).number, 20);
    atom_table.rows = 0;
    expect("reading of a table that says it has no rows", atom_reading(0.5, a).number, 19);
}

/* Zero weights stay in: where an energy of weight 0 is the least, and the others are so far above it that their
 * exponentials are 0, the sum is 0 and the reading infinite. Over vertices of half the length, a direction at one of them
 * has the weights 1, 0, 0 to the bit. */
static void atom_zero_weight(void) {
    enum { ENERGIES = 54 };
    static double half[3 * N];
    for (int i = 0; i < 3 * N; i++)
        half[i] = vertices[i] / 2;
    lent_vertices = half;
    small_atom_table(1000);
    icotable_energy plain = atom_reading(0.5, vertices), x = atom_weighted(0.5, vertices, 1);
    expect("plain reading at vertex 0", plain.number, 0);
    expect("its energy is 1000", plain.energy == 1000, 1);
    expect("weighted reading at vertex 0, the others more than 746 below it", x.number, 0);
    expect("its energy is infinity", x.energy == INFINITY, 1);
    expect("with a smaller beta it is not", fabs(atom_weighted(0.5, vertices, 0.5).energy - 1000) < 1e-6, 1);
    file[ENERGIES + 2] = 0x80, file[ENERGIES + 3] = 0xFF;
    expect("read with an energy of minus infinity", icotable_atom_read(file, file_count).number, 0);
    x = atom_weighted(0.5, vertices + 3 * neighbours[0], 1);
    expect("weighted reading where it is the least, with weight 0", x.number, 0);
    expect("its energy is infinity", x.energy == INFINITY, 1);
    lent_vertices = vertices;
}

/* An empty table of one dihedral bin, by hand: the first levels, and so many distances, each a Scalar row of 0. */
static uint8_t large[66 + 16 + 10 * 4096];

static size_t by_hand(uint32_t held, uint32_t rows) {
    static const double grid[3] = {0, 1, 6};
    static const uint8_t row[10] = {0, 0, 0xFF, 0xFF, 0xFF, 0xFF, 0, 0, 0, 0};
    uint32_t first = 3, bins[3] = {2, rows, 1}, none = 0;
    uint8_t *at = large;
    memcpy(at, &first, 4), memcpy(at + 4, grid, 24), memcpy(at + 28, bins, 12), memcpy(at + 40, &held, 4);
    for (uint32_t m = 0; m < held; m++) {
        uint32_t n = (uint32_t)icotable_vertices(m);
        memcpy(at + 44 + 4 * m, &n, 4);
    }
    at += 44 + 4 * held;
    memcpy(at, &rows, 4);
    for (uint32_t i = 0; i < rows; i++)
        memcpy(at + 4 + 10 * i, row, 10);
    memcpy(at + 4 + 10 * rows, &none, 4);
    return 52 + 4 * held + 10 * rows;
}

/* Both sides of each bound; 24 after 14 and before 15. */
static void viewer(void) {
    size_t length = by_hand(4, 4096);
    icotable_table read = icotable_read(large, length), view = icotable_view(large, length);
    expect("read of 4 levels and 4096 rows", read.number, 0);
    expect("view of them", view.number, 0);
    expect("bytes of its answer that differ from read's", memcmp(&read, &view, sizeof read) != 0, 0);
    length = by_hand(5, 1);
    expect("read of 5 levels", icotable_read(large, length).number, 0);
    expect("view of them", icotable_view(large, length).number, 24);
    expect("levels of a view that is refused", icotable_view(large, length).levels, 0);
    large[68] = 4;
    expect("read of 5 levels and a row of kind 4", icotable_read(large, length).number, 15);
    expect("view of them", icotable_view(large, length).number, 24);
    large[44] = 13;
    expect("view of 5 levels, the first of 13 vertices", icotable_view(large, length).number, 14);
    expect("view of them without the last byte", icotable_view(large, length - 1).number, 13);
    length = by_hand(1, 4097);
    expect("read of 4097 rows", icotable_read(large, length).number, 0);
    expect("view of them", icotable_view(large, length).number, 24);
    length = by_hand(1, 2);
    large[52] = 4;
    expect("view of a row of kind 4", icotable_view(large, length).number, 15);
}

/* A gap in front and one at the end, then energies that end behind section 5, a NaN in a gap, and an output that is too short. */
static void loose_files(void) {
    double energies[PER];
    uint8_t packed[642], loose[654], output[700];
    icotable_builder b = fresh(settings, 0).builder;
    for (int i = 0; i < PER; i++)
        energies[i] = i;
    b = icotable_set(b, store, PER, words, 1, 0, 0, energies, PER).builder;
    expect("bytes of a packed file", written(b, packed, sizeof packed).length, 642);
    memset(output, 7, sizeof output);
    icotable_repacked r = icotable_repack(packed, 642, output, sizeof output);
    expect("repack of a packed file", r.number, 0);
    expect("its length", r.length, 642);
    expect("rows that moved", r.moved, 0);
    expect("bytes that differ", memcmp(output, packed, 642) != 0, 0);
    expect("a byte beyond it", output[642], 7);
    memcpy(loose, packed, 66), memset(loose + 66, 0, 8), memcpy(loose + 74, packed + 66, 576), memset(loose + 650, 0, 4);
    loose[54] = 2, loose[62] = PER + 3;
    expect("read of two energies in front and one behind", icotable_read(loose, 654).number, 16);
    memset(output, 7, sizeof output);
    r = icotable_repack(loose, 654, output, sizeof output);
    expect("repack of them", r.number, 0);
    expect("its length", r.length, 642);
    expect("rows that moved", r.moved, 1);
    expect("bytes that differ", memcmp(output, packed, 642) != 0, 0);
    memset(output, 7, sizeof output);
    expect("repack to 641 bytes", icotable_repack(loose, 654, output, 641).number, 12);
    expect("the output's first byte after it", output[0], 7);
    loose[68] = 0xC0, loose[69] = 0x7F;
    expect("repack with a NaN in the gap", icotable_repack(loose, 654, output, sizeof output).number, 17);
    loose[54] = 4;
    r = icotable_repack(loose, 654, output, sizeof output);
    expect("repack of energies that end behind section 5", r.number, 25);
    expect("its length", r.length, 0);
    expect("rows that moved", r.moved, 0);
    expect("repack without the last byte", icotable_repack(loose, 653, output, sizeof output).number, 13);
}

static void sizes_and_numbers(void) {
    expect("vertices of level 15", icotable_vertices(15), 2562);
    expect("cell offsets of level 15", icotable_cells(15), 3751);
    expect("cell offsets of level 0", icotable_cells(0), 25);
    expect("vertices of level 16", icotable_vertices(16), 0);
    expect("cell offsets of level 16", icotable_cells(16), 0);
    double x = icotable_root(2);
    uint64_t bits;
    memcpy(&bits, &x, sizeof bits);
    expect("bits of the root of 2", bits, 0x3FF6A09E667F3BCD);
    expect("E(0) is 1", icotable_exp(0) == 1, 1);
    x = icotable_exp(-709);
    memcpy(&bits, &x, sizeof bits);
    expect("bits of E(-709), a subnormal number", bits, 0x0008BFE55DE02338);
    expect("E(-745.2) is 0", icotable_exp(-745.2) == 0, 1);
    expect("E(709.79) is infinity", icotable_exp(709.79) == INFINITY, 1);
    x = icotable_ln(5e-324);
    memcpy(&bits, &x, sizeof bits);
    expect("bits of the logarithm of 2^-1074", bits, 0xC0874385446D71C3);
    expect("the logarithm of 1 is 0", icotable_ln(1) == 0, 1);
    expect("the logarithm of -0 is -infinity", icotable_ln(-0.0) == -INFINITY, 1);
    expect("the logarithm of -1 is a NaN", isnan(icotable_ln(-1)) != 0, 1);
    expect("3 to the power 5", (uint64_t)icotable_power(3, 5), 243);
    expect("a NaN to the power 0", (uint64_t)icotable_power(NAN, 0), 1);
    expect("-1 to the power 4294967295 is -1", icotable_power(-1, UINT32_MAX) == -1, 1);
    double half = icotable_power(1.1, 3), square = half * half;
    expect("1.1 to the power 7 is that to the power 3, squared, times 1.1", icotable_power(1.1, 7) == square * 1.1, 1);
    double tiny = 1.0 / (1 << 30);
    expect("fused (1 + 2^-30)(1 - 2^-30) - 1 is -2^-60", icotable_mul_add(1 + tiny, 1 - tiny, -1) == -tiny * tiny, 1);
    expect("16777217, narrowed", (uint64_t)icotable_narrow(16777217), 16777216);
    expect("16777219, narrowed", (uint64_t)icotable_narrow(16777219), 16777220);
    expect("the case of 16777217: half even", icotable_narrow_case(16777217), 3);
    expect("the case of 16777219: half odd", icotable_narrow_case(16777219), 4);
    expect("the case of 0.1: above half", icotable_narrow_case(0.1), 5);
    expect("the case of 1: below half", icotable_narrow_case(1), 2);
    expect("the case of 1e39: overflow", icotable_narrow_case(1e39), 1);
    expect("an infinity is in no case", icotable_narrow_case(INFINITY), 0);
    expect("a NaN is in no case", icotable_narrow_case(NAN), 0);
}

/* ---- spans of distances */

static uint8_t *put(uint8_t *at, size_t bytes, uint64_t number) {
    for (size_t i = 0; i < bytes; i++)
        *at++ = (uint8_t)(number >> 8 * i);
    return at;
}

static uint8_t *put_row(uint8_t *at, uint8_t kind, uint32_t offset, uint32_t scalar) {
    return put(put(put(put(at, 1, kind), 1, 0), 4, offset), 4, scalar);
}

/* Five distances from 0 to 5, one dihedral bin: Scalar 2, Scalar NaN, Repulsive, Mesh nearest with energies from -3 on, Scalar -0. */
static void spanned_file(void) {
    static const uint64_t head[] = {0, 0x3FF0000000000000, 0x4018000000000000};
    uint8_t *at = put(file, 4, 3);
    for (int i = 0; i < 3; i++)
        at = put(at, 8, head[i]);
    at = put(put(put(at, 4, 2), 4, 5), 4, 1);
    at = put(put(put(at, 4, 1), 4, N), 4, 5);
    at = put_row(put_row(put_row(at, 0, UINT32_MAX, 0x40000000), 0, UINT32_MAX, 0x7FC00000), 1, UINT32_MAX, 0);
    at = put(put_row(put_row(at, 2, 0, 0), 0, UINT32_MAX, 0x80000000), 4, PER);
    for (int i = 0; i < PER; i++) {
        float e = (float)(i - 3);
        uint32_t bits;
        memcpy(&bits, &e, sizeof bits);
        at = put(at, 4, bits);
    }
    file_count = (size_t)(at - file);
    table = icotable_read(file, file_count);
}

static icotable_spanned span(double low, double high, double omega) {
    return icotable_span(&table, file, file_count, low, high, omega);
}

static void spans(void) {
    spanned_file();
    expect("read of five distances", table.number, 0);
    icotable_spanned s = span(0, 5, 0);
    expect("span of all distances", s.number, 0);
    expect("its bins", s.first == 0 && s.last == 4, 1);
    expect("its energies, a Mesh row's first and infinity", s.smallest == -3 && s.largest == INFINITY, 1);
    expect("its scalars that are a NaN", s.scalar_nans, 1);
    s = span(0, 0.4, 100);
    expect("span within a bin", s.first == 0 && s.last == 0 && s.smallest == 2 && s.largest == 2, 1);
    s = span(1, 1, 0);
    expect("span of the NaN's row", s.number == 0 && s.scalar_nans == 1 && isnan(s.smallest) && isnan(s.largest), 1);
    s = span(2.5, 3.5, -7);
    expect("span of two rows", s.first == 3 && s.last == 4 && s.smallest == -3 && s.largest == 140, 1);
    s = span(3.5, 5, 0);
    expect("span of the last row, -0", s.first == 4 && signbit(s.smallest) && signbit(s.largest), 1);
    expect("span with an end that is a NaN", span(NAN, 9, 0).number, 18);
    expect("span with another", span(9, NAN, 0).number, 18);
    expect("span at an infinite dihedral angle", span(9, 8, INFINITY).number, 18);
    expect("span from 2 to 1", span(2, 1, 0).number, 26);
    expect("span from below rmin", span(-0.5, 1, 0).number, 26);
    expect("span to beyond the table's rmax", span(1, 5.000001, 0).number, 26);
    expect("span to infinity", span(1, INFINITY, 0).number, 26);
    s = span(2, 1, 0);
    expect("refused, all other fields are 0", s.first == 0 && s.last == 0 && s.smallest == 0 && s.largest == 0 && s.scalar_nans == 0, 1);
    icotable_table whole = table;
    table.grid.rmax = 1;
    expect("span of a table in which the host put another rmax", span(0, 5, 0).number, 0);
    table.rows = 4;
    expect("span with a row less, which it touches", span(3, 5, 0).number, 19);
    expect("and which it does not", span(1, 3, 0).number, 0);
    table = whole, table.energies = PER - 1;
    expect("span with an energy less", span(3, 3, 0).number, 19);
    table = whole, table.levels = 0;
    expect("span with a level that is not held", span(2, 3, 0).number, 19);
    table = whole, table.grid.n_omega = 0;
    expect("span without dihedral bins", span(2, 3, 0).number, 19);
    table.grid.n_omega = UINT64_MAX;
    expect("span with as many as there can be", span(2, 3, 0).number, 19);
    table = whole, table.start[3] = UINT64_MAX;
    expect("span with rows at the last byte of all", span(2, 3, 0).number, 19);
    table = whole;
}

int main(void) {
    mesh();
    empty_table();
    one_slab();
    word_rests();
    moves();
    sizing();
    search();
    refused();
    locator();
    readings();
    weighted_readings();
    many_readings();
    distances();
    empty_spans();
    tail_bytes();
    tail_readings();
    tail_refused();
    tail_damaged();
    viewer();
    loose_files();
    spans();
    empty_atom_table();
    atom_slab();
    atom_refused();
    atom_readings();
    atom_zero_weight();
    sizes_and_numbers();
    printf("%d answers differ\n", differing);
    return differing != 0;
}
