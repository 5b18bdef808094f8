/* How much stack each operation takes, of a table of two molecules or against an atom: both are called in a thread whose
 * stack was painted, and what is no longer painted is counted. Prints a row of docs/GUIDE.md for each, with the figure that is stated there; the status is 1 where more was
 * taken, or so little that the figure says nothing. Each operation is called once before, so that the loader's work is not
 * counted. */
#include "mesh.h"

#include <pthread.h>
#include <stdio.h>
#include <stdlib.h>
#include <string.h>

enum { TOP = 3, DISTANCES = 4, SLABS = 2 * DISTANCES, TAIL = 12 + 3 * 20, STACK = 1 << 20, KB = 1000, PAINT = 0xA5 };

static const icotable_grid settings = {.rmin = 0, .rmax = DISTANCES, .dr = 1, .omega_step = 3, .threshold = 0.5, .beta = 1};
static icotable_meshes meshes;
static icotable_builder held;
static double *store, *energies;
static size_t store_count, room, length;
static uint64_t words[SLABS];
static uint8_t *file, *tail_file;
static icotable_table table, tail_table;
static volatile double sink;

/* Against an atom, a slab for each distance. */
enum { N = 162, ATOM_STORE = DISTANCES * N, ATOM_ROOM = 40 + 4 * (TOP + 1) + 10 * DISTANCES + 4 * ATOM_STORE };
static const icotable_atom_grid atom_settings = {.rmin = 0, .rmax = DISTANCES, .dr = 1, .threshold = 0.5, .beta = 1};
static icotable_atom_builder atom_held;
static double atom_store[ATOM_STORE];
static uint8_t atom_kinds[DISTANCES], atom_levels[DISTANCES], atom_file[ATOM_ROOM];
static uint32_t atom_values[DISTANCES];
static size_t atom_length;
static icotable_atom_table atom_table;

#define LISTS store, store_count, words, SLABS
#define ATOM_LISTS atom_store, ATOM_STORE, atom_kinds, DISTANCES, atom_levels, DISTANCES, atom_values, DISTANCES

static void fresh(void) {
    held = icotable_fresh(settings, TOP, LISTS, ICOTABLE_MESHES(&meshes)).builder;
    atom_held = icotable_atom_fresh(atom_settings, TOP, ATOM_LISTS, ICOTABLE_MESHES(&meshes)).builder;
}

/* Distance 0 is a wall, 1 is rough, 2 smoother and 3 flat, so that every kind of row comes out. */
static double energy(uint64_t ri, size_t i) {
    static const double roughness[DISTANCES] = {0, 1, 0.05, 0};
    return ri == 0 ? 1000 : roughness[ri] * (double)(i * 7919 % 1000) / 1000;
}

static void set(void) {
    size_t n = icotable_vertices(held.level);
    for (uint64_t s = 0; s < SLABS; s++) {
        for (size_t i = 0; i < n * n; i++)
            energies[i] = energy(s / 2, i);
        held = icotable_set(held, LISTS, s / 2, s % 2, energies, n * n).builder;
        atom_held = icotable_atom_set(atom_held, ATOM_LISTS, s / 2, energies, n).builder;
    }
}

/* The level is held, so that every slice is of it. */
static void settle(void) {
    for (uint64_t ri = 0; ri < DISTANCES; ri++) {
        sink = icotable_settle(held, LISTS, ICOTABLE_MESHES(&meshes), ri).gradient;
        sink = icotable_atom_settle(atom_held, ATOM_LISTS, ICOTABLE_MESHES(&meshes), ri).gradient;
    }
}

static void write_table(void) {
    static const double numbers[3] = {1, 0.5, 2};
    static const uint32_t powers[3] = {1, 6, 12};
    sink = (double)icotable_write_tail(held, LISTS, ICOTABLE_MESHES(&meshes), numbers, 3, numbers, 3, powers, 3, numbers, 1, tail_file, room + TAIL).length;
    length = icotable_write(held, LISTS, ICOTABLE_MESHES(&meshes), file, room).length;
    atom_length = icotable_atom_write(atom_held, ATOM_LISTS, ICOTABLE_MESHES(&meshes), atom_file, ATOM_ROOM).length;
}

static void read_table(void) {
    table = icotable_read(file, length);
    tail_table = icotable_read(tail_file, length + TAIL);
    atom_table = icotable_atom_read(atom_file, atom_length);
}

static void locator(void) {
    icotable_meshes all;
    if (icotable_make_meshes(&all, 15) != 0)
        exit(2);
    icotable_free_meshes(&all);
}

static void reading(void) {
    for (int i = 0; i < 4000; i++) {
        double r = i % 5 - 0.25, omega = i * 0.1, x = i % 7 - 3, y = i % 11 - 5, z = i % 13 - 6.5;
        sink = icotable_reading(&table, file, length, ICOTABLE_LOCATORS(&meshes), r, omega, x, y, z, z, x, y).energy;
        sink = icotable_boltzmann(&table, file, length, ICOTABLE_LOCATORS(&meshes), r, omega, x, y, z, z, x, y, 1).energy;
        sink = icotable_tail(&tail_table, tail_file, length + TAIL, r).energy;
        sink = icotable_span(&table, file, length, i % 3, DISTANCES - 0.5, omega).smallest;
        sink = icotable_atom_reading(&atom_table, atom_file, atom_length, ICOTABLE_LOCATORS(&meshes), r, x, y, z).energy;
        sink = icotable_atom_boltzmann(&atom_table, atom_file, atom_length, ICOTABLE_LOCATORS(&meshes), r, x, y, z, 1).energy;
    }
}

static void readings(void) {
    enum { POSES = 1000 };
    static double poses[8 * POSES], answers[3 * POSES];
    static uint64_t given[POSES];
    static const double beta = 1;
    for (int i = 0; i < 8 * POSES; i++)
        poses[i] = i % 8 == 0 ? i / 8 % 5 - 0.25 : i % 13 - 6.5;
    for (size_t betas = 0; betas <= 1; betas++)
        sink = (double)icotable_readings(
            &table, file, length, ICOTABLE_LOCATORS(&meshes), poses, 8 * POSES, &beta, betas, given, POSES, answers, 3 * POSES);
}

static void sizing(void) {
    sink = (double)icotable_sizing(settings, TOP, meshes.neighbour_counts, meshes.neighbour_counts_count, meshes.neighbours, meshes.neighbours_count, 7).file;
    sink = (double)icotable_atom_sizing(atom_settings, TOP, meshes.neighbour_counts, meshes.neighbour_counts_count, meshes.neighbours, meshes.neighbours_count).file;
}

static void search(void) {
    for (int i = 0; i < 200; i++) {
        double x = i % 7 - 3, y = i % 11 - 5, z = i % 13 - 6.5;
        sink = icotable_search(0, meshes.vertices, meshes.vertices_count, meshes.neighbour_counts, meshes.neighbour_counts_count, meshes.neighbours, meshes.neighbours_count, x, y, z).distance;
    }
}

static void numbers(void) {
    for (int i = 0; i < 2000; i++) {
        double x = (double)(i - 500) * 1e-3, y = x * 1e-308;
        sink = icotable_power(x, UINT32_MAX - (uint32_t)i);
        sink = icotable_root(x) + icotable_exp(x) + icotable_ln(x) + icotable_ln(y) + icotable_mul_add(x, y, x) + icotable_mul_add(y, y, y) + (double)icotable_narrow(y) + (double)icotable_narrow_case(y);
    }
    sink = (double)(icotable_vertices(15) + icotable_cells(15));
}

/* The atom's rows to words and back. */
static void moves(void) {
    uint64_t moved[DISTANCES];
    sink = (double)icotable_rows_to_words(DISTANCES, atom_kinds, DISTANCES, atom_levels, DISTANCES, atom_values, DISTANCES, moved, DISTANCES);
    sink = (double)icotable_words_to_rows(DISTANCES, moved, DISTANCES, atom_kinds, DISTANCES, atom_levels, DISTANCES, atom_values, DISTANCES);
}

static void nothing(void) {
}

typedef struct operation {
    const char *name;
    void (*before)(void), (*call)(void);
    size_t stated; /* kB */
} operation;

static const operation operations[] = {
    {"fresh", nothing, fresh, 2},
    {"set", nothing, set, 2},
    {"settle", set, settle, 88},
    {"write, write_tail", nothing, write_table, 2},
    {"read", nothing, read_table, 2},
    {"rows_to_words, words_to_rows", nothing, moves, 2},
    {"locator", nothing, locator, 10},
    {"reading, boltzmann, tail, span", nothing, reading, 3},
    {"readings", nothing, readings, 7},
    {"sizing", nothing, sizing, 4},
    {"search", nothing, search, 2},
    {"root, exp, ln, power, mul_add, narrow, narrow_case, vertices, cells", nothing, numbers, 2},
};

typedef struct run {
    const operation *operation;
    uintptr_t before;
} run;

static void *begin(void *given) {
    run *r = given;
    r->before = (uintptr_t)__builtin_frame_address(0);
    r->operation->call();
    return NULL;
}

/* The bytes below the frame that made the call. */
static size_t taken(const operation *o) {
    static _Alignas(65536) uint8_t stack[STACK];
    memset(stack, PAINT, sizeof stack);
    run r = {.operation = o};
    pthread_attr_t attributes;
    pthread_t thread;
    if (pthread_attr_init(&attributes) != 0 || pthread_attr_setstack(&attributes, stack, sizeof stack) != 0 ||
        pthread_create(&thread, &attributes, begin, &r) != 0 || pthread_join(thread, NULL) != 0) {
        fputs("stack: no thread\n", stderr);
        exit(2);
    }
    size_t low = 0;
    while (low < STACK && stack[low] == PAINT)
        low++;
    return (size_t)(r.before - (uintptr_t)(stack + low));
}

static void prepare(void) {
    size_t n = icotable_vertices(TOP);
    store_count = SLABS * n * n;
    room = 52 + 4 * (TOP + 1) + 10 * SLABS + 4 * store_count;
    store = calloc(store_count, sizeof *store);
    energies = calloc(n * n, sizeof *energies);
    file = calloc(room, 1);
    tail_file = calloc(room + TAIL, 1);
    if (store == NULL || energies == NULL || file == NULL || tail_file == NULL || icotable_make_meshes(&meshes, TOP) != 0)
        exit(2);
}

int main(int count, char **names) {
    int wrong = 0, exact = count > 1 && strcmp(names[1], "exact") == 0;
    prepare();
    for (size_t i = 0; i < sizeof operations / sizeof operations[0]; i++) {
        const operation *o = &operations[i];
        o->before();
        o->call();
        o->before();
        size_t bytes = taken(o);
        printf("| %s | %zu kB |\n", o->name, o->stated);
        if (exact)
            fprintf(stderr, "stack: %s: %zu bytes\n", o->name, bytes);
        wrong += bytes > o->stated * KB || bytes < 64;
    }
    unsigned seen = 0, atom_seen = 0; /* kinds of rows */
    for (int s = 0; s < SLABS; s++) {
        seen |= 1u << icotable_word_kind(words[s]);
        atom_seen |= 1u << atom_kinds[s / 2];
    }
    if (length == 0 || table.number != 0 || tail_table.terms != 3 || seen != 15 || atom_length == 0 || atom_table.number != 0 || atom_seen != 15)
        wrong++;
    return wrong != 0;
}
