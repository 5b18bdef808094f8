/* The sizing of a build: sizing. Of all sixteen levels its answer is compared with lengths that are worked out here; lists of
 * exactly these lengths have to be accepted by fresh and the locator call, and with one entry less each of them has to be refused
 * with 6; a build whose slabs are all set at the top level has to give a file of exactly the length that was said, and builds
 * that are settled none that is longer. The same with a long-range tail, and against an atom. sizing table prints the table of docs/GUIDE.md. The status is 1
 * where an answer is another one. */
#include "mesh.h"

#include <math.h>
#include <stdio.h>
#include <stdlib.h>
#include <string.h>

enum { LEVELS = 16, TOP = 15, SMALL = 2, DISTANCES = 3, OMEGAS = 2 };

static icotable_meshes meshes;
static int checks, differing;

static void expect(const char *what, uint64_t level, uint64_t got, uint64_t wanted) {
    checks++;
    if (got == wanted)
        return;
    printf("%s, level %llu: %llu, not %llu\n", what, (unsigned long long)level, (unsigned long long)got, (unsigned long long)wanted);
    differing++;
}

static const icotable_grid pairs = {.rmin = 1, .rmax = 1 + DISTANCES, .dr = 1, .omega_step = 3.1, .threshold = 0.5, .beta = 1};
static const icotable_atom_grid atoms = {.rmin = 1, .rmax = 1 + DISTANCES, .dr = 1, .threshold = 0.5, .beta = 1};

static icotable_size sized_with(icotable_grid grid, uint64_t top, size_t counts, size_t neighbours, uint64_t terms) {
    return icotable_sizing(grid, top, meshes.neighbour_counts, counts, meshes.neighbours, neighbours, terms);
}

static icotable_size sized(icotable_grid grid, uint64_t top, size_t counts, size_t neighbours) {
    return sized_with(grid, top, counts, neighbours, 0);
}

static icotable_size atom_sized(icotable_atom_grid grid, uint64_t top, size_t counts, size_t neighbours) {
    return icotable_atom_sizing(grid, top, meshes.neighbour_counts, counts, meshes.neighbours, neighbours);
}

/* The vertices of the levels below, and the neighbour counts of one level added up. */
static size_t below(uint64_t level) {
    size_t n = 0;
    for (uint64_t m = 0; m < level; m++)
        n += icotable_vertices(m);
    return n;
}

static uint64_t total(uint64_t level) {
    uint64_t sum = 0;
    for (uint64_t v = 0; v < icotable_vertices(level); v++)
        sum += meshes.neighbour_counts[below(level) + v];
    return sum;
}

static uint64_t grid_size(uint64_t n) {
    double g = ceil(sqrt((double)n / 6) * 1.2);
    return g < 2 ? 2 : (uint64_t)g;
}

/* A size's numbers by level, and 0 above the top. */
static void by_level(const icotable_size *s, uint64_t top, int atom) {
    for (uint64_t m = 0; m < LEVELS; m++) {
        uint64_t held = m <= top, n = icotable_vertices(m), g = grid_size(n);
        expect("cell offsets", m, s->cell_offsets[m], held * (6 * g * g + 1));
        expect("cell vertices", m, s->cell_vertices[m], held * 27 * n);
        expect("face offsets", m, s->face_offsets[m], held * (n + 1));
        expect("faces", m, s->faces[m], held * 45 * n);
        expect("comparisons", m, s->comparisons[m], held * total(m) * (atom ? 1 : OMEGAS * 2 * n));
    }
}

static void zeros(const icotable_size *s, uint64_t number) {
    icotable_size none = {.number = number};
    expect("a refused sizing is 0 but for its number", 0, (uint64_t)memcmp(s, &none, sizeof none), 0);
}

static void lengths(uint64_t top) {
    size_t n = below(top + 1);
    uint64_t per = icotable_vertices(top), slabs = DISTANCES * OMEGAS;
    icotable_size s = sized(pairs, top, n, 6 * n);
    expect("sizing", top, s.number, 0);
    expect("store", top, s.store, slabs * per * per);
    expect("file", top, s.file, 52 + 4 * (top + 1) + 10 * slabs + 4 * slabs * per * per);
    by_level(&s, top, 0);
    s = atom_sized(atoms, top, n, 6 * n);
    expect("sizing against an atom", top, s.number, 0);
    expect("store against an atom", top, s.store, DISTANCES * per);
    expect("file against an atom", top, s.file, 40 + 4 * (top + 1) + 10 * DISTANCES + 4 * DISTANCES * per);
    by_level(&s, top, 1);
    for (int atom = 0; atom < 2; atom++)
        for (size_t less = 0; less < 2; less++) {
            s = atom ? atom_sized(atoms, top, n - less, 6 * n - !less) : sized(pairs, top, n - less, 6 * n - !less);
            zeros(&s, 6);
        }
}

/* Each neighbour list made wrong in one place of the top level, and settings that are refused. */
static void refused(void) {
    size_t n = below(SMALL + 1), v = below(SMALL) + 20;
    icotable_size s;
    uint8_t *count = &meshes.neighbour_counts[v], kept = *count;
    uint16_t *first = &meshes.neighbours[6 * v], neighbour = *first;
    for (int i = 0; i < 5; i++) {
        *count = i == 0 ? 4 : i == 1 ? 7 : kept;
        *first = (uint16_t)(i == 2 ? icotable_vertices(SMALL) : i == 3 ? 20 : i == 4 ? first[1] : neighbour);
        s = sized(pairs, SMALL, n, 6 * n);
        zeros(&s, 7);
        s = atom_sized(atoms, SMALL, n, 6 * n);
        zeros(&s, 7);
        s = sized(pairs, SMALL - 1, n, 6 * n); /* the levels below are as they should be */
        expect("sizing below a wrong level", SMALL, s.number, 0);
        *count = kept, *first = neighbour;
    }
    icotable_grid g = pairs;
    g.dr = 0;
    s = sized(g, SMALL, n, 6 * n);
    zeros(&s, 1);
    s = sized(pairs, 16, n, 6 * n);
    zeros(&s, 2);
    g = pairs, g.rmax = g.rmin + 0.4;
    s = sized(g, SMALL, n, 6 * n);
    zeros(&s, 3);
    g = pairs, g.rmin = 0, g.rmax = 1.79e308, g.dr = 1.1e308;
    s = sized(g, SMALL, n, 6 * n);
    zeros(&s, 4);
    g = pairs, g.rmin = 0, g.rmax = 655;
    s = sized(g, TOP, below(LEVELS), 6 * below(LEVELS));
    zeros(&s, 5);
    s = icotable_sizing(pairs, 0, NULL, 0, NULL, 0, 4294967296);
    zeros(&s, 6);
    s = sized_with(pairs, SMALL, n, 6 * n, 4294967296);
    zeros(&s, 23);
}

/* ---- lists of exactly these lengths */

static void locators(const icotable_size *s) {
    for (uint64_t m = 0; m < LEVELS; m++) {
        size_t n = icotable_vertices(m), at = below(m);
        size_t count[4] = {s->cell_offsets[m], s->cell_vertices[m], s->face_offsets[m], s->faces[m]};
        uint32_t *offsets[2] = {calloc(count[0], 4), calloc(count[2], 4)};
        uint16_t *numbers[2] = {calloc(count[1], 2), calloc(count[3], 2)};
        for (int less = 0; less < 5; less++) {
            size_t c[4];
            for (int i = 0; i < 4; i++)
                c[i] = count[i] - (less == i + 1);
            uint64_t number = icotable_locator(m, meshes.vertices + 3 * at, 3 * n, meshes.neighbour_counts + at, n, meshes.neighbours + 6 * at, 6 * n,
                                               meshes.angles + 6 * at, 6 * n, offsets[0], c[0], numbers[0], c[1], offsets[1], c[2], numbers[1], c[3]);
            expect("a locator of exactly these lengths, or of one entry less", m, number, less ? 6 : 0);
        }
        for (int i = 0; i < 2; i++)
            free(offsets[i]), free(numbers[i]);
    }
}

typedef struct lists {
    double *store, *energies;
    uint64_t *words;           /* of two molecules */
    uint8_t *kinds, *levels;   /* against an atom */
    uint32_t *values;
    uint8_t *output;
} lists;

static lists allocated(size_t store, size_t slabs, size_t energies, size_t output) {
    return (lists){calloc(store, 8), calloc(energies, 8), calloc(slabs, 8), calloc(slabs, 1), calloc(slabs, 1), calloc(slabs, 4), calloc(output, 1)};
}

static void freed(lists *l) {
    free(l->store), free(l->energies), free(l->words), free(l->kinds), free(l->levels), free(l->values), free(l->output);
}

#define LENT(l, c) (l).store, (c)[0], (l).words, (c)[1]
#define ATOM_LENT(l, c) (l).store, (c)[0], (l).kinds, (c)[1], (l).levels, (c)[2], (l).values, (c)[3]

static void pair_builds(uint64_t top) {
    size_t n = icotable_vertices(top), slabs = DISTANCES * OMEGAS;
    icotable_size s = sized(pairs, top, meshes.neighbour_counts_count, meshes.neighbours_count);
    lists l = allocated(s.store, slabs, n * n, s.file);
    size_t count[2] = {s.store, slabs};
    for (int less = 1; less <= 2; less++) {
        size_t c[2];
        for (int i = 0; i < 2; i++)
            c[i] = count[i] - (less == i + 1);
        expect("fresh with one entry less", top, icotable_fresh(pairs, top, LENT(l, c), ICOTABLE_MESHES(&meshes)).number, 6);
    }
    for (int settled = 0; settled < 2; settled++) {
        icotable_built b = icotable_fresh(pairs, top, LENT(l, count), ICOTABLE_MESHES(&meshes));
        expect("fresh with exactly these lengths", top, b.number, 0);
        icotable_builder builder = b.builder;
        for (uint64_t slab = 0; slab < slabs; slab++) {
            size_t held = icotable_vertices(builder.level);
            for (size_t i = 0; i < held * held; i++)
                l.energies[i] = settled ? (double)(i % 7) * 0.01 * (double)slab : 1;
            b = icotable_set(builder, LENT(l, count), slab / OMEGAS, slab % OMEGAS, l.energies, held * held);
            expect("set", top, b.number, 0);
            builder = b.builder;
            if (settled && slab % OMEGAS == OMEGAS - 1)
                builder = icotable_settle(builder, LENT(l, count), ICOTABLE_MESHES(&meshes), slab / OMEGAS).builder;
        }
        icotable_written w = icotable_write(builder, LENT(l, count), ICOTABLE_MESHES(&meshes), l.output, s.file);
        expect("write", top, w.number, 0);
        expect(settled ? "a settled build's file is no longer" : "the longest file is reached", top, settled ? w.length <= s.file : w.length, settled ? 1 : s.file);
        if (!settled)
            expect("write with a byte less", top, icotable_write(builder, LENT(l, count), ICOTABLE_MESHES(&meshes), l.output, s.file - 1).number, 12);
    }
    freed(&l);
}

/* With a long-range tail: every slab set at the top level, and so many terms, reach the longest file; fewer do not. */
static void tail_builds(uint64_t top) {
    static const double numbers[3] = {1, 0.5, 2};
    static const uint32_t powers[3] = {1, 6, 12};
    size_t n = icotable_vertices(top), slabs = DISTANCES * OMEGAS;
    icotable_size s = sized_with(pairs, top, meshes.neighbour_counts_count, meshes.neighbours_count, 3);
    expect("the terms in the longest file", top, s.file - sized(pairs, top, meshes.neighbour_counts_count, meshes.neighbours_count).file, 12 + 3 * 20);
    lists l = allocated(s.store, slabs, n * n, s.file);
    size_t count[2] = {s.store, slabs};
    icotable_builder b = icotable_fresh(pairs, top, LENT(l, count), ICOTABLE_MESHES(&meshes)).builder;
    for (uint64_t slab = 0; slab < slabs; slab++)
        b = icotable_set(b, LENT(l, count), slab / OMEGAS, slab % OMEGAS, l.energies, n * n).builder;
    for (size_t terms = 0; terms <= 3; terms++) {
        icotable_written w = icotable_write_tail(b, LENT(l, count), ICOTABLE_MESHES(&meshes), numbers, terms, numbers, 3, powers, 3, numbers, 1, l.output, s.file);
        expect("write with terms", top, w.number, 0);
        expect("its length", top, w.length, s.file - (terms == 0 ? 12 : 0) - 20 * (3 - terms));
    }
    expect("write with terms and a byte less", top,
           icotable_write_tail(b, LENT(l, count), ICOTABLE_MESHES(&meshes), numbers, 3, numbers, 3, powers, 3, numbers, 1, l.output, s.file - 1).number, 12);
    freed(&l);
}

static void atom_builds(uint64_t top) {
    size_t n = icotable_vertices(top);
    icotable_size s = atom_sized(atoms, top, meshes.neighbour_counts_count, meshes.neighbours_count);
    lists l = allocated(s.store, DISTANCES, n, s.file);
    size_t count[4] = {s.store, DISTANCES, DISTANCES, DISTANCES};
    for (int less = 1; less <= 4; less++) {
        size_t c[4];
        for (int i = 0; i < 4; i++)
            c[i] = count[i] - (less == i + 1);
        expect("an atom's fresh with one entry less", top, icotable_atom_fresh(atoms, top, ATOM_LENT(l, c), ICOTABLE_MESHES(&meshes)).number, 6);
    }
    icotable_atom_built b = icotable_atom_fresh(atoms, top, ATOM_LENT(l, count), ICOTABLE_MESHES(&meshes));
    expect("an atom's fresh with exactly these lengths", top, b.number, 0);
    for (uint64_t ri = 0; ri < DISTANCES; ri++) {
        for (size_t i = 0; i < n; i++)
            l.energies[i] = (double)i;
        expect("an atom's set", top, icotable_atom_set(b.builder, ATOM_LENT(l, count), ri, l.energies, n).number, 0);
    }
    icotable_written w = icotable_atom_write(b.builder, ATOM_LENT(l, count), ICOTABLE_MESHES(&meshes), l.output, s.file);
    expect("an atom's longest file is reached", top, w.length, s.file);
    expect("an atom's write with a byte less", top, icotable_atom_write(b.builder, ATOM_LENT(l, count), ICOTABLE_MESHES(&meshes), l.output, s.file - 1).number, 12);
    for (uint64_t ri = 0; ri < DISTANCES; ri++)
        b.builder = icotable_atom_settle(b.builder, ATOM_LENT(l, count), ICOTABLE_MESHES(&meshes), ri).builder;
    w = icotable_atom_write(b.builder, ATOM_LENT(l, count), ICOTABLE_MESHES(&meshes), l.output, s.file);
    expect("an atom's settled build's file is no longer", top, w.number == 0 && w.length <= s.file, 1);
    freed(&l);
}

/* ---- the table of docs/GUIDE.md: of one slab the store, the file's Mesh row and the comparisons of its settle */

static void bytes(uint64_t n) {
    printf(n < 1000000 ? " %.1f kB |" : " %.1f MB |", (double)n / (n < 1000000 ? 1e3 : 1e6));
}

static void table(void) {
    icotable_grid one = {.rmin = 0, .rmax = 1, .dr = 1, .omega_step = 6, .threshold = 0, .beta = 1};
    for (uint64_t m = 0; m < LEVELS; m++) {
        icotable_size s = sized(one, m, meshes.neighbour_counts_count, meshes.neighbours_count);
        printf("| %llu | %llu |", (unsigned long long)m, (unsigned long long)icotable_vertices(m));
        bytes(8 * s.store);
        bytes(s.file - (52 + 4 * (m + 1) + 10));
        printf(" %llu |\n", (unsigned long long)s.comparisons[m]);
    }
}

int main(int count, char **names) {
    if (icotable_make_meshes(&meshes, TOP) != 0) {
        puts("no meshes");
        return 1;
    }
    if (count > 1 && strcmp(names[1], "table") == 0) {
        table();
    } else {
        for (uint64_t top = 0; top < LEVELS; top++)
            lengths(top);
        refused();
        icotable_size s = sized(pairs, TOP, meshes.neighbour_counts_count, meshes.neighbours_count);
        locators(&s);
        for (uint64_t top = 0; top <= SMALL; top++)
            pair_builds(top), tail_builds(top);
        for (uint64_t top = 0; top < LEVELS; top++)
            atom_builds(top);
        printf("%d answers, of which %d differ\n", checks, differing);
    }
    icotable_free_meshes(&meshes);
    return differing != 0;
}
