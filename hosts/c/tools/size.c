/* size [--json] [--terms N] RMIN RMAX DR [STEP] TOP: the memory and the file that a build needs at most, with so many terms
 * in its long-range tail, and the comparisons of its settles, for a reservation; without a step, of a table against an
 * atom, which has no terms. Threshold and beta decide nothing of this. The
 * lengths are the library's; bytes and seconds are worked out of them here. */
#include "tools.h"

#include "mesh.h"

/* Nanoseconds of settle for each comparison: what bench/run measures from level 1 on (docs/PERFORMANCE.md, 28.6 ns an
 * energy, of which each takes part in some 12 comparisons). */
static const double NANOSECONDS = 2.4;

typedef struct build {
    bool atom;
    icotable_grid grid;
    uint64_t top, terms, distances, slabs;
    icotable_size size;
    uint64_t store, rows, meshes, locators; /* bytes */
} build;

/* The numbers of the command line, or false. */
static bool settings_of(build *b, int count, char **words) {
    double x[5];
    if (count != 4 && count != 5)
        return false;
    for (int i = 0; i < count; i++)
        if (!number_of(words[i], &x[i]))
            return false;
    double top = x[count - 1];
    if (!(top >= 0 && top < 1e9 && top == (double)(uint64_t)top))
        return false;
    b->atom = count == 4;
    if (b->atom && b->terms > 0)
        return false;
    b->grid = (icotable_grid){.rmin = x[0], .rmax = x[1], .dr = x[2], .omega_step = b->atom ? 0 : x[3], .threshold = 0, .beta = 1};
    b->top = (uint64_t)top;
    return true;
}

/* What the library says; an atom's slabs are the distances of a table of two molecules, too. */
static uint64_t ask(build *b, const icotable_meshes *m) {
    const icotable_grid *g = &b->grid;
    icotable_atom_grid atom = {.rmin = g->rmin, .rmax = g->rmax, .dr = g->dr, .threshold = g->threshold, .beta = g->beta};
    icotable_size size = icotable_atom_sizing(atom, b->top, m->neighbour_counts, m->neighbour_counts_count, m->neighbours, m->neighbours_count);
    if (size.number != 0)
        return size.number;
    b->distances = size.store / icotable_vertices(b->top);
    if (!b->atom)
        size = icotable_sizing(*g, b->top, m->neighbour_counts, m->neighbour_counts_count, m->neighbours, m->neighbours_count, b->terms);
    b->size = size;
    if (size.number == 0)
        b->slabs = size.store / per_level(b->atom, b->top);
    return size.number;
}

static void count_bytes(build *b) {
    const icotable_size *s = &b->size;
    b->store = s->store * sizeof(double);
    b->rows = b->slabs * (2 * sizeof(uint8_t) + sizeof(uint32_t));
    for (uint64_t m = 0; m <= b->top; m++) {
        b->meshes += icotable_vertices(m) * (9 * sizeof(double) + sizeof(uint8_t) + 6 * sizeof(uint16_t));
        b->locators += (s->cell_offsets[m] + s->face_offsets[m]) * sizeof(uint32_t) + (s->cell_vertices[m] + s->faces[m]) * sizeof(uint16_t);
    }
}

static uint64_t memory_of(const build *b) {
    return b->store + b->rows + b->meshes + b->size.file;
}

static double seconds_of(const build *b, uint64_t level) {
    return (double)b->size.comparisons[level] * NANOSECONDS * 1e-9;
}

static void print_bytes(const char *what, uint64_t bytes) {
    static const char *const units[] = {"bytes", "kB", "MB", "GB"};
    int unit = 0;
    double x = (double)bytes;
    for (; x >= 1000 && unit < 3; unit++)
        x /= 1000;
    printf("%-13s%llu bytes", what, (unsigned long long)bytes);
    if (unit > 0)
        printf(", %.3g %s", x, units[unit]);
    putchar('\n');
}

static void print_words(const build *b) {
    printf("%s, levels 0 to %llu: %llu distances, %llu slabs\n", table_words(b->atom), (unsigned long long)b->top, (unsigned long long)b->distances,
           (unsigned long long)b->slabs);
    print_bytes("to build", memory_of(b));
    print_bytes("  store", b->store);
    print_bytes("  rows", b->rows);
    print_bytes("  meshes", b->meshes);
    print_bytes("  output", b->size.file);
    print_bytes("locators", b->locators); /* for readings */
    print_bytes("file at most", b->size.file);
    if (b->terms > 0)
        printf("  with %llu terms of a long-range tail\n", (unsigned long long)b->terms);
    puts("comparisons of one settle, every slab filled and none Repulsive:");
    for (uint64_t m = 0; m <= b->top; m++) {
        printf("  level %-4llu%llu", (unsigned long long)m, (unsigned long long)b->size.comparisons[m]);
        if (!b->atom)
            printf(", some %.2g s", seconds_of(b, m));
        putchar('\n');
    }
    if (b->atom)
        puts("A settle takes under a millisecond at every level: nearly all of it is the question whether the meshes keep their rule.");
    else
        printf("All %llu settles at the top level: some %.2g s. The seconds are an estimate: %g ns a comparison, as bench/run measured\n"
               "settle of full slabs on one core of an AMD EPYC (docs/PERFORMANCE.md). Sampling the energies is not in it.\n",
               (unsigned long long)b->distances, (double)b->distances * seconds_of(b, b->top), NANOSECONDS);
}

static void json_level(const build *b, uint64_t m) {
    const icotable_size *s = &b->size;
    json_open(NULL, '{');
    json_count("level", m);
    json_count("vertices", icotable_vertices(m));
    json_count("cell_offsets", s->cell_offsets[m]);
    json_count("cell_vertices", s->cell_vertices[m]);
    json_count("face_offsets", s->face_offsets[m]);
    json_count("faces", s->faces[m]);
    json_count("comparisons", s->comparisons[m]);
    if (!b->atom)
        json_double("estimated_settle_seconds", seconds_of(b, m));
    json_close('}');
}

static void print_json(const build *b) {
    json_text("kind", b->atom ? "atom" : "pair");
    json_count("top", b->top);
    json_count("terms", b->terms);
    json_count("distances", b->distances);
    json_count("slabs", b->slabs);
    json_count("store", b->size.store);
    json_count("store_bytes", b->store);
    json_count("row_bytes", b->rows);
    json_count("mesh_bytes", b->meshes);
    json_count("locator_bytes", b->locators);
    json_count("memory_bytes", memory_of(b));
    json_count("file_bytes", b->size.file);
    json_open("levels", '[');
    for (uint64_t m = 0; m <= b->top; m++)
        json_level(b, m);
    json_close(']');
    if (!b->atom)
        json_double("estimated_nanoseconds_per_comparison", NANOSECONDS);
}

static int said(build *b, uint64_t number, bool json) {
    if (number == 0)
        count_bytes(b);
    if (!json) {
        if (number == 0)
            print_words(b);
        else
            printf("refused with %llu: %s\n", (unsigned long long)number, icotable_words(number));
        return number == 0 ? GOOD : FOUND;
    }
    json_open(NULL, '{');
    json_flag("accepted", number == 0);
    json_count("number", number);
    if (number == 0)
        print_json(b);
    else
        json_text("words", icotable_words(number));
    json_close('}');
    json_end();
    return number == 0 ? GOOD : FOUND;
}

int size_tool(int count, char **names) {
    build b = {0};
    const char *terms = given("--terms");
    if ((terms != NULL && !whole_of(terms, &b.terms)) || !settings_of(&b, count, names)) {
        fputs("icotable size: RMIN RMAX DR [STEP] TOP are numbers, TOP and the N of --terms whole ones; without STEP there are no terms\n", stderr);
        return TROUBLE;
    }
    icotable_meshes meshes = {0};
    uint64_t number = icotable_make_meshes(&meshes, b.top);
    if (number == 0)
        number = ask(&b, &meshes);
    icotable_free_meshes(&meshes);
    if (number == ICOTABLE_NO_MEMORY) {
        fputs("icotable size: no memory for the meshes\n", stderr);
        return TROUBLE;
    }
    return said(&b, number, given("--json") != NULL);
}
