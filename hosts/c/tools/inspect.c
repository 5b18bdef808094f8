/* inspect [--resolution] FILE: what a table holds, in words, or what refuses it. */
#include "tools.h"

#include <math.h>

enum { LEVELS = 16, SHOWN = 400, ACROSS = 50, TERMS = 20 };

typedef struct tally {
    uint64_t kind[4], level[LEVELS][4], infinite;
    double least, most;
} tally;

static void count_energies(const table_file *f, const row *r, tally *t) {
    for (uint64_t i = 0; i < per_row(f, r); i++) {
        double e = energy_of(f, r, i);
        if (isinf(e)) {
            t->infinite++;
            continue;
        }
        t->least = e < t->least ? e : t->least;
        t->most = e > t->most ? e : t->most;
    }
}

static tally count_rows(const table_file *f) {
    tally t = {.least = INFINITY, .most = -INFINITY};
    for (uint64_t s = 0; s < f->table.rows; s++) {
        row r = row_of(f, s);
        t.kind[r.kind]++;
        t.level[r.level][r.kind]++;
        count_energies(f, &r, &t);
    }
    return t;
}

static void print_rows(const table_file *f, const tally *t) {
    printf("rows        %llu:\n", (unsigned long long)f->table.rows);
    printf("  %10llu  Repulsive (a wall: every orientation is forbidden)\n", (unsigned long long)t->kind[REPULSIVE]);
    printf("  %10llu  Scalar (one number for all orientations)\n", (unsigned long long)t->kind[SCALAR]);
    for (unsigned kind = NEAREST; kind <= INTERPOLATED; kind++) {
        printf("  %10llu  %s", (unsigned long long)t->kind[kind], kind_words(kind));
        const char *before = " (";
        for (unsigned m = 0; m < LEVELS; m++)
            if (t->level[m][kind] > 0) {
                printf("%s%llu of level %u, %c", before, (unsigned long long)t->level[m][kind], m, row_letter(kind, m));
                before = "; ";
            }
        puts(t->kind[kind] > 0 ? ")" : "");
    }
}

/* The first row of that kind, or the count of rows. */
static uint64_t first_of_kind(const table_file *f, unsigned kind) {
    uint64_t s = 0;
    while (s < f->table.rows && row_of(f, s).kind != kind)
        s++;
    return s;
}

/* Whether the level dropped inside the wall: the first interpolated row or, where none is, the first Mesh row is below
 * the top level. */
static bool level_lost(const table_file *f) {
    uint64_t interpolated = first_of_kind(f, INTERPOLATED);
    uint64_t s = interpolated < f->table.rows ? interpolated : first_of_kind(f, NEAREST);
    return s < f->table.rows && row_of(f, s).level + 1u < f->table.levels;
}

/* The long-range tail, where there is one: its first terms. */
static void print_terms(const table_file *f) {
    uint64_t terms = f->table.terms;
    if (terms == 0)
        return;
    printf("terms       %llu, of prefactor %.17g times the sum of coefficient * exp(-kappa*r) / r^power:\n", (unsigned long long)terms, prefactor_of(f));
    for (uint64_t i = 0; i < terms && i < TERMS; i++) {
        term t = term_of(f, i);
        printf("  coefficient %.17g, kappa %.17g, power %u\n", t.coefficient, t.kappa, t.power);
    }
    if (terms > TERMS)
        printf("  and %llu more\n", (unsigned long long)(terms - TERMS));
}

/* A letter for each slab: a line for each distance or, against an atom, for ACROSS distances. */
static void print_slabs(const table_file *f) {
    const icotable_grid *g = &f->table.grid;
    uint64_t across = f->atom ? ACROSS : g->n_omega;
    printf("\nslabs, a letter for each %s: # Repulsive, . Scalar, A Mesh interpolated of level 0, B of level 1 and so on, a, b, .. Mesh nearest",
           f->atom ? "distance" : "dihedral bin");
    row before = {0};
    for (uint64_t s = 0; s < f->table.rows; s++) {
        row r = row_of(f, s);
        bool first = s % across == 0;
        if (first) {
            paint(stdout, PLAIN);
            printf("\n%10g  ", distance_of(g, s / g->n_omega));
        }
        if (first || r.kind != before.kind || r.level != before.level)
            paint_row(r.kind, r.level);
        putchar(row_letter(r.kind, r.level));
        before = r;
    }
    paint(stdout, PLAIN);
    putchar('\n');
}

static void print_table(const table_file *f) {
    const icotable_table *t = &f->table;
    tally seen = count_rows(f);
    printf("distance    from %.17g to %.17g by %.17g: %llu bins\n", t->grid.rmin, t->grid.rmax, t->grid.dr, (unsigned long long)t->grid.n_r);
    if (!f->atom)
        printf("dihedral    %llu bins, step %.17g\n", (unsigned long long)t->grid.n_omega, t->grid.omega_step);
    printf("levels      %llu, the top one with %llu vertices\n", (unsigned long long)t->levels, (unsigned long long)icotable_vertices(t->levels - 1));
    print_rows(f, &seen);
    printf("energies    %llu", (unsigned long long)t->energies);
    if (seen.least <= seen.most)
        printf(", from %g to %g", seen.least, seen.most);
    if (seen.infinite > 0)
        printf(", %llu infinite", (unsigned long long)seen.infinite);
    putchar('\n');
    print_terms(f);
    if (level_lost(f))
        printf("warning     %s\n", LEVEL_LOST);
    show_seal(f, false);
    if (t->grid.n_r <= SHOWN && t->grid.n_omega <= SHOWN)
        print_slabs(f);
}

static void json_levels(const char *key, const table_file *f, const tally *t, unsigned kind) {
    json_open(key, '[');
    for (uint64_t m = 0; m < f->table.levels; m++)
        json_count(NULL, t->level[m][kind]);
    json_close(']');
}

static void json_rows(const table_file *f, const tally *t) {
    json_count("rows", f->table.rows);
    json_count("repulsive", t->kind[REPULSIVE]);
    json_count("scalar", t->kind[SCALAR]);
    json_levels("nearest", f, t, NEAREST);
    json_levels("interpolated", f, t, INTERPOLATED);
    json_count("energies", f->table.energies);
    json_count("infinite", t->infinite);
    if (t->least <= t->most) {
        json_float("lowest", (float)t->least);
        json_float("highest", (float)t->most);
    }
}

static void json_terms(const table_file *f) {
    if (f->table.terms == 0)
        return;
    json_double("prefactor", prefactor_of(f));
    json_open("terms", '[');
    for (uint64_t i = 0; i < f->table.terms; i++) {
        term t = term_of(f, i);
        json_open(NULL, '{');
        json_double("coefficient", t.coefficient);
        json_double("kappa", t.kappa);
        json_count("power", t.power);
        json_close('}');
    }
    json_close(']');
}

static void json_table(const table_file *f) {
    const icotable_grid *g = &f->table.grid;
    tally seen = count_rows(f);
    json_count("bytes", f->count);
    json_double("rmin", g->rmin);
    json_double("rmax", g->rmax);
    json_double("dr", g->dr);
    json_count("n_r", g->n_r);
    if (!f->atom) {
        json_double("omega_step", g->omega_step);
        json_count("n_omega", g->n_omega);
    }
    json_count("levels", f->table.levels);
    json_flag("level_lost", level_lost(f));
    json_rows(f, &seen);
    json_terms(f);
    show_seal(f, true);
}

/* Of a table that is accepted, its items or its resolution; of any other, what refuses it. */
static int json_inspect(const table_file *f, bool resolution) {
    int status = f->table.number != 0 ? FOUND : GOOD;
    json_open(NULL, '{');
    json_verdict(f);
    if (status == GOOD && resolution)
        status = print_resolution(f, true);
    else if (status == GOOD)
        json_table(f);
    json_close('}');
    json_end();
    return status;
}

static int inspect(const table_file *f, bool resolution) {
    if (f->table.number != 0) {
        print_verdict(stdout, f);
        return FOUND;
    }
    printf("%s: %s, %zu bytes\n", f->name, table_words(f->atom), f->count);
    if (resolution)
        return print_resolution(f, false);
    print_table(f);
    return GOOD;
}

int inspect_tool(int count, char **names) {
    table_file f;
    (void)count;
    bool resolution = given("--resolution") != NULL;
    int status = open_table(&f, names[0]);
    if (status == GOOD)
        status = given("--json") != NULL ? json_inspect(&f, resolution) : inspect(&f, resolution);
    close_table(&f);
    return status;
}
