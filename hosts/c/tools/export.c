/* export --csv FILE: the slabs of a table, or its energies, as lines for other programs. */
#include "tools.h"
#include "verbs.h"

#include <math.h>
#include <string.h>

typedef unsigned long long ull;

/* To the bit with so many digits; other programs read inf and nan. */
static void csv_number(FILE *out, double x, int digits) {
    if (isnan(x))
        fputs("nan", out);
    else
        fprintf(out, "%.*g", digits, x);
}

static void csv_float(FILE *out, float x) {
    csv_number(out, (double)x, 9);
}

static void csv_bins(FILE *out, const table_file *f, uint64_t slab) {
    const icotable_grid *g = &f->table.grid;
    uint64_t ri = slab / g->n_omega, oi = slab % g->n_omega;
    if (f->atom)
        fprintf(out, "%llu,", (ull)ri);
    else
        fprintf(out, "%llu,%llu,", (ull)ri, (ull)oi);
    csv_number(out, distance_of(g, ri), 17);
    fputc(',', out);
    if (!f->atom) {
        csv_number(out, (double)oi * g->omega_step, 17);
        fputc(',', out);
    }
}

static void csv_slab(FILE *out, const table_file *f, uint64_t slab) {
    row r = row_of(f, slab);
    csv_bins(out, f, slab);
    fprintf(out, "%s,", kind_words(r.kind));
    if (r.kind >= NEAREST) {
        float least, most;
        energy_span(f, &r, &least, &most);
        fprintf(out, "%u,%c,%u,%llu,,", r.level, row_letter(r.kind, r.level), r.offset, (ull)per_row(f, &r));
        csv_float(out, least);
        fputc(',', out);
        csv_float(out, most);
    } else {
        fprintf(out, ",%c,,,", row_letter(r.kind, r.level));
        if (r.kind == SCALAR)
            csv_float(out, f32_of(r.scalar));
        fputs(",,", out);
    }
    fputc('\n', out);
}

/* A slab's energies run over the second direction first. */
static void csv_energies(FILE *out, const table_file *f, uint64_t slab) {
    row r = row_of(f, slab);
    uint64_t n = icotable_vertices(r.level);
    for (uint64_t i = 0; i < per_row(f, &r); i++) {
        csv_bins(out, f, slab);
        if (f->atom)
            fprintf(out, "%u,%llu,", r.level, (ull)i);
        else
            fprintf(out, "%u,%llu,%llu,", r.level, (ull)(i / n), (ull)(i % n));
        csv_float(out, energy_of(f, &r, i));
        fputc('\n', out);
    }
}

static void csv(FILE *out, const table_file *f, uint64_t first, uint64_t end) {
    bool energies = given("--energies") != NULL;
    fputs(f->atom ? "ri,r," : "ri,oi,r,omega,", out);
    if (energies)
        fputs(f->atom ? "level,a,energy\n" : "level,a,b,energy\n", out);
    else
        fputs("kind,level,letter,offset,energies,scalar,lowest,highest\n", out);
    for (uint64_t slab = first; slab < end && !ferror(out); slab++)
        (energies ? csv_energies : csv_slab)(out, f, slab);
}

static int export_table(const table_file *f, const uint64_t *slice) {
    uint64_t n_r = f->table.grid.n_r, n_omega = f->table.grid.n_omega;
    if (f->table.number != 0) {
        print_verdict(stderr, f);
        return FOUND;
    }
    if (slice != NULL && *slice >= n_r) {
        fprintf(stderr, "icotable export: --slice %llu: the distance bins are 0 to %llu\n", (ull)*slice, (ull)(n_r - 1));
        return TROUBLE;
    }
    new_file out;
    if (begin_new(&out, given("-o")) != GOOD)
        return TROUBLE;
    csv(out.to, f, slice == NULL ? 0 : *slice * n_omega, slice == NULL ? f->table.rows : (*slice + 1) * n_omega);
    return end_new(&out);
}

int export_tool(int count, char **names) {
    (void)count;
    uint64_t slice = 0;
    const char *sliced = given("--slice");
    if (given("--csv") == NULL)
        return misused("export", "--csv", "is missing");
    if (sliced != NULL && !whole_of(sliced, &slice))
        return misused("export", "--slice", "wants a whole number");
    table_file f;
    int status = open_table(&f, names[0]);
    if (status == GOOD)
        status = export_table(&f, sliced == NULL ? NULL : &slice);
    close_table(&f);
    return status;
}
