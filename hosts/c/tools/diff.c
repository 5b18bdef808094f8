/* diff A B: whether and why two tables differ; where they have seals, by which settings. A summary first, then the slabs, as many
 * as are wanted. */
#include "differences.h"
#include "icotable_mesh_file.h"
#include "verbs.h"

#include <string.h>

enum { LISTED = 20 };

typedef unsigned long long ull;

static void print_causes(const differences *d) {
    const char *before = "causes: ";
    paint(stdout, BOLD);
    if (d->meshes_differ) {
        printf("%smeshes", before);
        before = ", ";
    }
    if (d->settings_differ) {
        printf("%ssettings", before);
        before = ", ";
    }
    for (enum cause c = OTHER_KIND; c < CAUSES; c++)
        if (d->slabs[c] > 0) {
            printf("%s%s", before, cause_name(c));
            before = ", ";
        }
    if (d->tail_differs)
        printf("%stail", before);
    paint(stdout, PLAIN);
    putchar('\n');
}

/* Threshold, beta and top level are in seals alone. */
static void print_settings(const table_file *f, const table_file *g, const differences *d) {
    puts(d->settings_differ ? "the settings differ:" : sealed_alike(f, g) ? "the settings are equal" : "the grids are equal");
    for (int i = 0; i < SETTINGS; i++) {
        const setting *s = &d->settings[i];
        if (s->differs && s->count)
            printf("  %-12s %llu and %llu\n", s->name, (ull)s->counts[0], (ull)s->counts[1]);
        else if (s->differs)
            printf("  %-12s %.17g and %.17g\n", s->name, s->number[0], s->number[1]);
    }
}

static void print_slabs(const table_file *f, const differences *d) {
    static const char *const words[CAUSES] = {"", "of another kind", "of another level", "Scalar of another number", "of other energies alone"};
    if (!d->slabs_match) {
        puts("with other bin counts the slabs are not the same ones, and are not set side by side");
        return;
    }
    if (d->differing == 0) {
        puts("every slab has the same row");
        return;
    }
    printf("%llu of %llu slabs have another row; the first is ", (ull)d->differing, (ull)f->table.rows);
    print_slab(stdout, f, d->first);
    putchar('\n');
    for (enum cause c = OTHER_KIND; c < CAUSES; c++)
        if (d->slabs[c] > 0)
            printf("  %-12llu %s\n", (ull)d->slabs[c], words[c]);
    printf("%llu of %llu energies that stand side by side differ", (ull)d->energies_differing, (ull)d->energies);
    if (d->energies_differing > 0) {
        printf(", by at most %g, in slab ", d->most);
        print_slab(stdout, f, d->most_slab);
    }
    putchar('\n');
}

static void print_term(const table_file *f, uint64_t i) {
    if (i >= f->table.terms) {
        fputs("none", stdout);
        return;
    }
    term t = term_of(f, i);
    printf("%.17g, %.17g, %u", t.coefficient, t.kappa, t.power);
}

static void print_tails(const table_file *f, const table_file *g, const differences *d, uint64_t most) {
    if (!d->tails)
        return;
    puts(d->tail_differs ? "the long-range tails differ:" : "the long-range tails are equal");
    if (f->table.terms != g->table.terms)
        printf("  %-12s %llu and %llu\n", "terms", (ull)f->table.terms, (ull)g->table.terms);
    uint64_t shown = 0;
    for (uint64_t i = 0; shown < d->terms_differing && shown < most; i++)
        if (!same_term(f, g, i)) {
            printf("  term %-7llu ", (ull)i);
            print_term(f, i);
            fputs(" and ", stdout);
            print_term(g, i);
            fputs(" (coefficient, kappa, power)\n", stdout);
            shown++;
        }
    if (shown < d->terms_differing)
        printf("  and %llu more terms\n", (ull)(d->terms_differing - shown));
    if (d->prefactor_differs)
        printf("  %-12s %.17g and %.17g\n", "prefactor", prefactor_of(f), prefactor_of(g));
}

static void print_difference(const table_file *f, const table_file *g, uint64_t slab, const row_difference *d) {
    row r = row_of(f, slab), s = row_of(g, slab);
    fputs("  slab ", stdout);
    print_slab(stdout, f, slab);
    fputs(", ", stdout);
    print_bins(stdout, f, slab);
    fputs(": ", stdout);
    if (d->cause == OTHER_ENERGIES) {
        printf("%s level %u (%c), ", kind_words(r.kind), r.level, row_letter(r.kind, r.level));
    } else {
        print_row(stdout, f, &r);
        fputs(" against ", stdout);
        print_row(stdout, g, &s);
        fputs(d->compared ? "; " : "", stdout);
    }
    if (d->cause == OTHER_SCALAR)
        printf(", apart by %g", apart(f32_of(r.scalar), f32_of(s.scalar)));
    if (d->compared)
        printf("%llu of %llu energies differ, by at most %g", (ull)d->differing, (ull)d->energies, d->most);
    putchar('\n');
}

static void print_listing(const table_file *f, const table_file *g, const listing *l) {
    uint64_t first, end, found = 0;
    listed_slabs(l, f, &first, &end);
    for (uint64_t slab = first; slab < end; slab++) {
        if (same_row(f, g, slab) || ++found > l->most)
            continue;
        if (found == 1)
            printf(l->sliced ? "slabs of distance bin %llu that differ:\n" : "slabs that differ:\n", (ull)l->slice);
        row_difference d = row_differs(f, g, slab);
        print_difference(f, g, slab, &d);
    }
    if (l->sliced && found == 0)
        printf("no slab of distance bin %llu differs\n", (ull)l->slice);
    if (found > l->most)
        printf("%llu slabs%s that differ are not listed: --limit %llu\n", (ull)(found - l->most), l->sliced ? " of the slice" : "", (ull)found);
}

static void print_meshes(bool differ) {
    if (differ)
        puts("the meshes differ: vertices of one number are other directions, and so are the energies at them");
}

static int differ(const table_file *f, const table_file *g, const listing *l, bool meshes) {
    differences d = differences_of(f, g);
    d.meshes_differ = meshes;
    if (given("--json") != NULL) {
        json_differences(f, g, &d, l);
        return FOUND;
    }
    printf("%s and %s ", f->name, g->name);
    paint(stdout, RED);
    fputs("differ", stdout);
    paint(stdout, PLAIN);
    putchar('\n');
    if (d.kinds) {
        printf("they are of two kinds: %s and %s\n", table_words(f->atom), table_words(g->atom));
        return FOUND;
    }
    print_meshes(meshes);
    print_causes(&d);
    print_settings(f, g, &d);
    print_slabs(f, &d);
    print_tails(f, g, &d, l->most);
    diff_seals(f, g, false);
    if (d.slabs_match && d.differing > 0)
        print_listing(f, g, l);
    return FOUND;
}

/* The same bytes. Over other meshes they are another table. */
static int same(const table_file *f, const table_file *g, bool meshes) {
    if (given("--json") != NULL) {
        json_same(f, g, meshes);
    } else {
        printf("%s and %s are the same table, byte for byte%s\n", f->name, g->name, meshes ? ", over other meshes" : "");
        print_meshes(meshes);
        diff_seals(f, g, false);
    }
    return meshes ? FOUND : GOOD;
}

static const char *meshes_of(const table_file *f) {
    return has_seal(f) ? NULL : given("--meshes");
}

/* Whether both are read with the same meshes, on the levels that both have: GOOD, or FOUND where the reader refuses one. */
static int compare_meshes(const table_file *f, const table_file *g, bool *differ) {
    table_meshes m, n;
    uint64_t levels = f->table.levels < g->table.levels ? f->table.levels : g->table.levels;
    int first = open_meshes(&m, f, meshes_of(f)), second = open_meshes(&n, g, meshes_of(g));
    int status = first != GOOD ? first : second;
    *differ = status == GOOD && icotable_meshes_hash(m.meshes, levels) != icotable_meshes_hash(n.meshes, levels);
    close_meshes(&m);
    close_meshes(&n);
    return status;
}

static int compare(const table_file *f, const table_file *g, const listing *l) {
    bool meshes;
    if (f->table.number != 0 || g->table.number != 0) {
        if (f->table.number != 0)
            print_verdict(stderr, f);
        if (g->table.number != 0)
            print_verdict(stderr, g);
        return TROUBLE;
    }
    if (l->sliced && (l->slice >= f->table.grid.n_r || l->slice >= g->table.grid.n_r)) {
        fprintf(stderr, "icotable diff: --slice %llu: the distance bins are 0 to %llu and 0 to %llu\n", (ull)l->slice, (ull)(f->table.grid.n_r - 1),
                (ull)(g->table.grid.n_r - 1));
        return TROUBLE;
    }
    if (compare_meshes(f, g, &meshes) != GOOD)
        return TROUBLE;
    bool equal = f->count == g->count && memcmp(f->bytes, g->bytes, f->count) == 0;
    return equal ? same(f, g, meshes) : differ(f, g, l, meshes);
}

static int listing_of(listing *l) {
    const char *limit = given("--limit"), *slice = given("--slice");
    *l = (listing){.most = LISTED, .sliced = slice != NULL};
    if (limit != NULL && strcmp(limit, "all") == 0)
        l->most = UINT64_MAX;
    else if (limit != NULL && !whole_of(limit, &l->most))
        return misused("diff", "--limit", "wants a whole number or the word all");
    if (slice != NULL && !whole_of(slice, &l->slice))
        return misused("diff", "--slice", "wants a whole number");
    return GOOD;
}

int diff_tool(int count, char **names) {
    table_file f, g;
    listing l;
    (void)count;
    if (listing_of(&l) != GOOD)
        return TROUBLE;
    int first = open_table(&f, names[0]), second = open_table(&g, names[1]);
    int status = first != GOOD || second != GOOD ? TROUBLE : compare(&f, &g, &l);
    close_table(&f);
    close_table(&g);
    return status;
}
