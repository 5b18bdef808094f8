#include "differences.h"

#include <math.h>
#include <string.h>

const char *cause_name(enum cause c) {
    static const char *const names[CAUSES] = {"none", "kind", "level", "scalar", "energies"};
    return names[c];
}

static bool same_bits(double x, double y) {
    return memcmp(&x, &y, sizeof x) == 0;
}

double apart(float x, float y) {
    return x == y ? 0 : fabs((double)x - (double)y);
}

/* How many energies differ in their bits, and by how much at most. */
static void count_energies(const table_file *f, const table_file *g, const row *r, const row *s, row_difference *d) {
    d->energies = per_row(f, r);
    for (uint64_t i = 0; i < d->energies; i++) {
        float x = energy_of(f, r, i), y = energy_of(g, s, i);
        d->differing += memcmp(&x, &y, sizeof x) != 0;
        d->most = apart(x, y) > d->most ? apart(x, y) : d->most;
    }
}

row_difference row_differs(const table_file *f, const table_file *g, uint64_t slab) {
    row r = row_of(f, slab), s = row_of(g, slab);
    row_difference d = {.compared = r.kind >= NEAREST && s.kind >= NEAREST && r.level == s.level};
    if (same_row(f, g, slab)) {
        d.energies = d.compared ? per_row(f, &r) : 0;
        return d;
    }
    d.cause = r.kind != s.kind ? OTHER_KIND : r.level != s.level ? OTHER_LEVEL : r.kind == SCALAR ? OTHER_SCALAR : OTHER_ENERGIES;
    if (d.compared)
        count_energies(f, g, &r, &s, &d);
    return d;
}

bool same_term(const table_file *f, const table_file *g, uint64_t i) {
    return i < f->table.terms && i < g->table.terms && memcmp(f->bytes + f->table.start[5] + 20 * i, g->bytes + g->table.start[5] + 20 * i, 20) == 0;
}

/* Terms are equal by their bits, and prefactors where both tables have terms; one without terms has none. */
static void count_tails(const table_file *f, const table_file *g, differences *d) {
    uint64_t a = f->table.terms, b = g->table.terms, most = a > b ? a : b;
    d->tails = most > 0;
    for (uint64_t i = 0; i < most; i++)
        d->terms_differing += !same_term(f, g, i);
    d->prefactor_differs = a > 0 && b > 0 && !same_bits(prefactor_of(f), prefactor_of(g));
    d->tail_differs = d->terms_differing > 0 || d->prefactor_differs;
}

static setting number_setting(const char *name, double x, double y) {
    return (setting){.name = name, .differs = !same_bits(x, y), .number = {x, y}};
}

static setting count_setting(const char *name, uint64_t x, uint64_t y) {
    return (setting){.name = name, .count = true, .differs = x != y, .counts = {x, y}};
}

/* Grids are equal by the bits of rmin, dr and step and by both counts. */
static void count_settings(const icotable_table *a, const icotable_table *b, differences *d) {
    const icotable_grid *g = &a->grid, *h = &b->grid;
    d->settings[0] = number_setting("rmin", g->rmin, h->rmin);
    d->settings[1] = number_setting("dr", g->dr, h->dr);
    d->settings[2] = number_setting("omega_step", g->omega_step, h->omega_step);
    d->settings[3] = count_setting("n_r", g->n_r, h->n_r);
    d->settings[4] = count_setting("n_omega", g->n_omega, h->n_omega);
    d->settings[5] = count_setting("levels", a->levels, b->levels);
    for (int i = 0; i < SETTINGS; i++)
        d->settings_differ |= d->settings[i].differs;
}

static void count_slabs(const table_file *f, const table_file *g, differences *d) {
    for (uint64_t slab = 0; slab < f->table.rows; slab++) {
        row_difference r = row_differs(f, g, slab);
        if (r.cause != SAME && d->differing++ == 0)
            d->first = slab;
        d->slabs[r.cause]++;
        d->energies += r.energies;
        if (r.differing > 0 && (d->energies_differing == 0 || r.most > d->most)) {
            d->most = r.most;
            d->most_slab = slab;
        }
        d->energies_differing += r.differing;
    }
}

differences differences_of(const table_file *f, const table_file *g) {
    differences d = {.kinds = f->atom != g->atom};
    if (d.kinds)
        return d;
    count_settings(&f->table, &g->table, &d);
    d.slabs_match = same_slabs(f, g);
    if (d.slabs_match)
        count_slabs(f, g, &d);
    count_tails(f, g, &d);
    return d;
}

void listed_slabs(const listing *l, const table_file *f, uint64_t *first, uint64_t *end) {
    uint64_t n_omega = f->table.grid.n_omega;
    *first = l->sliced ? l->slice * n_omega : 0;
    *end = l->sliced ? *first + n_omega : f->table.rows;
}
