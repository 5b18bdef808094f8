/* diff --json. */
#include "differences.h"

static void json_files(const table_file *f, const table_file *g, bool equal) {
    json_open("files", '[');
    json_text(NULL, f->name);
    json_text(NULL, g->name);
    json_close(']');
    json_flag("equal", equal);
    json_open("kinds", '[');
    json_text(NULL, f->atom ? "atom" : "pair");
    json_text(NULL, g->atom ? "atom" : "pair");
    json_close(']');
}

void json_same(const table_file *f, const table_file *g, bool other_meshes) {
    json_open(NULL, '{');
    json_files(f, g, !other_meshes);
    if (other_meshes) {
        json_open("causes", '[');
        json_text(NULL, "meshes");
        json_close(']');
    }
    diff_seals(f, g, true);
    json_close('}');
    json_end();
}

static void json_causes(const differences *d) {
    json_open("causes", '[');
    if (d->meshes_differ)
        json_text(NULL, "meshes");
    if (d->settings_differ)
        json_text(NULL, "settings");
    for (enum cause c = OTHER_KIND; c < CAUSES; c++)
        if (d->slabs[c] > 0)
            json_text(NULL, cause_name(c));
    if (d->tail_differs)
        json_text(NULL, "tail");
    json_close(']');
}

/* The settings that differ, each with its two values. */
static void json_settings(const differences *d) {
    json_open("settings", '{');
    for (int i = 0; i < SETTINGS; i++) {
        const setting *s = &d->settings[i];
        if (!s->differs)
            continue;
        json_open(s->name, '[');
        for (int k = 0; k < 2; k++)
            if (s->count)
                json_count(NULL, s->counts[k]);
            else
                json_double(NULL, s->number[k]);
        json_close(']');
    }
    json_close('}');
}

static void json_bins(const char *key, const table_file *f, uint64_t slab) {
    uint64_t n_omega = f->table.grid.n_omega;
    json_open(key, '{');
    json_count("ri", slab / n_omega);
    if (!f->atom)
        json_count("oi", slab % n_omega);
    json_close('}');
}

static void json_slabs(const table_file *f, const differences *d) {
    json_open("slabs", '{');
    json_count("compared", f->table.rows);
    json_count("differing", d->differing);
    for (enum cause c = OTHER_KIND; c < CAUSES; c++)
        json_count(cause_name(c), d->slabs[c]);
    if (d->differing > 0)
        json_bins("first", f, d->first);
    json_close('}');
    json_open("energies", '{');
    json_count("compared", d->energies);
    json_count("differing", d->energies_differing);
    if (d->energies_differing > 0) {
        json_double("largest_difference", d->most);
        json_bins("slab", f, d->most_slab);
    }
    json_close('}');
}

static void json_tails(const table_file *f, const table_file *g, const differences *d) {
    json_open("tail", '{');
    json_open("terms", '[');
    json_count(NULL, f->table.terms);
    json_count(NULL, g->table.terms);
    json_close(']');
    json_count("terms_differing", d->terms_differing);
    json_flag("prefactor_differs", d->prefactor_differs);
    json_close('}');
}

static void json_row(const table_file *f, uint64_t slab) {
    row r = row_of(f, slab);
    char letter[2] = {row_letter(r.kind, r.level), 0};
    json_open(NULL, '{');
    json_text("kind", kind_words(r.kind));
    json_text("letter", letter);
    if (r.kind == SCALAR)
        json_float("scalar", f32_of(r.scalar));
    if (r.kind >= NEAREST)
        json_count("level", r.level);
    json_close('}');
}

static void json_difference(const table_file *f, const table_file *g, uint64_t slab) {
    row_difference d = row_differs(f, g, slab);
    json_open(NULL, '{');
    json_bins("slab", f, slab);
    json_text("cause", cause_name(d.cause));
    json_open("rows", '[');
    json_row(f, slab);
    json_row(g, slab);
    json_close(']');
    if (d.compared) {
        json_count("energies", d.energies);
        json_count("energies_differing", d.differing);
        json_double("largest_difference", d.most);
    }
    json_close('}');
}

static void json_listing(const table_file *f, const table_file *g, const listing *l) {
    uint64_t first, end, found = 0;
    listed_slabs(l, f, &first, &end);
    json_open("listed", '[');
    for (uint64_t slab = first; slab < end; slab++)
        if (!same_row(f, g, slab) && ++found <= l->most)
            json_difference(f, g, slab);
    json_close(']');
    json_count("not_listed", found > l->most ? found - l->most : 0);
}

void json_differences(const table_file *f, const table_file *g, const differences *d, const listing *l) {
    json_open(NULL, '{');
    json_files(f, g, false);
    if (!d->kinds) {
        json_causes(d);
        json_settings(d);
        if (d->slabs_match)
            json_slabs(f, d);
        json_tails(f, g, d);
        diff_seals(f, g, true);
        if (d->slabs_match)
            json_listing(f, g, l);
    }
    json_close('}');
    json_end();
}
