#include "handles.h"

#include <stdlib.h>
#include <string.h>

struct icotable_build {
    icotable_journal journal;
    icotable_meshes meshes;
    bool lent_meshes;
    char *journal_name; /* NULL: none */
    icotable_fault fault;
};

/* ---- opening */

static icotable_grid grid_of(const icotable_build_settings *s) {
    icotable_grid g = s->grid;
    g.omega_step = s->atom ? 0 : g.omega_step;
    return g;
}

static uint64_t begin(icotable_build *b, const icotable_build_settings *s) {
    return icotable_journal_begin_as(&b->journal, s->journal, s->atom, grid_of(s), s->top, &b->meshes, s->flags, s->label, NULL);
}

static uint64_t resume(icotable_build *b, const icotable_build_settings *s) {
    return icotable_journal_resume_as(&b->journal, s->journal, s->atom, grid_of(s), s->top, &b->meshes, s->flags, s->label, NULL);
}

/* One that is only looked at is not begun. */
static uint64_t resume_or_begin(icotable_build *b, const icotable_build_settings *s) {
    if (s->journal == NULL)
        return begin(b, s);
    uint64_t number = resume(b, s);
    return number == ICOTABLE_JOURNAL_ABSENT && !(s->flags & ICOTABLE_JOURNAL_READING) ? begin(b, s) : number;
}

/* The meshes, then the journal, which asks for the environment. */
static uint64_t fill(icotable_build *b, const icotable_build_settings *s, uint64_t (*opening)(icotable_build *, const icotable_build_settings *),
                     icotable_fault *fault) {
    uint64_t number = s->top > 15 ? REFUSE(fault, ICOTABLE_LEVEL, "top level %llu", (ull)s->top)
                                  : icotable_handle_meshes_(&b->meshes, s->lent, s->meshes, s->top + 1, fault);
    b->lent_meshes = s->lent != NULL;
    if (number != 0)
        return number;
    number = opening(b, s);
    if (number == 0)
        return icotable_accepted_(fault);
    return icotable_fault_(fault, number, b->journal.said, "%s", s->journal == NULL ? "a build without a journal" : s->journal);
}

static icotable_build *made(const icotable_build_settings *s, uint64_t (*opening)(icotable_build *, const icotable_build_settings *), icotable_fault *fault) {
    icotable_build *b = calloc(1, sizeof *b);
    char *name = s->journal == NULL ? NULL : strdup(s->journal);
    if (b == NULL || (name == NULL && s->journal != NULL)) {
        free(b);
        free(name);
        REFUSE(fault, ICOTABLE_HANDLE_NO_ROOM, "a build");
        return NULL;
    }
    b->journal_name = name;
    b->journal.file = -1;
    if (fill(b, s, opening, fault) == 0)
        return b;
    icotable_build_close(b);
    return NULL;
}

icotable_build *icotable_build_begin(const icotable_build_settings *s, icotable_fault *fault) {
    return made(s, begin, fault);
}

icotable_build *icotable_build_resume(const icotable_build_settings *s, icotable_fault *fault) {
    if (s->journal != NULL)
        return made(s, resume, fault);
    REFUSE(fault, ICOTABLE_HANDLE_NO_JOURNAL, "icotable_build_resume");
    return NULL;
}

icotable_build *icotable_build_open(const icotable_build_settings *s, icotable_fault *fault) {
    return made(s, resume_or_begin, fault);
}

void icotable_build_close(icotable_build *b) {
    if (b == NULL)
        return;
    icotable_journal_close(&b->journal);
    if (!b->lent_meshes)
        icotable_free_meshes(&b->meshes);
    free(b->journal_name);
    free(b);
}

/* ---- calls */

/* What the journal said of a refusal becomes the build's. */
static uint64_t answered(icotable_build *b, uint64_t number) {
    if (number != 0) {
        b->fault.number = number;
        memcpy(b->fault.said, b->journal.said, sizeof b->fault.said);
    }
    return number;
}

uint64_t icotable_build_set(icotable_build *b, uint64_t ri, uint64_t oi, const double *energies, size_t count) {
    return b == NULL ? ICOTABLE_HANDLE_NO_HANDLE : answered(b, icotable_journal_set(&b->journal, ri, oi, energies, count));
}

icotable_journal_settled icotable_build_settle(icotable_build *b, uint64_t ri) {
    if (b == NULL)
        return (icotable_journal_settled){.number = ICOTABLE_HANDLE_NO_HANDLE};
    icotable_journal_settled s = icotable_journal_settle(&b->journal, ri);
    answered(b, s.number);
    return s;
}

/* ---- progress */

static uint64_t kind_of(const icotable_journal *j, uint64_t slab) {
    return j->atom ? j->kinds[slab] : icotable_word_kind(j->words[slab]);
}

static uint64_t level_of(const icotable_journal *j, uint64_t slab) {
    return j->atom ? j->levels[slab] : icotable_word_level(j->words[slab]);
}

/* The first slab of a kind from one to the other in settled slices, or the count of slabs. */
static uint64_t settled_of_kind(const icotable_journal *j, uint64_t least, uint64_t most) {
    uint64_t s = 0, n_omega = j->builder.grid.n_omega;
    while (s < j->slabs && !(j->settled[s / n_omega] && kind_of(j, s) >= least && kind_of(j, s) <= most))
        s++;
    return s;
}

/* Whether a Scalar slab's energy has a Boltzmann weight below a half, as in a wall; ln 2 is 0.6931. */
static bool walled(const icotable_journal *j, uint64_t slab) {
    uint32_t bits = j->atom ? j->values[slab] : icotable_word_value(j->words[slab]);
    float energy;
    memcpy(&energy, &bits, sizeof energy);
    return kind_of(j, slab) == 0 && j->builder.grid.beta * (double)energy > 0.6931;
}

/* A slice that drops the level has no Repulsive slab. */
static bool wall_drops(const icotable_journal *j, uint64_t ri) {
    uint64_t first = ri * j->builder.grid.n_omega, end = first + j->builder.grid.n_omega;
    bool found = false;
    for (uint64_t s = first; s < end; s++) {
        if (kind_of(j, s) == 1)
            return false;
        found |= walled(j, s);
    }
    return found;
}

int icotable_level_lost(const icotable_journal *j) {
    if (j == NULL || j->settled == NULL || j->builder.level == j->builder.top)
        return 0;
    uint64_t top = j->builder.top, n_r = j->builder.grid.n_r, ri = 0;
    uint64_t slab = settled_of_kind(j, 3, 3);
    if (slab == j->slabs)
        slab = settled_of_kind(j, 2, 3);
    if (slab < j->slabs)
        return level_of(j, slab) < top;
    while (ri < n_r && !(j->settled[ri] && wall_drops(j, ri)))
        ri++;
    return ri < n_r && j->settled_count < n_r;
}

icotable_progress icotable_build_progress(const icotable_build *b) {
    icotable_progress p = {0};
    if (b == NULL)
        return p;
    const icotable_journal *j = &b->journal;
    p = (icotable_progress){j->builder.grid.n_r, j->builder.grid.n_omega, j->builder.top, j->builder.level, j->slabs, j->set_count, j->settled_count,
                            icotable_journal_length(j), ICOTABLE_JOURNAL_TO_WRITE, 0, 0, icotable_level_lost(j)};
    p.step = icotable_journal_next(j, &p.ri, &p.oi);
    return p;
}

const double *icotable_build_vertices(const icotable_build *b, uint64_t level, uint64_t *count) {
    bool there = b != NULL && level <= b->journal.builder.top;
    if (count != NULL)
        *count = there ? icotable_vertices(level) : 0;
    return there ? icotable_level_vertices(&b->meshes, level) : NULL;
}

const icotable_journal *icotable_build_state(const icotable_build *b) {
    return b == NULL ? NULL : &b->journal;
}

const char *icotable_build_said(const icotable_build *b) {
    return b == NULL ? icotable_handle_words(ICOTABLE_HANDLE_NO_HANDLE) : b->fault.said;
}

/* ---- writing */

/* The table in memory, to be freed; NULL where it is refused. */
static uint8_t *table_of(icotable_build *b, const icotable_terms *tail, size_t *length) {
    icotable_journal *j = &b->journal;
    size_t terms = tail == NULL ? 0 : tail->count;
    uint64_t number = answered(b, icotable_journal_whole(j));
    if (number != 0)
        return NULL;
    if (j->atom && terms > 0) {
        REFUSE(&b->fault, ICOTABLE_HANDLE_OTHER_KIND, "a table against an atom has no long-range tail");
        return NULL;
    }
    *length = icotable_journal_length(j) + (terms == 0 ? 0 : 12 + 20 * terms);
    uint8_t *output = terms > SIZE_MAX / 64 ? NULL : malloc(*length);
    if (output == NULL) {
        REFUSE(&b->fault, ICOTABLE_HANDLE_NO_ROOM, "the table's %zu bytes", *length);
        return NULL;
    }
    if (terms == 0)
        number = answered(b, icotable_journal_write(j, output, *length).number);
    else if ((number = icotable_write_tail(j->builder, ICOTABLE_JOURNAL_LISTS(j), ICOTABLE_MESHES(&b->meshes), tail->coefficients, terms, tail->kappas, terms,
                                           tail->powers, terms, &tail->prefactor, 1, output, *length).number) != 0)
        REFUSE(&b->fault, number, "a tail of %zu terms", terms);
    if (number == 0)
        return output;
    free(output);
    return NULL;
}

/* The same files as of a table that a host has in memory. */
static uint64_t save(icotable_build *b, const char *path, const uint8_t *table, size_t length) {
    const icotable_builder *k = &b->journal.builder;
    icotable_build_settings s = {.atom = b->journal.atom, .grid = k->grid, .top = k->top, .journal = b->journal_name,
                                 .lent = &b->meshes};
    icotable_fault fault;
    uint64_t number = icotable_save_(&s, &b->journal, table, length, path, true, &fault);
    if (number != 0)
        b->fault = fault;
    return number;
}

uint64_t icotable_build_write_tail(icotable_build *b, const char *path, const icotable_terms *tail) {
    if (b == NULL)
        return ICOTABLE_HANDLE_NO_HANDLE;
    if (path == NULL)
        return REFUSE(&b->fault, ICOTABLE_HANDLE_NOT_WRITTEN, "there is no name for it");
    size_t length = 0;
    uint8_t *table = table_of(b, tail, &length);
    uint64_t number = table == NULL ? b->fault.number : save(b, path, table, length);
    free(table);
    return number;
}

uint64_t icotable_build_write(icotable_build *b, const char *path) {
    return icotable_build_write_tail(b, path, NULL);
}
