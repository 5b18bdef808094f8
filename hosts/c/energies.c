#include "handles.h"

/* A call that the table's kind does not have, or without a table. */
static uint64_t refused(const icotable_reader *t, bool atom) {
    return t == NULL ? ICOTABLE_HANDLE_NO_HANDLE : !t->atom == !atom ? 0 : ICOTABLE_HANDLE_OTHER_KIND;
}

#define PAIR(t) &(t)->table, (t)->file, (t)->length
#define ATOM(t) &(t)->atom_table, (t)->file, (t)->length

icotable_value icotable_reader_energy(const icotable_reader *t, double r, double omega, double ax, double ay, double az, double bx, double by, double bz) {
    icotable_value v = {.number = refused(t, false)};
    return v.number != 0 ? v : icotable_reading(PAIR(t), ICOTABLE_LOCATORS(&t->meshes), r, omega, ax, ay, az, bx, by, bz);
}

icotable_value icotable_reader_boltzmann(const icotable_reader *t, double r, double omega, double ax, double ay, double az, double bx, double by, double bz,
                                         double beta) {
    icotable_value v = {.number = refused(t, false)};
    return v.number != 0 ? v : icotable_boltzmann(PAIR(t), ICOTABLE_LOCATORS(&t->meshes), r, omega, ax, ay, az, bx, by, bz, beta);
}

icotable_value icotable_reader_tail(const icotable_reader *t, double r) {
    icotable_value v = {.number = refused(t, false)};
    return v.number != 0 ? v : icotable_tail(PAIR(t), r);
}

icotable_spanned icotable_reader_span(const icotable_reader *t, double low, double high, double omega) {
    icotable_spanned s = {.number = refused(t, false)};
    return s.number != 0 ? s : icotable_span(PAIR(t), low, high, omega);
}

icotable_energy icotable_reader_atom_energy(const icotable_reader *t, double r, double x, double y, double z) {
    icotable_energy e = {.number = refused(t, true)};
    return e.number != 0 ? e : icotable_atom_reading(ATOM(t), ICOTABLE_LOCATORS(&t->meshes), r, x, y, z);
}

icotable_energy icotable_reader_atom_boltzmann(const icotable_reader *t, double r, double x, double y, double z, double beta) {
    icotable_energy e = {.number = refused(t, true)};
    return e.number != 0 ? e : icotable_atom_boltzmann(ATOM(t), ICOTABLE_LOCATORS(&t->meshes), r, x, y, z, beta);
}

/* ---- where a distance lies */

/* read fills in the rmax that readings compare with (docs/SPEC.md, S4.4). */
enum icotable_place icotable_reader_place(const icotable_reader *t, double r) {
    if (t == NULL || r != r)
        return ICOTABLE_NOWHERE;
    if (r < (t->atom ? t->atom_table.grid.rmin : t->table.grid.rmin))
        return ICOTABLE_NEARER;
    return (t->atom ? t->atom_table.grid.rmax : t->table.grid.rmax) < r ? ICOTABLE_BEYOND : ICOTABLE_INSIDE;
}

void icotable_reader_places(const icotable_reader *t, const double *r, size_t count, uint8_t *places) {
    for (size_t i = 0; i < count; i++)
        places[i] = (uint8_t)icotable_reader_place(t, r[i]);
}

/* ---- many poses */

/* A run of poses, which one thread answers. */
typedef struct run {
    const icotable_reader *t;
    const double *poses, *beta;
    size_t count;
    uint64_t *numbers;
    double *answers;
} run;

static void answer_pairs(const run *r) {
    const icotable_reader *t = r->t;
    icotable_readings(PAIR(t), ICOTABLE_LOCATORS(&t->meshes), r->poses, 8 * r->count, r->beta, r->beta != NULL, r->numbers, r->count, r->answers,
                      3 * r->count);
}

static void answer_atoms(const run *r) {
    const icotable_reader *t = r->t;
    for (size_t i = 0; i < r->count; i++) {
        const double *p = r->poses + 4 * i;
        icotable_energy e = r->beta == NULL ? icotable_atom_reading(ATOM(t), ICOTABLE_LOCATORS(&t->meshes), p[0], p[1], p[2], p[3])
                                            : icotable_atom_boltzmann(ATOM(t), ICOTABLE_LOCATORS(&t->meshes), p[0], p[1], p[2], p[3], *r->beta);
        r->numbers[i] = e.number;
        r->answers[i] = e.energy;
    }
}

static uint64_t answer(const void *what, size_t from, size_t to) {
    const run *all = what;
    size_t wide = all->t->atom ? 4 : 8, answers = all->t->atom ? 1 : 3;
    run r = {all->t, all->poses + wide * from, all->beta, to - from, all->numbers + from, all->answers + answers * from};
    if (r.t->atom)
        answer_atoms(&r);
    else
        answer_pairs(&r);
    return r.count;
}

uint64_t icotable_reader_energies(const icotable_reader *t, const double *poses, size_t poses_count, const double *beta, uint64_t *numbers, double *answers,
                                  unsigned threads) {
    return t == NULL ? 0 : icotable_in_runs_(poses_count, threads, answer, &(run){t, poses, beta, poses_count, numbers, answers});
}
