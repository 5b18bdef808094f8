/* Tables of both kinds by handles beside those of the library's own calls, with a journal and without; refusals of builds. */
#include "handles_test.h"

#include <math.h>
#include <string.h>
#include <unistd.h>

/* The same calls without handles: the table's bytes. */
static size_t bare_pair(const icotable_meshes *m, uint8_t *output, size_t count) {
    static double store[12 * PER];
    uint64_t words[12];
    icotable_built b = icotable_fresh(settings_of(0).grid, 1, store, 12 * PER, words, 12, ICOTABLE_MESHES(m));
    is("slabs", 12, b.builder.grid.n_r * b.builder.grid.n_omega);
    for (uint64_t ri = 0; ri < 4; ri++) {
        for (uint64_t oi = 0; oi < 3; oi++) {
            sample(ri, oi, room_of(0, b.builder.level));
            b = icotable_set(b.builder, store, 12 * PER, words, 12, ri, oi, energies, room_of(0, b.builder.level));
        }
        b.builder = icotable_settle(b.builder, store, 12 * PER, words, 12, ICOTABLE_MESHES(m), ri).builder;
    }
    return icotable_write(b.builder, store, 12 * PER, words, 12, ICOTABLE_MESHES(m), output, count).length;
}

static size_t bare_atom(const icotable_meshes *m, uint8_t *output, size_t count) {
    static double store[4 * N];
    uint8_t kinds[4], levels[4];
    uint32_t values[4];
    icotable_grid g = settings_of(1).grid;
    icotable_atom_built b = icotable_atom_fresh((icotable_atom_grid){g.rmin, g.rmax, g.dr, g.threshold, g.beta, 0}, 1, store, 4 * N, kinds, 4, levels, 4, values,
                                                4, ICOTABLE_MESHES(m));
    for (uint64_t ri = 0; ri < 4; ri++) {
        sample(ri, 0, room_of(1, b.builder.level));
        b = icotable_atom_set(b.builder, store, 4 * N, kinds, 4, levels, 4, values, 4, ri, energies, room_of(1, b.builder.level));
        b.builder = icotable_atom_settle(b.builder, store, 4 * N, kinds, 4, levels, 4, values, 4, ICOTABLE_MESHES(m), ri).builder;
    }
    return icotable_atom_write(b.builder, store, 4 * N, kinds, 4, levels, 4, values, 4, ICOTABLE_MESHES(m), output, count).length;
}

/* Tables of a kind, by handles with a journal and without, beside the library's own. */
static void builds(int atom) {
    static uint8_t wanted[12 * 4 * PER];
    const char *path = at(atom ? "atom" : "pair"), *kept = at(atom ? "atom.kept" : "pair.kept"), *journal = at(atom ? "atom.journal" : "pair.journal");
    icotable_build_settings s = settings_of(atom);
    finish(open_build(icotable_build_begin, &s), atom, path);
    s.journal = journal;
    finish(open_build(icotable_build_open, &s), atom, kept);
    same_file("with a journal", path, kept);
    icotable_reader *t = open_reader(path, NULL);
    size_t found, length = atom ? bare_atom(icotable_reader_meshes(t), wanted, sizeof wanted) : bare_pair(icotable_reader_meshes(t), wanted, sizeof wanted);
    const uint8_t *file = icotable_reader_file(t, &found);
    is("by bare calls", length, found);
    is("by bare calls", 0, length != found || memcmp(wanted, file, length) != 0);
    is("the kind", (uint64_t)atom, (uint64_t)icotable_reader_atom(t));
    is("the table", (uint64_t)atom, icotable_reader_table(t) == NULL);
    is("the table", (uint64_t)!atom, icotable_reader_atom_table(t) == NULL);
    icotable_reader_close(t);
}

static void progress(void) {
    icotable_build_settings s = settings_of(0);
    icotable_build *b = open_build(icotable_build_begin, &s);
    uint64_t count = 7;
    const icotable_meshes *m = icotable_build_state(b)->meshes;
    is("vertices", 1, icotable_build_vertices(b, 1, &count) == icotable_level_vertices(m, 1));
    is("vertices", N, count);
    is("no vertices", 1, icotable_build_vertices(b, 2, &count) == NULL && count == 0);
    for (int i = 0; i < 5; i++)
        step(b, 0);
    icotable_progress p = icotable_build_progress(b);
    is("progress", 1, p.n_r == 4 && p.n_omega == 3 && p.top == 1 && p.level == 1 && p.slabs == 12 && p.set == 4 && p.settled == 1);
    is("the next", 1, p.step == ICOTABLE_JOURNAL_TO_SET && p.ri == 1 && p.oi == 1);
    is("length", 52 + 8 + 120 + 4 * PER, p.length);
    icotable_build_close(b);
}

/* ---- refusals of builds */

static void refused_openings(void) {
    icotable_fault fault;
    icotable_build_settings s = settings_of(0);
    faults("resume", icotable_build_resume(&s, &fault), ICOTABLE_HANDLE_NO_JOURNAL, "icotable_build_resume", &fault);
    s.flags = ICOTABLE_JOURNAL_READING;
    s.journal = at("none.journal");
    faults("to look at", icotable_build_open(&s, &fault), ICOTABLE_JOURNAL_ABSENT, "none.journal", &fault);
    is("nothing is begun", 1, access(s.journal, F_OK) != 0);
    s = settings_of(0);
    is("without a fault", 1, icotable_build_resume(&s, NULL) == NULL);
    s.top = 16;
    faults("top", icotable_build_begin(&s, &fault), ICOTABLE_LEVEL, "16", &fault);
    s = settings_of(0);
    s.grid.dr = 0;
    faults("settings", icotable_build_begin(&s, &fault), ICOTABLE_SETTINGS, "without a journal", &fault);
    s = settings_of(0);
    s.journal = at("none.journal");
    faults("absent", icotable_build_resume(&s, &fault), ICOTABLE_JOURNAL_ABSENT, "none.journal", &fault);
    s.journal = at("pair.journal");
    faults("exists", icotable_build_begin(&s, &fault), ICOTABLE_JOURNAL_EXISTS, "pair.journal", &fault);
    s.grid.beta = 2;
    faults("other settings", icotable_build_open(&s, &fault), ICOTABLE_JOURNAL_OTHER_SETTINGS, "beta 1, not 2", &fault);
    s = settings_of(1);
    s.journal = at("pair.journal");
    faults("other kind", icotable_build_open(&s, &fault), ICOTABLE_JOURNAL_OTHER_KIND, "of two molecules", &fault);
    s = settings_of(0);
    s.journal = at("pair.journal");
    icotable_build *b = open_build(icotable_build_open, &s);
    faults("in use", icotable_build_open(&s, &fault), ICOTABLE_JOURNAL_IN_USE, "pair.journal", &fault);
    icotable_build_close(b);
    s.journal = at("no/such/folder");
    faults("no folder", icotable_build_begin(&s, &fault), ICOTABLE_JOURNAL_TROUBLE, "No such file", &fault);
    s.journal = NULL;
    s.meshes = at("none.mesh");
    faults("no meshes", icotable_build_begin(&s, &fault), ICOTABLE_MESH_FILE_ABSENT, "none.mesh", &fault);
}

static void refused_calls(void) {
    icotable_build_settings s = settings_of(0);
    icotable_build *b = open_build(icotable_build_begin, &s);
    sample(0, 0, PER);
    is("said of nothing", 0, strlen(icotable_build_said(b)));
    is("bin", ICOTABLE_BIN, icotable_build_set(b, 4, 0, energies, PER));
    says("bin", "slab (4, 0)", icotable_build_said(b));
    is("count", ICOTABLE_ENERGY_COUNT, icotable_build_set(b, 0, 0, energies, PER - 1));
    is("nearer", ICOTABLE_JOURNAL_NEARER_UNSETTLED, icotable_build_set(b, 1, 0, energies, PER));
    is("missing", ICOTABLE_JOURNAL_SLAB_MISSING, icotable_build_settle(b, 0).number);
    says("missing", "slab (0, 0), 3 of distance bin 0", icotable_build_said(b));
    energies[5] = NAN;
    is("nan", ICOTABLE_NAN_ENERGY, icotable_build_set(b, 0, 0, energies, PER));
    is("holes", ICOTABLE_JOURNAL_HOLES, icotable_build_write(b, at("holes")));
    says("holes", "12 in all", icotable_build_said(b));
    for (int i = 0; i < 4; i++)
        step(b, 0);
    is("settled", ICOTABLE_JOURNAL_SLICE_SETTLED, icotable_build_set(b, 0, 0, energies, PER));
    for (int i = 0; i < 11; i++)
        step(b, 0);
    is("unsettled", ICOTABLE_JOURNAL_UNSETTLED, icotable_build_write(b, at("holes")));
    says("unsettled", "distance bin 3, 1 in all", icotable_build_said(b));
    is("no file", 1, access(at("holes"), F_OK) != 0);
    icotable_build_close(b);
    s.flags = ICOTABLE_JOURNAL_UNGUARDED;
    b = open_build(icotable_build_begin, &s);
    is("unguarded", 0, icotable_build_write(b, at("unguarded")));
    icotable_build_close(b);
}

static void no_handle(void) {
    icotable_row row;
    uint64_t count = 3, number = 5;
    size_t length = 3;
    double pose[8] = {0}, answer[3] = {7, 7, 7};
    is("set", 261, icotable_build_set(NULL, 0, 0, energies, 1));
    is("settle", 261, icotable_build_settle(NULL, 0).number);
    is("write", 261, icotable_build_write(NULL, "x"));
    is("progress", 0, icotable_build_progress(NULL).slabs);
    is("vertices", 1, icotable_build_vertices(NULL, 0, &count) == NULL && count == 0);
    is("state", 1, icotable_build_state(NULL) == NULL && icotable_build_vertices(NULL, 0, NULL) == NULL);
    says("said", "there is no handle", icotable_build_said(NULL));
    is("energy", 261, icotable_reader_energy(NULL, 1, 0, 1, 0, 0, 1, 0, 0).number);
    is("boltzmann", 261, icotable_reader_boltzmann(NULL, 1, 0, 1, 0, 0, 1, 0, 0, 1).number);
    is("tail", 261, icotable_reader_tail(NULL, 1).number);
    is("span", 261, icotable_reader_span(NULL, 1, 2, 0).number);
    is("atom energy", 261, icotable_reader_atom_energy(NULL, 1, 1, 0, 0).number);
    is("atom boltzmann", 261, icotable_reader_atom_boltzmann(NULL, 1, 1, 0, 0, 1).number);
    is("row", 261, icotable_reader_row(NULL, 0, 0, &row));
    is("energies", 0, icotable_reader_energies(NULL, pose, 1, NULL, &number, answer, 1));
    is("place", ICOTABLE_NOWHERE, icotable_reader_place(NULL, 1));
    is("level lost", 0, (uint64_t)icotable_level_lost(NULL));
    is("columns", 3, icotable_reader_columns(NULL, NULL, 3, NULL, answer, NULL, &number, 1));
    is("untouched", 1, number == 5 && answer[0] == 7);
    is("file", 1, icotable_reader_file(NULL, &length) == NULL && length == 0);
    is("tables", 1, icotable_reader_table(NULL) == NULL && icotable_reader_atom_table(NULL) == NULL && icotable_reader_meshes(NULL) == NULL);
    icotable_build_close(NULL);
    icotable_reader_close(NULL);
}

/* Numbers of every kind have words of their own. */
static void words(void) {
    static const uint64_t numbers[] = {0, 1, 26, 100, 201, 225, 231, 239, 241, 249, 251, 257, 261, 271};
    for (size_t i = 0; i < sizeof numbers / sizeof numbers[0]; i++)
        is("words", 0, strcmp(icotable_handle_words(numbers[i]), icotable_handle_words(99)) == 0);
    says("version", ICOTABLE_VERSION, icotable_version());
}

void test_builds(void) {
    no_handle();
    words();
    for (int atom = 0; atom < 2; atom++)
        builds(atom);
    progress();
    refused_openings();
    refused_calls();
}
