/* icotable_reader_open on a table file, with a seal beside it in every other case: what the library reads is opened, and nothing else. */
#include "harness.h"

#include "icotable_handles.h"
#include "tools/tools.h"

/* A seal of these bytes, with what the table itself says. */
static void seal(const uint8_t *data, size_t size, const icotable_table *t, int atom) {
    icotable_seal s = {.table_length = size, .atom = atom, .grid = t->grid, .top = t->levels - 1, .levels = t->levels, .own_meshes = 1};
    icotable_meshes m;
    strcpy(s.version, icotable_version());
    icotable_sha256_(data, size, s.sha256);
    PROMISE(icotable_make_meshes(&m, s.top) == 0);
    s.meshes_hash = icotable_meshes_hash(&m, s.levels);
    icotable_free_meshes(&m);
    if (icotable_seal_write(&s, fuzz_name("sealed"), NULL) != 0)
        remove(fuzz_name("sealed.meta"));
}

static void ask(const icotable_reader *t, size_t size) {
    double turn = (double)(size % 13), pose[16] = {2, 1, turn, 1, 0, 0, turn, 1, 20, 4, 1, 1, turn, 0, 0, 1}, answers[6];
    const icotable_table *table = icotable_reader_table(t);
    const icotable_atom_table *atom = icotable_reader_atom_table(t);
    uint64_t numbers[2], n_r = table == NULL ? atom->grid.n_r : table->grid.n_r, n_omega = table == NULL ? 1 : table->grid.n_omega;
    icotable_row r;
    PROMISE((table == NULL) == (icotable_reader_atom(t) == 1) && (atom == NULL) == (table != NULL));
    PROMISE(icotable_reader_energies(t, pose, 2, NULL, numbers, answers, 1) == 2 && numbers[0] == 0);
    for (uint64_t ri = 0; ri < n_r && ri < 100; ri++)
        for (uint64_t oi = 0; oi < n_omega && oi < 100; oi++)
            PROMISE(icotable_reader_row(t, ri, oi, &r) == 0 && r.kind <= 3);
    PROMISE(icotable_reader_row(t, n_r, 0, &r) == ICOTABLE_BIN);
}

int LLVMFuzzerTestOneInput(const uint8_t *data, size_t size) {
    icotable_fault fault;
    bool atom = size >= 4 && u32_of(data) == 2;
    icotable_table read = read_table(data, size, atom);
    const char *name = fuzz_file(size % 2 ? "sealed" : "plain", data, size);
    find_place(data, size, atom, false); /* shows the fuzzer a way */
    if (size % 2 && read.number == 0)
        seal(data, size, &read, atom);
    icotable_reader *t = icotable_reader_open(name, NULL, &fault);
    PROMISE(t == NULL ? fault.number != 0 && fault.said[0] != 0 : fault.number == 0);
    PROMISE(t == NULL || read.number == 0);
    PROMISE(t != NULL || read.number != 0);
    if (t != NULL)
        ask(t, size);
    icotable_reader_close(t);
    remove(fuzz_name("sealed.meta"));
    return 0;
}
