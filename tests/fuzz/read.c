/* icotable_read, icotable_atom_read, readings of what they accept, and the tools' walk, which names the byte. */
#include "harness.h"

#include "mesh.h"
#include "tools/tools.h"

enum { TOP = 3 };

static const icotable_meshes *meshes(void) {
    static icotable_meshes m;
    if (m.vertices == NULL)
        PROMISE(icotable_make_meshes(&m, TOP) == 0);
    return &m;
}

/* Where r is inside, at its ends and outside; directions by the file's own length, so that they differ. */
static void ask(const icotable_table *t, const uint8_t *data, size_t size) {
    const icotable_meshes *m = meshes();
    const double distances[] = {t->grid.rmin, t->grid.rmin + t->grid.dr, t->grid.rmax, t->grid.rmax + 1, -1};
    for (size_t i = 0; i < 5; i++) {
        double turn = (double)(size % 17), omega = (double)(size % 7);
        icotable_value v = icotable_reading(t, data, size, ICOTABLE_LOCATORS(m), distances[i], omega, turn, 1, -turn, 0.5, turn, 1);
        PROMISE(v.number == 0);
    }
    PROMISE(icotable_tail(t, data, size, 30).number == 0);
}

static void ask_atom(const icotable_atom_table *t, const uint8_t *data, size_t size) {
    const icotable_meshes *m = meshes();
    double turn = (double)(size % 17);
    icotable_energy e = icotable_atom_reading(t, data, size, ICOTABLE_LOCATORS(m), t->grid.rmin, turn, 1, -turn);
    PROMISE(e.number == 0);
}

int LLVMFuzzerTestOneInput(const uint8_t *data, size_t size) {
    icotable_table t = icotable_read(data, size);
    icotable_atom_table a = icotable_atom_read(data, size);
    PROMISE(t.number != 0 || a.number != 0);
    for (int atom = 0; atom < 2; atom++) {
        place p = find_place(data, size, atom != 0, false);
        PROMISE((p.number == 0) == ((atom ? a.number : t.number) == 0));
    }
    if (t.number == 0 && t.levels <= TOP + 1)
        ask(&t, data, size);
    if (a.number == 0 && a.levels <= TOP + 1)
        ask_atom(&a, data, size);
    return 0;
}
