/* icotable_view: what a viewer opens, the host opens with the same answer, within the bounds. The tools' walk comes to the same, and
 * shows the fuzzer a way, which the library does not: it is linked as it is. */
#include "harness.h"

#include "tools/tools.h"

static int same_bits(double x, double y) {
    return memcmp(&x, &y, sizeof x) == 0;
}

int LLVMFuzzerTestOneInput(const uint8_t *data, size_t size) {
    icotable_table v = icotable_view(data, size);
    PROMISE((find_place(data, size, false, true).number == 0) == (v.number == 0));
    if (v.number != 0)
        return 0;
    icotable_table t = icotable_read(data, size);
    PROMISE(t.number == 0 && v.levels <= 4 && v.rows <= 4096);
    PROMISE(t.levels == v.levels && t.rows == v.rows && t.energies == v.energies && t.terms == v.terms && memcmp(t.start, v.start, sizeof t.start) == 0);
    PROMISE(same_bits(t.grid.rmin, v.grid.rmin) && same_bits(t.grid.dr, v.grid.dr) && same_bits(t.grid.omega_step, v.grid.omega_step));
    PROMISE(t.grid.n_r == v.grid.n_r && t.grid.n_omega == v.grid.n_omega);
    return 0;
}
