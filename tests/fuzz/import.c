/* icotable import: saves of the Rust, plain or packed by gzip. What is imported is a table that the library reads, over meshes that can
 * be saved. */
#include "harness.h"

#include "icotable_mesh_file.h"
#include "tools/import.h"

int LLVMFuzzerTestOneInput(const uint8_t *data, size_t size) {
    imported made;
    icotable_fault fault;
    uint64_t number = import_bytes(data, size, &made, &fault);
    PROMISE(number == 0 || (fault.number == number && fault.said[0] != 0));
    if (number == 0) {
        PROMISE((made.atom ? icotable_atom_read(made.table, made.length).number : icotable_read(made.table, made.length).number) == 0);
        PROMISE(icotable_meshes_save(&made.meshes, fuzz_name("again"), &fault) == 0);
        PROMISE(made.meshes.top + 1 == made.levels);
    }
    import_free(&made);
    return 0;
}
