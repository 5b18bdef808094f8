/* Mesh files: what is loaded, saved again, is the same file. */
#include "harness.h"

#include "icotable_mesh_file.h"

enum { HEAD = 20, VERTEX = 85 };

static size_t repair(uint8_t *data, size_t size, size_t most) {
    uint32_t levels, sum;
    (void)most;
    if (size < HEAD)
        return size;
    memcpy(&levels, data + 12, 4);
    sum = icotable_crc32_(0, data, HEAD - 4);
    memcpy(data + HEAD - 4, &sum, 4);
    size_t at = HEAD;
    for (uint32_t level = 0; level < levels && level < 16; level++) {
        size_t length = VERTEX * icotable_vertices(level);
        if (size - at < length + 4)
            break;
        sum = icotable_crc32_(sum, data + at, length);
        memcpy(data + at + length, &sum, 4);
        at += length + 4;
    }
    return size;
}

REPAIRED(repair)

int LLVMFuzzerTestOneInput(const uint8_t *data, size_t size) {
    icotable_meshes m;
    icotable_fault fault;
    uint64_t number = icotable_meshes_load(&m, fuzz_file("mesh", data, size), &fault);
    PROMISE(number == fault.number && (number == 0) == (m.vertices != NULL));
    if (number == 0) {
        PROMISE(icotable_meshes_save(&m, fuzz_name("again"), &fault) == 0 && fuzz_same(fuzz_name("again"), data, size));
        icotable_meshes_own(&m, m.top + 1);
    }
    icotable_free_meshes(&m);
    return 0;
}
