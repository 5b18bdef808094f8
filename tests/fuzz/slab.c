/* Slab files: what is read, written again, is the same file. */
#include "harness.h"

#include "icotable_slab.h"

enum { HEAD = 56, MOST = 42 * 42 };

static size_t repair(uint8_t *data, size_t size, size_t most) {
    (void)most;
    if (size < HEAD + 4)
        return size;
    uint32_t sum = icotable_crc32_(0, data, size - 4);
    memcpy(data + size - 4, &sum, 4);
    return size;
}

REPAIRED(repair)

/* Asked for as its head says that it is, so that more than the head is looked at. */
int LLVMFuzzerTestOneInput(const uint8_t *data, size_t size) {
    static double energies[MOST];
    uint64_t head[HEAD / 8] = {0};
    char name[ICOTABLE_SLAB_NAME];
    memcpy(head, data, size < HEAD ? size : HEAD);
    icotable_slab s = {.atom = (head[1] >> 32) == 1, .build = head[2], .level = head[3] % 2, .ri = head[4], .oi = head[5]};
    icotable_slab_name(&s, name);
    fuzz_file(name, data, size);
    static icotable_slab looked;
    if (icotable_slab_look(&looked, fuzz_name(name)) == 0)
        s.identity = looked.identity;
    uint64_t number = icotable_slab_read(&s, fuzz_name("."), energies, icotable_slab_count(&s));
    PROMISE(number == 0 || s.said[0] != 0);
    if (number == 0) {
        number = icotable_slab_write(&s, fuzz_name("."), energies, icotable_slab_count(&s));
        PROMISE(number == ICOTABLE_NAN_ENERGY || (number == 0 && fuzz_same(fuzz_name(name), data, size)));
    }
    remove(fuzz_name(name));
    return 0;
}
