/* Seals: what is read, written again, is the same text. */
#include "harness.h"

#include "icotable_seal.h"

/* The checksum line anew, in the place of what is behind the last line's end but one. */
static size_t repair(uint8_t *data, size_t size, size_t most) {
    size_t at = size > 0 ? size - 1 : 0;
    char last[24];
    while (at > 0 && data[at - 1] != '\n')
        at--;
    int length = snprintf(last, sizeof last, "checksum %08X\n", (unsigned)icotable_crc32_(0, data, at));
    if (at + (size_t)length > most)
        return size;
    memcpy(data + at, last, (size_t)length);
    return at + (size_t)length;
}

REPAIRED(repair)

int LLVMFuzzerTestOneInput(const uint8_t *data, size_t size) {
    icotable_seal s;
    icotable_fault fault;
    fuzz_file("table.meta", data, size);
    uint64_t number = icotable_seal_read(&s, fuzz_name("table"), &fault);
    PROMISE(number == fault.number && number != ICOTABLE_SEAL_ABSENT && number != ICOTABLE_SEAL_TROUBLE);
    if (number == 0) {
        PROMISE(icotable_seal_write(&s, fuzz_name("again"), &fault) == 0 && fuzz_same(fuzz_name("again.meta"), data, size));
        PROMISE(icotable_seal_check(&s, data, size, NULL) == ICOTABLE_SEAL_OTHER_TABLE);
    }
    return 0;
}
