/* icotable_repack: its result is accepted by read and comes back as it is; a table that read accepts, too. Shared parts can make a
 * result much longer than the file; here it has room for ROOM bytes. The tools' walk shows the fuzzer a way, up to the offsets. */
#include "harness.h"

#include "tools/tools.h"

enum { ROOM = 1 << 20 };

int LLVMFuzzerTestOneInput(const uint8_t *data, size_t size) {
    static uint8_t output[ROOM], again[ROOM];
    icotable_repacked r = icotable_repack(data, size, output, ROOM);
    uint64_t walked = find_place(data, size, false, false).number;
    PROMISE(walked == 0 || walked == ICOTABLE_TILING || walked == ICOTABLE_FILE_NAN || walked == ICOTABLE_TERM || r.number != 0);
    if (icotable_read(data, size).number == 0)
        PROMISE(size > ROOM || (r.number == 0 && r.length == size && r.moved == 0 && memcmp(output, data, size) == 0));
    if (r.number != 0)
        return 0;
    PROMISE(r.length <= ROOM && icotable_read(output, r.length).number == 0);
    icotable_repacked s = icotable_repack(output, r.length, again, ROOM);
    PROMISE(s.number == 0 && s.length == r.length && s.moved == 0 && memcmp(again, output, r.length) == 0);
    return 0;
}
