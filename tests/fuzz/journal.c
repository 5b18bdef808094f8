/* A journal that is looked at and resumed for reading, with the settings of its own head, where they are those of a small build. */
#include "harness.h"

#include "icotable_journal.h"
#include "icotable_mesh_file.h"

enum { TOP = 1, HEAD = 84, CALL = 36, ANSWER = 40, MOST = 50000 };

static const icotable_meshes *meshes(void) {
    static icotable_meshes m;
    if (m.vertices == NULL)
        PROMISE(icotable_make_meshes(&m, TOP) == 0);
    return &m;
}

static uint32_t summed(uint8_t *from, size_t count, uint32_t sum) {
    sum = icotable_crc32_(sum, from, count);
    memcpy(from + count, &sum, 4);
    return sum;
}

/* Checksums and the hash of the meshes; a record is as long as its count says. */
static size_t repair(uint8_t *data, size_t size, size_t most) {
    uint64_t top, count, hash;
    (void)most;
    if (size < HEAD)
        return size;
    memcpy(&top, data + 16, 8);
    hash = icotable_meshes_hash(meshes(), top <= TOP ? top + 1 : 1);
    memcpy(data + 72, &hash, 8);
    uint32_t sum = summed(data, HEAD - 4, 0);
    for (size_t at = HEAD; size - at >= CALL + ANSWER;) {
        sum = summed(data + at, CALL - 4, sum);
        memcpy(&count, data + at + 24, 8);
        if (count > (size - at - CALL - ANSWER) / 8)
            break;
        sum = icotable_crc32_(sum, data + at + CALL, 8 * (size_t)count);
        at += CALL + 8 * (size_t)count;
        sum = summed(data + at, ANSWER - 8, sum);
        memcpy(data + at + ANSWER - 4, "end\n", 4);
        at += ANSWER;
    }
    return size;
}

REPAIRED(repair)

/* Whether a build of these settings is small: a journal may ask for all the memory that a build of them needs. */
static int small(const icotable_journal *j, icotable_atom_grid atom) {
    const icotable_meshes *m = meshes();
    uint64_t top = j->builder.top;
    icotable_size s = j->atom ? icotable_atom_sizing(atom, top, m->neighbour_counts, m->neighbour_counts_count, m->neighbours, m->neighbours_count)
                              : icotable_sizing(j->builder.grid, top, m->neighbour_counts, m->neighbour_counts_count, m->neighbours, m->neighbours_count, 0);
    return s.number != 0 || s.store <= MOST;
}

int LLVMFuzzerTestOneInput(const uint8_t *data, size_t size) {
    static uint8_t table[1 << 20];
    icotable_journal j;
    const char *path = fuzz_file("journal", data, size);
    if (icotable_journal_look(&j, path) != 0)
        return 0;
    icotable_grid g = j.builder.grid;
    icotable_atom_grid atom = {g.rmin, g.rmax, g.dr, g.threshold, g.beta, 0};
    uint64_t top = j.builder.top;
    if (top > TOP || !small(&j, atom))
        return 0;
    unsigned flags = ICOTABLE_JOURNAL_READING | (size % 2 ? ICOTABLE_JOURNAL_UNGUARDED : 0u);
    uint64_t number = j.atom ? icotable_journal_atom_resume(&j, path, atom, top, meshes(), flags) : icotable_journal_resume(&j, path, g, top, meshes(), flags);
    PROMISE(number == 0 || j.said[0] != 0);
    if (number == 0) {
        icotable_written w = icotable_journal_write(&j, table, sizeof table);
        PROMISE(w.number != 0 || (j.atom ? icotable_atom_read(table, w.length).number : icotable_read(table, w.length).number) == 0);
        PROMISE(w.number != 0 || w.length == icotable_journal_length(&j));
    }
    icotable_journal_close(&j);
    PROMISE(fuzz_same(path, data, size));
    return 0;
}
