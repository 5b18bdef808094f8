/* The meshes of a table or of a journal: the table's own by its seal and the mesh file beside it, as the reader takes them, or those of
 * --meshes FILE. */
#include "tools.h"

#include "handles.h"

#include <string.h>

/* A table that comes from standard input has no name, and nothing beside it. */
static icotable_reader *read_bytes(const table_file *f, const char *meshes, icotable_meshes *held, icotable_fault *fault) {
    if (meshes != NULL && icotable_handle_meshes_(held, NULL, meshes, f->table.levels, fault) != 0)
        return NULL;
    return icotable_reader_over(f->bytes, f->count, meshes == NULL ? NULL : held, fault);
}

int open_meshes(table_meshes *t, const table_file *f, const char *meshes) {
    icotable_fault fault;
    *t = (table_meshes){0};
    t->reader = f->input ? read_bytes(f, meshes, &t->held, &fault) : icotable_reader_open(f->name, meshes, &fault);
    if (t->reader != NULL) {
        t->meshes = icotable_reader_meshes(t->reader);
        return GOOD;
    }
    fprintf(stderr, "%s: refused with %llu: %s\n", f->name, (ull)fault.number, fault.said);
    return FOUND;
}

void close_meshes(table_meshes *t) {
    icotable_reader_close(t->reader);
    icotable_free_meshes(&t->held);
    *t = (table_meshes){0};
}

bool has_seal(const table_file *f) {
    icotable_seal s;
    return !f->input && icotable_seal_read(&s, f->name, NULL) != ICOTABLE_SEAL_ABSENT;
}

uint64_t journal_meshes(icotable_meshes *m, uint64_t levels, char *said, size_t room) {
    icotable_fault fault;
    uint64_t number = icotable_handle_meshes_(m, NULL, given("--meshes"), levels, &fault);
    if (number != 0)
        snprintf(said, room, "%s", fault.said);
    return number;
}
