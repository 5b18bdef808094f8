/* repack IN OUT: the packed file of a loosely packed one. OUT is written under another name in its folder and gets its own once it
 * is whole; a file that is there already is never replaced, and IN is never written to. A table with a seal is packed already: its copy
 * gets the seal, too, and the mesh file that belongs to it. */
#include "tools.h"

#include "handles.h"

#include <stdlib.h>

/* The length of the packed file of one whose sections and rows are sound. */
static size_t packed_length(const table_file *f) {
    size_t rows = 48 + 4 * (size_t)u32_of(f->bytes + 40), n = u32_of(f->bytes + rows - 4), energies = rows + 10 * n + 4, total = 0;
    for (size_t i = 0; i < n; i++)
        if (f->bytes[rows + 10 * i] >= NEAREST)
            total += per_level(false, f->bytes[rows + 10 * i + 1]);
    return f->count - 4 * (size_t)u32_of(f->bytes + energies - 4) + 4 * total;
}

/* The packed bytes; the caller frees them. */
static icotable_repacked packed(const table_file *f, uint8_t **bytes) {
    size_t room = f->count;
    for (;;) {
        *bytes = malloc(room + 1);
        if (*bytes == NULL)
            return (icotable_repacked){.number = ICOTABLE_SHORT_OUTPUT};
        icotable_repacked done = icotable_repack(f->bytes, f->count, *bytes, room);
        if (done.number != ICOTABLE_SHORT_OUTPUT || room != f->count)
            return done;
        free(*bytes);
        room = packed_length(f); /* 12 is asked last */
    }
}

/* Mesh file, table, seal, as icotable_save_ writes them. */
static int copy_sealed(const table_file *f, const icotable_seal *seal, const icotable_meshes *meshes, const char *out) {
    icotable_fault fault = {0};
    char *mesh = icotable_beside_(out, ".mesh");
    int status = mesh == NULL ? trouble(out, "does not fit into memory") : seal->own_meshes ? GOOD : free_name(f->name, mesh);
    if (status == GOOD && !seal->own_meshes && icotable_meshes_save(meshes, mesh, &fault) != 0)
        status = trouble(mesh, fault.said);
    if (status == GOOD)
        status = write_new(out, f->bytes, f->count);
    if (status == GOOD && icotable_seal_write(seal, out, &fault) != 0)
        status = trouble(out, fault.said);
    free(mesh);
    return status;
}

static int write_packed(const table_file *f, const char *out, const uint8_t *bytes, size_t length) {
    icotable_seal seal;
    table_meshes m;
    if (!has_seal(f))
        return write_new(out, bytes, length);
    int status = open_meshes(&m, f, NULL);
    if (status == GOOD)
        status = icotable_seal_read(&seal, f->name, NULL) == 0 ? copy_sealed(f, &seal, m.meshes, out) : trouble(f->name, "its seal cannot be read");
    close_meshes(&m);
    return status;
}

int repack_tool(int count, char **names) {
    (void)count;
    const char *in = names[0], *out = names[1];
    table_file f;
    int status = open_table(&f, in);
    if (status == GOOD)
        status = free_name(in, out);
    if (status == GOOD) {
        uint8_t *bytes;
        icotable_repacked done = packed(&f, &bytes);
        if (bytes == NULL) {
            status = trouble(out, "does not fit into memory");
        } else if (done.number != 0) {
            printf("%s: refused with %llu: %s\n", f.name, (unsigned long long)done.number, icotable_words(done.number));
            status = FOUND;
        } else {
            status = write_packed(&f, out, bytes, (size_t)done.length);
        }
        if (status == GOOD)
            printf("%s: %llu bytes, where %s has %zu; %llu rows have another offset\n", out, (unsigned long long)done.length, f.name, f.count, (unsigned long long)done.moved);
        free(bytes);
    }
    close_table(&f);
    return status;
}
