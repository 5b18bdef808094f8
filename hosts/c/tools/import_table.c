/* A save as a table file. The sections are written with the offsets that the save has; then a table of two molecules is packed by
 * the library's repack, which is proved to keep every reading, and one against an atom, for which there is none, here. */
#include "import.h"
#include "support.h"
#include "tools.h"

#include <stdlib.h>
#include <string.h>

typedef unsigned long long ull;

enum { ROW = 10, TERM = 20 };
static const uint32_t UNUSED = 0xFFFFFFFF;

/* ---- sections */

static uint8_t *put(uint8_t *at, const void *bytes, size_t count) {
    memcpy(at, bytes, count);
    return at + count;
}

static uint8_t *put_u32(uint8_t *at, uint64_t word) {
    uint32_t w = (uint32_t)word;
    return put(at, &w, sizeof w);
}

static uint8_t *put_grid(uint8_t *at, const save *s) {
    const icotable_grid *g = &s->grid;
    const double numbers[3] = {g->rmin, g->dr, g->omega_step};
    at = put_u32(at, s->atom ? 2 : 3);
    at = put(at, numbers, s->atom ? 16 : 24);
    at = put_u32(put_u32(at, s->atom ? 1 : 2), g->n_r);
    if (!s->atom)
        at = put_u32(at, g->n_omega);
    at = put_u32(at, s->levels);
    for (uint64_t level = 0; level < s->levels; level++)
        at = put_u32(at, icotable_vertices(level));
    return put_u32(at, s->rows);
}

/* Any NaN of a Scalar row is the one that a table file holds. */
static uint8_t *put_row(uint8_t *at, const save_row *r) {
    bool mesh = r->kind >= NEAREST;
    *at++ = r->kind;
    *at++ = mesh ? r->level : 0;
    at = put_u32(at, mesh ? r->offset : UNUSED);
    return put_u32(at, r->kind != SCALAR ? 0 : is_nan(r->scalar) ? TABLE_NAN : r->scalar);
}

/* The audit has seen that no row holds a NaN. Those between the rows' energies are not kept, and repack would refuse them. */
static uint8_t *put_energies(uint8_t *at, const save *s, const save_audit *a) {
    uint8_t *from = put_u32(at, s->energies), *end = put(from, s->bytes + s->energies_at, 4 * (size_t)s->energies);
    for (at = from; a->unread_nans > 0 && at < end; at += 4)
        if (is_nan(u32_of(at)))
            put_u32(at, 0);
    return end;
}

/* A table against an atom has no section for terms. */
static uint64_t table_terms(const save *s) {
    return s->atom ? 0 : s->metadata.terms;
}

static size_t rows_at(const save *s) {
    return (s->atom ? 36 : 48) + 4 * (size_t)s->levels;
}

/* Behind the energies: nothing, or the terms and their prefactor. */
static size_t tail_length(const save *s) {
    return table_terms(s) == 0 ? 0 : 4 + TERM * (size_t)table_terms(s) + 8;
}

static uint8_t *put_tail(uint8_t *at, const save *s) {
    if (table_terms(s) == 0)
        return at;
    at = put(put_u32(at, table_terms(s)), s->bytes + s->metadata.terms_at, TERM * (size_t)table_terms(s));
    return put(at, &s->metadata.prefactor, sizeof s->metadata.prefactor);
}

/* The table with the save's own offsets. */
static size_t loose_table(const save *s, const save_audit *a, uint8_t **bytes) {
    size_t length = rows_at(s) + ROW * (size_t)s->rows + 4 + 4 * (size_t)s->energies + tail_length(s);
    *bytes = malloc(length);
    if (*bytes == NULL)
        return 0;
    uint8_t *at = put_grid(*bytes, s);
    for (uint64_t i = 0; i < s->rows; i++)
        at = put_row(at, &s->row[i]);
    put_tail(put_energies(at, s, a), s);
    return length;
}

/* ---- packing */

/* Against an atom: each Mesh row's energies behind those of the row before. */
static icotable_repacked pack_atom(const save *s, const uint8_t *loose, uint8_t *output) {
    size_t rows = rows_at(s), energies = rows + ROW * (size_t)s->rows + 4;
    icotable_repacked done = {0};
    uint64_t packed = 0;
    memcpy(output, loose, energies);
    for (uint64_t i = 0; i < s->rows; i++) {
        const save_row *r = &s->row[i];
        uint64_t size = save_row_size(s, r);
        if (size == 0)
            continue;
        memcpy(output + energies + 4 * packed, loose + energies + 4 * (size_t)r->offset, 4 * size);
        put_u32(output + rows + ROW * i + 2, packed);
        done.moved += r->offset != packed;
        packed += size;
    }
    put_u32(output + energies - 4, packed);
    done.length = energies + 4 * packed;
    return done;
}

/* What the library says of a table, in words, with the place that the walk finds. */
static uint64_t refused_table(uint64_t number, const uint8_t *table, size_t length, bool atom, icotable_fault *fault) {
    place p = find_place(table, length, atom, false);
    return IMPORT_REFUSE(fault, TABLE, "with %llu: %s%s%s", (ull)number, icotable_words(number), p.number == number ? ": " : "",
                         p.number == number ? p.why : "");
}

static uint64_t pack(const save *s, const uint8_t *loose, size_t count, imported *made, icotable_fault *fault) {
    size_t room = rows_at(s) + ROW * (size_t)s->rows + 4 + 4 * (size_t)made->audit.accounted + tail_length(s);
    made->table = malloc(room);
    if (made->table == NULL)
        return IMPORT_REFUSE(fault, NO_ROOM, "a table of %zu bytes", room);
    icotable_repacked done = s->atom ? pack_atom(s, loose, made->table) : icotable_repack(loose, count, made->table, room);
    if (done.number != 0)
        return refused_table(done.number, loose, count, false, fault);
    made->length = (size_t)done.length;
    made->moved = done.moved;
    uint64_t number = read_table(made->table, made->length, s->atom).number;
    return number == 0 ? 0 : refused_table(number, made->table, made->length, s->atom, fault);
}

/* ---- all of it */

static uint64_t import_plain(const uint8_t *bytes, size_t count, imported *made, icotable_fault *fault) {
    save s;
    uint8_t *loose = NULL;
    uint64_t number = save_read(&s, bytes, count, fault);
    if (number == 0)
        number = save_audit_rows(&s, &made->audit, fault);
    if (number == 0) {
        size_t length = loose_table(&s, &made->audit, &loose);
        number = length == 0 ? IMPORT_REFUSE(fault, NO_ROOM, "the table") : pack(&s, loose, length, made, fault);
    }
    free(loose);
    made->atom = s.atom;
    made->levels = s.levels;
    made->rows = s.rows;
    made->energies = s.energies;
    made->metadata = s.metadata;
    made->meshes = s.meshes;
    s.meshes = (icotable_meshes){0};
    save_free(&s);
    return number;
}

uint64_t import_bytes(const uint8_t *bytes, size_t count, imported *made, icotable_fault *fault) {
    *made = (imported){.gzip = import_is_gzip(bytes, count)};
    if (!made->gzip)
        return import_plain(bytes, count, made, fault);
    uint8_t *plain;
    size_t plain_count;
    uint64_t number = import_unzip(bytes, count, &plain, &plain_count, fault);
    if (number == 0)
        number = import_plain(plain, plain_count, made, fault);
    free(plain);
    return number;
}

void import_free(imported *made) {
    icotable_free_meshes(&made->meshes);
    free(made->table);
    *made = (imported){0};
}
