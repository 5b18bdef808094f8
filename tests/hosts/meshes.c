/* The meshes of all levels: for each a row of docs/FORMAT.md, with its two checksums. meshes FILE also writes the bytes that
 * they are of, level after level: vertices, counts and neighbours, then angles. */
#include "mesh.h"

#include <stdio.h>
#include <string.h>

enum { TOP = 15 };

typedef struct output {
    FILE *file; /* or none */
    uint64_t checksum;
} output;

static const uint64_t START = 0xCBF29CE484222325, FACTOR = 0x100000001B3;

static void put(output *o, uint64_t value, int bytes) {
    for (int k = 0; k < bytes; k++) {
        uint8_t byte = (uint8_t)(value >> 8 * k);
        o->checksum = (o->checksum ^ byte) * FACTOR;
        if (o->file != NULL)
            putc(byte, o->file);
    }
}

static void put_doubles(output *o, const double *list, size_t count) {
    for (size_t i = 0; i < count; i++) {
        uint64_t bits;
        memcpy(&bits, &list[i], sizeof bits);
        put(o, bits, 8);
    }
}

static void print_level(const icotable_meshes *m, uint64_t level, FILE *file) {
    size_t n = icotable_vertices(level), at = (size_t)(icotable_level_vertices(m, level) - m->vertices) / 3;
    output first = {file, START}, second = {file, START};
    put_doubles(&first, m->vertices + 3 * at, 3 * n);
    for (size_t i = 0; i < n; i++)
        put(&first, m->neighbour_counts[at + i], 1);
    for (size_t i = 0; i < 6 * n; i++)
        put(&first, m->neighbours[6 * at + i], 2);
    put_doubles(&second, m->angles + 6 * at, 6 * n);
    printf("| %d | %zu | %016llX | %016llX |\n", (int)level, n, (unsigned long long)first.checksum, (unsigned long long)second.checksum);
}

int main(int count, char **names) {
    icotable_meshes m;
    FILE *file = count > 1 ? fopen(names[1], "wb") : NULL;
    uint64_t number = icotable_make_meshes(&m, TOP);
    if (number != 0 || (count > 1 && file == NULL)) {
        fprintf(stderr, "meshes: %s\n", number != 0 ? "refused" : "the file cannot be written");
        return 2;
    }
    for (uint64_t level = 0; level <= TOP; level++)
        print_level(&m, level, file);
    icotable_free_meshes(&m);
    return file != NULL && fclose(file) != 0 ? 2 : 0;
}
