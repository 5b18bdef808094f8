/* Damaged saves: saves SEED SAVE.. Each save, unpacked where it is gzip, is cut at every byte, given a byte more, and has bytes
 * altered. It is refused with a number of the import or, where bytes were altered, may be accepted, and then the table is one
 * that the library accepts. Built with the sanitizers; the proved library is linked as it is. */
#include "tools/import.h"
#include "tools/tools.h"

#include "icotable_mesh_file.h"
#include "support.h"

#include <stdlib.h>
#include <string.h>

enum { FLIPS = 4000 };

static int wrong;
static unsigned long tries, accepted, refused[300];
static uint64_t state;

/* Marsaglia's xorshift of 64 bits. */
static uint64_t drawn(void) {
    state ^= state << 13;
    state ^= state >> 7;
    state ^= state << 17;
    return state;
}

static void complain(const char *name, const char *what, size_t at, uint64_t number) {
    wrong++;
    printf("%s: %s %zu: answered with %d\n", name, what, at, (int)number);
}

/* The number of a copy that has exactly these bytes, so that a byte beyond them is seen. */
static uint64_t tried(const char *name, const uint8_t *bytes, size_t count) {
    uint8_t *copy = malloc(count > 0 ? count : 1);
    imported made;
    icotable_fault fault = {0};
    if (copy == NULL)
        abort();
    memcpy(copy, bytes, count);
    uint64_t number = import_bytes(copy, count, &made, &fault);
    if (number != 0 && (number < 281 || number > 297 || fault.number != number || fault.said[0] == 0))
        complain(name, "no number of the import at length", count, number);
    if (number == 0 && (read_table(made.table, made.length, made.atom).number != 0 || icotable_meshes_hash(&made.meshes, made.levels) == 0))
        complain(name, "a table or meshes that are none at length", count, number);
    tries++;
    accepted += number == 0;
    refused[number < 300 ? number : 0]++;
    import_free(&made);
    free(copy);
    return number;
}

static void cut_and_longer(const char *name, uint8_t *bytes, size_t count) {
    for (size_t at = 0; at < count; at++)
        if (tried(name, bytes, at) == 0)
            complain(name, "accepted where it is cut at byte", at, 0);
    bytes[count] = 0;
    uint64_t number = tried(name, bytes, count + 1);
    if (number != IMPORT_BEHIND)
        complain(name, "with a byte behind its end, which is", count, number);
}

/* One to three bytes, low and high ones and single bits more often. */
static void altered(const char *name, uint8_t *bytes, size_t count) {
    static const uint8_t some[] = {0, 1, 2, 127, 128, 255};
    uint8_t *copy = malloc(count);
    if (copy == NULL)
        abort();
    for (int i = 0; i < FLIPS; i++) {
        memcpy(copy, bytes, count);
        for (uint64_t k = drawn() % 3 + 1; k > 0; k--) {
            size_t range = drawn() % 2 == 0 && count > 1000 ? 1000 : count, at = drawn() % range;
            copy[at] = drawn() % 2 == 0 ? some[drawn() % sizeof some] : (uint8_t)(copy[at] ^ 1u << drawn() % 8);
        }
        tried(name, copy, count);
    }
    free(copy);
}

static uint8_t *plain_of(const char *name, size_t *count) {
    uint8_t *bytes = icotable_read_file_(name, SIZE_MAX / 2, count), *plain = NULL;
    size_t length = 0;
    if (bytes != NULL && import_is_gzip(bytes, *count)) {
        if (import_unzip(bytes, *count, &plain, &length, NULL) != 0)
            complain(name, "not unpacked", 0, 0);
        free(bytes);
        bytes = plain;
        *count = length;
    }
    uint8_t *room = bytes == NULL ? NULL : realloc(bytes, *count + 1);
    if (room == NULL)
        abort();
    return room;
}

int main(int count, char **names) {
    state = count > 1 ? strtoull(names[1], NULL, 10) | 1 : 1;
    for (int i = 2; i < count; i++) {
        size_t length = 0;
        uint8_t *bytes = plain_of(names[i], &length);
        if (tried(names[i], bytes, length) != 0)
            complain(names[i], "refused whole, length", length, 0);
        cut_and_longer(names[i], bytes, length);
        altered(names[i], bytes, length);
        free(bytes);
    }
    printf("saves: %lu tries, %lu accepted; refused:", tries, accepted);
    for (int k = 281; k < 300; k++)
        if (refused[k] > 0)
            printf(" %d %lu times", k, refused[k]);
    printf("; %d not as it should be\n", wrong);
    return wrong != 0 || count < 3;
}
