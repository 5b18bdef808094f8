/* What the harnesses share. A harness is a file NAME.c with LLVMFuzzerTestOneInput: it hands bytes to a call that takes files from
 * anybody, and aborts where an answer breaks a promise; crashes, leaks and undefined behaviour are the sanitizers' to find. Where a
 * file has checksums, `repair` puts them right in most of what is tried, so that the fields behind them are tried as well. */
#ifndef HARNESS_H
#define HARNESS_H

#include "support.h"

#include <stdio.h>
#include <stdlib.h>
#include <string.h>

int LLVMFuzzerTestOneInput(const uint8_t *data, size_t size);
size_t LLVMFuzzerMutate(uint8_t *data, size_t size, size_t most);
size_t LLVMFuzzerCustomMutator(uint8_t *data, size_t size, size_t most, unsigned seed);

/* A promise that an answer has to keep. */
#define PROMISE(holds) \
    do { \
        if (!(holds)) { \
            fprintf(stderr, "%s:%d: not so: %s\n", __FILE__, __LINE__, #holds); \
            abort(); \
        } \
    } while (0)

#define REPAIRED(repair) \
    size_t LLVMFuzzerCustomMutator(uint8_t *data, size_t size, size_t most, unsigned seed) { \
        size = LLVMFuzzerMutate(data, size, most); \
        return seed % 4 == 0 ? size : repair(data, size, most); \
    }

/* A name in the folder of this run. */
static inline const char *fuzz_name(const char *name) {
    static char names[4][400];
    static int at;
    const char *folder = getenv("FUZZ_FOLDER");
    at = (at + 1) % 4;
    snprintf(names[at], sizeof names[at], "%s/%s", folder == NULL ? "." : folder, name);
    return names[at];
}

static inline const char *fuzz_file(const char *name, const uint8_t *data, size_t size) {
    const char *path = fuzz_name(name);
    FILE *to = fopen(path, "wb");
    PROMISE(to != NULL && fwrite(data, 1, size, to) == size && fclose(to) == 0);
    return path;
}

/* Whether a file has these bytes. */
static inline int fuzz_same(const char *path, const uint8_t *data, size_t size) {
    size_t count = 0;
    uint8_t *bytes = icotable_read_file_(path, (size_t)1 << 30, &count);
    int same = bytes != NULL && count == size && memcmp(bytes, data, size) == 0;
    free(bytes);
    return same;
}

#endif
