/* What the tests of mesh files and of seals share: counted checks, names in a folder, whole files, every damage. */
#ifndef FILES_H
#define FILES_H

#include "icotable_fault.h"
#include "support.h"

#include <dirent.h>
#include <stdbool.h>
#include <stdio.h>
#include <stdlib.h>
#include <string.h>

static char folder[1000];
static uint64_t checks, wrong;
static icotable_fault fault;

static inline void check(bool good, const char *what, const char *said) {
    checks++;
    if (!good && wrong++ < 10)
        printf("files: %s: %s\n", what, said);
}

/* A refusal with its number, its words and a place. */
static inline void refused(uint64_t wanted, uint64_t number, const char *place) {
    char what[200];
    snprintf(what, sizeof what, "number %llu, where %llu with '%s' was to come", (unsigned long long)number, (unsigned long long)wanted, place);
    check(number == wanted && fault.number == number && strstr(fault.said, place) != NULL, what, fault.said);
}

static inline const char *path(const char *name) {
    static char names[4][1100];
    static int at;
    at = (at + 1) % 4;
    snprintf(names[at], sizeof names[at], "%s/%s", folder, name);
    return names[at];
}

static inline void put_file(const char *name, const void *bytes, size_t count) {
    FILE *to = fopen(name, "wb");
    bool whole = to != NULL && fwrite(bytes, 1, count, to) == count;
    if (to == NULL || fclose(to) != 0 || !whole) {
        printf("files: %s is not written\n", name);
        exit(2);
    }
}

static inline uint8_t *get_file(const char *name, size_t *count) {
    uint8_t *bytes = icotable_read_file_(name, (size_t)1 << 30, count);
    if (bytes == NULL) {
        printf("files: %s is not read\n", name);
        exit(2);
    }
    return bytes;
}

/* How many files the folder has. */
static inline int files(void) {
    int count = 0;
    DIR *d = opendir(folder);
    for (struct dirent *e; d != NULL && (e = readdir(d)) != NULL;)
        count += e->d_name[0] != '.';
    if (d != NULL)
        closedir(d);
    return count;
}

/* Every bit of a file altered, it cut at every byte, and bytes behind it: refuses(NAME) has to be true of all. */
static inline void damage_all(const char *name, const uint8_t *good, size_t count, bool (*refuses)(const char *name)) {
    uint8_t *bytes = malloc(count + 8);
    if (bytes == NULL)
        exit(2);
    memcpy(bytes, good, count);
    memset(bytes + count, 0, 8);
    for (size_t bit = 0; bit < 8 * count; bit++) {
        bytes[bit / 8] ^= (uint8_t)(1 << bit % 8);
        put_file(name, bytes, count);
        check(refuses(name), "an altered bit is accepted", fault.said);
        bytes[bit / 8] ^= (uint8_t)(1 << bit % 8);
    }
    for (size_t length = 0; length <= count + 8; length++) {
        put_file(name, bytes, length);
        check(refuses(name) == (length != count), "another length is accepted, or the right one refused", fault.said);
    }
    free(bytes);
}

#endif
