#include "icotable_mesh_file.h"

#include "mesh_lists.h"
#include "support.h"

#include <errno.h>
#include <stdlib.h>
#include <string.h>

/* Of a vertex: three coordinates, the count of its neighbours, six neighbours, six angles. */
enum { VERSION = 1, HEAD = 20, VERTEX = 24 + 1 + 12 + 48, SUM = 4, MOST_LEVELS = 16 };
static const char MAGIC[] = "ICOTMESH";

typedef unsigned long long ull;

const char *icotable_mesh_file_words(uint64_t number) {
    switch (number) {
#define ICOTABLE_MESH_FILE_REFUSAL_(number, name, words) \
    case number: \
        return words;
        ICOTABLE_MESH_FILE_REFUSALS(ICOTABLE_MESH_FILE_REFUSAL_)
#undef ICOTABLE_MESH_FILE_REFUSAL_
    default:
        return icotable_words(number);
    }
}

#define REFUSE(fault, name, ...) \
    icotable_fault_(fault, ICOTABLE_MESH_FILE_##name, icotable_mesh_file_words(ICOTABLE_MESH_FILE_##name), __VA_ARGS__)

static size_t vertices_below(uint64_t levels) {
    size_t n = 0;
    for (uint64_t level = 0; level < levels; level++)
        n += icotable_vertices(level);
    return n;
}

static size_t length_of(uint64_t levels) {
    return HEAD + VERTEX * vertices_below(levels) + SUM * levels;
}

static bool holds(const icotable_meshes *m, uint64_t levels) {
    if (levels < 1 || levels > MOST_LEVELS)
        return false;
    size_t n = vertices_below(levels);
    return m->vertices && m->neighbour_counts && m->neighbours && m->angles && m->vertices_count >= 3 * n &&
           m->neighbour_counts_count >= n && m->neighbours_count >= 6 * n && m->angles_count >= 6 * n;
}

/* ---- lists; a sixth place that a vertex does not have, and that no call reads, counts as 0 */

static uint16_t neighbour(const icotable_meshes *m, size_t k) {
    return k % 6 < m->neighbour_counts[k / 6] ? m->neighbours[k] : 0;
}

static double angle(const icotable_meshes *m, size_t k) {
    return k % 6 < m->neighbour_counts[k / 6] ? m->angles[k] : 0;
}

uint64_t icotable_meshes_hash(const icotable_meshes *m, uint64_t levels) {
    if (!holds(m, levels))
        return 0;
    size_t n = vertices_below(levels);
    uint64_t hash = icotable_fnv_(ICOTABLE_FNV_, m->vertices, 3 * n * sizeof *m->vertices);
    hash = icotable_fnv_(hash, m->neighbour_counts, n);
    for (size_t k = 0; k < 6 * n; k++) {
        uint16_t at = neighbour(m, k);
        hash = icotable_fnv_(hash, &at, sizeof at);
    }
    for (size_t k = 0; k < 6 * n; k++) {
        double apart = angle(m, k);
        hash = icotable_fnv_(hash, &apart, sizeof apart);
    }
    return hash;
}

/* ---- bytes from meshes */

static uint8_t *put(uint8_t *at, const void *bytes, size_t count) {
    memcpy(at, bytes, count);
    return at + count;
}

static uint8_t *put_sum(uint32_t *sum, const uint8_t *from, uint8_t *at) {
    *sum = icotable_crc32_(*sum, from, (size_t)(at - from));
    return put(at, sum, sizeof *sum);
}

static uint8_t *put_level(uint8_t *to, const icotable_meshes *m, uint64_t level, uint32_t *sum) {
    size_t first = vertices_below(level), n = icotable_vertices(level);
    uint8_t *at = put(to, m->vertices + 3 * first, 3 * n * sizeof *m->vertices);
    at = put(at, m->neighbour_counts + first, n);
    for (size_t k = 6 * first; k < 6 * (first + n); k++) {
        uint16_t v = neighbour(m, k);
        at = put(at, &v, sizeof v);
    }
    for (size_t k = 6 * first; k < 6 * (first + n); k++) {
        double apart = angle(m, k);
        at = put(at, &apart, sizeof apart);
    }
    return put_sum(sum, to, at);
}

/* The file of levels that are there, to be freed; NULL without memory. */
static uint8_t *bytes_of(const icotable_meshes *m, uint64_t levels) {
    uint32_t head[2] = {VERSION, (uint32_t)levels}, sum = 0;
    uint8_t *bytes = malloc(length_of(levels));
    if (bytes == NULL)
        return NULL;
    uint8_t *at = put_sum(&sum, bytes, put(put(bytes, MAGIC, 8), head, sizeof head));
    for (uint64_t level = 0; level < levels; level++)
        at = put_level(at, m, level, &sum);
    return bytes;
}

int icotable_meshes_own(const icotable_meshes *m, uint64_t levels) {
    icotable_meshes own = {0};
    if (!holds(m, levels))
        return 0;
    uint64_t number = icotable_make_meshes(&own, levels - 1);
    uint8_t *mine = bytes_of(m, levels), *made = number == 0 ? bytes_of(&own, levels) : NULL;
    int same = mine != NULL && made != NULL && memcmp(mine, made, length_of(levels)) == 0;
    free(mine);
    free(made);
    icotable_free_meshes(&own);
    return same;
}

/* ---- meshes from bytes */

static bool summed(const uint8_t *from, size_t count, uint32_t *sum) {
    uint32_t read;
    *sum = icotable_crc32_(*sum, from, count);
    memcpy(&read, from + count, SUM);
    return read == *sum;
}

/* Head, length and checksums; nothing is allocated before the file is seen to be as long as its levels make it. */
static uint64_t check_bytes(const uint8_t *bytes, size_t count, uint64_t *levels, icotable_fault *fault) {
    uint32_t head[2], sum = 0;
    if (count < HEAD)
        return REFUSE(fault, NOT_A_MESH_FILE, "%zu bytes", count);
    if (memcmp(bytes, MAGIC, 8) != 0)
        return REFUSE(fault, NOT_A_MESH_FILE, "it begins otherwise");
    if (!summed(bytes, HEAD - SUM, &sum))
        return REFUSE(fault, DAMAGED, "the head, bytes 0 to %d", HEAD - 1);
    memcpy(head, bytes + 8, sizeof head);
    if (head[0] != VERSION)
        return REFUSE(fault, OTHER_VERSION, "%u", (unsigned)head[0]);
    *levels = head[1];
    if (*levels < 1 || *levels > MOST_LEVELS)
        return REFUSE(fault, NOT_A_MESH_FILE, "%llu levels, where it has 1 to %d", (ull)*levels, MOST_LEVELS);
    if (count != length_of(*levels))
        return REFUSE(fault, OTHER_LENGTH, "%zu bytes, where %llu levels have %zu", count, (ull)*levels, length_of(*levels));
    size_t at = HEAD;
    for (uint64_t level = 0; level < *levels; level++) {
        size_t length = VERTEX * icotable_vertices(level);
        if (!summed(bytes + at, length, &sum))
            return REFUSE(fault, DAMAGED, "level %llu, bytes %zu to %zu", (ull)level, at, at + length + SUM - 1);
        at += length + SUM;
    }
    return 0;
}

/* A level's lists from its bytes. */
static void fill_level(icotable_meshes *m, uint64_t level, const uint8_t *from) {
    size_t first = vertices_below(level), n = icotable_vertices(level);
    memcpy(m->vertices + 3 * first, from, 24 * n);
    memcpy(m->neighbour_counts + first, from + 24 * n, n);
    memcpy(m->neighbours + 6 * first, from + 25 * n, 12 * n);
    memcpy(m->angles + 6 * first, from + 37 * n, 48 * n);
}

/* A sixth place that a vertex does not have is 0, so that one mesh has one file. */
static bool unused_zero(const icotable_meshes *m, uint64_t level, size_t *vertex) {
    size_t first = vertices_below(level);
    static const double flat = 0;
    for (size_t k = 6 * first; k < 6 * (first + icotable_vertices(level)); k++)
        if (k % 6 >= m->neighbour_counts[k / 6] && (m->neighbours[k] != 0 || memcmp(&m->angles[k], &flat, sizeof flat) != 0)) {
            *vertex = k / 6 - first;
            return false;
        }
    return true;
}

static uint64_t meshes_of(icotable_meshes *m, const uint8_t *bytes, size_t count, icotable_fault *fault) {
    uint64_t levels = 0, number = check_bytes(bytes, count, &levels, fault);
    if (number != 0)
        return number;
    if (!icotable_allocate_meshes_(m, levels - 1))
        return REFUSE(fault, NO_ROOM, "%llu levels", (ull)levels);
    size_t at = HEAD, vertex = 0;
    for (uint64_t level = 0; level < levels; level++) {
        fill_level(m, level, bytes + at);
        if (!unused_zero(m, level, &vertex))
            return REFUSE(fault, NOT_A_MESH, "level %llu, vertex %zu has something in a place that is not used", (ull)level, vertex);
        number = icotable_locate_level_(m, level);
        if (number != 0)
            return REFUSE(fault, NOT_A_MESH, "level %llu, refused with %llu: %s", (ull)level, (ull)number, icotable_words(number));
        at += VERTEX * icotable_vertices(level) + SUM;
    }
    return icotable_accepted_(fault);
}

/* ---- files */

uint64_t icotable_meshes_load(icotable_meshes *m, const char *path, icotable_fault *fault) {
    size_t count = 0;
    *m = (icotable_meshes){0};
    uint8_t *bytes = icotable_read_file_(path, length_of(MOST_LEVELS), &count);
    if (bytes == NULL && errno == ENOENT)
        return REFUSE(fault, ABSENT, "%s", path);
    if (bytes == NULL && errno == ENOMEM)
        return REFUSE(fault, NO_ROOM, "%s", path);
    if (bytes == NULL && (errno == EFBIG || errno == EINVAL))
        return REFUSE(fault, NOT_A_MESH_FILE, "%s is %s", path, errno == EFBIG ? "longer than any" : "not a file");
    if (bytes == NULL)
        return REFUSE(fault, TROUBLE, "%s: %s", path, strerror(errno));
    uint64_t number = meshes_of(m, bytes, count, fault);
    free(bytes);
    if (number != 0)
        icotable_free_meshes(m);
    return number;
}

uint64_t icotable_meshes_save(const icotable_meshes *m, const char *path, icotable_fault *fault) {
    if (m->top >= MOST_LEVELS || !holds(m, m->top + 1))
        return REFUSE(fault, NOT_WHOLE, "levels 0 to %llu", (ull)m->top);
    size_t count = length_of(m->top + 1);
    uint8_t *bytes = bytes_of(m, m->top + 1);
    if (bytes == NULL)
        return REFUSE(fault, NO_ROOM, "%s", path);
    icotable_meshes again = {0};
    uint64_t number = meshes_of(&again, bytes, count, fault);
    icotable_free_meshes(&again);
    if (number == 0 && !icotable_write_file_(path, bytes, count, true))
        number = REFUSE(fault, TROUBLE, "%s: %s", path, strerror(errno));
    free(bytes);
    return number;
}
