/* Mesh files and what the helpers' files share (hosts/c/icotable_mesh_file.h, support.h): files FOLDER. Checksums on their
 * standards' vectors; meshes saved and loaded; a small file with every bit altered, cut at every byte, or with lists that are no
 * mesh under checksums that are right; a full disk. The status is 1 where something is not as it should be.
 * files sha256 FILE.. writes what sha256sum writes. */
#include "files.h"

#include "icotable_mesh_file.h"

#include <math.h>
#include <signal.h>
#include <sys/resource.h>

enum { HEAD = 20, VERTEX = 85 };

/* ---- checksums */

static void check_sha256(const char *bytes, size_t count, const char *digits) {
    char found[65];
    icotable_sha256_(bytes, count, found);
    check(strcmp(found, digits) == 0, "a SHA-256 of FIPS 180's examples", found);
}

static void checksums(void) {
    char *many = malloc(1000000);
    if (many == NULL)
        exit(2);
    memset(many, 'a', 1000000);
    check_sha256("", 0, "e3b0c44298fc1c149afbf4c8996fb92427ae41e4649b934ca495991b7852b855");
    check_sha256("abc", 3, "ba7816bf8f01cfea414140de5dae2223b00361a396177a9cb410ff61f20015ad");
    check_sha256("abcdbcdecdefdefgefghfghighijhijkijkljklmklmnlmnomnopnopq", 56, "248d6a61d20638b8e5c026930c3e6039a33ce45964ff2167f6ecedd419db06c1");
    check_sha256(many, 1000000, "cdc76e5c9914fb9281a1c7e284d73e67f1809a48a497200e046d39ccc7112cd0");
    check(icotable_crc32_(0, "123456789", 9) == 0xCBF43926, "crc32 of its standard's nine digits", "");
    check(icotable_crc32_(icotable_crc32_(0, "1234", 4), "56789", 5) == 0xCBF43926, "crc32 in two parts", "");
    check(icotable_fnv_(ICOTABLE_FNV_, "foobar", 6) == 0x85944171F73967E8, "FNV-1a of its authors' foobar", "");
    free(many);
}

static int print_sha256(int count, char **names) {
    char digits[65];
    for (int i = 0; i < count; i++) {
        if (!icotable_sha256_file_(names[i], digits))
            return 2;
        printf("%s  %s\n", digits, names[i]);
    }
    return 0;
}

/* ---- meshes */

/* The same mesh in a mirror: other vertices, which the mesh rule takes as well. */
static void mirror(icotable_meshes *m) {
    for (size_t i = 0; i < m->vertices_count; i++)
        m->vertices[i] = -m->vertices[i];
}

static bool same_list(const void *x, size_t x_count, const void *y, size_t y_count, size_t width) {
    return x_count == y_count && memcmp(x, y, x_count * width) == 0;
}

#define SAME(member) same_list(m->member, m->member##_count, n->member, n->member##_count, sizeof *m->member)
static bool same_meshes(const icotable_meshes *m, const icotable_meshes *n) {
    return m->top == n->top && SAME(vertices) && SAME(neighbour_counts) && SAME(neighbours) && SAME(angles) && SAME(cell_offsets) && SAME(cell_vertices) &&
           SAME(face_offsets) && SAME(faces);
}

static void made(icotable_meshes *m, uint64_t top) {
    if (icotable_make_meshes(m, top) != 0)
        exit(2);
}

static void round_trips(void) {
    const char *name = path("round"), *again = path("again");
    for (uint64_t top = 0; top < 16; top += top < 4 ? 1 : 11) {
        icotable_meshes m, loaded;
        size_t one, two;
        made(&m, top);
        check(icotable_meshes_own(&m, top + 1) == 1, "the library's own meshes are not taken for them", "");
        check(icotable_meshes_own(&m, top + 2) == 0 && icotable_meshes_hash(&m, top + 2) == 0, "levels that are not there", "");
        check(icotable_meshes_save(&m, name, &fault) == 0 && strcmp(fault.said, "accepted") == 0, "meshes are not saved", fault.said);
        check(icotable_meshes_load(&loaded, name, &fault) == 0 && fault.number == 0, "meshes are not loaded", fault.said);
        check(same_meshes(&m, &loaded), "the loaded meshes are others", "");
        check(icotable_meshes_hash(&m, top + 1) == icotable_meshes_hash(&loaded, top + 1), "the loaded meshes have another hash", "");
        check(icotable_meshes_save(&loaded, again, NULL) == 0, "loaded meshes are not saved", "");
        uint8_t *first = get_file(name, &one), *second = get_file(again, &two);
        check(one == two && memcmp(first, second, one) == 0, "a file saved again is another one", "");
        free(first), free(second);
        mirror(&m);
        check(icotable_meshes_own(&m, top + 1) == 0, "other meshes are taken for the library's own", "");
        check(icotable_meshes_hash(&m, top + 1) != icotable_meshes_hash(&loaded, top + 1), "other meshes have the same hash", "");
        icotable_free_meshes(&m), icotable_free_meshes(&loaded);
    }
    icotable_meshes m;
    made(&m, 1);
    mirror(&m);
    m.angles[5] = 7, m.neighbours[5] = 7; /* a place that vertex 0 does not have */
    check(icotable_meshes_save(&m, name, &fault) == 0, "other meshes are not saved", fault.said);
    icotable_free_meshes(&m);
    check(icotable_meshes_load(&m, name, NULL) == 0 && m.neighbours[5] == 0 && m.angles[5] == 0 && m.vertices[1] < 0, "other meshes are not loaded", "");
    icotable_free_meshes(&m);
}

/* ---- damage */

static bool load_refuses(const char *name) {
    icotable_meshes m;
    uint64_t number = icotable_meshes_load(&m, name, &fault);
    bool empty = m.vertices == NULL && m.faces == NULL && m.top == 0;
    check(number == fault.number && (number == 0 || (empty && strlen(fault.said) > 20)), "a refusal without words, or with meshes", fault.said);
    icotable_free_meshes(&m);
    return number >= 241 && number <= 249;
}

/* Right checksums, whatever the rest is. */
static void put_sums(uint8_t *bytes, size_t count) {
    uint32_t sum = icotable_crc32_(0, bytes, HEAD - 4);
    memcpy(bytes + HEAD - 4, &sum, 4);
    size_t at = HEAD;
    for (uint64_t level = 0; level < 16 && at + VERTEX * icotable_vertices(level) + 4 <= count; level++) {
        size_t length = VERTEX * icotable_vertices(level);
        sum = icotable_crc32_(sum, bytes + at, length);
        memcpy(bytes + at + length, &sum, 4);
        at += length + 4;
    }
}

/* A copy of the file with other bytes at a place and right checksums. */
static void altered(const uint8_t *good, size_t count, size_t at, const void *bytes, size_t length, uint64_t number, const char *place) {
    uint8_t *other = malloc(count);
    icotable_meshes m;
    if (other == NULL)
        exit(2);
    memcpy(other, good, count);
    memcpy(other + at, bytes, length);
    put_sums(other, count);
    put_file(path("altered"), other, count);
    refused(number, icotable_meshes_load(&m, path("altered"), &fault), place);
    icotable_free_meshes(&m);
    free(other);
}

static void damages(void) {
    icotable_meshes m;
    size_t count, level1 = HEAD + 12 * VERTEX + 4;
    made(&m, 1);
    icotable_meshes_save(&m, path("small"), NULL);
    icotable_free_meshes(&m);
    uint8_t *good = get_file(path("small"), &count);
    check(count == HEAD + VERTEX * 54 + 8, "the length of two levels", "");
    damage_all(path("damaged"), good, count, load_refuses);
    altered(good, count, 8, "\2", 1, 243, ": 2");
    altered(good, count, 12, "\0", 1, 242, ": 0 levels");
    altered(good, count, 12, "\21", 1, 242, ": 17 levels");
    altered(good, count, 12, "\377\377\377\377", 4, 242, ": 4294967295 levels");
    altered(good, count, 12, "\3", 1, 244, ": 4618 bytes, where 3 levels have 12442");
    altered(good, count, 12, "\1", 1, 244, ": 4618 bytes, where 1 levels have 1044");
    altered(good, count, HEAD + 12 * 25 + 10, "\1", 1, 246, "level 0, vertex 0 has something in a place that is not used");
    altered(good, count, HEAD + 12 * 37 + 40, "\1", 1, 246, "level 0, vertex 0 has something in a place that is not used");
    altered(good, count, level1 + 42 * 24, "\7", 1, 246, "level 1, refused with ");
    altered(good, count, level1 + 42 * 25, "\377\377", 2, 246, "level 1, refused with ");
    altered(good, count, level1, "\0\0\0\0\0\0\370\177", 8, 246, "level 1, refused with ");
    free(good);
}

/* ---- trouble */

static void troubles(void) {
    icotable_meshes m, none = {0}, loaded;
    size_t count;
    made(&m, 1);
    refused(241, icotable_meshes_load(&loaded, path("nowhere"), &fault), "nowhere");
    refused(242, icotable_meshes_load(&loaded, folder, &fault), "is not a file");
    refused(247, icotable_meshes_save(&m, path("nowhere/meshes"), &fault), "No such file");
    refused(249, icotable_meshes_save(&none, path("none"), &fault), "levels 0 to 0");
    m.angles_count--;
    refused(249, icotable_meshes_save(&m, path("none"), &fault), "levels 0 to 1");
    m.angles_count++, m.top = 16;
    refused(249, icotable_meshes_save(&m, path("none"), &fault), "levels 0 to 16");
    m.top = 1, m.vertices[40] = INFINITY;
    int before = files();
    refused(246, icotable_meshes_save(&m, path("small"), &fault), "level 1, refused with ");
    refused(246, icotable_meshes_save(&m, path("none"), &fault), "level 1, refused with ");
    icotable_free_meshes(&m);
    made(&m, 2);
    struct rlimit was, full;
    getrlimit(RLIMIT_FSIZE, &was);
    full = (struct rlimit){5000, was.rlim_max};
    signal(SIGXFSZ, SIG_IGN);
    setrlimit(RLIMIT_FSIZE, &full);
    refused(247, icotable_meshes_save(&m, path("small"), &fault), "File too large");
    setrlimit(RLIMIT_FSIZE, &was);
    free(get_file(path("small"), &count));
    check(count == 4618 && files() == before, "a refused save leaves another file", "");
    check(icotable_meshes_save(&m, path("small"), &fault) == 0, "a save in the place of a file", fault.said);
    icotable_free_meshes(&m);
    char *big = calloc(1 << 21, 1);
    if (big == NULL)
        exit(2);
    put_file(path("big"), big, 1 << 21);
    free(big);
    refused(242, icotable_meshes_load(&loaded, path("big"), &fault), "longer than any");
}

int main(int count, char **words) {
    if (count > 2 && strcmp(words[1], "sha256") == 0)
        return print_sha256(count - 2, words + 2);
    if (count != 2)
        return 2;
    snprintf(folder, sizeof folder, "%s", words[1]);
    checksums();
    round_trips();
    damages();
    troubles();
    printf("mesh files: %llu checks, %llu wrong\n", (unsigned long long)checks, (unsigned long long)wrong);
    return wrong != 0;
}
