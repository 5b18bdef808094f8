/* A host over what `make install` leaves, as C and as C++: installed FILE. Meshes, a table of one slab, its file and one reading by
 * the library's own calls; then the same table by handles, written to FILE, opened and read with two threads. The status is 1 where
 * an answer is not as it should be. */
#include <icotable/environment.h>
#include <icotable/icotable_handles.h>
#include <icotable/icotable_slab.h>

#include <stdio.h>
#include <string.h>

enum { TOP = 1, N = 42, PER = N * N, ROOM = 8000, POSES = 1000 };

static double store[PER], energies[PER];
static uint64_t words[1];
static uint8_t file[ROOM];
static double poses[8 * POSES], answers[3 * POSES];
static uint64_t numbers[POSES];

#define LISTS store, PER, words, 1

static const icotable_grid grid = {0, 1, 1, 6, 0.1, 1, 0, 0};

/* The energy of vertices 5 and 9, where that of i and j is 100 i + j; any other number where a call is refused. */
static double energy(const icotable_meshes *m, size_t *length) {
    icotable_built b = icotable_fresh(grid, TOP, LISTS, ICOTABLE_MESHES(m));
    for (int i = 0; i < PER; i++)
        energies[i] = 100 * (i / N) + i % N;
    if (b.number == 0)
        b = icotable_set(b.builder, LISTS, 0, 0, energies, PER);
    if (b.number != 0)
        return -1;
    icotable_settled s = icotable_settle(b.builder, LISTS, ICOTABLE_MESHES(m), 0);
    icotable_written w = icotable_write(s.builder, LISTS, ICOTABLE_MESHES(m), file, ROOM);
    icotable_table t = icotable_read(file, w.length);
    if (s.number != 0 || w.number != 0 || t.number != 0)
        return -2;
    const double *v = icotable_level_vertices(m, TOP);
    icotable_value e = icotable_reading(&t, file, w.length, ICOTABLE_LOCATORS(m), 0.5, 0, v[15], v[16], v[17], v[27], v[28], v[29]);
    *length = w.length;
    return e.number == 0 ? e.energy : -3;
}

/* The table by a build's handle, at path: 0, or a number. */
static uint64_t built(const char *path) {
    icotable_fault fault;
    icotable_build_settings s;
    memset(&s, 0, sizeof s);
    s.grid = grid;
    s.top = TOP;
    icotable_build *b = icotable_build_begin(&s, &fault);
    uint64_t number = b == NULL ? fault.number : icotable_build_set(b, 0, 0, energies, PER);
    if (number == 0)
        number = icotable_build_settle(b, 0).number;
    if (number == 0)
        number = icotable_build_write(b, path);
    if (number != 0)
        printf("%s\n", b == NULL ? fault.said : icotable_build_said(b));
    icotable_build_close(b);
    return number;
}

/* How many of many readings, by two threads, are the energy that was asked for once. */
static int equal(const char *path, size_t length, double wanted) {
    icotable_fault fault;
    icotable_reader *t = icotable_reader_open(path, NULL, &fault);
    if (t == NULL) {
        printf("%s\n", fault.said);
        return -1;
    }
    const double *v = icotable_level_vertices(icotable_reader_meshes(t), TOP);
    for (int i = 0; i < POSES; i++) {
        poses[8 * i] = 0.5;
        for (int k = 0; k < 3; k++) {
            poses[8 * i + 2 + k] = v[15 + k];
            poses[8 * i + 5 + k] = v[27 + k];
        }
    }
    size_t found;
    const uint8_t *bytes = icotable_reader_file(t, &found);
    int same = 0, differs = found != length || memcmp(bytes, file, length) != 0;
    uint64_t answered = icotable_reader_energies(t, poses, POSES, NULL, numbers, answers, 2);
    for (uint64_t i = 0; i < answered; i++)
        same += numbers[i] == 0 && memcmp(&answers[3 * i], &wanted, sizeof wanted) == 0;
    icotable_reader_close(t);
    return differs ? -2 : same;
}

int main(int count, char **names) {
    unsigned environment = icotable_float_environment();
    icotable_meshes m;
    uint64_t number = icotable_make_meshes(&m, TOP);
    size_t length = 0;
    double e = number == 0 ? energy(&m, &length) : -4;
    icotable_free_meshes(&m);
    int same = count == 2 && built(names[1]) == 0 ? equal(names[1], length, e) : -3;
    printf("%s; environment %s; energy %g; %d equal by handles; %s\n", icotable_handle_words(number), icotable_float_environment_words(environment), e, same,
           icotable_version());
    return environment != 0 || e < 508.999999 || e > 509.000001 || same != POSES;
}
