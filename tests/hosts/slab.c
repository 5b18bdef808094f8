/* Slab files (hosts/c/icotable_slab.h): slab FOLDER writes and reads them, of both versions, and has to find every byte that is altered
 * and every length that is cut; slab serial pair FILE and slab serial atom FILE build the tables of tests/hosts/slurm by the library's own
 * calls, one after another, without journal or slab files. */
#include "icotable_journal.h"
#include "icotable_slab.h"
#include "molecules.h"

#include <math.h>
#include <signal.h>
#include <stdio.h>
#include <stdlib.h>
#include <string.h>
#include <sys/resource.h>
#include <sys/stat.h>
#include <unistd.h>

enum { MOST = 8464, PAIR_TOP = 2, ATOM_TOP = 3, PAIR_SLABS = 24, ATOM_SLABS = 12, ROOM = 1 << 20 };
static const icotable_grid pair = {.rmin = 3, .rmax = 15, .dr = 2, .omega_step = 1.5707963267948966, .threshold = 2, .beta = BETA};
static const icotable_atom_grid atom = {.rmin = 1, .rmax = 25, .dr = 2, .threshold = 0.5, .beta = BETA};

static double energies[MOST], back[MOST], store[PAIR_SLABS * MOST];
static uint8_t file[ROOM], output[ROOM];
static uint64_t checks, wrong;
static const char *folder;
static icotable_identity whose; /* of every slab here: none makes files of version 1 */

static void check(int good, const char *what, const char *said) {
    checks++;
    if (!good) {
        wrong++;
        printf("slab: %s: %s\n", what, said);
    }
}

static void refused_with(const icotable_slab *s, uint64_t number, uint64_t wanted, const char *words, const char *what) {
    check(number == wanted, what, s->said);
    check(strstr(s->said, words) != NULL, words, s->said);
}

static const char *path(const icotable_slab *s) {
    static char name[4096];
    char last[ICOTABLE_SLAB_NAME];
    icotable_slab_name(s, last);
    snprintf(name, sizeof name, "%s/%s", folder, last);
    return name;
}

static size_t load(const icotable_slab *s) {
    FILE *f = fopen(path(s), "rb");
    if (f == NULL)
        return 0;
    size_t count = fread(file, 1, ROOM, f);
    fclose(f);
    return count;
}

static void save(const icotable_slab *s, size_t count) {
    FILE *f = fopen(path(s), "wb");
    if (f == NULL || fwrite(file, 1, count, f) != count || fclose(f) != 0)
        exit(2);
}

/* How many bytes are before the energies. */
static size_t front(void) {
    return whose.id[0] == 0 ? 56 : 76 + strlen(whose.label);
}

static icotable_slab slab_of(int kind, uint64_t level, uint64_t oi) {
    return (icotable_slab){.atom = kind, .build = 7, .level = level, .ri = 3, .oi = oi, .identity = whose};
}

/* ---- */

static void round_trips(void) {
    static const double odd[] = {0, -0.0, 5e-324, 1e308, INFINITY, -INFINITY, -1.5, 0.1};
    for (int kind = 0; kind < 2; kind++)
        for (uint64_t level = 0; level <= 2; level++) {
            icotable_slab s = slab_of(kind, level, kind ? 0 : 11);
            size_t count = icotable_slab_count(&s);
            for (size_t i = 0; i < count; i++)
                energies[i] = odd[i % 8] + (double)(i / 8);
            check(icotable_slab_write(&s, folder, energies, count) == 0, "write", s.said);
            memset(back, 1, sizeof back);
            check(icotable_slab_read(&s, folder, back, count) == 0 && memcmp(back, energies, count * sizeof *back) == 0, "read", s.said);
            size_t length = load(&s);
            check(length == front() + 8 * count + 4, "length", s.said);
            memcpy(output, file, length);
            check(icotable_slab_write(&s, folder, energies, count) == 0 && load(&s) == length && memcmp(output, file, length) == 0, "written twice", s.said);
        }
}

/* No bit of a file is free, and no length but its own. */
static void damages(void) {
    icotable_slab s = slab_of(1, 0, 0);
    char longer[40];
    size_t count = icotable_slab_count(&s), length = load(&s);
    for (size_t bit = 0; bit < 8 * length; bit++) {
        file[bit / 8] ^= (uint8_t)(1 << bit % 8);
        save(&s, length);
        uint64_t number = icotable_slab_read(&s, folder, back, count);
        uint64_t wanted = bit / 8 < 8 ? ICOTABLE_SLAB_NOT_A_SLAB : bit / 8 < 12 ? ICOTABLE_SLAB_OTHER_VERSION : ICOTABLE_SLAB_DAMAGED;
        check(number == wanted, "a bit that is another", s.said);
        file[bit / 8] ^= (uint8_t)(1 << bit % 8);
    }
    for (size_t cut = 0; cut < length; cut++) {
        save(&s, cut);
        uint64_t number = icotable_slab_read(&s, folder, back, count);
        check(number == (cut < 60 ? ICOTABLE_SLAB_NOT_A_SLAB : ICOTABLE_SLAB_DAMAGED), "a file that is cut", s.said);
    }
    file[length] = 0;
    save(&s, length + 1);
    snprintf(longer, sizeof longer, "%zu bytes long", length + 1);
    refused_with(&s, icotable_slab_read(&s, folder, back, count), ICOTABLE_SLAB_DAMAGED, longer, "a file that is longer");
    save(&s, length);
    check(icotable_slab_read(&s, folder, back, count) == 0, "the file as it was", s.said);
}

/* A whole file under a name that is not its own, or asked for by another build. */
static void others(void) {
    icotable_slab s = slab_of(0, 0, 11), t = s;
    size_t count = icotable_slab_count(&s), length = load(&s);
    t.build = 8;
    refused_with(&t, icotable_slab_read(&t, folder, back, count), ICOTABLE_SLAB_OTHER_BUILD, "hash 0000000000000007, not 0000000000000008", "another build");
    t = s, t.oi = 10;
    save(&t, length);
    refused_with(&t, icotable_slab_read(&t, folder, back, count), ICOTABLE_SLAB_OTHER_BINS, "slab (3, 11)", "other bins");
    t = s, t.level = 1;
    save(&t, length);
    refused_with(&t, icotable_slab_read(&t, folder, back, icotable_slab_count(&t)), ICOTABLE_SLAB_OTHER_LEVEL, "level 0", "another level");
    t = s, t.atom = 1;
    refused_with(&t, icotable_slab_read(&t, folder, back, 12), ICOTABLE_SLAB_OTHER_BUILD, "it is of two molecules", "the other kind");
}

/* A whole file of another build with the same settings: both are named. */
static void identities(const char *label) {
    icotable_slab s = slab_of(0, 0, 11), t = s;
    size_t count = icotable_slab_count(&s);
    char wanted[80];
    snprintf(wanted, sizeof wanted, "'%.40s', id ", whose.label);
    t.identity.id[15] ^= 1;
    refused_with(&t, icotable_slab_read(&t, folder, back, count), ICOTABLE_SLAB_OTHER_IDENTITY, wanted, "another id");
    t = s;
    strcpy(t.identity.label, label);
    refused_with(&t, icotable_slab_read(&t, folder, back, count), ICOTABLE_SLAB_OTHER_IDENTITY, wanted, "another label");
    snprintf(wanted, sizeof wanted, "this build is '%.40s', id ", label);
    check(strstr(t.said, wanted) != NULL, wanted, t.said);
    t = (icotable_slab){.identity = {.id = {9}}};
    check(icotable_slab_look(&t, path(&s)) == 0 && t.build == 7 && t.ri == 3 && t.oi == 11 && t.level == 0, "a look", t.said);
    check(memcmp(t.identity.id, whose.id, 16) == 0 && strcmp(t.identity.label, whose.label) == 0, "a look at whose it is", t.said);
}

static void mistakes(void) {
    icotable_slab s = slab_of(0, 0, 11);
    char none[4096];
    size_t before = load(&s);
    memcpy(output, file, before);
    snprintf(none, sizeof none, "%s/none", folder);
    refused_with(&s, icotable_slab_write(&s, folder, energies, 143), ICOTABLE_SLAB_OTHER_COUNT, "143 energies, where level 0 has 144", "too few energies");
    refused_with(&s, icotable_slab_read(&s, folder, back, 145), ICOTABLE_SLAB_OTHER_COUNT, "145 energies", "too long a list");
    energies[17] = NAN;
    refused_with(&s, icotable_slab_write(&s, folder, energies, 144), ICOTABLE_NAN_ENERGY, "energy 17", "a NaN");
    energies[17] = 0;
    check(load(&s) == before && memcmp(file, output, before) == 0, "a refused write alters the file", s.said);
    refused_with(&s, icotable_slab_write(&s, none, energies, 144), ICOTABLE_SLAB_TROUBLE, "No such file", "no folder to write to");
    s.ri = 4;
    refused_with(&s, icotable_slab_read(&s, folder, back, 144), ICOTABLE_SLAB_ABSENT, "slab-4-11-0.icoslab", "no file");
    check(mkdir(path(&s), 0777) == 0, "mkdir", s.said);
    refused_with(&s, icotable_slab_read(&s, folder, back, 144), ICOTABLE_SLAB_NOT_A_SLAB, "no file of bytes", "a folder");
    refused_with(&s, icotable_slab_write(&s, folder, energies, 144), ICOTABLE_SLAB_TROUBLE, "directory", "a folder in its place");
    rmdir(path(&s));
    s.level = 16;
    refused_with(&s, icotable_slab_write(&s, folder, energies, 144), ICOTABLE_SLAB_OTHER_LEVEL, "level 16", "no such level");
}

/* A disk that takes no more: the file that is there stays, and nothing is left beside it. */
static void full_disk(void) {
    icotable_slab s = slab_of(0, 0, 11);
    size_t before = load(&s);
    struct rlimit all, few;
    char command[4200];
    memcpy(output, file, before);
    getrlimit(RLIMIT_FSIZE, &all);
    signal(SIGXFSZ, SIG_IGN);
    for (rlim_t most = 0; most < before; most += 97) {
        few = (struct rlimit){most, all.rlim_max};
        setrlimit(RLIMIT_FSIZE, &few);
        uint64_t number = icotable_slab_write(&s, folder, energies, 144);
        setrlimit(RLIMIT_FSIZE, &all);
        refused_with(&s, number, ICOTABLE_SLAB_TROUBLE, "File too large", "a full disk");
        check(load(&s) == before && memcmp(file, output, before) == 0, "a full disk alters the file", s.said);
    }
    snprintf(command, sizeof command, "! ls '%s' | grep -q tmp", folder);
    check(system(command) == 0, "a file is left beside it", "");
}

static void all(void) {
    round_trips();
    damages();
    others();
    identities("two of water");
    mistakes();
    full_disk();
}

/* ---- tables */

static int wrote(const char *name, icotable_written w) {
    FILE *f = w.number == 0 ? fopen(name, "wb") : NULL;
    if (f == NULL || fwrite(output, 1, w.length, f) != w.length || fclose(f) != 0)
        return 1;
    printf("slab: %llu bytes\n", (unsigned long long)w.length);
    return 0;
}

static int serial_pair(const icotable_meshes *m, const char *name) {
    static uint64_t words[PAIR_SLABS];
    static pose turned[2 * 92];
    icotable_built b = icotable_fresh(pair, PAIR_TOP, store, PAIR_SLABS * MOST, words, PAIR_SLABS, ICOTABLE_MESHES(m));
    for (uint64_t ri = 0; b.number == 0 && ri < b.builder.grid.n_r; ri++) {
        for (uint64_t oi = 0; b.number == 0 && oi < b.builder.grid.n_omega; oi++) {
            uint64_t level = b.builder.level, n = icotable_vertices(level);
            pair_slab(energies, turned, icotable_level_vertices(m, level), n, pair.rmin + (double)ri * pair.dr, (double)oi * pair.omega_step);
            b = icotable_set(b.builder, store, PAIR_SLABS * MOST, words, PAIR_SLABS, ri, oi, energies, n * n);
        }
        icotable_settled s = icotable_settle(b.builder, store, PAIR_SLABS * MOST, words, PAIR_SLABS, ICOTABLE_MESHES(m), ri);
        b = (icotable_built){.number = b.number ? b.number : s.number, .builder = s.builder};
    }
    return b.number != 0 || wrote(name, icotable_write(b.builder, store, PAIR_SLABS * MOST, words, PAIR_SLABS, ICOTABLE_MESHES(m), output, ROOM));
}

#define ATOM_LISTS store, ATOM_SLABS * 162, kinds, ATOM_SLABS, levels, ATOM_SLABS, values, ATOM_SLABS
static int serial_atom(const icotable_meshes *m, const char *name) {
    static uint8_t kinds[ATOM_SLABS], levels[ATOM_SLABS];
    static uint32_t values[ATOM_SLABS];
    icotable_atom_built b = icotable_atom_fresh(atom, ATOM_TOP, ATOM_LISTS, ICOTABLE_MESHES(m));
    for (uint64_t ri = 0; b.number == 0 && ri < b.builder.grid.n_r; ri++) {
        uint64_t level = b.builder.level, n = icotable_vertices(level);
        ion_slab(energies, icotable_level_vertices(m, level), n, atom.rmin + (double)ri * atom.dr);
        b = icotable_atom_set(b.builder, ATOM_LISTS, ri, energies, n);
        icotable_atom_settled s = icotable_atom_settle(b.builder, ATOM_LISTS, ICOTABLE_MESHES(m), ri);
        b = (icotable_atom_built){.number = b.number ? b.number : s.number, .builder = s.builder};
    }
    return b.number != 0 || wrote(name, icotable_atom_write(b.builder, ATOM_LISTS, ICOTABLE_MESHES(m), output, ROOM));
}

int main(int count, char **words) {
    if (count == 4 && strcmp(words[1], "serial") == 0) {
        icotable_meshes m;
        int kind = strcmp(words[2], "atom") == 0;
        if (icotable_make_meshes(&m, kind ? ATOM_TOP : PAIR_TOP) != 0)
            return 2;
        int status = kind ? serial_atom(&m, words[3]) : serial_pair(&m, words[3]);
        icotable_free_meshes(&m);
        return status;
    }
    if (count != 2) {
        fprintf(stderr, "usage: slab FOLDER, or slab serial pair|atom FILE\n");
        return 2;
    }
    folder = words[1];
    all();
    memcpy(whose.id, "a build of tests", sizeof whose.id);
    all();
    strcpy(whose.label, "water and ethanol, ångström");
    all();
    printf("slab: %llu checks, %llu wrong\n", (unsigned long long)checks, (unsigned long long)wrong);
    return wrong != 0;
}
