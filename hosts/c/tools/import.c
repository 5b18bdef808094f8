/* import SAVE OUT: a save of the Rust's icotable as a table file, the meshes that its energies follow as OUT.mesh, since they are not
 * the library's own, and a seal, which says so; with an audit of its rows. Each is written under another name and gets its own once it is
 * whole; a file that is there already is never replaced, and SAVE is never written to. */
#include "import.h"
#include "handles.h"
#include "tools.h"

#include <errno.h>
#include <math.h>
#include <stdlib.h>
#include <string.h>
#include <sys/stat.h>
#include <unistd.h>

/* A number with its digits by threes. */
static const char *by_threes(uint64_t n, char text[32]) {
    char digits[24];
    int count = snprintf(digits, sizeof digits, "%llu", (ull)n), at = 0;
    for (int k = 0; k < count; k++) {
        if (k > 0 && (count - k) % 3 == 0)
            text[at++] = ',';
        text[at++] = digits[k];
    }
    text[at] = 0;
    return text;
}

/* ---- the audit in words */

/* The Rust leaves more energies than its rows account for where a slice is settled again after its level has gone: rows got a
 * lower level, and their offsets were counted by it. */
static void print_longer(const imported *made) {
    const save_audit *a = &made->audit;
    char longer[32];
    if (made->energies <= a->accounted)
        return;
    printf("audit: the packed energies run %s longer than the entries account for\n", by_threes(made->energies - a->accounted, longer));
    if (a->tiled)
        puts("audit: the rows follow each other from the first energy on, as a build lays them, and energies are left: so it is where\n"
             "audit: a slice was settled again after its level had gone. Rows then read energies that were set for other slabs or\n"
             "audit: vertices. The table reads as the Rust reads the save: keep the save, and build the table anew");
}

static void print_audit(const imported *made) {
    const save_audit *a = &made->audit;
    char unread[32];
    print_longer(made);
    if (a->unread > 0)
        printf("audit: %s energies belong to no row and are left out%s\n", by_threes(a->unread, unread), a->unread_nans > 0 ? "; some are NaNs" : "");
    if (a->sharing > 0)
        printf("audit: %llu rows point into another's energies, the first of them row %llu, into those of row %llu; each now has its own\n",
               (ull)a->sharing, (ull)a->first, (ull)a->second);
    if (made->moved > 0)
        printf("audit: %llu rows have another offset now\n", (ull)made->moved);
    if (a->nans > 0)
        printf("audit: %llu Scalar rows have a NaN, now the one that a table holds, 7FC00000\n", (ull)a->nans);
    if (a->unread + a->sharing + made->moved == 0)
        puts("audit: every energy belongs to one row, and the rows follow each other");
}

/* ---- what a table file does not hold */

static void print_two(const char *name, const double two[2]) {
    printf("not in the table: %s %.17g and %.17g\n", name, two[0], two[1]);
}

static void print_metadata(const imported *made) {
    const save_metadata *m = &made->metadata;
    if (m->terms > 0)
        printf("%s: %llu tail terms and their prefactor %.17g%s\n", made->atom ? "not in the table" : "in the table", (ull)m->terms, m->prefactor,
               made->atom ? ", for which a table against an atom has no section" : "");
    if (m->terms == 0 && m->has_prefactor)
        printf("not in the table: the prefactor %.17g, there being no tail terms\n", m->prefactor);
    if (m->has_charges)
        print_two("the charges", m->charges);
    if (m->has_dipoles)
        print_two("the dipole moments", m->dipoles);
    if (m->has_temperature)
        printf("not in the table: the temperature %.17g\n", m->temperature);
    if (m->point_group == 1)
        puts("not in the table: the point group Exchange");
}

/* ---- files */

/* What is known of the build: the table's own grid. Threshold and beta are not in a save. */
static icotable_build_settings settings_of(const imported *made) {
    icotable_build_settings s = {.atom = made->atom, .top = made->levels - 1, .lent = &made->meshes};
    if (made->atom) {
        icotable_atom_grid g = icotable_atom_read(made->table, made->length).grid;
        s.grid = (icotable_grid){.rmin = g.rmin, .rmax = g.rmax, .dr = g.dr};
    } else {
        s.grid = icotable_read(made->table, made->length).grid;
    }
    s.grid.threshold = s.grid.beta = NAN;
    return s;
}

/* Mesh file, table, seal. The mesh file goes again only where no table has the name: a table without it would be read with others. */
static int write_all(const imported *made, const char *in, const char *out, const char *mesh) {
    icotable_fault fault;
    struct stat what;
    icotable_build_settings s = settings_of(made);
    int status = free_name(in, mesh);
    if (status != GOOD)
        return status;
    if (icotable_save_(&s, NULL, made->table, made->length, out, false, &fault) == 0)
        return GOOD;
    if (lstat(out, &what) != 0 && errno == ENOENT)
        unlink(mesh);
    else
        fprintf(stderr, "icotable: %s has its name, and so %s stays\n", out, mesh);
    return trouble(out, fault.said);
}

static void print_done(const imported *made, const char *in, const char *out, const char *mesh) {
    printf("%s: %s, %llu rows, %llu energies, from %s, a save of the Rust's %s%s\n", out, table_words(made->atom), (ull)made->rows,
           (ull)made->audit.accounted, in, made->atom ? "Table3DAdaptive" : "Table6DAdaptive", made->gzip ? ", gzip" : "");
    printf("%s: the save's own meshes, levels 0 to %llu: the table is read with these and no others, and its seal %s.meta says so\n", mesh,
           (ull)made->levels - 1, out);
}

static int refused(const uint8_t *bytes, size_t count, const char *in, const icotable_fault *fault) {
    printf("%s: refused with %llu: %s\n", in, (ull)fault->number, fault->said);
    if (icotable_read(bytes, count).number == 0 || icotable_atom_read(bytes, count).number == 0)
        printf("%s: it is a table file of this library already\n", in);
    return FOUND;
}

static int import_to(const uint8_t *bytes, size_t count, const char *in, const char *out) {
    imported made;
    icotable_fault fault;
    char *mesh = icotable_beside_(out, ".mesh");
    int status = mesh == NULL ? trouble(out, "does not fit into memory") : GOOD;
    uint64_t number = import_bytes(bytes, count, &made, &fault);
    if (status == GOOD && number != 0)
        status = refused(bytes, count, in, &fault);
    if (status == GOOD)
        status = write_all(&made, in, out, mesh);
    if (status == GOOD) {
        print_done(&made, in, out, mesh);
        print_audit(&made);
        print_metadata(&made);
    }
    import_free(&made);
    free(mesh);
    return status;
}

int import_tool(int count, char **names) {
    (void)count;
    table_file f;
    int status = free_name(names[0], names[1]);
    if (status != GOOD)
        return status;
    status = read_named(&f, names[0]);
    if (status == GOOD)
        status = import_to(f.bytes, f.count, f.name, names[1]);
    close_table(&f);
    return status;
}
