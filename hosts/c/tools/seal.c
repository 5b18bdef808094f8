/* What verify and diff say of seals: FILE.meta beside a table FILE. A table without one is as good as before. */
#include "tools.h"

#include "icotable_handles.h"
#include "support.h"

#include <math.h>
#include <stdlib.h>
#include <string.h>
#include <sys/stat.h>

typedef unsigned long long ull;

/* A table's seal: 0, ICOTABLE_SEAL_ABSENT, or what refuses it or says that it is another table's. */
static uint64_t read_seal(const table_file *f, icotable_seal *s, icotable_fault *fault) {
    if (f->input)
        return ICOTABLE_SEAL_ABSENT;
    uint64_t number = icotable_seal_read(s, f->name, fault);
    return number != 0 ? number : icotable_seal_check(s, f->bytes, f->count, fault);
}

/* In as few digits as come back to the same bits. */
static void show_number(char letters[32], double x) {
    if (isnan(x)) {
        strcpy(letters, "unknown");
        return;
    }
    for (int digits = 6; digits <= 17; digits++) {
        snprintf(letters, 32, "%.*g", digits, x);
        double again = strtod(letters, NULL);
        if (memcmp(&again, &x, sizeof x) == 0)
            return;
    }
}

/* ---- verify */

static bool same_bits(double x, double y) {
    return memcmp(&x, &y, sizeof x) == 0;
}

/* Whether the seal's settings are those that the table itself has. */
static bool fits(const table_file *f, const icotable_seal *s) {
    const icotable_grid *g = &f->table.grid, *h = &s->grid;
    return f->atom == (s->atom != 0) && same_bits(g->rmin, h->rmin) && same_bits(g->dr, h->dr) && same_bits(g->omega_step, h->omega_step) &&
           g->n_r == h->n_r && g->n_omega == h->n_omega && f->table.levels == s->levels;
}

/* The verdict on a seal, and lines on it: the table's name goes before each. */
typedef struct verdict {
    int status;
    bool there, read, lax; /* lax: the guard was off, a slab or a slice is missing, or nobody knows */
    icotable_seal seal;
    char said[500], meshes[500], build[200];
} verdict;

/* The mesh file beside a table whose meshes are not the library's own. */
static int check_meshes(const table_file *f, verdict *v) {
    icotable_meshes m;
    icotable_fault fault;
    char *path = icotable_beside_(f->name, ".mesh");
    if (path == NULL)
        return trouble(f->name, "does not fit into memory");
    uint64_t number = icotable_meshes_load(&m, path, &fault), hash = icotable_meshes_hash(&m, v->seal.levels), sealed = v->seal.meshes_hash;
    if (number != 0)
        snprintf(v->meshes, sizeof v->meshes, "its meshes are refused with %llu: %s", (ull)number, fault.said);
    else if (hash != sealed)
        snprintf(v->meshes, sizeof v->meshes, "the meshes of %s have the hash %016llX, and %016llX was sealed", path, (ull)hash, (ull)sealed);
    else
        snprintf(v->meshes, sizeof v->meshes, "its meshes are those of %s", path);
    icotable_free_meshes(&m);
    free(path);
    if (number == ICOTABLE_MESH_FILE_TROUBLE || number == ICOTABLE_MESH_FILE_NO_ROOM)
        return TROUBLE;
    return number == 0 && hash == sealed ? GOOD : FOUND;
}

static void say_sealed(verdict *v) {
    const icotable_seal *s = &v->seal;
    char threshold[32], beta[32];
    show_number(threshold, s->grid.threshold);
    show_number(beta, s->grid.beta);
    snprintf(v->said, sizeof v->said, "sealed: version %s, threshold %s, beta %s, %s meshes, %s", s->version, threshold, beta,
             s->own_meshes ? "the library's own" : "other", s->journaled ? "with a journal" : "without a journal");
    if (s->whole == ICOTABLE_NO)
        snprintf(v->build, sizeof v->build, "not every slab was set, or not every slice settled: an unset slab reads as 0.0");
    else if (s->whole == ICOTABLE_UNKNOWN)
        snprintf(v->build, sizeof v->build, "its seal does not say whether every slab was set and every slice settled");
    else if (s->guarded != ICOTABLE_YES)
        snprintf(v->build, sizeof v->build, "every slab was set and every slice settled, without the guard");
    v->lax = s->whole != ICOTABLE_YES || s->guarded != ICOTABLE_YES;
}

/* What the reader would refuse: a mesh file beside a table that has no seal. */
static void judge_unsealed(const table_file *f, verdict *v) {
    struct stat what;
    char *path = f->input ? NULL : icotable_beside_(f->name, ".mesh");
    v->lax = true;
    snprintf(v->build, sizeof v->build, "there is no seal: nothing says whether every slab was set and every slice settled");
    if (path != NULL && stat(path, &what) == 0) {
        v->there = true;
        v->status = FOUND;
        snprintf(v->said, sizeof v->said, "refused with %d: %s", ICOTABLE_HANDLE_NO_SEAL, icotable_handle_words(ICOTABLE_HANDLE_NO_SEAL));
    }
    free(path);
}

static void judge(const table_file *f, verdict *v) {
    icotable_fault fault;
    uint64_t number = read_seal(f, &v->seal, &fault);
    icotable_seal seal = v->seal;
    *v = (verdict){.seal = seal, .there = number != ICOTABLE_SEAL_ABSENT, .read = number == 0};
    if (!v->there) {
        judge_unsealed(f, v);
        return;
    }
    if (number != 0) {
        snprintf(v->said, sizeof v->said, "its seal: refused with %llu: %s", (ull)number, fault.said);
        v->status = number == ICOTABLE_SEAL_TROUBLE ? TROUBLE : FOUND;
        return;
    }
    say_sealed(v);
    if (f->table.number == 0 && !fits(f, &v->seal)) {
        snprintf(v->meshes, sizeof v->meshes, "its seal has other settings than the table");
        v->status = FOUND;
    } else if (!v->seal.own_meshes) {
        v->status = check_meshes(f, v);
    }
}

static void json_known(const char *key, enum icotable_known known) {
    if (known == ICOTABLE_UNKNOWN)
        json_null(key);
    else
        json_flag(key, known == ICOTABLE_YES);
}

static void json_seal(const verdict *v) {
    json_open("seal", '{');
    json_flag("accepted", v->status == GOOD);
    json_text("words", v->meshes[0] != 0 && v->status != GOOD ? v->meshes : v->said);
    if (v->read) {
        json_text("version", v->seal.version);
        json_double("threshold", v->seal.grid.threshold);
        json_double("beta", v->seal.grid.beta);
        json_flag("own_meshes", v->seal.own_meshes);
        json_flag("journaled", v->seal.journaled);
        json_known("guarded", v->seal.guarded);
        json_known("whole", v->seal.whole);
        json_identity(&v->seal.identity);
    }
    json_close('}');
}

/* A table without a seal is as good as before, unless verify is strict. */
int verify_seal(const table_file *f, bool json, bool strict) {
    static verdict v;
    judge(f, &v);
    int status = strict && v.lax && v.status == GOOD ? FOUND : v.status;
    if (json && v.there)
        json_seal(&v);
    if (json)
        return status;
    if (v.there)
        printf("%s: %s\n", f->name, v.said);
    if (v.read && v.seal.identity.label[0] != 0)
        printf("%s: label %s\n", f->name, v.seal.identity.label);
    if (v.meshes[0] != 0)
        printf("%s: %s\n", f->name, v.meshes);
    if (v.build[0] != 0 && (v.read || strict))
        printf("%s: %s\n", f->name, v.build);
    return status;
}

/* ---- inspect */

static void print_build(const icotable_seal *s) {
    char threshold[32], beta[32];
    show_number(threshold, s->grid.threshold);
    show_number(beta, s->grid.beta);
    printf("sealed      version %s, threshold %s, beta %s, top level %llu, %s meshes\n", s->version, threshold, beta, (ull)s->top,
           s->own_meshes ? "the library's own" : "other");
    printf("label       %s\n", s->identity.label[0] == 0 ? "none" : s->identity.label);
    printf("id          %s\n", has_id(&s->identity) ? id_digits(s->identity.id) : "none");
    printf("guard       %s\n", s->guarded == ICOTABLE_YES ? "on" : s->guarded == ICOTABLE_NO ? "off" : "unknown");
    printf("whole       %s\n", s->whole == ICOTABLE_YES  ? "yes: every slab was set and every slice settled"
                               : s->whole == ICOTABLE_NO ? "no: a slab was not set, which reads as 0.0, or a slice not settled"
                                                         : "unknown");
}

void show_seal(const table_file *f, bool json) {
    verdict v = {0};
    icotable_fault fault;
    if (read_seal(f, &v.seal, &fault) != 0)
        return;
    v.read = true;
    say_sealed(&v);
    if (json)
        json_seal(&v);
    else
        print_build(&v.seal);
}

/* ---- diff */

static void number_differs(const char *name, double x, double y, bool json) {
    char one[32], other[32];
    if (same_bits(x, y))
        return;
    if (json) {
        json_open(name, '[');
        json_double(NULL, x);
        json_double(NULL, y);
        json_close(']');
        return;
    }
    show_number(one, x);
    show_number(other, y);
    printf(", %s %s against %s", name, one, other);
}

static void tops_differ(uint64_t x, uint64_t y, bool json) {
    if (x == y)
        return;
    if (!json) {
        printf(", top level %llu against %llu", (ull)x, (ull)y);
        return;
    }
    json_open("top", '[');
    json_count(NULL, x);
    json_count(NULL, y);
    json_close(']');
}

static void versions_differ(const char *x, const char *y, bool json) {
    if (strcmp(x, y) == 0)
        return;
    if (!json) {
        printf(", version %s against %s", x, y);
        return;
    }
    json_open("version", '[');
    json_text(NULL, x);
    json_text(NULL, y);
    json_close(']');
}

static void settings_differ(const icotable_seal *s, const icotable_seal *t, bool json) {
    const icotable_grid *g = &s->grid, *h = &t->grid;
    number_differs("rmin", g->rmin, h->rmin, json);
    number_differs("rmax", g->rmax, h->rmax, json);
    number_differs("dr", g->dr, h->dr, json);
    number_differs("omega_step", g->omega_step, h->omega_step, json);
    number_differs("threshold", g->threshold, h->threshold, json);
    number_differs("beta", g->beta, h->beta, json);
    tops_differ(s->top, t->top, json);
    if (s->levels == t->levels && s->meshes_hash != t->meshes_hash) {
        if (json)
            json_flag("other_meshes", true);
        else
            fputs(", other meshes", stdout);
    }
    versions_differ(s->version, t->version, json);
}

bool sealed_alike(const table_file *f, const table_file *g) {
    icotable_seal s, t;
    icotable_fault fault;
    if (read_seal(f, &s, &fault) != 0 || read_seal(g, &t, &fault) != 0)
        return false;
    return same_bits(s.grid.rmax, t.grid.rmax) && same_bits(s.grid.threshold, t.grid.threshold) && same_bits(s.grid.beta, t.grid.beta) &&
           s.top == t.top;
}

/* Slabs whose rows hold energies of one level in both tables, and those of them that hold the same. */
typedef struct shared {
    uint64_t both, same;
} shared;

static shared share(const table_file *f, const table_file *g) {
    shared n = {0, 0};
    for (uint64_t slab = 0; slab < f->table.rows; slab++) {
        row r = row_of(f, slab), s = row_of(g, slab);
        if (r.kind < NEAREST || s.kind < NEAREST || r.level != s.level)
            continue;
        n.both++;
        n.same += same_energies(f, g, &r, &s);
    }
    return n;
}

/* What two tables show of the energies that they were built from. A journal has all of them. A table has those of its Mesh
 * rows, narrowed, and they belong to one another where slab, level and mesh are the same: of no other slab is anything said. */
static void say_samples(char *said, size_t room, const table_file *f, const table_file *g, const icotable_seal *s, const icotable_seal *t) {
    if (s->journaled && t->journaled && strcmp(s->journal_sha256, t->journal_sha256) == 0) {
        snprintf(said, room, "samples equal: the journals are the same");
        return;
    }
    bool comparable = same_slabs(f, g) && same_bits(s->grid.rmin, t->grid.rmin) && same_bits(s->grid.dr, t->grid.dr) &&
                      same_bits(s->grid.omega_step, t->grid.omega_step) && s->levels == t->levels && s->meshes_hash == t->meshes_hash;
    shared n = comparable ? share(f, g) : (shared){0, 0};
    if (!comparable || n.both == 0)
        snprintf(said, room, "samples not compared: %s", comparable ? "no slab holds energies of one level in both" : "grids or meshes are others");
    else if (n.same == f->table.rows)
        snprintf(said, room, "samples equal in all %llu slabs", (ull)n.same);
    else if (n.same == n.both)
        snprintf(said, room, "samples equal in the %llu of %llu slabs that hold them in both", (ull)n.both, (ull)f->table.rows);
    else
        snprintf(said, room, "samples differ in %llu of the %llu slabs that hold them in both", (ull)(n.both - n.same), (ull)n.both);
}

/* A seal that cannot be used is named; one that is not there where the other table has one, too. */
static void say_unusable(const table_file *f, uint64_t number, const icotable_fault *fault, bool json) {
    char said[600] = "";
    if (number == ICOTABLE_SEAL_ABSENT)
        snprintf(said, sizeof said, "%s has none, and settings like the threshold are not compared", f->name);
    else if (number != 0)
        snprintf(said, sizeof said, "that of %s is not used: refused with %llu: %s", f->name, (ull)number, fault->said);
    if (said[0] != 0 && json)
        json_text(NULL, said);
    else if (said[0] != 0)
        printf("seals: %s\n", said);
}

static void json_seals(const char *samples, const icotable_seal *s, const icotable_seal *t) {
    json_open("seals", '{');
    json_text("samples", samples);
    json_open("settings", '{');
    settings_differ(s, t, true);
    json_close('}');
    json_close('}');
}

static void compare_seals(const table_file *f, const table_file *g, const icotable_seal *s, const icotable_seal *t, bool json) {
    char samples[120];
    say_samples(samples, sizeof samples, f, g, s, t);
    if (json) {
        json_seals(samples, s, t);
        return;
    }
    printf("seals: %s", samples);
    settings_differ(s, t, false);
    putchar('\n');
}

void diff_seals(const table_file *f, const table_file *g, bool json) {
    icotable_seal s, t;
    icotable_fault one, other;
    uint64_t first = read_seal(f, &s, &one), second = read_seal(g, &t, &other);
    if (first == ICOTABLE_SEAL_ABSENT && second == ICOTABLE_SEAL_ABSENT)
        return;
    if (first == 0 && second == 0) {
        compare_seals(f, g, &s, &t, json);
        return;
    }
    if (json) {
        json_open("seals", '{');
        json_open("not_used", '[');
    }
    say_unusable(f, first, &one, json);
    say_unusable(g, second, &other, json);
    if (json) {
        json_close(']');
        json_close('}');
    }
}
