/* Seals of tables (hosts/c/icotable_seal.h): seals SEED FOLDER. Seals that are drawn, written and read; one with every bit altered,
 * cut at every byte, or with lines that are others under a checksum that is right; tables that are not the sealed one. The status
 * is 1 where something is not as it should be.
 * seals build TABLE KIND THRESHOLD TOP HEIGHT [mirror] builds a small table with a journal and seals it, for the tools; over other
 * meshes, and with a mesh file, where it is to mirror them. */
#include "files.h"

#include "icotable_journal.h"
#include "icotable_mesh_file.h"
#include "icotable_seal.h"

#include <locale.h>
#include <math.h>
#include <signal.h>
#include <sys/resource.h>
#include <unistd.h>

static uint64_t state;

/* splitmix64 */
static uint64_t drawn(void) {
    uint64_t z = state += 0x9E3779B97F4A7C15;
    z = (z ^ z >> 30) * 0xBF58476D1CE4E5B9;
    z = (z ^ z >> 27) * 0x94D049BB133111EB;
    return z ^ z >> 31;
}

/* Any finite double: of all bits, small, and those of a hand. */
static double any_number(void) {
    static const double few[] = {0, -0.0, 0.1, 0.4, 0.5, 1, 1e300, 5e-324};
    uint64_t bits = drawn();
    double x;
    memcpy(&x, &bits, sizeof x);
    return bits % 5 == 0 ? few[drawn() % (sizeof few / sizeof few[0])] : isfinite(x) ? x : 1.0 / 3;
}

static void any_digits(char digits[65]) {
    for (int i = 0; i < 64; i++)
        digits[i] = "0123456789abcdef"[drawn() % 16];
    digits[64] = 0;
}

/* What version 1 does not have. */
static void any_build(icotable_seal *s) {
    static const char *const labels[] = {"", "water and ethanol", "ångström, κ=0.1", "none", " a b  c ", "1"};
    s->guarded = (enum icotable_known)(drawn() % 3);
    s->whole = (enum icotable_known)(drawn() % 3);
    if (drawn() % 4 == 0)
        s->grid.threshold = s->grid.beta = NAN;
    strcpy(s->identity.label, labels[drawn() % 6]);
    for (int i = 0; i < 16; i++)
        s->identity.id[i] = (uint8_t)drawn();
    if (drawn() % 8 == 0)
        memset(s->identity.label, 'x', ICOTABLE_LABEL);
}

static icotable_seal any_seal(void) {
    icotable_seal s = {.table_length = drawn() >> drawn() % 64, .atom = drawn() % 2, .top = drawn() % 16, .meshes_hash = drawn() >> drawn() % 64,
                       .own_meshes = drawn() % 2, .version = "0.20.0", .journaled = drawn() % 2};
    s.grid = (icotable_grid){any_number(), any_number(), any_number(), any_number(), any_number(), any_number(), drawn() % 65536, drawn() % 65536};
    s.levels = s.top + 1;
    if (s.atom)
        s.grid.omega_step = 0, s.grid.n_omega = 1;
    any_digits(s.sha256);
    if (s.journaled)
        any_digits(s.journal_sha256);
    s.format = 1 + drawn() % 2;
    if (s.format == 2)
        any_build(&s);
    return s;
}

static bool same_seal(const icotable_seal *s, const icotable_seal *t) {
    return strcmp(s->sha256, t->sha256) == 0 && s->table_length == t->table_length && s->atom == t->atom && memcmp(&s->grid, &t->grid, sizeof s->grid) == 0 &&
           s->top == t->top && s->levels == t->levels && s->meshes_hash == t->meshes_hash && s->own_meshes == t->own_meshes &&
           strcmp(s->version, t->version) == 0 && s->journaled == t->journaled && strcmp(s->journal_sha256, t->journal_sha256) == 0 &&
           s->format == t->format && s->guarded == t->guarded && s->whole == t->whole &&
           memcmp(s->identity.id, t->identity.id, sizeof s->identity.id) == 0 && strcmp(s->identity.label, t->identity.label) == 0;
}

static void round_trips(int times) {
    icotable_seal s, t;
    for (int i = 0; i < times; i++) {
        s = any_seal();
        check(icotable_seal_write(&s, path("round"), &fault) == 0 && strcmp(fault.said, "accepted") == 0, "a seal is not written", fault.said);
        check(icotable_seal_read(&t, path("round"), &fault) == 0 && fault.number == 0, "a seal is not read", fault.said);
        check(same_seal(&s, &t), "another seal is read than was written", "");
    }
    check(icotable_seal_write(&s, path("round"), NULL) == 0 && icotable_seal_read(&t, path("round"), NULL) == 0, "without a fault to fill", "");
}

/* ---- damage */

static icotable_seal sealed; /* what the good file says */

static bool read_refuses(const char *name) {
    char table[1100];
    icotable_seal s, none = {0};
    snprintf(table, sizeof table, "%.*s", (int)strlen(name) - 5, name);
    uint64_t number = icotable_seal_read(&s, table, &fault);
    bool said = number == fault.number && (number == 0 || strlen(fault.said) > 20);
    check(said && same_seal(&s, number == 0 ? &sealed : &none), "an altered seal is read as another one", fault.said);
    return number >= 251 && number <= 259;
}

/* The good file with other letters in the place of some, under a right checksum. */
static void altered(const char *good, const char *from, const char *to, uint64_t number, const char *place) {
    char text[4000];
    icotable_seal s;
    const char *at = strstr(good, from);
    if (at == NULL) {
        check(false, "the seal does not have", from);
        return;
    }
    int length = snprintf(text, sizeof text, "%.*s%s%s", (int)(at - good), good, to, at + strlen(from));
    char *last = strstr(text, "checksum ");
    if (last != NULL)
        length = (int)(last - text) + sprintf(last, "checksum %08X\n", (unsigned)icotable_crc32_(0, text, (size_t)(last - text)));
    put_file(path("altered.meta"), text, (size_t)length);
    refused(number, icotable_seal_read(&s, path("altered"), &fault), place);
}

static void damages(void) {
    size_t count;
    sealed = (icotable_seal){.table_length = 70, .grid = {1, 25, 0.75, 0.5, 0.4, 1, 32, 12}, .top = 3, .levels = 4, .own_meshes = 1, .version = "0.20.0"};
    sealed.meshes_hash = 255;
    sealed.format = 2, sealed.guarded = ICOTABLE_YES, sealed.whole = ICOTABLE_NO;
    memset(sealed.identity.id, 0x61, sizeof sealed.identity.id);
    strcpy(sealed.identity.label, "water");
    memset(sealed.sha256, 'a', 64);
    check(icotable_seal_write(&sealed, path("good"), &fault) == 0, "a seal is not written", fault.said);
    char *good = (char *)get_file(path("good.meta"), &count);
    damage_all(path("damaged.meta"), (uint8_t *)good, count, read_refuses);
    good[count] = 0;
    altered(good, "seal 2", "seal 3", 253, ": 3");
    altered(good, "icotable seal", "icotable deal", 252, "begins otherwise");
    altered(good, "version 0.20.0", "version 0.20.0 ", 254, ": a version");
    altered(good, "kind molecules", "kind molecule", 254, "line 3 ");
    altered(good, "kind molecules", "kind atom", 254, "line 9 is not its 'threshold'");
    altered(good, "length 70", "length 070", 254, "line 4 ");
    altered(good, "length 70", "length 99999999999999999999", 254, "line 4 ");
    altered(good, "length 70", "length -1", 254, "line 4 ");
    altered(good, "aaaa", "AAAA", 254, ": a SHA-256 of the table");
    altered(good, "threshold 0.40000000000000002", "threshold 0.4", 254, "line 10 is not as this library writes it");
    altered(good, "beta 1", "beta nan", 254, "line 11 is not as this library writes it");
    altered(good, "rmin 1", "rmin unknown", 254, "a setting that is not finite");
    altered(good, "beta 1", "beta inf", 254, "a setting that is not finite");
    altered(good, "beta 1", "gamma 1", 254, "line 11 is not its 'beta'");
    altered(good, "beta 1\n", "beta 1\ncolour red\n", 254, "line 12 is not its 'n_r'");
    altered(good, "beta 1\n", "", 254, "line 11 is not its 'beta'");
    altered(good, "levels 4", "levels 17", 254, "a count of levels");
    altered(good, "meshes 00000000000000FF", "meshes 00000000000000ff", 254, "line 16 ");
    altered(good, "own_meshes yes", "own_meshes true", 254, "line 17 ");
    altered(good, "journal none", "journal some", 254, ": a SHA-256 of the journal");
    altered(good, "journal none\n", "journal none\nnote\n", 254, "line 19 ");
    altered(good, "guarded yes", "guarded maybe", 254, "line 19 ");
    altered(good, "whole no", "whole No", 254, "line 20 ");
    altered(good, "whole no\n", "", 254, "line 20 is not its 'whole'");
    altered(good, "id 6", "id 6 ", 254, "line 21 ");
    altered(good, "label water", "label wa\x01ter", 254, "a label that is not UTF-8");
    altered(good, "label water\n", "label water\nlabel ice\n", 254, "line 23 ");
    free(good);
}

/* ---- other tables, other fields, trouble */

static void not_written(icotable_seal s, const char *why) {
    refused(257, icotable_seal_write(&s, path("unfit"), &fault), why);
}

static void unfit(void) {
    icotable_seal s = sealed;
    not_written((icotable_seal){0}, "version");
    s.grid.beta = INFINITY, not_written(s, "not finite"), s = sealed;
    s.grid.rmax = NAN, not_written(s, "not finite"), s = sealed;
    s.grid.beta = NAN, s.format = 1, not_written(s, "not finite"), s = sealed;
    strcpy(s.version, "a b"), not_written(s, "version"), s = sealed;
    memset(s.version, 'a', sizeof s.version), not_written(s, "version"), s = sealed;
    memset(s.sha256, 'a', sizeof s.sha256), not_written(s, "64 hexadecimal digits"), s = sealed;
    s.sha256[3] = 'g', not_written(s, "64 hexadecimal digits"), s = sealed;
    s.levels = 0, not_written(s, "levels"), s = sealed;
    s.atom = 2, not_written(s, "neither"), s = sealed;
    s.whole = (enum icotable_known)3, not_written(s, "neither"), s = sealed;
    strcpy(s.identity.label, "a\nb"), not_written(s, "UTF-8"), s = sealed;
    s.journaled = 1, not_written(s, "journal");
    check(access(path("unfit.meta"), F_OK) != 0, "a refused seal leaves a file", "");
}

static void tables(void) {
    uint8_t table[70];
    icotable_seal s = sealed;
    memset(table, 7, sizeof table);
    icotable_sha256_(table, sizeof table, s.sha256);
    check(icotable_seal_check(&s, table, sizeof table, &fault) == 0 && fault.number == 0, "the sealed table is refused", fault.said);
    refused(255, icotable_seal_check(&s, table, sizeof table - 1, &fault), "69 bytes, and 70 were sealed");
    for (size_t i = 0; i < sizeof table; i++) {
        table[i] ^= 1;
        refused(255, icotable_seal_check(&s, table, sizeof table, &fault), s.sha256);
        table[i] ^= 1;
    }
}

static void troubles(void) {
    icotable_seal s;
    size_t count;
    struct rlimit was, full;
    refused(251, icotable_seal_read(&s, path("nowhere"), &fault), "nowhere.meta");
    refused(256, icotable_seal_write(&sealed, path("nowhere/table"), &fault), "No such file");
    char many[10000] = {0};
    put_file(path("long.meta"), many, sizeof many);
    refused(252, icotable_seal_read(&s, path("long"), &fault), "longer than any");
    int before = files();
    getrlimit(RLIMIT_FSIZE, &was);
    full = (struct rlimit){300, was.rlim_max};
    signal(SIGXFSZ, SIG_IGN);
    setrlimit(RLIMIT_FSIZE, &full);
    s = any_seal();
    refused(256, icotable_seal_write(&s, path("good"), &fault), "File too large");
    setrlimit(RLIMIT_FSIZE, &was);
    free(get_file(path("good.meta"), &count));
    check(icotable_seal_read(&s, path("good"), &fault) == 0 && same_seal(&s, &sealed), "a seal that was not written alters the one before it", fault.said);
    check(files() == before, "a seal that was not written leaves a file", "");
}

/* ---- a small table for the tools */

static const double *energies(uint64_t level, uint64_t ri, uint64_t oi, bool atom, double height) {
    static double list[42 * 42];
    uint64_t n = icotable_vertices(level), count = atom ? n : n * n;
    for (uint64_t i = 0; i < count; i++)
        list[i] = height / (double)(ri + 1) * (double)((i * 7 + oi * 3) % 11) / 11;
    return list;
}

static uint64_t begun(icotable_journal *j, const char *name, const icotable_seal *s, const icotable_meshes *m) {
    return icotable_journal_begin_as(j, name, s->atom, s->grid, s->top, m, 0, "water, ångström", NULL);
}

static uint64_t played(icotable_journal *j, double height) {
    uint64_t ri, oi, number = 0;
    enum icotable_journal_step step;
    while (number == 0 && (step = icotable_journal_next(j, &ri, &oi)) != ICOTABLE_JOURNAL_TO_WRITE) {
        uint64_t n = icotable_vertices(j->builder.level);
        number = step == ICOTABLE_JOURNAL_TO_SETTLE ? icotable_journal_settle(j, ri).number
                                                    : icotable_journal_set(j, ri, oi, energies(j->builder.level, ri, oi, j->atom, height), j->atom ? n : n * n);
    }
    return number;
}

static uint64_t sealed_table(icotable_journal *j, icotable_seal *s, const char *name, const char *journal) {
    static uint8_t bytes[1 << 20];
    icotable_written w = icotable_journal_write(j, bytes, sizeof bytes);
    if (w.number != 0)
        return w.number;
    put_file(name, bytes, w.length);
    s->table_length = w.length;
    s->grid = j->builder.grid;
    s->journaled = icotable_sha256_file_(journal, s->journal_sha256);
    icotable_sha256_(bytes, w.length, s->sha256);
    s->guarded = s->whole = ICOTABLE_YES;
    s->identity = j->identity;
    return icotable_seal_write(s, name, &fault);
}

static int build(char **words, bool mirrored) {
    const char *name = words[0];
    char journal[1100], mesh[1100];
    icotable_journal j = {.file = -1};
    icotable_meshes m;
    icotable_seal s = {.atom = strcmp(words[1], "atom") == 0, .top = strtoull(words[3], NULL, 10), .version = ICOTABLE_VERSION, .own_meshes = !mirrored};
    s.grid = (icotable_grid){.rmin = 1, .rmax = 4, .dr = 1, .omega_step = s.atom ? 0 : 3, .threshold = strtod(words[2], NULL), .beta = 1};
    s.levels = s.top + 1;
    snprintf(journal, sizeof journal, "%s.journal", name);
    snprintf(mesh, sizeof mesh, "%s.mesh", name);
    if (icotable_make_meshes(&m, s.top) != 0)
        return 2;
    for (size_t i = 0; mirrored && i < m.vertices_count; i++)
        m.vertices[i] = -m.vertices[i];
    s.meshes_hash = icotable_meshes_hash(&m, s.levels);
    uint64_t number = mirrored ? icotable_meshes_save(&m, mesh, &fault) : 0;
    if (number == 0 && (number = begun(&j, journal, &s, &m)) == 0 && (number = played(&j, strtod(words[4], NULL))) == 0)
        number = sealed_table(&j, &s, name, journal);
    printf("%llu\n", (unsigned long long)number);
    icotable_journal_close(&j);
    icotable_free_meshes(&m);
    return number != 0;
}

int main(int count, char **words) {
    if (count >= 7 && strcmp(words[1], "build") == 0)
        return build(words + 2, count == 8);
    if (count != 3)
        return 2;
    state = strtoull(words[1], NULL, 10);
    snprintf(folder, sizeof folder, "%s", words[2]);
    const char *locale = setlocale(LC_NUMERIC, "");
    round_trips(300);
    damages();
    unfit();
    tables();
    troubles();
    printf("seals: %llu checks, %llu wrong; locale %s, point '%s'\n", (unsigned long long)checks, (unsigned long long)wrong,
           locale == NULL ? "not there" : locale, localeconv()->decimal_point);
    return wrong != 0;
}
