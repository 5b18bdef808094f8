/* collect JOURNAL FOLDER: sets the slabs of the current slice whose files are in the folder, settles the slice when it is whole, and
 * so on from contact outwards; then says what is missing. The last line is for a script:
 *   slice RI level L tasks 0-11 missing 4,7-9    status 1: these dihedral bins are to be sampled at this level
 *   whole N slices                               status 0: the journal has the whole table
 * Status 2 is trouble. No file of the folder is altered. Called again it goes on from where it is, and changes nothing where no
 * file has come. Two at once: the second is refused with 203. */
#include "tools.h"

#include "icotable_slab.h"

#include <dirent.h>
#include <errno.h>
#include <stdlib.h>
#include <string.h>

enum { SHOWN = 12 };

typedef unsigned long long ull;

typedef struct collector {
    icotable_journal *j;
    const char *folder;
    double *energies;
    uint64_t taken;
} collector;

/* ---- slab files into the journal */

/* Sets a slab whose file is there and whole; of any other it says why not, and the slab is missing. TROUBLE where the journal
 * takes no call. */
static int take(collector *c, uint64_t ri, uint64_t oi) {
    icotable_slab s = icotable_slab_of(c->j, c->j->builder.level, ri, oi);
    char name[ICOTABLE_SLAB_NAME];
    uint64_t number = icotable_slab_read(&s, c->folder, c->energies, icotable_slab_count(&s));
    if (number != 0 && number != ICOTABLE_SLAB_ABSENT)
        printf("refused with %llu: %s\n", (ull)number, s.said);
    if (number != 0)
        return GOOD;
    number = icotable_journal_set(c->j, ri, oi, c->energies, icotable_slab_count(&s));
    c->taken += number == 0;
    icotable_slab_name(&s, name);
    if (number != 0)
        printf("refused with %llu: %s: %s\n", (ull)number, name, c->j->said);
    return number == 0 || number == ICOTABLE_NAN_ENERGY ? GOOD : TROUBLE;
}

static int take_slice(collector *c, uint64_t ri) {
    uint64_t n_omega = c->j->builder.grid.n_omega;
    int status = GOOD;
    for (uint64_t oi = 0; oi < n_omega && status == GOOD; oi++)
        if (!c->j->set[ri * n_omega + oi])
            status = take(c, ri, oi);
    return status;
}

static int settle(collector *c, uint64_t ri) {
    uint64_t level = c->j->builder.level;
    icotable_journal_settled s = icotable_journal_settle(c->j, ri);
    if (s.number != 0) {
        printf("distance bin %llu: refused with %llu: %s\n", (ull)ri, (ull)s.number, c->j->said);
        return TROUBLE;
    }
    printf("distance bin %llu settled at level %llu, largest gradient %g%s\n", (ull)ri, (ull)level, s.gradient, c->j->builder.level < level ? "; the level drops" : "");
    return GOOD;
}

/* Slice by slice, as far as the files go. */
static int take_all(collector *c) {
    uint64_t ri, oi;
    int status = GOOD;
    while (status == GOOD && icotable_journal_next(c->j, &ri, &oi) != ICOTABLE_JOURNAL_TO_WRITE) {
        status = take_slice(c, ri);
        if (status == GOOD && icotable_journal_next(c->j, &ri, &oi) == ICOTABLE_JOURNAL_TO_SET)
            return GOOD;
        if (status == GOOD)
            status = settle(c, ri);
    }
    return status;
}

/* ---- what else is in the folder */

typedef struct others {
    uint64_t settled, older, later, unwritten, unknown;
} others;

static int slab_name(const struct dirent *entry) {
    return strncmp(entry->d_name, "slab-", 5) == 0;
}

/* The bins and the level of a name that is a slab file's. */
static bool bins_of(const char *name, icotable_slab *s) {
    char again[ICOTABLE_SLAB_NAME];
    ull ri, oi, level;
    if (sscanf(name, "slab-%llu-%llu-%llu.icoslab", &ri, &oi, &level) != 3)
        return false;
    *s = (icotable_slab){.level = level, .ri = ri, .oi = oi};
    icotable_slab_name(s, again);
    return strcmp(name, again) == 0;
}

static void count_other(others *o, const icotable_journal *j, uint64_t current, const char *name) {
    icotable_slab s;
    const icotable_builder *b = &j->builder;
    if (strstr(name, ".icoslab.tmp.") != NULL)
        o->unwritten++;
    else if (!bins_of(name, &s) || s.ri >= b->grid.n_r || s.oi >= b->grid.n_omega || s.level > b->top)
        o->unknown++;
    else if (s.ri < current)
        o->settled++;
    else if (s.level != b->level && o->older++ < SHOWN)
        printf("%s: of level %llu, where the build is at level %llu: not taken, left where it is\n", name, (ull)s.level, (ull)b->level);
    else if (s.level == b->level)
        o->later += s.ri > current;
}

static void print_others(const others *o) {
    if (o->older > SHOWN)
        printf("and %llu more of another level\n", (ull)(o->older - SHOWN));
    if (o->settled > 0)
        printf("%llu slab files of settled slices, ignored\n", (ull)o->settled);
    if (o->later > 0)
        printf("%llu slab files of later slices, which come when their slice does\n", (ull)o->later);
    if (o->unwritten > 0)
        printf("%llu files that are being written, or whose task was killed\n", (ull)o->unwritten);
    if (o->unknown > 0)
        printf("%llu files whose names no slab of this build has\n", (ull)o->unknown);
}

static int look_around(const icotable_journal *j, const char *folder) {
    struct dirent **entries;
    others o = {0};
    uint64_t current, oi;
    if (icotable_journal_next(j, &current, &oi) == ICOTABLE_JOURNAL_TO_WRITE)
        current = j->builder.grid.n_r;
    int count = scandir(folder, &entries, slab_name, alphasort);
    if (count < 0)
        return trouble(folder, strerror(errno));
    for (int i = 0; i < count; i++) {
        count_other(&o, j, current, entries[i]->d_name);
        free(entries[i]);
    }
    free(entries);
    print_others(&o);
    return GOOD;
}

/* ---- what is next */

/* The dihedral bins that are missing, as an array of tasks is asked for: 0-3,7. */
static void print_missing(const icotable_journal *j, uint64_t ri) {
    uint64_t n_omega = j->builder.grid.n_omega, from;
    const char *between = "";
    const uint8_t *set = j->set + ri * n_omega;
    for (uint64_t oi = 0; oi < n_omega; oi++) {
        if (set[oi])
            continue;
        for (from = oi; oi + 1 < n_omega && !set[oi + 1];)
            oi++;
        printf("%s%llu", between, (ull)from);
        if (oi > from)
            printf("-%llu", (ull)oi);
        between = ",";
    }
}

static int print_next(const collector *c) {
    const icotable_builder *b = &c->j->builder;
    uint64_t ri, oi;
    printf("%llu slabs taken; %llu of %llu slabs set, %llu of %llu slices settled\n", (ull)c->taken, (ull)c->j->set_count, (ull)c->j->slabs,
           (ull)c->j->settled_count, (ull)b->grid.n_r);
    if (icotable_journal_next(c->j, &ri, &oi) == ICOTABLE_JOURNAL_TO_WRITE) {
        puts("every slice is settled: icotable replay writes the table");
        printf("whole %llu slices\n", (ull)b->grid.n_r);
        return GOOD;
    }
    printf("next: distance %g at level %llu, %llu energies a slab\n", b->grid.rmin + (double)ri * b->grid.dr, (ull)b->level, (ull)per_level(c->j->atom, b->level));
    printf("slice %llu level %llu tasks 0-%llu missing ", (ull)ri, (ull)b->level, (ull)(b->grid.n_omega - 1));
    print_missing(c->j, ri);
    putchar('\n');
    return FOUND;
}

static int collect(icotable_journal *j, const char *folder) {
    collector c = {.j = j, .folder = folder, .energies = calloc(per_level(j->atom, j->builder.top), sizeof *c.energies)};
    if (c.energies == NULL)
        return trouble(folder, "there is no memory for a slab");
    int status = take_all(&c);
    if (status == GOOD)
        status = look_around(j, folder);
    if (status == GOOD)
        status = print_next(&c);
    free(c.energies);
    return status;
}

int collect_tool(int count, char **names) {
    (void)count;
    icotable_journal j = {.file = -1};
    icotable_meshes meshes = {0};
    if (journal_named(names[0]) != GOOD)
        return TROUBLE;
    DIR *folder = opendir(names[1]);
    if (folder == NULL)
        return trouble(names[1], strerror(errno));
    closedir(folder);
    uint64_t number = play_journal(&j, &meshes, names[0], 0);
    int status = TROUBLE;
    if (number == 0)
        status = collect(&j, names[1]);
    else
        refused_journal(names[0], number, j.said);
    icotable_journal_close(&j);
    icotable_free_meshes(&meshes);
    return status;
}
