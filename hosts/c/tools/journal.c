/* status JOURNAL: how far a build is, and what it needs next. replay JOURNAL -o FILE: the table of its calls. Both play the calls
 * over the meshes that mesh.h makes or those of --meshes FILE, alter nothing of the journal, and may be called while a build has it open. */
#include "tools.h"

#include "icotable_handles.h"
#include "icotable_mesh_file.h"
#include "support.h"
#include "verbs.h"

#include <stdlib.h>
#include <string.h>

enum { SHOWN = 12 };

typedef unsigned long long ull;

int journal_named(const char *name) {
    return strcmp(name, "-") == 0 ? trouble(name, "a journal is a file, and not standard input") : GOOD;
}

/* A file that is not there or cannot be read, or no memory, which says nothing of the journal. */
static bool cannot_play(uint64_t number) {
    bool journal = number == ICOTABLE_JOURNAL_ABSENT || number == ICOTABLE_JOURNAL_TROUBLE || number == ICOTABLE_JOURNAL_NO_ROOM;
    bool meshes = number == ICOTABLE_MESH_FILE_ABSENT || number == ICOTABLE_MESH_FILE_TROUBLE || number == ICOTABLE_MESH_FILE_NO_ROOM;
    return journal || meshes || number == ICOTABLE_NO_MEMORY;
}

int refused_journal(const char *name, uint64_t number, const char *said) {
    if (number == ICOTABLE_JOURNAL_OTHER_MESHES && given("--meshes") == NULL)
        said = "the journal is over other meshes than this tool makes (icotable_make_meshes): --meshes names their mesh file";
    if (number == ICOTABLE_NO_MEMORY)
        said = "no memory for the meshes";
    if (given("--json") != NULL) {
        json_open(NULL, '{');
        json_text("journal", name);
        json_flag("accepted", false);
        json_count("number", number);
        json_text("words", said);
        json_close('}');
        json_end();
    } else {
        printf("%s: refused with %llu: %s\n", name, (ull)number, said);
    }
    return cannot_play(number) ? TROUBLE : FOUND;
}

uint64_t play_journal(icotable_journal *j, icotable_meshes *meshes, const char *name, unsigned flags) {
    uint64_t number = icotable_journal_look(j, name);
    if (number != 0)
        return number;
    icotable_grid g = j->builder.grid;
    uint64_t top = j->builder.top;
    icotable_free_meshes(meshes);
    number = journal_meshes(meshes, top + 1, j->said, sizeof j->said);
    if (number != 0)
        return number;
    return icotable_journal_resume_as(j, name, j->atom, g, top, meshes, flags, NULL, NULL);
}

static uint64_t played(icotable_journal *j, icotable_meshes *meshes, const char *name, bool guarded) {
    return play_journal(j, meshes, name, ICOTABLE_JOURNAL_READING | (guarded ? 0u : (unsigned)ICOTABLE_JOURNAL_UNGUARDED));
}

static void print_done(const icotable_journal *j) {
    const icotable_builder *b = &j->builder;
    printf("calls        %llu, in %llu bytes\n", (ull)j->records, (ull)j->bytes);
    if (j->cut > 0)
        printf("not whole    %llu bytes behind them, of a call that was not answered or is being written; resume cuts them off\n", (ull)j->cut);
    printf("slabs        %llu of %llu set, %llu missing: %.1f %% done\n", (ull)j->set_count, (ull)j->slabs, (ull)(j->slabs - j->set_count),
           100.0 * (double)j->set_count / (double)j->slabs);
    printf("slices       %llu of %llu settled, %llu unsettled\n", (ull)j->settled_count, (ull)b->grid.n_r, (ull)(b->grid.n_r - j->settled_count));
    printf("level        %llu now, of 0 to %llu: %llu vertices, %llu energies a slab\n", (ull)b->level, (ull)b->top, (ull)icotable_vertices(b->level),
           (ull)per_level(j->atom, b->level));
    printf("table so far %llu bytes\n", (ull)icotable_journal_length(j));
}

/* The dihedral bins of a slice that were not set; the first few. */
static void print_missing(const icotable_journal *j, uint64_t ri) {
    uint64_t n_omega = j->builder.grid.n_omega, missing = 0;
    for (uint64_t oi = 0; oi < n_omega; oi++)
        if (!j->set[ri * n_omega + oi] && ++missing <= SHOWN)
            printf("%s%llu", missing == 1 ? " " : ", ", (ull)oi);
    if (missing > SHOWN)
        printf(" and %llu more", (ull)(missing - SHOWN));
}

/* A slab that was never set in a slice that was settled, which a build without the guard can have. */
static bool hole(const icotable_journal *j, uint64_t *slab) {
    uint64_t n_omega = j->builder.grid.n_omega;
    for (*slab = 0; *slab < j->slabs; ++*slab)
        if (!j->set[*slab] && j->settled[*slab / n_omega])
            return true;
    return false;
}

static void print_hole(const icotable_journal *j, uint64_t slab) {
    uint64_t n_omega = j->builder.grid.n_omega;
    printf("hole         slab (%llu, %llu) was never set and its slice is settled: it would read as 0.0\n", (ull)(slab / n_omega), (ull)(slab % n_omega));
    puts("what to do   set it and settle its slice again, without the guard, or build anew with the guard; replay refuses this journal");
}

static void print_next(const icotable_journal *j) {
    uint64_t ri, oi;
    enum icotable_journal_step step = icotable_journal_next(j, &ri, &oi);
    double distance = distance_of(&j->builder.grid, ri);
    if (step == ICOTABLE_JOURNAL_TO_WRITE) {
        puts("next         every slice is settled: icotable replay writes the table");
    } else if (step == ICOTABLE_JOURNAL_TO_SETTLE) {
        printf("next         settle distance bin %llu, distance %g\n", (ull)ri, distance);
    } else {
        printf("next         sample distance bin %llu, distance %g, at level %llu", (ull)ri, distance, (ull)j->builder.level);
        if (!j->atom) {
            fputs(": dihedral bins", stdout);
            print_missing(j, ri);
        }
        puts("; then settle it");
    }
}

static bool by_guard(uint64_t number) {
    return number == ICOTABLE_JOURNAL_SLICE_SETTLED || number == ICOTABLE_JOURNAL_SLAB_MISSING || number == ICOTABLE_JOURNAL_NEARER_UNSETTLED;
}

static void json_hole(const icotable_journal *j) {
    uint64_t slab, n_omega = j->builder.grid.n_omega;
    if (!hole(j, &slab)) {
        json_null("hole");
        return;
    }
    json_open("hole", '[');
    json_count(NULL, slab / n_omega);
    json_count(NULL, slab % n_omega);
    json_close(']');
}

static void json_next(const icotable_journal *j) {
    static const char *const steps[] = {"sample", "settle", "write"};
    uint64_t ri, oi, n_omega = j->builder.grid.n_omega;
    enum icotable_journal_step step = icotable_journal_next(j, &ri, &oi);
    json_hole(j);
    if (hole(j, &oi) && step == ICOTABLE_JOURNAL_TO_WRITE) {
        json_null("next");
        return;
    }
    json_open("next", '{');
    json_text("step", steps[step]);
    if (step != ICOTABLE_JOURNAL_TO_WRITE) {
        json_count("ri", ri);
        json_double("distance", distance_of(&j->builder.grid, ri));
    }
    if (step == ICOTABLE_JOURNAL_TO_SET) {
        json_count("level", j->builder.level);
        json_open("missing", '[');
        for (oi = 0; oi < n_omega; oi++)
            if (!j->set[ri * n_omega + oi])
                json_count(NULL, oi);
        json_close(']');
    }
    json_close('}');
}

static void json_status(const icotable_journal *j, const char *name, const char *said) {
    const icotable_builder *b = &j->builder;
    json_open(NULL, '{');
    json_text("journal", name);
    json_text("kind", j->atom ? "atom" : "pair");
    json_flag("accepted", true);
    json_identity(&j->identity);
    json_count("calls", j->records);
    json_count("bytes", j->bytes);
    json_count("bytes_not_whole", j->cut);
    json_count("slabs", j->slabs);
    json_count("slabs_set", j->set_count);
    json_count("slices", b->grid.n_r);
    json_count("slices_settled", j->settled_count);
    json_count("level", b->level);
    json_count("top", b->top);
    json_flag("level_lost", icotable_level_lost(j));
    json_count("table_bytes", icotable_journal_length(j));
    if (said[0] != 0)
        json_text("guard", said);
    else
        json_null("guard");
    json_next(j);
    json_close('}');
    json_end();
}

static void print_status(const icotable_journal *j, const char *name, const char *said) {
    printf("%s: a journal of %s\n", name, table_words(j->atom));
    print_identity(&j->identity);
    print_done(j);
    if (said[0] != 0)
        printf("the guard    refuses it: %s\n", said);
    if (icotable_level_lost(j))
        printf("warning      %s\n", LEVEL_LOST);
    uint64_t slab, ri, oi;
    bool held = hole(j, &slab);
    if (held)
        print_hole(j, slab);
    if (!held || icotable_journal_next(j, &ri, &oi) != ICOTABLE_JOURNAL_TO_WRITE)
        print_next(j);
}

/* The id, from the head alone. */
static int print_id(const char *name) {
    static icotable_journal j;
    uint64_t number = icotable_journal_look(&j, name);
    if (number != 0)
        return refused_journal(name, number, j.said);
    if (!has_id(&j.identity)) {
        printf("%s: a journal of version 1 has no id\n", name);
        return FOUND;
    }
    puts(id_digits(j.identity.id));
    return GOOD;
}

/* A journal that was kept without the guard is shown all the same, and what the guard says of it. */
int status_tool(int count, char **names) {
    (void)count;
    icotable_journal j;
    icotable_meshes meshes = {0};
    char said[sizeof j.said] = "";
    if (journal_named(names[0]) != GOOD)
        return TROUBLE;
    if (given("--id") != NULL)
        return print_id(names[0]);
    uint64_t number = played(&j, &meshes, names[0], true);
    if (by_guard(number)) {
        memcpy(said, j.said, sizeof said);
        number = played(&j, &meshes, names[0], false);
    }
    int status = number == 0 ? GOOD : refused_journal(names[0], number, j.said);
    if (status == GOOD)
        (given("--json") != NULL ? json_status : print_status)(&j, names[0], said);
    uint64_t slab;
    if (status == GOOD && hole(&j, &slab))
        status = FOUND;
    icotable_journal_close(&j);
    icotable_free_meshes(&meshes);
    return status;
}

static int written(icotable_journal *j, const char *name, const char *out) {
    size_t length = icotable_journal_length(j);
    uint8_t *bytes = malloc(length);
    if (bytes == NULL)
        return trouble(out, "does not fit into memory");
    icotable_written w = icotable_journal_write(j, bytes, length);
    int status = w.number != 0 ? refused_journal(name, w.number, j->said) : save_table(j, name, out, bytes, (size_t)w.length, false);
    if (status == GOOD)
        printf("%s: %llu bytes, the table of %llu calls, and its seal\n", out, (ull)w.length, (ull)j->records);
    free(bytes);
    return status;
}

/* The name of the mesh file that a table over other meshes gets. */
static int free_mesh(const char *name, const char *out) {
    char *mesh = given("--meshes") == NULL ? NULL : icotable_beside_(out, ".mesh");
    if (mesh == NULL)
        return GOOD;
    int status = free_name(name, mesh);
    free(mesh);
    return status;
}

int replay_tool(int count, char **names) {
    (void)count;
    const char *out = given("-o");
    icotable_journal j;
    icotable_meshes meshes = {0};
    if (out == NULL)
        return misused("replay", "-o", "is missing");
    if (journal_named(names[0]) != GOOD || free_name(names[0], out) != GOOD || free_mesh(names[0], out) != GOOD)
        return TROUBLE;
    uint64_t number = played(&j, &meshes, names[0], given("--unguarded") == NULL);
    int status = number == 0 ? written(&j, names[0], out) : refused_journal(names[0], number, j.said);
    icotable_journal_close(&j);
    icotable_free_meshes(&meshes);
    return status;
}
