/* begin JOURNAL --rmin X --rmax X --dr X --omega-step X --threshold X --beta X --top N [--label TEXT] [--id HEX]: a new journal over the
 * meshes that mesh.h makes; with --atom in the place of --omega-step, of a table against an atom. Where the journal is there already with
 * the same settings, label and id nothing is altered but a torn end, so that a job that is started again can begin with it. */
#include "tools.h"
#include "verbs.h"

enum { RMIN, RMAX, DR, OMEGA_STEP, THRESHOLD, BETA, NUMBERS };
static const char *const options[NUMBERS] = {"--rmin", "--rmax", "--dr", "--omega-step", "--threshold", "--beta"};

typedef struct settings {
    double x[NUMBERS];
    bool atom;
    uint64_t top;
    bool with_id;
    uint8_t id[16];
} settings;

/* The id, where it is given. */
static int read_id(settings *s) {
    const char *id = given("--id");
    s->with_id = id != NULL;
    return id == NULL || id_of(id, s->id) ? GOOD : misused("begin", "--id", "wants 32 hexadecimal digits, not all 0");
}

static int read_options(settings *s) {
    const char *top = given("--top");
    s->atom = given("--atom") != NULL;
    for (int k = 0; k < NUMBERS; k++) {
        const char *word = given(options[k]);
        bool wanted = !(s->atom && k == OMEGA_STEP);
        if ((word != NULL) != wanted)
            return misused("begin", options[k], wanted ? "is missing" : "is not there against an atom");
        if (wanted && !number_of(word, &s->x[k]))
            return misused("begin", options[k], "wants a number");
    }
    if (top == NULL)
        return misused("begin", "--top", "is missing");
    return whole_of(top, &s->top) ? read_id(s) : misused("begin", "--top", "wants a whole number");
}

static uint64_t open_journal(icotable_journal *j, const settings *s, const icotable_meshes *m, const char *name, bool there) {
    icotable_grid g = {s->x[RMIN], s->x[RMAX], s->x[DR], s->x[OMEGA_STEP], s->x[THRESHOLD], s->x[BETA], 0, 0};
    const uint8_t *id = s->with_id ? s->id : NULL;
    return (there ? icotable_journal_resume_as : icotable_journal_begin_as)(j, name, s->atom, g, s->top, m, 0, given("--label"), id);
}

int begin_tool(int count, char **names) {
    settings s = {0};
    icotable_meshes meshes = {0};
    icotable_journal j = {.file = -1};
    (void)count;
    int status = read_options(&s);
    if (status != GOOD || journal_named(names[0]) != GOOD)
        return TROUBLE;
    uint64_t number = icotable_make_meshes(&meshes, s.top);
    if (number != 0) {
        snprintf(j.said, sizeof j.said, "%s", icotable_words(number));
    } else {
        number = open_journal(&j, &s, &meshes, names[0], false);
        if (number == ICOTABLE_JOURNAL_EXISTS)
            number = open_journal(&j, &s, &meshes, names[0], true);
    }
    if (number != 0) {
        status = refused_journal(names[0], number, j.said);
    } else {
        printf("%s: %s, %llu distances, %llu slabs, levels 0 to %llu; %llu calls\n", names[0], table_words(s.atom), (unsigned long long)j.builder.grid.n_r,
               (unsigned long long)j.slabs, (unsigned long long)s.top, (unsigned long long)j.records);
        print_identity(&j.identity);
    }
    icotable_journal_close(&j);
    icotable_free_meshes(&meshes);
    return status;
}
