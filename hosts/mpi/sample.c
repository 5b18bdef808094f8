#include "build.h"

#include "environment.h"

#include <dlfcn.h>
#include <math.h>
#include <stdarg.h>
#include <stdlib.h>
#include <string.h>

static int fails(build *b, int status, const char *words, ...) {
    va_list list;
    va_start(list, words);
    vsnprintf(b->said, sizeof b->said, words, list);
    va_end(list);
    return status;
}

/* POSIX has a function's address in a pointer to an object, which C does not turn into one to a function. */
static void find(plugin *p, const char *name, void *function) {
    void *at = dlsym(p->object, name);
    memcpy(function, &at, sizeof at);
}

static int load(build *b) {
    plugin *p = &b->plugin;
    p->object = dlopen(b->plugin_name, RTLD_NOW | RTLD_LOCAL);
    if (p->object == NULL)
        return fails(b, TROUBLE, "the plug-in cannot be loaded: %s", dlerror());
    find(p, "icotable_plugin_energies", &p->energies);
    find(p, "icotable_plugin_start", &p->start);
    find(p, "icotable_plugin_finish", &p->finish);
    if (p->energies == NULL)
        return fails(b, TROUBLE, "%s: the plug-in has no function icotable_plugin_energies", b->plugin_name);
    return GOOD;
}

/* What the library is proved under, and what loading an object or calling it can alter. */
static int environment(build *b, const char *when) {
    unsigned found = icotable_float_environment();
    if (found == 0)
        return GOOD;
    return fails(b, FOUND, "the plug-in altered the floating-point environment %s: %s", when, icotable_float_environment_words(found));
}

static int start_plugin(build *b) {
    char said[ICOTABLE_PLUGIN_SAID] = "";
    plugin *p = &b->plugin;
    int number = p->start == NULL ? 0 : p->start(b->rank, b->ranks, b->word_count, b->words, &p->data, said);
    said[sizeof said - 1] = 0;
    p->started = number == 0;
    if (number != 0)
        return fails(b, FOUND, "the plug-in does not start: %d: %s", number, said);
    return environment(b, "at its start");
}

int start(build *b) {
    int status = load(b);
    if (status != GOOD)
        return status;
    uint64_t number = icotable_make_meshes(&b->meshes, b->top);
    if (number != 0)
        return fails(b, number == ICOTABLE_NO_MEMORY ? TROUBLE : FOUND, "a mesh was refused with %llu: %s", (ull)number,
                     number == ICOTABLE_NO_MEMORY ? "no memory" : icotable_words(number));
    b->energies = calloc(per_level(b->atom, b->top), sizeof *b->energies);
    if (b->energies == NULL)
        return fails(b, TROUBLE, "there is not enough memory for a slab");
    return start_plugin(b);
}

int sample(build *b, uint64_t ri, uint64_t oi, uint64_t level) {
    uint64_t count = per_level(b->atom, level);
    icotable_plugin_slab slab = {
        .atom = b->atom, .ri = ri, .oi = oi, .level = level,
        .r = b->grid.rmin + (double)ri * b->grid.dr, .omega = (double)oi * b->grid.omega_step,
        .n = icotable_vertices(level), .directions = icotable_level_vertices(&b->meshes, level),
    };
    char said[ICOTABLE_PLUGIN_SAID] = "";
    for (uint64_t i = 0; i < count; i++)
        b->energies[i] = NAN;
    int number = b->plugin.energies(b->plugin.data, &slab, b->energies, count, said);
    said[sizeof said - 1] = 0;
    if (number != 0)
        return fails(b, FOUND, "the plug-in fails for slab (%llu, %llu) of level %llu: %d: %s", (ull)ri, (ull)oi, (ull)level, number, said);
    return environment(b, "while it sampled");
}

void finish(build *b) {
    plugin *p = &b->plugin;
    /* the object stays loaded: threads of its own may still be in it */
    if (p->started && p->finish != NULL)
        p->finish(p->data);
    icotable_free_meshes(&b->meshes);
    free(b->energies);
}
