#include "handles.h"

#include "environment.h"
#include "icotable_slab.h"

const char *icotable_version(void) {
    return ICOTABLE_VERSION;
}

const char *icotable_handle_words(uint64_t number) {
    switch (number) {
#define ICOTABLE_WORDS_(number, name, words) \
    case number: \
        return words;
        ICOTABLE_SLAB_REFUSALS(ICOTABLE_WORDS_)
        ICOTABLE_MESH_FILE_REFUSALS(ICOTABLE_WORDS_)
        ICOTABLE_SEAL_REFUSALS(ICOTABLE_WORDS_)
        ICOTABLE_HANDLE_REFUSALS(ICOTABLE_WORDS_)
#undef ICOTABLE_WORDS_
    case ICOTABLE_NO_MEMORY:
        return "there is not enough memory for the meshes";
    default:
        return icotable_journal_words(number);
    }
}

uint64_t icotable_handle_environment_(icotable_fault *fault) {
    unsigned environment = icotable_float_environment();
    return environment == 0 ? 0 : REFUSE(fault, ICOTABLE_HANDLE_ENVIRONMENT, "%s", icotable_float_environment_words(environment));
}

/* Of a mesh file, or of those that are lent. */
static uint64_t enough(const icotable_meshes *m, const char *whose, uint64_t levels, icotable_fault *fault) {
    if (m->top + 1 >= levels)
        return 0;
    return REFUSE(fault, ICOTABLE_HANDLE_LEVEL_MISSING, "%s has levels 0 to %llu, of 0 to %llu", whose, (ull)m->top,
                  (ull)(levels - 1));
}

uint64_t icotable_handle_meshes_(icotable_meshes *m, const icotable_meshes *lent, const char *name, uint64_t levels,
                                 icotable_fault *fault) {
    uint64_t number;
    *m = lent == NULL ? (icotable_meshes){0} : *lent;
    if (lent != NULL)
        return enough(m, "what is lent", levels, fault);
    if (name == NULL) {
        number = icotable_make_meshes(m, levels - 1);
        return number == 0 ? 0 : REFUSE(fault, number, "the library's own meshes, top level %llu", (ull)(levels - 1));
    }
    number = icotable_meshes_load(m, name, fault);
    return number != 0 ? number : enough(m, name, levels, fault);
}
