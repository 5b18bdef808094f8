/* The table of a journal's calls to disk, with its seal and, where it needs one, its mesh file. */
#include "tools.h"

#include "handles.h"

#include <errno.h>
#include <string.h>

int save_table(icotable_journal *j, const char *name, const char *out, const uint8_t *bytes, size_t length, bool replace) {
    icotable_fault fault;
    icotable_build_settings s = {.atom = j->atom, .grid = j->builder.grid, .top = j->builder.top, .journal = name, .lent = j->meshes};
    errno = 0;
    uint64_t number = icotable_save_(&s, j, bytes, length, out, replace, &fault);
    if (number == ICOTABLE_HANDLE_NOT_WRITTEN && errno != 0)
        return trouble(out, errno == EEXIST ? "is there already and is not replaced" : strerror(errno));
    return number == 0 ? GOOD : trouble(out, fault.said);
}
