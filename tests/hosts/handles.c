/* The handles of builds and readers: handles SEED FOLDER. Every refusal of theirs; tables of both kinds beside those of the library's own
 * calls; builds that are killed and resumed; writing that is broken off; meshes that are not the library's own; energies over threads.
 * `handles room FOLDER` wants little memory (ulimit -v). The status is 1 where something is not as it should be.
 *
 * Link with handles_*.c and --wrap=fsync,rename,pthread_create: they are made to kill or to fail. */
#include "handles_test.h"

#include <stdio.h>
#include <stdlib.h>
#include <string.h>

/* A store of a gigabyte, where there is not so much. */
static int no_room(void) {
    icotable_fault fault;
    icotable_build_settings s = settings_of(0);
    s.grid.dr = 0.001;
    s.top = 3;
    icotable_build *b = icotable_build_begin(&s, &fault);
    faults("no room", b, ICOTABLE_JOURNAL_NO_ROOM, "without a journal", &fault);
    printf("handles: %d checks, %d wrong\n", checks, wrong);
    return wrong != 0;
}

int main(int count, char **names) {
    if (count == 3 && strcmp(names[1], "room") == 0) {
        folder = names[2];
        return no_room();
    }
    if (count != 3) {
        fprintf(stderr, "usage: handles room|SEED FOLDER\n");
        return 2;
    }
    folder = names[2];
    test_builds();
    test_files();
    test_kills((unsigned)strtoul(names[1], NULL, 10));
    test_readings();
    test_places();
    printf("handles: %d checks, %d wrong\n", checks, wrong);
    return wrong != 0;
}
