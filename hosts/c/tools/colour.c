/* Colour on standard output, where it is wanted. */
#include "tools.h"

#include <stdlib.h>
#include <string.h>
#include <unistd.h>

static bool wanted;

int choose_colour(void) {
    const char *when = given("--color"), *none = getenv("NO_COLOR"), *terminal = getenv("TERM");
    if (when == NULL || strcmp(when, "auto") == 0)
        wanted = isatty(STDOUT_FILENO) && (none == NULL || none[0] == 0) && terminal != NULL && strcmp(terminal, "dumb") != 0;
    else if (strcmp(when, "always") == 0)
        wanted = true;
    else if (strcmp(when, "never") != 0)
        return trouble("--color", "is one of auto, always and never");
    return GOOD;
}

void paint(FILE *out, const char *code) {
    if (wanted && out == stdout)
        fprintf(out, "\033[%sm", code);
}

void paint_row(unsigned kind, unsigned level) {
    char code[16];
    snprintf(code, sizeof code, "%u", 31 + level % 6);
    paint(stdout, kind == REPULSIVE ? "0;1" : kind == SCALAR ? "0;2" : code);
}
