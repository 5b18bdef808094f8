#include "tools.h"

#include <errno.h>
#include <stdlib.h>

bool number_of(const char *word, double *x) {
    char *end;
    *x = strtod(word, &end);
    return end != word && *end == 0;
}

bool whole_of(const char *word, uint64_t *n) {
    char *end;
    errno = 0;
    *n = strtoull(word, &end, 10);
    return word[0] >= '0' && word[0] <= '9' && *end == 0 && errno == 0;
}
