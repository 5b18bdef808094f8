/* New files: under another name in their folder until they are whole, and never in the place of one that is there. */
#include "tools.h"

#include "support.h"

#include <errno.h>
#include <string.h>
#include <sys/stat.h>
#include <unistd.h>

int free_name(const char *in, const char *out) {
    struct stat a, b;
    if (strcmp(out, "-") == 0)
        return trouble(out, "a table is written to a file, not to standard output");
    if (lstat(out, &b) != 0)
        return errno == ENOENT ? GOOD : trouble(out, strerror(errno));
    if (stat(in, &a) == 0 && stat(out, &b) == 0 && a.st_dev == b.st_dev && a.st_ino == b.st_ino)
        return trouble(out, "is the input itself, which is never written to");
    return trouble(out, "is there already and is not replaced");
}

static int not_written(const char *out) {
    return trouble(out, errno == EEXIST ? "is there already and is not replaced" : strerror(errno));
}

int begin_new(new_file *n, const char *out) {
    *n = (new_file){.name = out, .to = stdout};
    if (out == NULL || strcmp(out, "-") == 0)
        return GOOD;
    n->file = icotable_begin_file_(out, &n->under);
    if (n->file < 0)
        return not_written(out);
    int again = dup(n->file);
    n->to = again < 0 ? NULL : fdopen(again, "wb");
    if (n->to != NULL)
        return GOOD;
    int why = errno;
    if (again >= 0)
        close(again);
    icotable_end_file_(n->file, n->under, n->name, false, false);
    errno = why;
    return not_written(out);
}

/* All that was printed is written; or false with errno. */
static bool arrived(FILE *to) {
    if (ferror(to)) { /* the reason is an earlier call's: a byte more finds it again, and the file is given up in any case */
        clearerr(to);
        errno = 0;
        fputc(0, to);
        fflush(to);
        errno = errno == 0 ? EIO : errno;
        return false;
    }
    return fflush(to) == 0;
}

int end_new(new_file *n) {
    if (n->under == NULL)
        return GOOD; /* main looks after standard output */
    bool whole = arrived(n->to);
    int why = errno;
    if (fclose(n->to) != 0 && whole) {
        whole = false;
        why = errno;
    }
    errno = why;
    return icotable_end_file_(n->file, n->under, n->name, whole, false) ? GOOD : not_written(n->name);
}

int write_new(const char *out, const uint8_t *bytes, size_t count) {
    return icotable_write_file_(out, bytes, count, false) ? GOOD : not_written(out);
}
