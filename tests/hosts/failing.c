/* Calls that fail: linked with --wrap=fsync,--wrap=malloc. FAIL_FOLDER=N: the N-th fsync of a folder. FAIL_MALLOC=N: the
 * N-th malloc, counted from 1. */
#include <errno.h>
#include <stddef.h>
#include <stdlib.h>
#include <sys/stat.h>

int __real_fsync(int file);
void *__real_malloc(size_t count);
int __wrap_fsync(int file);
void *__wrap_malloc(size_t count);

static int is_next(const char *name, long *calls) {
    const char *wanted = getenv(name);
    return wanted != NULL && ++*calls == atol(wanted);
}

int __wrap_fsync(int file) {
    static long calls;
    struct stat what;
    if (fstat(file, &what) == 0 && S_ISDIR(what.st_mode) && is_next("FAIL_FOLDER", &calls)) {
        errno = EIO;
        return -1;
    }
    return __real_fsync(file);
}

void *__wrap_malloc(size_t count) {
    static long calls;
    if (is_next("FAIL_MALLOC", &calls)) {
        errno = ENOMEM;
        return NULL;
    }
    return __real_malloc(count);
}
