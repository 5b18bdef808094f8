/* Linked into a program with --wrap of these calls: KILL_AT=N in the environment kills it (SIGKILL) in the Nth of them, a write
 * when half of its bytes are written. */
#include <signal.h>
#include <stdio.h>
#include <stdlib.h>
#include <sys/types.h>
#include <unistd.h>

ssize_t __real_pwrite(int file, const void *bytes, size_t count, off_t at);
int __real_fsync(int file);
int __real_fdatasync(int file);
int __real_rename(const char *from, const char *to);

static int now(void) {
    static long calls;
    const char *word = getenv("KILL_AT");
    return word != NULL && ++calls == atol(word);
}

ssize_t __wrap_pwrite(int file, const void *bytes, size_t count, off_t at) {
    if (now()) {
        (void)!__real_pwrite(file, bytes, count / 2, at);
        raise(SIGKILL);
    }
    return __real_pwrite(file, bytes, count, at);
}

int __wrap_fsync(int file) {
    if (now())
        raise(SIGKILL);
    return __real_fsync(file);
}

int __wrap_fdatasync(int file) {
    if (now())
        raise(SIGKILL);
    return __real_fdatasync(file);
}

int __wrap_rename(const char *from, const char *to) {
    if (now())
        raise(SIGKILL);
    return __real_rename(from, to);
}
