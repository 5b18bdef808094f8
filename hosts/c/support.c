#include "support.h"

#include <errno.h>
#include <fcntl.h>
#include <stdio.h>
#include <stdlib.h>
#include <string.h>
#include <sys/stat.h>
#include <unistd.h>

/* ---- checksums */

/* The table of polynomial EDB88320, bits from the lowest on: an entry is the sum of those of its bits. */
#define BIT(i, bit, entry) ((i)&(bit) ? entry : 0u)
#define AT(i) \
    (BIT(i, 1, 0x77073096u) ^ BIT(i, 2, 0xEE0E612Cu) ^ BIT(i, 4, 0x076DC419u) ^ BIT(i, 8, 0x0EDB8832u) ^ BIT(i, 16, 0x1DB71064u) ^ \
     BIT(i, 32, 0x3B6E20C8u) ^ BIT(i, 64, 0x76DC4190u) ^ BIT(i, 128, 0xEDB88320u))
#define FOUR(i) AT(i), AT((i) + 1), AT((i) + 2), AT((i) + 3)
#define SIXTEEN(i) FOUR(i), FOUR((i) + 4), FOUR((i) + 8), FOUR((i) + 12)
#define MANY(i) SIXTEEN(i), SIXTEEN((i) + 16), SIXTEEN((i) + 32), SIXTEEN((i) + 48)
static const uint32_t crcs[256] = {MANY(0), MANY(64), MANY(128), MANY(192)};

uint32_t icotable_crc32_(uint32_t sum, const void *bytes, size_t count) {
    const uint8_t *b = bytes;
    uint32_t c = ~sum;
    for (size_t i = 0; i < count; i++)
        c = crcs[(c ^ b[i]) & 255] ^ c >> 8;
    return ~c;
}

uint64_t icotable_fnv_(uint64_t hash, const void *bytes, size_t count) {
    const uint8_t *b = bytes;
    for (size_t i = 0; i < count; i++)
        hash = (hash ^ b[i]) * 0x100000001B3u;
    return hash;
}

/* ---- files */

bool icotable_write_at_(int file, const void *bytes, size_t count, uint64_t at) {
    const uint8_t *b = bytes;
    while (count > 0) {
        ssize_t done = pwrite(file, b, count, (off_t)at);
        if (done < 0 && errno == EINTR)
            continue;
        if (done <= 0) {
            errno = done == 0 ? ENOSPC : errno;
            return false;
        }
        b += done, at += (uint64_t)done, count -= (size_t)done;
    }
    return true;
}

bool icotable_read_at_(int file, void *bytes, size_t count, uint64_t at) {
    uint8_t *b = bytes;
    while (count > 0) {
        ssize_t done = pread(file, b, count, (off_t)at);
        if (done < 0 && errno == EINTR)
            continue;
        if (done <= 0) {
            errno = done == 0 ? EIO : errno;
            return false;
        }
        b += done, at += (uint64_t)done, count -= (size_t)done;
    }
    return true;
}

bool icotable_sync_folder_(const char *name) {
    const char *slash = strrchr(name, '/');
    size_t length = slash == NULL ? 1 : slash == name ? 1 : (size_t)(slash - name);
    char *folder = malloc(length + 1);
    if (folder == NULL)
        return false;
    memcpy(folder, slash == NULL ? "." : name, length);
    folder[length] = 0;
    int file = open(folder, O_RDONLY | O_CLOEXEC);
    free(folder);
    bool synced = file >= 0 && (fsync(file) == 0 || errno == EINVAL);
    if (file >= 0)
        close(file);
    return synced;
}

/* A new file behind the name; of a name that is taken, by another process or by one that was killed, the next. */
static int open_beside(const char *name, char *other, size_t room) {
    int file = -1;
    for (unsigned n = 0; file < 0 && (n == 0 || errno == EEXIST); n++) {
        snprintf(other, room, "%s.tmp.%ld.%u", name, (long)getpid(), n);
        file = open(other, O_WRONLY | O_CREAT | O_EXCL | O_CLOEXEC, 0666);
    }
    return file;
}

/* A rename would put a file in the place of a device or a symbolic link; that of a folder it refuses. */
static bool replaceable(const char *name) {
    struct stat what;
    if (lstat(name, &what) != 0 || S_ISREG(what.st_mode) || S_ISDIR(what.st_mode))
        return true;
    errno = EEXIST;
    return false;
}

/* The file under its own name. A link does not replace; where a folder has none, a new name does as well. */
static bool named(const char *other, const char *name, bool replace) {
    if (!replace) {
        if (link(other, name) == 0)
            return unlink(other) == 0;
        if (errno == EEXIST)
            return false;
    }
    return replaceable(name) && rename(other, name) == 0;
}

static bool fill(int file, const icotable_part_ *parts, size_t parts_count) {
    uint64_t at = 0;
    for (size_t i = 0; i < parts_count; i++) {
        if (!icotable_write_at_(file, parts[i].bytes, parts[i].count, at))
            return false;
        at += parts[i].count;
    }
    return true;
}

int icotable_begin_file_(const char *name, char **other) {
    size_t room = strlen(name) + 48;
    *other = malloc(room);
    int file = *other == NULL ? -1 : open_beside(name, *other, room), why = errno;
    if (file < 0) {
        free(*other);
        *other = NULL;
        errno = why;
    }
    return file;
}

bool icotable_end_file_(int file, char *other, const char *name, bool written, bool replace) {
    bool done = written && fsync(file) == 0;
    int why = errno;
    if (close(file) != 0 && done) {
        done = false;
        why = errno;
    }
    if (done && !named(other, name, replace)) {
        done = false;
        why = errno;
    }
    if (!done)
        unlink(other);
    free(other);
    errno = why;
    return done && icotable_sync_folder_(name);
}

bool icotable_write_parts_(const char *name, const icotable_part_ *parts, size_t parts_count, bool replace) {
    char *other;
    int file = icotable_begin_file_(name, &other);
    return file >= 0 && icotable_end_file_(file, other, name, fill(file, parts, parts_count), replace);
}

bool icotable_write_file_(const char *name, const void *bytes, size_t count, bool replace) {
    return icotable_write_parts_(name, &(icotable_part_){bytes, count}, 1, replace);
}

uint8_t *icotable_read_file_(const char *path, size_t most, size_t *count) {
    struct stat what;
    uint8_t *bytes = NULL;
    int file = open(path, O_RDONLY | O_CLOEXEC | O_NONBLOCK), why = 0;
    if (file < 0)
        return NULL;
    if (fstat(file, &what) != 0)
        why = errno;
    else if (!S_ISREG(what.st_mode))
        why = EINVAL;
    else if ((uintmax_t)what.st_size > most)
        why = EFBIG;
    else if ((bytes = malloc((size_t)what.st_size + 1)) == NULL)
        why = ENOMEM;
    else if (!icotable_read_at_(file, bytes, (size_t)what.st_size, 0))
        why = errno;
    close(file);
    if (why != 0) {
        free(bytes);
        errno = why;
        return NULL;
    }
    *count = (size_t)what.st_size;
    return bytes;
}

char *icotable_beside_(const char *path, const char *ending) {
    size_t length = strlen(path), more = strlen(ending) + 1;
    char *name = malloc(length + more);
    if (name == NULL)
        return NULL;
    memcpy(name, path, length);
    memcpy(name + length, ending, more);
    return name;
}

/* ---- words of a refusal */

void icotable_say_(char *said, size_t room, const char *words, const char *more, va_list list) {
    int at = snprintf(said, room, "%s%s", words, more[0] ? ": " : "");
    if (at >= 0 && (size_t)at < room)
        vsnprintf(said + at, room - (size_t)at, more, list);
}

uint64_t icotable_fault_(icotable_fault *fault, uint64_t number, const char *words, const char *more, ...) {
    if (fault == NULL)
        return number;
    fault->number = number;
    va_list list;
    va_start(list, more);
    icotable_say_(fault->said, sizeof fault->said, words, more, list);
    va_end(list);
    return number;
}

uint64_t icotable_accepted_(icotable_fault *fault) {
    if (fault != NULL) {
        fault->number = 0;
        snprintf(fault->said, sizeof fault->said, "accepted");
    }
    return 0;
}
