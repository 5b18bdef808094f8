/* What the helpers that keep files share: checksums, whole reads and writes at a place, a file that is there whole or not at
 * all, words of a refusal. Not installed; names end in an underscore. */
#ifndef SUPPORT_H
#define SUPPORT_H

#include "icotable_fault.h"

#include <stdarg.h>
#include <stdbool.h>
#include <stddef.h>
#include <stdint.h>

/* Numbers go to files as they lie in memory. */
#if !defined __BYTE_ORDER__ || __BYTE_ORDER__ != __ORDER_LITTLE_ENDIAN__
#error "these helpers need a little-endian machine"
#endif

/* zlib's crc32 of what a sum stands for (0: nothing) and these bytes behind it. */
uint32_t icotable_crc32_(uint32_t sum, const void *bytes, size_t count);

/* FNV-1a of 64 bits (docs/FORMAT.md), likewise; of nothing it is ICOTABLE_FNV_. */
#define ICOTABLE_FNV_ UINT64_C(0xCBF29CE484222325)
uint64_t icotable_fnv_(uint64_t hash, const void *bytes, size_t count);

/* sha256.c: SHA-256 (FIPS 180-4) in 64 hexadecimal digits, of bytes, or of a whole file. Without a file false, and errno. */
void icotable_sha256_(const void *bytes, size_t count, char digits[65]);
bool icotable_sha256_file_(const char *path, char digits[65]);

/* All of these bytes, from a place on; else false, and errno. */
bool icotable_write_at_(int file, const void *bytes, size_t count, uint64_t at);
bool icotable_read_at_(int file, void *bytes, size_t count, uint64_t at);

/* A new name is on disk once its folder is; some file systems do not sync folders. */
bool icotable_sync_folder_(const char *name);

typedef struct icotable_part_ {
    const void *bytes;
    size_t count;
} icotable_part_;

/* The parts one behind the other as the file of that name: written under another name beside it (NAME.tmp.PROCESS.N, which a
 * kill leaves behind), brought to disk and renamed; with the rights that a new file has. Where it is not to replace a file, one
 * of that name stays (EEXIST); a folder, a device or a symbolic link stays in any case. False with errno where that is not done: then the name is as it was or, where its folder alone
 * could not be brought to disk, as it should be. */
bool icotable_write_parts_(const char *name, const icotable_part_ *parts, size_t parts_count, bool replace);
bool icotable_write_file_(const char *name, const void *bytes, size_t count, bool replace);

/* The same for a file that is written in between: the number of a file beside it, whose name goes to other, to be freed by end; or
 * -1 with errno. End closes it, where all was written brings it to disk and gives it its own name, and otherwise removes it. */
int icotable_begin_file_(const char *name, char **other);
bool icotable_end_file_(int file, char *other, const char *name, bool written, bool replace);

/* A regular file in memory, to be freed. NULL, and errno: EFBIG where it has more than most bytes, EINVAL where it is none. */
uint8_t *icotable_read_file_(const char *path, size_t most, size_t *count);

/* Words of a refusal, and more behind them. */
void icotable_say_(char *said, size_t room, const char *words, const char *more, va_list list);

/* The same into a fault, or nowhere where it is NULL; answers the number. */
__attribute__((format(printf, 4, 5))) uint64_t icotable_fault_(icotable_fault *fault, uint64_t number, const char *words, const char *more, ...);

/* 0, and a fault that says so. */
uint64_t icotable_accepted_(icotable_fault *fault);

/* A path with an ending, to be freed; NULL without memory. */
char *icotable_beside_(const char *path, const char *ending);

#endif
