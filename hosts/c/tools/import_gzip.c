/* gzip, through zlib where the Makefile found it (IMPORT_ZLIB). */
#include "import.h"
#include "support.h"

#include <stdlib.h>

bool import_is_gzip(const uint8_t *bytes, size_t count) {
    return count >= 3 && bytes[0] == 0x1F && bytes[1] == 0x8B && bytes[2] == 8;
}

#ifdef IMPORT_ZLIB
#include <zlib.h>

enum { GZIP = 15 + 16, CHUNK = 1 << 16, MOST = 1 << 30 };

typedef struct unpacked {
    uint8_t *bytes;
    size_t count, room;
} unpacked;

static bool more_room(unpacked *u) {
    size_t room = u->room == 0 ? CHUNK : 2 * u->room;
    uint8_t *grown = room > u->room ? realloc(u->bytes, room) : NULL;
    if (grown == NULL)
        return false;
    u->bytes = grown;
    u->room = room;
    return true;
}

/* One step of zlib, which counts in unsigned int. */
static int step(z_stream *z, const uint8_t *end, unpacked *u) {
    size_t in = (size_t)(end - z->next_in), out = u->room - u->count;
    z->avail_in = in > MOST ? MOST : (unsigned)in;
    z->next_out = u->bytes + u->count;
    z->avail_out = out > MOST ? MOST : (unsigned)out;
    int answer = inflate(z, Z_NO_FLUSH);
    u->count = (size_t)(z->next_out - u->bytes);
    return answer;
}

static uint64_t unpack(z_stream *z, const uint8_t *bytes, size_t count, unpacked *u, icotable_fault *fault) {
    const uint8_t *end = bytes + count;
    int answer = Z_OK;
    while (answer == Z_OK) {
        if (u->count == u->room && !more_room(u))
            return IMPORT_REFUSE(fault, NO_ROOM, "%zu bytes of it unpacked", u->count);
        answer = step(z, end, u);
    }
    size_t at = (size_t)(z->next_in - bytes);
    if (answer == Z_MEM_ERROR)
        return IMPORT_REFUSE(fault, NO_ROOM, "zlib");
    if (answer == Z_BUF_ERROR)
        return IMPORT_REFUSE(fault, GZIP, "it ends at byte %zu, with %zu bytes unpacked", count, u->count);
    if (answer != Z_STREAM_END)
        return IMPORT_REFUSE(fault, GZIP, "before byte %zu: %s", at, z->msg == NULL ? "zlib does not say why" : z->msg);
    return at == count ? 0 : IMPORT_REFUSE(fault, BEHIND, "at byte %zu of the gzip file: %zu of them", at, count - at);
}

uint64_t import_unzip(const uint8_t *bytes, size_t count, uint8_t **plain, size_t *plain_count, icotable_fault *fault) {
    z_stream z = {.next_in = (z_const Bytef *)(uintptr_t)bytes};
    unpacked u = {0};
    *plain = NULL;
    *plain_count = 0;
    if (inflateInit2(&z, GZIP) != Z_OK)
        return IMPORT_REFUSE(fault, NO_ROOM, "zlib");
    uint64_t number = unpack(&z, bytes, count, &u, fault);
    inflateEnd(&z);
    if (number != 0) {
        free(u.bytes);
        return number;
    }
    *plain = u.bytes;
    *plain_count = u.count;
    return 0;
}
#else
uint64_t import_unzip(const uint8_t *bytes, size_t count, uint8_t **plain, size_t *plain_count, icotable_fault *fault) {
    (void)bytes;
    *plain = NULL;
    *plain_count = 0;
    return IMPORT_REFUSE(fault, NO_ZLIB, "%zu bytes", count);
}
#endif
