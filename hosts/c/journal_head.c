#include "journal_head.h"

#include "icotable_mesh_file.h"
#include "support.h"

#include <stdbool.h>
#include <string.h>

enum { SAME = ICOTABLE_HEAD_SAME_, ID = ICOTABLE_HEAD_ID_, LABEL = ICOTABLE_HEAD_LABEL_, SUM = 4 };
static const char MAGIC[] = "ICOTJRNL";

icotable_head_ icotable_head_of_(int atom, const icotable_grid *g, uint64_t top, const icotable_meshes *meshes) {
    return (icotable_head_){.version = 2, .kind = atom ? 1 : 0, .top = top,
                            .settings = {g->rmin, g->rmax, g->dr, g->omega_step, g->threshold, g->beta},
                            .meshes = icotable_meshes_hash(meshes, top + 1),
                            .library = {ICOTABLE_VERSION_MAJOR, ICOTABLE_VERSION_MINOR, ICOTABLE_VERSION_PATCH}};
}

static uint8_t *put(uint8_t *at, const void *bytes, size_t count) {
    memcpy(at, bytes, count);
    return at + count;
}

static const uint8_t *take(void *to, const uint8_t *at, size_t count) {
    memcpy(to, at, count);
    return at + count;
}

size_t icotable_head_bytes_(const icotable_head_ *h, uint8_t bytes[ICOTABLE_HEAD_MOST_]) {
    uint32_t length = (uint32_t)strlen(h->identity.label);
    uint8_t *at = put(bytes, MAGIC, 8);
    at = put(at, &h->version, sizeof h->version);
    at = put(at, &h->kind, sizeof h->kind);
    at = put(at, &h->top, sizeof h->top);
    at = put(at, h->settings, sizeof h->settings);
    at = put(at, &h->meshes, sizeof h->meshes);
    if (h->version == 1)
        return SAME;
    at = put(at, h->library, sizeof h->library);
    at = put(at, h->identity.id, sizeof h->identity.id);
    at = put(at, &length, sizeof length);
    at = put(at, h->identity.label, length);
    return (size_t)(at - bytes);
}

/* The part that both versions have. */
static void take_same(icotable_head_ *h, const uint8_t *bytes) {
    const uint8_t *at = take(&h->version, bytes + 8, sizeof h->version);
    at = take(&h->kind, at, sizeof h->kind);
    at = take(&h->top, at, sizeof h->top);
    at = take(h->settings, at, sizeof h->settings);
    take(&h->meshes, at, sizeof h->meshes);
}

/* Library version, id and label; false where the bytes end before, or one of them is none. */
static bool take_identity(icotable_head_ *h, const uint8_t *bytes, size_t count, size_t *length) {
    uint32_t label;
    if (count < LABEL + SUM)
        return false;
    const uint8_t *at = take(h->library, bytes + SAME, sizeof h->library);
    at = take(h->identity.id, at, sizeof h->identity.id);
    take(&label, at, sizeof label);
    if (label > ICOTABLE_LABEL || count - LABEL - SUM < label)
        return false;
    memcpy(h->identity.label, bytes + LABEL, label);
    *length = LABEL + label + SUM;
    static const uint8_t none[16];
    bool named = memcmp(h->identity.id, none, sizeof none) != 0;
    return named && strlen(h->identity.label) == label && icotable_label_fits_(h->identity.label);
}

/* Whether these are the bytes of a head of that version, whatever they say of it. */
static bool whole(icotable_head_ *h, uint32_t version, size_t *length, const uint8_t *bytes, size_t count) {
    uint32_t sum;
    *length = (version == 1 ? SAME : LABEL) + SUM;
    if (version == 2 && !take_identity(h, bytes, count, length))
        return false;
    memcpy(&sum, bytes + *length - SUM, SUM);
    return sum == icotable_crc32_(icotable_crc32_(icotable_crc32_(0, bytes, 8), &version, 4), bytes + 12, *length - SUM - 12);
}

uint64_t icotable_head_taken_(icotable_head_ *h, size_t *length, const uint8_t *bytes, size_t count, const char **why) {
    *h = (icotable_head_){0};
    *length = SAME + SUM;
    *why = count < SAME + SUM ? "it is shorter than any head" : "it begins otherwise";
    if (count < SAME + SUM || memcmp(bytes, MAGIC, 8) != 0)
        return ICOTABLE_JOURNAL_NOT_A_JOURNAL;
    take_same(h, bytes);
    *why = "the head";
    bool known = h->version == 1 || h->version == 2;
    if (known)
        return whole(h, h->version, length, bytes, count) ? 0 : ICOTABLE_JOURNAL_DAMAGED;
    bool damaged = whole(h, 2, length, bytes, count) || whole(h, 1, length, bytes, count);
    return damaged ? ICOTABLE_JOURNAL_DAMAGED : ICOTABLE_JOURNAL_OTHER_VERSION;
}

uint64_t icotable_head_build_(const icotable_head_ *h) {
    uint8_t bytes[ICOTABLE_HEAD_MOST_];
    size_t length = icotable_head_bytes_(h, bytes);
    uint64_t hash = icotable_fnv_(ICOTABLE_FNV_, bytes + 12, SAME - 12);
    return h->version == 1 ? hash : icotable_fnv_(hash, bytes + ID, length - ID);
}

/* How many bytes the letter here has: 0 for what is none, a control character or not the shortest form of one. */
static size_t letter(const uint8_t *b) {
    if (b[0] < 0x80)
        return b[0] >= 0x20 && b[0] != 0x7F;
    size_t more = b[0] >= 0xF0 ? 3 : b[0] >= 0xE0 ? 2 : 1;
    uint32_t code = b[0] & (0x3Fu >> more);
    if (b[0] < 0xC2 || b[0] > 0xF4)
        return 0;
    for (size_t i = 1; i <= more; i++) {
        if ((b[i] & 0xC0) != 0x80)
            return 0;
        code = code << 6 | (b[i] & 0x3Fu);
    }
    static const uint32_t least[] = {0, 0xA0, 0x800, 0x10000};
    return code >= least[more] && code <= 0x10FFFF && !(code >= 0xD800 && code <= 0xDFFF) ? more + 1 : 0;
}

int icotable_label_fits_(const char *label) {
    const uint8_t *b = (const uint8_t *)label;
    size_t length = strnlen(label, ICOTABLE_LABEL + 1), at = 0, next;
    while (at < length && (next = letter(b + at)) > 0)
        at += next;
    return length <= ICOTABLE_LABEL && at == length;
}
