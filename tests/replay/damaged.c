/* Damaged copies of a small table file, of two molecules, with a long-range tail or not, or against an atom (tests/damaged/make writes them): the file, then a line for each copy with its
 * length, three changes, each a place and the byte put there, and the number that read has to answer. The tools' own
 * walk over a refused file has to come to the same number, and to name a byte where something can be wrong: its field
 * is not wholly before the first change, or it is the count of a section that goes beyond the end of the copy. */
#include "replay.h"
#include "tools.h"

#include <string.h>

/* With a tail `by 23` stands before what is by another number. */
enum { ACCEPTED, SECTIONS, LAST = 6 };

enum { ROOM = 2048, FIELD = 10, NO_PLACE = 0xFFFF };

/* The undamaged file, and where its sections' counts begin and the last one ends. */
typedef struct whole_file {
    size_t count, section[7];
    uint8_t bytes[ROOM];
} whole_file;

/* Where the first difference from the file is; the shorter length where the rest is equal. */
static size_t first_change(const whole_file *f, const uint8_t *copy, size_t count) {
    size_t shorter = count < f->count ? count : f->count, i = 0;
    while (i < shorter && f->bytes[i] == copy[i])
        i++;
    return i;
}

static bool section_cut(const whole_file *f, size_t byte, size_t length) {
    for (int k = 0; k < 6; k++)
        if (byte == f->section[k])
            return length < f->section[k + 1];
    return false;
}

static bool can_be(const whole_file *f, const place *p, size_t change, size_t length) {
    return p->byte <= length &&
           (change < p->byte + FIELD || (p->number == ICOTABLE_SECTIONS && section_cut(f, p->byte, length)));
}

/* The copy that a line describes; what it has beyond the file is 0 where no change puts another byte. */
static size_t read_copy(replay *r, const whole_file *f, uint8_t *copy) {
    memset(copy, 0, ROOM);
    memcpy(copy, f->bytes, f->count);
    size_t length = word(r, 4);
    for (int k = 0; k < 3; k++) {
        size_t at = word(r, 4);
        uint8_t byte = (uint8_t)word(r, 2);
        if (at < ROOM)
            copy[at] = byte;
        else if (at != NO_PLACE)
            bad_data(r, "a change beyond the copy");
    }
    if (length > ROOM)
        bad_data(r, "a copy that is too long");
    return length;
}

static int kind_of(replay *r) {
    size_t at = r->at;
    uint64_t wanted = word(r, 2);
    r->at = at;
    if (wanted >= ICOTABLE_SECTIONS && wanted <= ICOTABLE_FILE_NAN)
        return SECTIONS + (int)wanted - ICOTABLE_SECTIONS;
    return wanted == 0 ? ACCEPTED : LAST + (r->tail && wanted != ICOTABLE_TERM);
}

static void replay_copy(replay *r, const whole_file *f) {
    uint8_t copy[ROOM];
    size_t length = read_copy(r, f, copy);
    int kind = kind_of(r);
    uint64_t ours = read_table(copy, length, r->atom).number;
    place p = find_place(copy, length, r->atom, false);
    bool agrees = holds(r, kind, p.number == ours, "the tools' walk comes to another number than the library");
    agrees &= holds(r, kind, ours == 0 || can_be(f, &p, first_change(f, copy, length), length),
        "the tools' walk names a byte that cannot be");
    agrees &= same(r, kind, 2, ours);
    counted(r, kind, agrees);
}

/* Each section goes by the one before it; the sixth ends with the prefactor. */
void replay_damaged(replay *r) {
    static const size_t width[5] = {8, 4, 4, 10, 4};
    whole_file f = {.count = r->atom ? 502 : r->tail ? 1344 : 1272};
    for (size_t i = 0; i < f.count; i++)
        f.bytes[i] = (uint8_t)digits(r, 2);
    end_line(r);
    for (int k = 0; k < 5; k++)
        f.section[k + 1] = f.section[k] + 4 + width[k] * u32_of(f.bytes + f.section[k]);
    f.section[6] = f.count;
    while (next_line(r)) {
        replay_copy(r, &f);
        end_line(r);
    }
}
