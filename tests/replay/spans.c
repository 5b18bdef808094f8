/* Spans of distances (tests/compare/span_data.rs writes them). A line is one of these: a span with its stored answer,
 * which is document 02's; bytes of the file; the settings of the table that is held; its counts and starts. */
#include "replay.h"

enum { ACCEPTED, NANS, QUERY, SPAN, ENTRIES };

enum { FILE_ROOM = 3000 };

static void put(replay *r, void *file, uint64_t list, size_t place) {
    if (list != 0 || place >= FILE_ROOM)
        bad_data(r, "there is no such place in the file");
    ((uint8_t *)file)[place] = (uint8_t)digits(r, 2);
}

static void hold(replay *r, icotable_table *t) {
    t->levels = word(r, 16), t->rows = word(r, 16), t->energies = word(r, 16);
    t->start[3] = word(r, 16), t->start[4] = word(r, 16);
}

/* The number, both bins, both energies and the NaNs stand before what is asked. */
static void replay_span(replay *r, const uint8_t *file, const icotable_table *held) {
    size_t answer = r->at;
    uint64_t wanted = word(r, 2);
    word(r, 16), word(r, 16);
    double smallest = number(r);
    number(r), word(r, 16);
    int kind = wanted == ICOTABLE_QUERY ? QUERY : wanted == ICOTABLE_SPAN ? SPAN : wanted != 0 ? ENTRIES : smallest != smallest ? NANS : ACCEPTED;
    size_t n = lent(r, FILE_ROOM);
    double low = number(r), high = number(r), omega = number(r);
    icotable_spanned s = icotable_span(held, file, n, low, high, omega);
    size_t end = r->at;
    r->at = answer;
    bool agrees = same(r, kind, 2, s.number);
    agrees &= same(r, kind, 16, s.first);
    agrees &= same(r, kind, 16, s.last);
    agrees &= same(r, kind, 16, bits(s.smallest));
    agrees &= same(r, kind, 16, bits(s.largest));
    agrees &= same(r, kind, 16, s.scalar_nans);
    counted(r, kind, agrees);
    r->at = end;
}

void replay_spans(replay *r) {
    static uint8_t file[FILE_ROOM];
    icotable_table held = {0};
    while (next_line(r)) {
        switch (word(r, 2)) {
        case 1: replay_span(r, file, &held); break;
        case 2: read_entries(r, file, put); break;
        case 3: held.grid = read_grid(r); break;
        case 4: hold(r, &held); break;
        default: bad_data(r, "there is no such line");
        }
        end_line(r);
    }
}
