/* What the rows of a save and its energies have to do with each other. A table that the Rust builds has a row's energies behind
 * those of the row before, and no others; its check_slabs asks only that they are inside. */
#include "import.h"
#include "support.h"
#include "tools.h"

#include <stdlib.h>

typedef unsigned long long ull;

/* The energies of a Mesh row: from begin on, up to end. */
typedef struct range {
    uint64_t begin, end, row;
} range;

static int by_begin(const void *a, const void *b) {
    const range *x = a, *y = b;
    return x->begin != y->begin ? (x->begin > y->begin) - (x->begin < y->begin) : (x->row > y->row) - (x->row < y->row);
}

static uint32_t energy_bits(const save *s, uint64_t i) {
    return u32_of(s->bytes + s->energies_at + 4 * (size_t)i);
}

/* NaNs from one energy up to another; the last one's place. */
static uint64_t count_nans(const save *s, uint64_t begin, uint64_t end, uint64_t *last) {
    uint64_t nans = 0;
    for (uint64_t i = begin; i < end; i++)
        if (is_nan(energy_bits(s, i))) {
            nans++;
            *last = i;
        }
    return nans;
}

/* The ranges of the Mesh rows in row order, and what rows say by themselves. */
static uint64_t fill_ranges(const save *s, range *list, uint64_t *count, save_audit *a, icotable_fault *fault) {
    *count = 0;
    for (uint64_t i = 0; i < s->rows; i++) {
        const save_row *r = &s->row[i];
        uint64_t size = save_row_size(s, r);
        a->nans += r->kind == SCALAR && is_nan(r->scalar) && r->scalar != TABLE_NAN;
        if (r->kind < NEAREST)
            continue;
        if (r->offset + size > s->energies)
            return IMPORT_REFUSE(fault, OFFSET, "at byte %zu: row %llu has %llu from %u on, and the save has %llu", s->offsets_at + 4 * (size_t)i,
                                 (ull)i, (ull)size, r->offset, (ull)s->energies);
        a->tiled = a->tiled && r->offset == a->accounted;
        a->accounted += size;
        list[(*count)++] = (range){r->offset, r->offset + size, i};
    }
    return 0;
}

/* Marks a row that shares energies with another, once; the first in row order is kept with the other. */
static void mark(save_audit *a, uint8_t *marked, const range *r, const range *other) {
    a->sharing += !marked[r->row];
    marked[r->row] = 1;
    if (a->sharing == 1 || r->row < a->first) {
        a->first = r->row;
        a->second = other->row;
    }
}

/* Ranges by their begins: what lies before the farthest end so far is shared with the range that has it. */
static uint64_t sweep(const save *s, const range *list, uint64_t count, uint8_t *marked, save_audit *a, icotable_fault *fault) {
    uint64_t end = 0, last = 0;
    const range *farthest = NULL;
    for (uint64_t k = 0; k < count; k++) {
        const range *r = &list[k];
        if (r->begin < end) {
            mark(a, marked, r, farthest);
            mark(a, marked, farthest, r);
        } else {
            a->unread += r->begin - end;
            a->unread_nans += count_nans(s, end, r->begin, &last);
        }
        if (count_nans(s, r->begin > end ? r->begin : end, r->end, &last) > 0)
            return IMPORT_REFUSE(fault, ENERGY, "at byte %zu: energy %llu, of row %llu", s->energies_at + 4 * (size_t)last, (ull)last, (ull)r->row);
        if (r->end > end) {
            end = r->end;
            farthest = r;
        }
    }
    a->unread += s->energies - end;
    a->unread_nans += count_nans(s, end, s->energies, &last);
    return 0;
}

uint64_t save_audit_rows(const save *s, save_audit *a, icotable_fault *fault) {
    *a = (save_audit){.tiled = true};
    range *list = malloc((size_t)s->rows * sizeof *list);
    uint8_t *marked = calloc((size_t)s->rows, 1);
    uint64_t count, number = 0;
    if (list == NULL || marked == NULL) {
        number = IMPORT_REFUSE(fault, NO_ROOM, "%llu rows", (ull)s->rows);
    } else {
        number = fill_ranges(s, list, &count, a, fault);
        if (number == 0) {
            qsort(list, (size_t)count, sizeof *list, by_begin);
            number = sweep(s, list, count, marked, a, fault);
        }
    }
    free(list);
    free(marked);
    return number;
}
