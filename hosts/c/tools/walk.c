/* The questions that read puts, walked once more to name the byte. The verdict and its number are the library's; this is a
 * hint, and it is shown only where it comes to the same number. */
#include "tools.h"

#include <math.h>
#include <stdarg.h>
#include <string.h>

static const double TAU = 6.283185307179586;
static const uint32_t UNUSED = 0xFFFFFFFF;

/* Where each section's items begin, and how many there are; whose table it is taken for, and for whom it is opened.
 * Without a sixth section it has no items. */
typedef struct sections {
    bool atom, viewer;
    size_t at[6], count[6];
} sections;

__attribute__((format(printf, 3, 4))) static place found(uint64_t number, size_t byte, const char *why, ...) {
    place p = {.number = number, .byte = byte};
    va_list more;
    va_start(more, why);
    vsnprintf(p.why, sizeof p.why, why, more);
    va_end(more);
    return p;
}

static const place nothing = {0};

/* Behind the fifth section: nothing; or, of two molecules, at least one term and the prefactor. */
static place walk_sixth(const uint8_t *bytes, size_t count, size_t at, sections *s) {
    if (at == count)
        return nothing;
    if (s->atom)
        return found(13, at, "%zu bytes follow the last section", count - at);
    if (count - at < 4)
        return found(13, at, "%zu bytes follow section 5 (energies), which are no count of section 6 (terms)", count - at);
    size_t terms = u32_of(bytes + at), behind = at + 4 + 20 * terms;
    if (terms == 0)
        return found(13, at, "the count of section 6 (terms) is 0, where a table without terms has no section 6");
    if ((count - at - 4) / 20 < terms)
        return found(13, at, "section 6 (terms) has %zu items of 20 bytes by its count, and the file ends %zu bytes behind it", terms, count - at - 4);
    if (count - behind < 8)
        return found(13, behind, "%zu bytes follow section 6 (terms), where the prefactor has 8", count - behind);
    if (count - behind > 8)
        return found(13, behind + 8, "%zu bytes follow the prefactor", count - behind - 8);
    s->at[5] = at + 4;
    s->count[5] = terms;
    return nothing;
}

static place walk_sections(const uint8_t *bytes, size_t count, sections *s) {
    static const size_t width[5] = {8, 4, 4, 10, 4};
    static const char *const name[5] = {"grid", "bins", "levels", "rows", "energies"};
    const size_t wanted[2] = {s->atom ? 2 : 3, s->atom ? 1 : 2};
    size_t at = 0;
    place second = nothing;
    if (count == 0)
        return found(13, 0, "the file is empty");
    for (int k = 0; k < 5; k++) {
        if (count - at < 4)
            return found(13, at, "the file ends before the count of section %d (%s)", k + 1, name[k]);
        size_t items = u32_of(bytes + at);
        if (k < 2 && items != wanted[k] && second.number == 0)
            second = found(13, at, "the count of section %d (%s) is %zu, where %s has %zu: not a table of this library, or damaged", k + 1, name[k], items,
                           table_words(s->atom), wanted[k]);
        s->at[k] = at + 4;
        s->count[k] = items;
        if ((count - at - 4) / width[k] < items)
            return second.number != 0 ? second
                                      : found(13, at, "section %d (%s) has %zu items of %zu bytes by its count, and the file ends %zu bytes behind it", k + 1, name[k], items,
                                              width[k], count - at - 4);
        at += 4 + width[k] * items;
    }
    return second.number != 0 ? second : walk_sixth(bytes, count, at, s);
}

/* To a u64: toward zero, saturating, a NaN to 0. */
static uint64_t truncated(double x) {
    return !(x > 0) ? 0 : x >= 18446744073709551616.0 ? UINT64_MAX : (uint64_t)x;
}

static place walk_dihedrals(const uint8_t *bytes, const sections *s) {
    double step = f64_of(bytes + s->at[0] + 16);
    uint32_t n_omega = u32_of(bytes + s->at[1] + 4);
    if (n_omega < 1 || n_omega > 65535)
        return found(14, s->at[1] + 4, "%u dihedral bins", n_omega);
    if (n_omega != truncated(TAU / step + 0.5))
        return found(14, s->at[1] + 4, "%u dihedral bins, where the step %g gives %llu", n_omega, step, (unsigned long long)truncated(TAU / step + 0.5));
    return nothing;
}

static place walk_bins(const uint8_t *bytes, const sections *s) {
    double rmin = f64_of(bytes + s->at[0]), dr = f64_of(bytes + s->at[0] + 8);
    uint32_t n_r = u32_of(bytes + s->at[1]), n_omega = s->atom ? 1 : u32_of(bytes + s->at[1] + 4);
    if (n_r < 1 || n_r > 65535)
        return found(14, s->at[1], "%u distance bins", n_r);
    place p = s->atom ? nothing : walk_dihedrals(bytes, s);
    if (p.number != 0)
        return p;
    double rmax = fma(n_r, dr, rmin);
    if (n_r != truncated((rmax - rmin) / dr + 0.5))
        return found(14, s->at[1], "%u distance bins, which do not come out the same with the table's own rmax %g", n_r, rmax);
    uint64_t slabs = (uint64_t)n_r * n_omega;
    if (slabs > 4294967295 / per_level(s->atom, s->count[2] - 1))
        return found(14, s->at[1], "%llu slabs of the top level hold too many energies", (unsigned long long)slabs);
    if (s->count[3] != slabs)
        return found(14, s->at[3] - 4, "%zu rows, where the bins give %llu", s->count[3], (unsigned long long)slabs);
    return nothing;
}

static place walk_grid(const uint8_t *bytes, const sections *s) {
    static const char *const name[3] = {"rmin", "dr", "the omega step"};
    for (size_t k = 0; k < s->count[0]; k++) {
        double x = f64_of(bytes + s->at[0] + 8 * k);
        if (!isfinite(x) || (k > 0 && !(x > 0)))
            return found(14, s->at[0] + 8 * k, "%s is %g", name[k], x);
    }
    if (s->count[2] < 1 || s->count[2] > 16)
        return found(14, s->at[2] - 4, "%zu levels", s->count[2]);
    place p = walk_bins(bytes, s);
    if (p.number != 0)
        return p;
    for (size_t m = 0; m < s->count[2]; m++) {
        uint32_t n = u32_of(bytes + s->at[2] + 4 * m);
        if (n != icotable_vertices(m))
            return found(14, s->at[2] + 4 * m, "level %zu has %u vertices, where it is to have %llu", m, n, (unsigned long long)icotable_vertices(m));
    }
    return nothing;
}

static place walk_bound(const uint8_t *bytes, const sections *s) {
    (void)bytes;
    if (s->viewer && s->count[2] > 4)
        return found(24, s->at[2] - 4, "%zu levels, where a viewer opens at most 4", s->count[2]);
    if (s->viewer && s->count[3] > 4096)
        return found(24, s->at[3] - 4, "%zu rows, where a viewer opens at most 4096", s->count[3]);
    return nothing;
}

bool is_nan(uint32_t bits) {
    return (bits & 0x7FFFFFFF) > 0x7F800000;
}

static place walk_row(const uint8_t *bytes, size_t at, size_t slab, size_t levels) {
    unsigned kind = bytes[at], level = bytes[at + 1];
    uint32_t offset = u32_of(bytes + at + 2), scalar = u32_of(bytes + at + 6);
    if (kind > INTERPOLATED)
        return found(15, at, "row %zu has the unknown kind %u", slab, kind);
    if (kind >= NEAREST && level >= levels)
        return found(15, at + 1, "row %zu has level %u, and the table has %zu levels", slab, level, levels);
    if (kind < NEAREST && level != 0)
        return found(15, at + 1, "row %zu (%s) has level %u in a field that is not used", slab, kind_words(kind), level);
    if (kind < NEAREST && offset != UNUSED)
        return found(15, at + 2, "row %zu (%s) has an offset in a field that is not used", slab, kind_words(kind));
    if (kind != SCALAR && scalar != 0)
        return found(15, at + 6, "row %zu (%s) has a scalar in a field that is not used", slab, kind_words(kind));
    if (kind == SCALAR && is_nan(scalar) && scalar != TABLE_NAN)
        return found(15, at + 6, "row %zu has the NaN %08X, and 7FC00000 is the one that a table holds", slab, scalar);
    return nothing;
}

static place walk_rows(const uint8_t *bytes, const sections *s) {
    for (size_t i = 0; i < s->count[3]; i++) {
        place p = walk_row(bytes, s->at[3] + 10 * i, i, s->count[2]);
        if (p.number != 0)
            return p;
    }
    return nothing;
}

static place walk_tiling(const uint8_t *bytes, const sections *s) {
    uint64_t next = 0;
    for (size_t i = 0; i < s->count[3]; i++) {
        size_t at = s->at[3] + 10 * i;
        if (bytes[at] < NEAREST)
            continue;
        if (u32_of(bytes + at + 2) != next)
            return found(16, at + 2, "row %zu has offset %u, where the rows before it end at %llu", i, u32_of(bytes + at + 2), (unsigned long long)next);
        next += per_level(s->atom, bytes[at + 1]);
    }
    if (next != s->count[4])
        return found(16, s->at[4] - 4, "%zu energies, where the rows hold %llu", s->count[4], (unsigned long long)next);
    return nothing;
}

static place walk_energies(const uint8_t *bytes, const sections *s) {
    for (size_t i = 0; i < s->count[4]; i++)
        if (is_nan(u32_of(bytes + s->at[4] + 4 * i)))
            return found(17, s->at[4] + 4 * i, "energy %zu is a NaN", i);
    return nothing;
}

static place walk_terms(const uint8_t *bytes, const sections *s) {
    static const char *const name[2] = {"coefficient", "kappa"};
    size_t at = s->at[5];
    for (size_t i = 0; i < s->count[5]; i++, at += 20) {
        for (size_t k = 0; k < 2; k++)
            if (!isfinite(f64_of(bytes + at + 8 * k)))
                return found(23, at + 8 * k, "the %s of term %zu is %g", name[k], i, f64_of(bytes + at + 8 * k));
        if (u32_of(bytes + at + 16) > 2147483647)
            return found(23, at + 16, "the power of term %zu is %u, and 2147483647 is the largest", i, u32_of(bytes + at + 16));
    }
    if (s->count[5] > 0 && !isfinite(f64_of(bytes + at)))
        return found(23, at, "the prefactor is %g", f64_of(bytes + at));
    return nothing;
}

place find_place(const uint8_t *bytes, size_t count, bool atom, bool viewer) {
    static place (*const walks[])(const uint8_t *, const sections *) = {walk_grid, walk_bound, walk_rows, walk_tiling, walk_energies, walk_terms};
    sections s = {.atom = atom, .viewer = viewer};
    place p = walk_sections(bytes, count, &s);
    for (size_t k = 0; p.number == 0 && k < sizeof walks / sizeof walks[0]; k++)
        p = walks[k](bytes, &s);
    return p;
}
