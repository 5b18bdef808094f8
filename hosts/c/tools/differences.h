/* What differs between two tables, counted: for diff, in words and as JSON. */
#ifndef DIFFERENCES_H
#define DIFFERENCES_H

#include "tools.h"

/* Why a slab's row is another: the first of these that holds. Energies are those of Mesh rows of one kind and level. */
enum cause { SAME, OTHER_KIND, OTHER_LEVEL, OTHER_SCALAR, OTHER_ENERGIES, CAUSES };
const char *cause_name(enum cause c);

typedef struct row_difference {
    enum cause cause;
    bool compared; /* both are Mesh rows of one level, so that their energies stand side by side */
    uint64_t energies, differing;
    double most;
} row_difference;
row_difference row_differs(const table_file *f, const table_file *g, uint64_t slab);
/* How far two energies are apart; infinite where one of them is, unless they are equal. */
double apart(float x, float y);

/* A setting, as a number or, where it is a count, as counts. */
enum { SETTINGS = 6 };
typedef struct setting {
    const char *name;
    bool count, differs;
    double number[2];
    uint64_t counts[2];
} setting;

typedef struct differences {
    bool kinds;                  /* of two kinds: then nothing else is counted */
    setting settings[SETTINGS];
    bool settings_differ, slabs_match, meshes_differ; /* the last is the caller's to say */
    uint64_t slabs[CAUSES], differing, first; /* slabs by cause; first of those that differ */
    uint64_t energies, energies_differing, most_slab;
    double most;
    bool tails, tail_differs, prefactor_differs; /* tails: one of them has a tail */
    uint64_t terms_differing;
} differences;
differences differences_of(const table_file *f, const table_file *g);
bool same_term(const table_file *f, const table_file *g, uint64_t i);

/* Which slabs are listed: at most so many, of one distance bin or of all. */
typedef struct listing {
    uint64_t most, slice;
    bool sliced;
} listing;
/* The first slab that is listed, and the one behind the last. */
void listed_slabs(const listing *l, const table_file *f, uint64_t *first, uint64_t *end);

void json_same(const table_file *f, const table_file *g, bool other_meshes);
void json_differences(const table_file *f, const table_file *g, const differences *d, const listing *l);

#endif
