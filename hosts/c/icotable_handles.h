/* Handles: a build and a table that own their lists, their meshes and their files, for a host that does not want to lend
 * every list itself. Not proved. What they do with tables they leave to the library's calls, which stay the proved face
 * (icotable.h); the handles allocate, open, map, name and write.
 *
 *     icotable_fault fault;
 *     icotable_build *b = icotable_build_open(&settings, &fault);            a build, with a journal or without
 *     icotable_build_set(b, ri, oi, energies, count); icotable_build_settle(b, ri);
 *     icotable_build_write(b, "table.icotable"); icotable_build_close(b);
 *
 *     icotable_reader *t = icotable_reader_open("table.icotable", NULL, &fault);
 *     icotable_reader_energy(t, r, omega, ax, ay, az, bx, by, bz); icotable_reader_close(t);
 *
 * Numbers. Every call answers 0 or a number: the library's, one of icotable_journal.h, icotable_mesh_file.h or
 * icotable_seal.h, or one of those below. icotable_handle_words has any of them in words. A call that gives a handle gives
 * NULL where it is refused, and fills the fault with the number, its words and the place. A handle that is NULL is refused by
 * every call, and closing it does nothing.
 *
 * Threads. One thread at a time uses a build; calls that take it as const may run at once while no other call does. Any number
 * of threads use one reader at once, but for its close.
 *
 * Floating point. Builds and readers are refused where the environment of the calling thread is not the one that the library
 * needs (environment.h). It is asked when they are opened, and not again. The threads that icotable_reader_energies starts
 * begin with the environment of the thread that calls, as Linux has it.
 *
 * Link with libicotable: cc host.c $(pkg-config --cflags --libs icotable). */
#ifndef ICOTABLE_HANDLES_H
#define ICOTABLE_HANDLES_H

#include "icotable_fault.h"
#include "icotable_journal.h"
#include "icotable_mesh_file.h"
#include "icotable_seal.h"
#include "mesh.h"

#ifdef __cplusplus
extern "C" {
#endif

/* What a handle refuses with, above all other numbers. */
#define ICOTABLE_HANDLE_REFUSALS(X) \
    X(261, NO_HANDLE, "there is no handle: opening it was refused, or it was closed") \
    X(262, OTHER_KIND, "the call is for the other kind of table: of two molecules, or against an atom") \
    X(263, NO_ROOM, "there is not enough memory") \
    X(264, ENVIRONMENT, "the floating-point environment is not the one that the library needs") \
    X(265, NO_JOURNAL, "a build is resumed from its journal, and no journal was named") \
    X(266, TROUBLE, "the table cannot be opened or read") \
    X(267, NOT_WRITTEN, "the table could not be written to disk: what was there stays") \
    X(268, LEVEL_MISSING, "the meshes do not have all levels of the table") \
    X(269, OTHER_MESHES, "the meshes are not those that the table was built over, by its seal") \
    X(270, NO_SEAL, "there is a mesh file beside the table and no seal that says whether it is the table's: name the mesh file") \
    X(271, OTHER_TABLE, "the seal is of the other kind of table, or of another number of levels")

#define ICOTABLE_HANDLE_REFUSAL_(number, name, words) ICOTABLE_HANDLE_##name = number,
enum icotable_handle_refusal { ICOTABLE_HANDLE_REFUSALS(ICOTABLE_HANDLE_REFUSAL_) ICOTABLE_HANDLE_ACCEPTED = 0 };
#undef ICOTABLE_HANDLE_REFUSAL_

/* The version of the library that is linked, as ICOTABLE_VERSION of the header that it was compiled with. */
const char *icotable_version(void);

/* Any number in words: of the library, the meshes' maker, a journal, a slab file, a mesh file, a seal or a handle. */
const char *icotable_handle_words(uint64_t number);

/* ---- builds */

typedef struct icotable_build icotable_build;

typedef struct icotable_build_settings {
    int atom;            /* 1: against an atom; grid.omega_step is not read then */
    icotable_grid grid;  /* n_r and n_omega are not read */
    uint64_t top;        /* the top level */
    const char *journal; /* its name, or NULL: the build is in memory alone and ends with the process */
    const char *meshes;  /* the name of a mesh file, or NULL: the library's own meshes */
    unsigned flags;      /* a sum of icotable_journal_flag, or 0 */
    const icotable_meshes *lent; /* meshes in memory, or NULL. Their lists stay until the build is closed; meshes is not read */
    const char *label;   /* your words for what is sampled, or NULL: none at begin, any at resume (icotable_journal.h) */
} icotable_build_settings;

/* A build that begins; one that resumes from its journal; or one that resumes where the journal is there and begins it where it
 * is not. The guard of icotable_journal.h is on, with a journal or without, unless a flag says otherwise. */
icotable_build *icotable_build_begin(const icotable_build_settings *s, icotable_fault *fault);
icotable_build *icotable_build_resume(const icotable_build_settings *s, icotable_fault *fault);
icotable_build *icotable_build_open(const icotable_build_settings *s, icotable_fault *fault);

/* Gives slab (ri, oi) its energies, n*n of the current level, against an atom n and oi 0; and settles a slice. Where there is
 * a journal they are answered once they are on disk. */
uint64_t icotable_build_set(icotable_build *b, uint64_t ri, uint64_t oi, const double *energies, size_t count);
icotable_journal_settled icotable_build_settle(icotable_build *b, uint64_t ri);

/* The bins, the top level and the current one; the slabs in all and those that were set, the slices that were settled;
 * the length of the table's file, were it written now; what comes next, from contact outwards; and whether the level
 * was lost inside the wall. All 0 of NULL. */
typedef struct icotable_progress {
    uint64_t n_r, n_omega, top, level, slabs, set, settled, length;
    enum icotable_journal_step step;
    uint64_t ri, oi;
    int level_lost;
} icotable_progress;
icotable_progress icotable_build_progress(const icotable_build *b);

/* 1 where the level dropped before the first interpolated slice, as it does inside a wall, whose weights are flat where
 * they are nearly 0: the first settled slice that is interpolated or, where none is, the first one with a mesh, is
 * below the top level; or no slice has a mesh yet, and one whose weights are below a half dropped the level. The well
 * then has a coarser mesh than the top. The remedy is a larger rmin. 0 of NULL and of a journal that is closed. */
int icotable_level_lost(const icotable_journal *j);

/* The vertices of a level, three doubles each, and how many they are; NULL and 0 above the top level. They stay until the
 * build is closed. */
const double *icotable_build_vertices(const icotable_build *b, uint64_t level, uint64_t *count);

/* Writes path.mesh where the meshes are not the library's own, then the table to path, then its seal to path.meta; each under
 * a temporary name, brought to disk and renamed, in the place of one that is there. A kill in between leaves the table before,
 * or one that icotable_reader_open refuses until it is written again. The table is made in memory first, and the seal reads
 * the journal, all of it. */
uint64_t icotable_build_write(icotable_build *b, const char *path);

/* The same with a long-range tail, of two molecules alone: prefactor times the sum of count terms (icotable_write_tail). */
typedef struct icotable_terms {
    const double *coefficients, *kappas;
    const uint32_t *powers;
    size_t count;
    double prefactor;
} icotable_terms;
uint64_t icotable_build_write_tail(icotable_build *b, const char *path, const icotable_terms *tail);

/* Writes a table that the host has in memory, as icotable_build_write does: s is what it was built with. The library looks
 * the table over first, and refuses one that it does not read; 271 where it is of another kind or number of levels than s. */
uint64_t icotable_table_save(const icotable_build_settings *s, const uint8_t *table, size_t length, const char *path,
                             icotable_fault *fault);

/* The builder, its lists and counts, to look at, or to lend to the library's own calls that alter nothing. */
const icotable_journal *icotable_build_state(const icotable_build *b);

/* The last refusal in words, with its bins or its place. */
const char *icotable_build_said(const icotable_build *b);
void icotable_build_close(icotable_build *b);

/* ---- tables */

typedef struct icotable_reader icotable_reader;

/* Maps the file (mmap, read only), lets the library look it over, all of it, and makes the meshes and locators of its levels.
 * meshes: the name of a mesh file; or NULL: path.mesh where the seal path.meta says so, else the library's own. Where there is
 * a seal, the table has to be the sealed one, to the byte, and the meshes those of the seal. A table without a seal is opened,
 * too, and then nothing tells whether the meshes are those that it was built over.
 *
 * The file stays as it is while it is open: where it is replaced by another of its name, the reader goes on with what it
 * opened; where another program writes into it, readings change; and where it is cut short, a reading beyond its end ends the
 * process (SIGBUS). icotable_build_write and the tools never write into a file: they rename. */
icotable_reader *icotable_reader_open(const char *path, const char *meshes, icotable_fault *fault);

/* The same with meshes in memory, whose lists and locators stay until the reader is closed. Where there is a seal, they have to
 * be those of the seal. */
icotable_reader *icotable_reader_open_over(const char *path, const icotable_meshes *meshes, icotable_fault *fault);

/* A reader of a table that is in memory, with such meshes; NULL: the library's own. The bytes stay as they are until it is closed.
 * No seal is asked. */
icotable_reader *icotable_reader_over(const uint8_t *file, size_t length, const icotable_meshes *meshes, icotable_fault *fault);
void icotable_reader_close(icotable_reader *t);

/* Whose table it is, what read answered for it (NULL for the other kind), its bytes and its meshes: for the library's own
 * calls. They stay until the reader is closed. */
int icotable_reader_atom(const icotable_reader *t);
const icotable_table *icotable_reader_table(const icotable_reader *t);
const icotable_atom_table *icotable_reader_atom_table(const icotable_reader *t);
const uint8_t *icotable_reader_file(const icotable_reader *t, size_t *length);
const icotable_meshes *icotable_reader_meshes(const icotable_reader *t);

/* icotable_reading, icotable_boltzmann, icotable_tail and icotable_span of this table. */
icotable_value icotable_reader_energy(const icotable_reader *t, double r, double omega, double ax, double ay, double az, double bx, double by, double bz);
icotable_value icotable_reader_boltzmann(const icotable_reader *t, double r, double omega, double ax, double ay, double az, double bx, double by, double bz,
                                         double beta);
icotable_value icotable_reader_tail(const icotable_reader *t, double r);
icotable_spanned icotable_reader_span(const icotable_reader *t, double low, double high, double omega);

/* icotable_atom_reading and icotable_atom_boltzmann of this table. */
icotable_energy icotable_reader_atom_energy(const icotable_reader *t, double r, double x, double y, double z);
icotable_energy icotable_reader_atom_boltzmann(const icotable_reader *t, double r, double x, double y, double z, double beta);

/* Where a distance lies, as a reading compares it: below rmin, in the table's distances (both ends belong to them), or
 * above its rmax. Every reading gives 0 with number 0 where it is nearer or beyond: a simulation that takes a nearer
 * pair for one that does not interact lets its molecules overlap. Nowhere: a NaN, which a reading refuses with 18, or t
 * is NULL. */
enum icotable_place { ICOTABLE_NOWHERE, ICOTABLE_NEARER, ICOTABLE_INSIDE, ICOTABLE_BEYOND };
enum icotable_place icotable_reader_place(const icotable_reader *t, double r);

/* The same of many distances, in places one of the above each. */
void icotable_reader_places(const icotable_reader *t, const double *r, size_t count, uint8_t *places);

/* Many poses: eight doubles each (r, omega, a, b), against an atom four (r, direction). beta: NULL for plain readings, else the
 * one of weighted ones. numbers: one a pose. answers: three a pose (energy, distance_a, distance_b), against an atom one; of a
 * refused pose 0. Each pose is answered as the single reading answers it, to the bit, whatever the threads.
 *
 * threads: 0 and 1 are the caller's own alone; with more, the poses are split into as many runs of equal length, and no thread
 * is started for fewer than 256 poses. The caller's own thread does the part of one that cannot be started. Gives how many
 * poses were answered: all of them, or 0 where t is NULL. */
uint64_t icotable_reader_energies(const icotable_reader *t, const double *poses, size_t poses_count, const double *beta, uint64_t *numbers, double *answers,
                                  unsigned threads);

/* The same of poses whose parts are lists of their own, for a host that has them so: r and omega a double each, a and b three; against
 * an atom r and a alone, which is the direction. Each is where the first pose's is, at any byte, and its stride how many bytes on the
 * next one's, of any sign, 0 where all poses have the same. energies: one a pose; distances: two a pose, or NULL, and not looked at
 * against an atom; numbers: one a pose, or NULL. Gives how many poses are refused: all of them where t is NULL. */
typedef struct icotable_columns {
    const void *r, *omega, *a, *b;
    ptrdiff_t r_stride, omega_stride, a_stride, b_stride;
} icotable_columns;
uint64_t icotable_reader_columns(const icotable_reader *t, const icotable_columns *poses, size_t poses_count, const double *beta, double *energies,
                                 double *distances, uint64_t *numbers, unsigned threads);

/* A slab's row. kind: 0 Scalar, 1 Repulsive, 2 Mesh read at the nearest vertices, 3 Mesh interpolated. level and offset (of its
 * first energy in the table's): a Mesh row's; 0 of any other. scalar: a Scalar row's energy; 0 of any other. Refused with 8
 * where a bin is not below its count; against an atom oi is 0. */
typedef struct icotable_row {
    uint64_t kind, level, offset;
    double scalar;
} icotable_row;
uint64_t icotable_reader_row(const icotable_reader *t, uint64_t ri, uint64_t oi, icotable_row *row);

#ifdef __cplusplus
}
#endif

#endif
