/* What the tests of handles share (handles_common.c), and the tests themselves. */
#ifndef HANDLES_TEST_H
#define HANDLES_TEST_H

#include "icotable_handles.h"

enum { N = 42, PER = N * N };
typedef unsigned long long ull;

extern int checks, wrong;
extern const char *folder;
extern double energies[PER];

/* A countdown to 0 kills the process at an fsync or rename; one to 0 lets that pthread_create and all later ones fail. -1: never. */
extern int countdown, threads_fail_from;

void is(const char *what, uint64_t wanted, uint64_t found);
void says(const char *what, const char *words, const char *said);
/* A refusal: its number, and words of its place. */
void faults(const char *what, const void *handle, uint64_t number, const char *words, const icotable_fault *fault);
/* A name in the folder; good for eight calls. */
const char *at(const char *name);

/* A small build of a kind, top level 1. Against an atom n_omega is 1. */
icotable_build_settings settings_of(int atom);
/* A slab's energies at this place of the list energies, and how many there are at a level. */
void sample(uint64_t ri, uint64_t oi, size_t count);
size_t room_of(int atom, uint64_t level);
/* What comes next is done; 1 where something was, else 0. */
int step(icotable_build *b, int atom);
icotable_build *open_build(icotable_build *(*how)(const icotable_build_settings *, icotable_fault *), const icotable_build_settings *s);
/* All that is missing, then the table, then closed. */
void finish(icotable_build *b, int atom, const char *path);
icotable_reader *open_reader(const char *path, const char *meshes);
void same_file(const char *what, const char *one, const char *other);
/* A copy of a file, or of its first bytes where cut is not -1. */
void copy(const char *from, const char *to, long cut);

void test_builds(void);
void test_files(void);
void test_kills(unsigned seed);
void test_readings(void);
void test_places(void);

#endif
