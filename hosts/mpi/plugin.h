/* The energy function of icotable_mpi: a shared object that every rank loads (dlopen). It has icotable_plugin_energies, and may
 * have the other two. hosts/mpi/molecules_plugin.c is an example.
 *
 *   cc -std=c11 -O2 -shared -fPIC -o energies.so energies.c
 *
 * The table is the same, byte for byte, whatever the number of ranks, as long as a slab's energies are the same bits in every
 * rank and in every run: no clock, no seed of the rank's own, no sum whose order threads decide. The C library's exp, sin and
 * so on may differ in a last bit between kinds of processors; ranks on several kinds can then give another table than one of
 * them does. Whatever the energies are, the table is that of the calls in the journal.
 *
 * A plug-in may use threads of its own. It makes no MPI calls, and leaves the floating-point environment as it found it
 * (environment.h): the host looks after each call, and stops where it was altered. */
#ifndef ICOTABLE_PLUGIN_H
#define ICOTABLE_PLUGIN_H

#include <stdint.h>

#ifdef __cplusplus
extern "C" {
#endif

/* What a failing call may say goes into a list of so many bytes, a C string. */
enum { ICOTABLE_PLUGIN_SAID = 256 };

/* The slab that is asked for. Later versions may have more behind these. */
typedef struct icotable_plugin_slab {
    int atom;                 /* 0 of two molecules; 1 against an atom, where oi and omega are 0 */
    uint64_t ri, oi, level;   /* its bins, and the level of its mesh */
    double r, omega;          /* rmin + ri * dr, and oi * omega_step */
    uint64_t n;               /* the vertices of the level */
    const double *directions; /* x, y, z of each vertex, of length 1 */
} icotable_plugin_slab;

/* Fills the energies: of two molecules count is n * n, and energies[i * n + j] is that with a at direction i and b at
 * direction j, which with r and omega stand for the pose of docs/GUIDE.md, What a table is; against an atom count is n,
 * and energies[i] is direction i. Entries are NaN beforehand, and a NaN that is left is refused (10). 0, or a number of
 * the plug-in's own, which ends the job: its journal resumes at this slab. */
int icotable_plugin_energies(void *data, const icotable_plugin_slab *slab, double *energies, uint64_t count, char *said);

/* Called once in every rank, before anything is sampled, with the words behind "--" on the command line. What it leaves in
 * *data (NULL beforehand) is handed to the other calls. Where there are several ranks, rank 0 samples nothing. 0, or a number
 * that ends the job. */
int icotable_plugin_start(int rank, int ranks, int count, char **words, void **data, char *said);

/* Called once in every rank where the start was good, at the end of a job; not where a job is aborted. */
void icotable_plugin_finish(void *data);

#ifdef __cplusplus
}
#endif

#endif
