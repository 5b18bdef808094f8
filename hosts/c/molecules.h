/* Two small molecules and an ion for the demonstration: rigid, with a few sites that carry a charge and a Lennard-Jones
 * size. Lengths are in angstrom and energies in kJ/mol. */
#ifndef MOLECULES_H
#define MOLECULES_H

#include <stddef.h>
#include <stdint.h>

enum { SITES = 4 };

/* 1 / RT at 298.15 K. */
#define BETA 0.40339

/* Where the sites of a molecule are once it is turned. */
typedef struct pose {
    double at[SITES][3];
} pose;

/* The poses that directions a and b, of length 1, and omega stand for, as the Rust's `orient` has them (docs/GUIDE.md,
 * What a table is), seen with the line between the molecules along z: the first molecule by the least rotation that
 * takes a up the axis; the second by omega around the axis, then by the least rotation that takes b down it. */
pose first_pose(const double a[3]);
pose second_pose(const double b[3], double omega);

/* The energy with the second molecule r up the axis. */
double pair_energy(const pose *first, const pose *second, double r);

/* What is left of it far away, over all orientations: the anion's charge and the ampholyte's dipole, screened, each
 * orientation by its Boltzmann weight. factor times the sum of three terms c * exp(-kappa*r) / r^power. */
enum { FAR_TERMS = 3 };
typedef struct far_field {
    double coefficients[FAR_TERMS], kappas[FAR_TERMS], factor;
    uint32_t powers[FAR_TERMS];
} far_field;
far_field far_terms(void);

/* The energy of the first molecule with the ion r up the axis. */
double ion_energy(const pose *first, double r);

/* A slab's energies over n directions, three coordinates each: energies[i * n + j] with a at direction i and b at
 * direction j, their turns in a list of 2n poses; or energies[i] with the ion in direction i. */
void pair_slab(double *energies, pose *turned, const double *directions, size_t n, double r, double omega);
void ion_slab(double *energies, const double *directions, size_t n, double r);

#endif
