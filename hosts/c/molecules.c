#include "molecules.h"

#include <math.h>

typedef struct site {
    double at[3], charge, sigma;
} site;

/* an ampholyte: a positive head, a negative tail, two neutral sites between */
static const site first[SITES] = {
    {{0.0, 0.0, 2.6}, 1.0, 3.2},
    {{0.9, 0.0, 0.8}, 0.0, 3.8},
    {{-0.9, 0.4, -0.8}, 0.0, 3.8},
    {{0.0, 0.3, -2.6}, -1.0, 3.2},
};
/* an anion with a polar end */
static const site second[SITES] = {
    {{0.0, 0.0, 2.0}, -1.0, 3.0},
    {{0.6, 0.5, 0.4}, 0.0, 3.6},
    {{-0.6, 0.4, -1.0}, 0.4, 3.4},
    {{0.2, -0.7, -2.0}, -0.4, 3.2},
};

static const site ion = {{0.0, 0.0, 0.0}, 1.0, 2.6};

static const double EPSILON = 0.8;        /* of Lennard-Jones */
static const double COULOMB = 17.7;       /* 1389.35 kJ angstrom / mol over water's 78.5 */
static const double SCREENING = 1.0 / 9.6; /* Debye length at 0.1 mol/l */
static const double NEAREST = 0.25;       /* squared; sites that are nearer count as this far, so that no energy is a NaN */

/* Turns p by the least rotation that takes the unit direction d to the pole, 1 up the axis and -1 down it; where d is
 * the other pole, by half a turn around y. */
static void to_pole(const double d[3], double pole, const double p[3], double out[3]) {
    double along = pole * d[2], x = pole * d[1], y = -pole * d[0];
    if (along < -1 + 1e-12) {
        out[0] = -p[0];
        out[1] = p[1];
        out[2] = -p[2];
        return;
    }
    double part = (x * p[0] + y * p[1]) / (1 + along);
    out[0] = along * p[0] + y * p[2] + part * x;
    out[1] = along * p[1] - x * p[2] + part * y;
    out[2] = along * p[2] + x * p[1] - y * p[0];
}

pose first_pose(const double a[3]) {
    pose turned;
    for (int k = 0; k < SITES; k++)
        to_pole(a, 1, first[k].at, turned.at[k]);
    return turned;
}

pose second_pose(const double b[3], double omega) {
    pose turned;
    double c = cos(omega), s = sin(omega);
    for (int k = 0; k < SITES; k++) {
        const double *p = second[k].at, twisted[3] = {c * p[0] - s * p[1], s * p[0] + c * p[1], p[2]};
        to_pole(b, -1, twisted, turned.at[k]);
    }
    return turned;
}

static double site_energy(const site *a, const site *b, double squared) {
    double near = squared < NEAREST ? NEAREST : squared;
    double sigma = 0.5 * (a->sigma + b->sigma);
    double ratio = sigma * sigma / near, sixth = ratio * ratio * ratio;
    double energy = 4 * EPSILON * (sixth * sixth - sixth);
    double charges = a->charge * b->charge;
    if (charges != 0) {
        double distance = sqrt(near);
        energy += COULOMB * charges * exp(-SCREENING * distance) / distance;
    }
    return energy;
}

double pair_energy(const pose *a, const pose *b, double r) {
    double energy = 0;
    for (int i = 0; i < SITES; i++)
        for (int j = 0; j < SITES; j++) {
            double x = b->at[j][0] - a->at[i][0], y = b->at[j][1] - a->at[i][1], z = b->at[j][2] + r - a->at[i][2];
            energy += site_energy(&first[i], &second[j], x * x + y * y + z * z);
        }
    return energy;
}

/* -beta/6 * (COULOMB * charge * dipole * (1 + SCREENING*r) * exp(-SCREENING*r) / r^2)^2, its square multiplied out. */
far_field far_terms(void) {
    double charge = 0, dipole = 0;
    for (int i = 0; i < SITES; i++)
        charge += second[i].charge;
    for (int k = 0; k < 3; k++) {
        double along = 0;
        for (int i = 0; i < SITES; i++)
            along += first[i].charge * first[i].at[k];
        dipole += along * along;
    }
    double c = -BETA / 6 * COULOMB * charge * charge * dipole, kappa = 2 * SCREENING;
    return (far_field){{c, kappa * c, 0.25 * kappa * kappa * c}, {kappa, kappa, kappa}, COULOMB, {4, 3, 2}};
}

double ion_energy(const pose *a, double r) {
    double energy = 0;
    for (int i = 0; i < SITES; i++) {
        double x = a->at[i][0], y = a->at[i][1], z = r - a->at[i][2];
        energy += site_energy(&first[i], &ion, x * x + y * y + z * z);
    }
    return energy;
}

void pair_slab(double *energies, pose *turned, const double *directions, size_t n, double r, double omega) {
    for (size_t i = 0; i < n; i++) {
        turned[i] = first_pose(directions + 3 * i);
        turned[n + i] = second_pose(directions + 3 * i, omega);
    }
    for (size_t i = 0; i < n; i++)
        for (size_t j = 0; j < n; j++)
            energies[i * n + j] = pair_energy(&turned[i], &turned[n + j], r);
}

void ion_slab(double *energies, const double *directions, size_t n, double r) {
    for (size_t i = 0; i < n; i++) {
        pose turned = first_pose(directions + 3 * i);
        energies[i] = ion_energy(&turned, r);
    }
}
