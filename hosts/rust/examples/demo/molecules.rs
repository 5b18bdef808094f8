//! The two molecules and the ion of the demonstration, with the same operations in the same order as hosts/c/molecules.c, so that both hosts
//! give the same bytes. Lengths are in angstrom and energies in kJ/mol.

struct Site {
    at: [f64; 3],
    charge: f64,
    sigma: f64,
}

const fn site(at: [f64; 3], charge: f64, sigma: f64) -> Site {
    Site { at, charge, sigma }
}

// an ampholyte: a positive head, a negative tail, two neutral sites between
const FIRST: [Site; 4] =
    [site([0.0, 0.0, 2.6], 1.0, 3.2), site([0.9, 0.0, 0.8], 0.0, 3.8), site([-0.9, 0.4, -0.8], 0.0, 3.8), site([0.0, 0.3, -2.6], -1.0, 3.2)];
// an anion with a polar end
const SECOND: [Site; 4] =
    [site([0.0, 0.0, 2.0], -1.0, 3.0), site([0.6, 0.5, 0.4], 0.0, 3.6), site([-0.6, 0.4, -1.0], 0.4, 3.4), site([0.2, -0.7, -2.0], -0.4, 3.2)];
const ION: Site = site([0.0, 0.0, 0.0], 1.0, 2.6);

// 1 / RT at 298.15 K
pub const BETA: f64 = 0.40339;
const EPSILON: f64 = 0.8;
const COULOMB: f64 = 17.7;
const SCREENING: f64 = 1.0 / 9.6;
// squared; sites that are nearer count as this far, so that no energy is a NaN
const NEAREST: f64 = 0.25;

/// Where the sites of a molecule are once it is turned.
pub type Pose = [[f64; 3]; 4];

// Turns p by the least rotation that takes the unit direction d to the pole, 1 up the axis and -1 down it; where d is
// the other pole, by half a turn around y.
fn to_pole(d: [f64; 3], pole: f64, p: [f64; 3]) -> [f64; 3] {
    let (along, x, y) = (pole * d[2], pole * d[1], -pole * d[0]);
    if along < -1.0 + 1e-12 {
        return [-p[0], p[1], -p[2]];
    }
    let part = (x * p[0] + y * p[1]) / (1.0 + along);
    [along * p[0] + y * p[2] + part * x, along * p[1] - x * p[2] + part * y, along * p[2] + x * p[1] - y * p[0]]
}

/// The first molecule by the least rotation that takes direction a up the axis.
pub fn first_pose(a: [f64; 3]) -> Pose {
    [0, 1, 2, 3].map(|k| to_pole(a, 1.0, FIRST[k].at))
}

/// The second by omega around the axis, then by the least rotation that takes direction b down it.
pub fn second_pose(b: [f64; 3], omega: f64) -> Pose {
    let (c, s) = (omega.cos(), omega.sin());
    [0, 1, 2, 3].map(|k| {
        let p = SECOND[k].at;
        to_pole(b, -1.0, [c * p[0] - s * p[1], s * p[0] + c * p[1], p[2]])
    })
}

fn site_energy(a: &Site, b: &Site, squared: f64) -> f64 {
    let near = if squared < NEAREST { NEAREST } else { squared };
    let sigma = 0.5 * (a.sigma + b.sigma);
    let ratio = sigma * sigma / near;
    let sixth = ratio * ratio * ratio;
    let mut energy = 4.0 * EPSILON * (sixth * sixth - sixth);
    let charges = a.charge * b.charge;
    if charges != 0.0 {
        let distance = near.sqrt();
        energy += COULOMB * charges * (-SCREENING * distance).exp() / distance;
    }
    energy
}

/// The energy with the second molecule r up the axis.
pub fn pair_energy(a: &Pose, b: &Pose, r: f64) -> f64 {
    let mut energy = 0.0;
    for (i, p) in a.iter().enumerate() {
        for (j, q) in b.iter().enumerate() {
            let (x, y, z) = (q[0] - p[0], q[1] - p[1], q[2] + r - p[2]);
            energy += site_energy(&FIRST[i], &SECOND[j], x * x + y * y + z * z);
        }
    }
    energy
}

/// The energy of the first molecule with the ion r up the axis.
pub fn ion_energy(a: &Pose, r: f64) -> f64 {
    let mut energy = 0.0;
    for (i, p) in a.iter().enumerate() {
        let (x, y, z) = (p[0], p[1], r - p[2]);
        energy += site_energy(&FIRST[i], &ION, x * x + y * y + z * z);
    }
    energy
}
