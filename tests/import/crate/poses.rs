// Where the Rust's tables are looked up, and its answers: a line a pose, r, omega, a and b or, against an atom, r and the
// direction, then the energy, each as the bits of an f64.
use crate::adaptive::{MeshLevel, Table3DAdaptive, Table6DAdaptive};
use crate::lookup::{Lookup3D, Lookup6D};
use crate::meshes::Random;
use crate::Vector3;
use std::fmt::Write;

fn line(numbers: &[f64]) -> String {
    let words: Vec<String> = numbers.iter().map(|x| format!("{:016X}", x.to_bits())).collect();
    words.join(" ") + "\n"
}

// Between the bins and beyond both ends; now and then an end or the middle between two bins.
fn distance(rmin: f64, rmax: f64, dr: f64, random: &mut Random) -> f64 {
    match random.below(12) {
        0 => rmin,
        1 => rmax,
        2 => rmin + dr / 2.0,
        _ => (rmin + rmax) / 2.0 + ((rmax - rmin) / 2.0 + 0.3 * dr) * random.unit(),
    }
}

// Of any length; now and then a vertex or a point between two.
fn direction(levels: &[MeshLevel], random: &mut Random) -> Vector3 {
    let level = &levels[random.below(levels.len())];
    let i = random.below(level.n_vertices);
    let near = level.neighbors[i][0] as usize;
    match random.below(8) {
        0 => Vector3::from(level.vertices[i]),
        1 => Vector3::from(level.vertices[i]) + Vector3::from(level.vertices[near]),
        _ => Vector3::from(random.direction()),
    }
}

pub fn of_pair(t: &Table6DAdaptive<f32>, count: usize, random: &mut Random) -> String {
    let mut text = String::from("# The energies are those of the Rust's lookup (tests/import/make): r, omega, a, b, energy\n");
    for _ in 0..count {
        let (r, omega) = (distance(t.rmin, t.rmax, t.dr, random), 7.0 * random.unit());
        let (a, b) = (direction(&t.levels, random), direction(&t.levels, random));
        let energy = Lookup6D::lookup(t, r, omega, &a, &b, None);
        text.write_str(&line(&[r, omega, a.x, a.y, a.z, b.x, b.y, b.z, energy])).unwrap();
    }
    text
}

pub fn of_atom(t: &Table3DAdaptive<f32>, count: usize, random: &mut Random) -> String {
    let mut text = String::from("# The energies are those of the Rust's lookup (tests/import/make): r, direction, energy\n");
    for _ in 0..count {
        let (r, d) = (distance(t.rmin, t.rmax, t.dr, random), direction(&t.levels, random));
        let energy = Lookup3D::lookup(t, r, &d, None);
        text.write_str(&line(&[r, d.x, d.y, d.z, energy])).unwrap();
    }
    text
}
