// A table of two molecules, as a program of the comparison mounts it under the name `shape`; atom.rs is the other one. The Rust's builder and table, the library's calls, and what depends on the
// dihedral angle and the second direction.
use crate::average::{exponential, logarithm};
use crate::builder;
pub use crate::builder::AdaptiveBuilder as RustBuilder;
use crate::icotable::{self, Query};
pub use crate::icotable::{atom_read as other_read, boltzmann, AtomTable as OtherTable};
use crate::lines::bits;
use crate::oracle::Vector3;
use crate::rust;

#[path = "pair_calls.rs"]
mod calls;
pub use calls::*;
#[path = "word_rows.rs"]
pub mod rows;

pub type RustTable = rust::Table6DAdaptive<f32>;

pub const PAIR: bool = true;
pub const NAME: &str = "tables";
// how many floats and how many counts the file begins with
pub const HEADS: [usize; 2] = [3, 2];
// of the settings that are drawn, and how many slabs there is room for at top levels 0, 1, 2, 3 and above
pub const DISTANCES: usize = 4;
pub const SLABS: [usize; 5] = [60, 12, 4, 3, 2];
// which of 200 draws give top levels 1, 2, 3, 4 and 5: low levels more often, since a slab of level 5 has 131,044 energies
pub const TOPS: [usize; 5] = [100, 36, 6, 2, 1];
// lists of calls in the short and in the long run
pub const LISTS: [u64; 2] = [5000, 100_000];
// what can be wrong with a builder, by `lists::wrong`'s numbers
pub const WRONG: &[usize] = &[0, 1, 2, 3, 4, 5, 6, 7, 8, 9, 10, 11, 12, 13];
pub const LENGTHS: &[&str] = &["the length of the first direction", "the length of the second direction"];
// cases that a run has to have
pub const NEEDED: &[&str] = &[
    "fresh 5",
    "set 5",
    "settle 5",
    "write, refused with 5",
    "set 0, a word having a rest",
    "set 15, a word having a rest",
    "settle 0, a word having a rest",
    "settle 15, a word having a rest",
    "write, refused with 15, a word having a rest",
    "write, refused with 6, a word having a rest",
    "weighted reading, answered 0: weighted, nine corners",
    "weighted reading, answered 0: weighted, a weight of 0",
];

// Energies of a slab.
pub fn per(level: u64) -> usize {
    (10 * (level as usize + 1).pow(2) + 2).pow(2)
}

pub fn omega_step(step: f64) -> f64 {
    step
}

// The end of the distances, for a table of so many rows.
pub fn rmax_of([_, rmax, _]: [f64; 3], _: usize) -> f64 {
    rmax
}

pub fn grid_words(g: &Grid) -> Vec<u64> {
    let floats = [g.rmin, g.rmax, g.dr, g.omega_step, g.threshold, g.beta].map(bits);
    floats.into_iter().chain([g.n_r, g.n_omega]).collect()
}

// What read returns for a file with these counts and starts of its five sections, whatever stands behind them.
pub fn table(grid: Grid, [levels, rows, energies]: [u64; 3], start: [u64; 5], file: &[u8]) -> Table {
    let end = (start[4] + 4 * energies) as usize;
    let (terms, sixth) = match file.get(end..end + 4) {
        Some(count) => (u32::from_le_bytes(count.try_into().unwrap()) as u64, end as u64 + 4),
        None => (0, file.len() as u64),
    };
    let [a, b, c, d, e] = start;
    Table { number: 0, grid, levels, rows, energies, terms, start: [a, b, c, d, e, sixth] }
}

// Its counts and starts.
pub fn section_words(t: &Table) -> Vec<u64> {
    [t.levels, t.rows, t.energies, t.terms].into_iter().chain(t.start).collect()
}

pub fn dihedral(g: &Grid) -> (f64, u64) {
    (g.omega_step, g.n_omega)
}

pub fn put_omega_step(g: &mut Grid, step: f64) {
    g.omega_step = step;
}

pub fn put_n_omega(g: &mut Grid, n: u64) {
    g.n_omega = n;
}

// The bins of a builder of so many slabs in one slice.
pub fn slice_bins(slabs: usize) -> [usize; 2] {
    [1, slabs]
}

pub fn directions(q: &Query) -> Vec<[f64; 3]> {
    vec![q.a, q.b]
}

pub fn distances(v: &Value) -> [f64; 2] {
    [v.distance_a, v.distance_b]
}

// ---- the Rust

pub fn rust_builder(levels: Vec<builder::MeshLevel>, top: usize, [rmin, rmax, dr, omega_step, threshold, beta]: [f64; 6]) -> RustBuilder {
    RustBuilder::with_subdivision(levels, rmin, rmax, dr, omega_step, top, threshold, beta)
}

pub fn bins(b: &RustBuilder) -> [u64; 2] {
    [b.n_r() as u64, b.n_omega() as u64]
}

pub fn set_slab(b: &mut RustBuilder, ri: usize, oi: usize, energies: &[f64]) {
    b.set_slab(ri, oi, energies);
}

// A slice that is settled again at another level: the Rust takes it (expected.rs has that), and nothing is asked of it.
pub fn settled_elsewhere(_: &RustBuilder, _: usize) -> Option<&'static str> {
    None
}

// The builder that packs a table, with the locators of its levels.
pub fn table_builder(levels: Vec<rust::MeshLevel>, top: usize, [rmin, rmax, dr, omega_step, threshold, beta]: [f64; 6]) -> rust::AdaptiveBuilder {
    rust::AdaptiveBuilder::with_subdivision(levels, rmin, rmax, dr, omega_step, top, threshold, beta)
}

pub fn rust_dihedral(t: &RustTable) -> (f64, usize) {
    (t.omega_step, t.n_omega)
}

pub fn lookup(t: &RustTable, q: &Query) -> f64 {
    t.lookup(q.r, q.omega, &Vector3::from(q.a), &Vector3::from(q.b))
}

pub fn lookup_boltzmann(t: &RustTable, q: &Query, beta: f64) -> f64 {
    t.lookup_boltzmann(q.r, q.omega, &Vector3::from(q.a), &Vector3::from(q.b), beta)
}

// The squared distances of both directions to the vertices that a nearest row takes, by the Rust's own search; 0.0 for any other row.
pub fn rust_distances(t: &RustTable, q: &Query) -> [f64; 2] {
    let row = t.resolve_slab_idx(q.r, q.omega).map(|s| t.slab_res[s].clone());
    let Some(rust::SlabResolution::Mesh { level, interpolate: false }) = row else {
        return [0.0; 2];
    };
    let grid = &t.levels[level as usize].grid;
    [q.a, q.b].map(|d| {
        let d = Vector3::from(d);
        let e = &d.normalize() - &Vector3::from(grid.vertices[grid.find_nearest_vertex(&d)]);
        e.dot(&e)
    })
}

// ---- the interpolated readings of documents 01 and 02

pub fn plain_sum(weights: &[[f64; 3]], energies: &[f64]) -> f64 {
    let mut sum = 0.0;
    for i in 0..3 {
        for j in 0..3 {
            sum += weights[0][i] * energies[i * 3 + j] * weights[1][j];
        }
    }
    sum
}

// "A weight not above 0 drops its corner": of the others the least, the sum of the weights by their distance from it, and its logarithm.
pub fn weighted_average(weights: &[[f64; 3]], energies: &[f64], beta: f64) -> (f64, &'static str) {
    let (wa, wb) = (weights[0], weights[1]);
    let weights: Vec<f64> = (0..9).map(|k| wa[k / 3] * wb[k % 3]).collect();
    let kept: Vec<(f64, f64)> = weights.iter().copied().zip(energies.iter().copied()).filter(|c| c.0 > 0.0).collect();
    let least = kept.iter().fold(f64::INFINITY, |u, c| if c.1 < u { c.1 } else { u });
    if least.is_infinite() {
        return (f64::INFINITY, "weighted, the least infinite");
    }
    let sum = kept.iter().fold(0.0, |sum, c| sum + c.0 * exponential(-beta * (c.1 - least)));
    if sum <= 0.0 {
        return (f64::INFINITY, "weighted, no sum");
    }
    let energy = least - logarithm(sum) / beta;
    let underflown = (0..9).any(|k| weights[k] == 0.0 && wa[k / 3] != 0.0 && wb[k % 3] != 0.0);
    let words = match () {
        _ if energy.is_nan() => "weighted, a NaN",
        _ if energy.is_infinite() => "weighted, infinite",
        _ if underflown => "weighted, a weight underflows",
        _ if weights.iter().any(|w| *w < 0.0) => "weighted, a weight below 0",
        _ if kept.len() < 9 => "weighted, a weight of 0",
        _ => "weighted, nine corners",
    };
    (energy, words)
}
