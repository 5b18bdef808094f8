// A table of one molecule against an atom, as a program of the comparison mounts it under the name `shape`; pair.rs is the other one. What the pages in common draw of a dihedral angle and of a second
// direction is passed over: an atom has one dihedral bin there, and nothing reads its number.
use crate::average::{exponential, logarithm};
use crate::builder::{self, SlabResolution};
pub use crate::builder::Adaptive3DBuilder as RustBuilder;
use crate::icotable::{self, Lent, Query};
pub use crate::icotable::{read as other_read, Table as OtherTable};
use crate::lines::bits;
use crate::oracle::Vector3;
use crate::report::differ;
use crate::rust;
use std::panic::{catch_unwind, set_hook, take_hook, AssertUnwindSafe};

#[path = "atom_calls.rs"]
mod calls;
pub use calls::*;
#[path = "list_rows.rs"]
pub mod rows;

pub type RustTable = rust::Table3DAdaptive<f32>;

pub const PAIR: bool = false;
pub const NAME: &str = "atoms";
// how many floats and how many counts the file begins with
pub const HEADS: [usize; 2] = [2, 1];
// of the settings that are drawn, and how many slabs there is room for at top levels 0, 1, 2, 3 and above
pub const DISTANCES: usize = 12;
pub const SLABS: [usize; 5] = [40, 24, 16, 12, 8];
// which of 200 draws give top levels 1, 2, 3, 4 and 5
pub const TOPS: [usize; 5] = [140, 80, 30, 12, 5];
// lists of calls in the short and in the long run
pub const LISTS: [u64; 2] = [2000, 60_000];
// what can be wrong with a builder, by `lists::wrong`'s numbers: no step, no dihedral count, and never too many energies
pub const WRONG: &[usize] = &[0, 1, 2, 4, 5, 6, 7, 8, 10, 12];
pub const LENGTHS: &[&str] = &["the length of the direction"];
// cases that a run has to have
pub const NEEDED: &[&str] = &[
    "settle 11, where the Rust panics",
    "settle 11, where the Rust makes the slab Repulsive",
    "the level drops, a row of another slice being Repulsive",
    "weighted reading, answered 0: weighted, three corners",
    "weighted reading, answered 0: weighted, a weight of 0",
    "weighted reading, answered 0: weighted, no sum",
];

// Energies of a slab.
pub fn per(level: u64) -> usize {
    10 * (level as usize + 1).pow(2) + 2
}

// A step that gives one bin.
pub fn omega_step(_: f64) -> f64 {
    6.0
}

// The end of the distances, for a table of so many rows.
pub fn rmax_of([rmin, _, dr]: [f64; 3], rows: usize) -> f64 {
    rmin + dr * rows as f64
}

pub fn grid_words(g: &Grid) -> Vec<u64> {
    let floats = [g.rmin, g.rmax, g.dr, g.threshold, g.beta].map(bits);
    floats.into_iter().chain([g.n_r]).collect()
}

// What read returns for a file with these counts and starts.
pub fn table(grid: Grid, [levels, rows, energies]: [u64; 3], start: [u64; 5], _: &[u8]) -> Table {
    Table { number: 0, grid, levels, rows, energies, start }
}

// Its counts and starts.
pub fn section_words(t: &Table) -> Vec<u64> {
    [t.levels, t.rows, t.energies].into_iter().chain(t.start).collect()
}

pub fn dihedral(_: &Grid) -> (f64, u64) {
    (omega_step(0.0), 1)
}

pub fn put_omega_step(_: &mut Grid, _: f64) {}

pub fn put_n_omega(_: &mut Grid, _: u64) {}

// The bins of a builder of so many slabs, each of which is a slice.
pub fn slice_bins(slabs: usize) -> [usize; 2] {
    [slabs, 1]
}

pub fn directions(q: &Query) -> Vec<[f64; 3]> {
    vec![q.a]
}

pub fn distances(_: &Value) -> [f64; 2] {
    [0.0; 2]
}

pub fn boltzmann(table: &Table, l: Lent, q: &Query, beta: f64) -> Value {
    icotable::atom_boltzmann(table, l, q.r, q.a, beta)
}

// ---- the Rust

pub fn rust_builder(levels: Vec<builder::MeshLevel>, top: usize, [rmin, rmax, dr, _, threshold, beta]: [f64; 6]) -> RustBuilder {
    RustBuilder::with_subdivision(levels, rmin, rmax, dr, top, threshold, beta)
}

pub fn bins(b: &RustBuilder) -> [u64; 2] {
    [b.n_r() as u64, 1]
}

pub fn set_slab(b: &mut RustBuilder, ri: usize, _: usize, energies: &[f64]) {
    b.set_slab(ri, energies);
}

// A slab that is settled at another level than its own, on a copy: the Rust makes it Repulsive where each of its energies is, and panics where not, since the current level has fewer vertices than
// the slab has energies. None where the row was altered by hand.
pub fn settled_elsewhere(rust: &RustBuilder, ri: usize) -> Option<&'static str> {
    let level = rust.current_level;
    if !matches!(rust.slab_res[ri], SlabResolution::Mesh { level: l, .. } if l as usize > level) {
        return None;
    }
    let mut copy = rust.clone();
    let hook = take_hook();
    set_hook(Box::new(|_| ()));
    let end = catch_unwind(AssertUnwindSafe(|| copy.finish_r_slice(ri)));
    set_hook(hook);
    let n = per(level as u64);
    let wanted = format!("index out of bounds: the len is {n} but the index is {n}");
    match end {
        Ok(0.0) if copy.slab_res[ri] == SlabResolution::Repulsive => Some("settle 11, where the Rust makes the slab Repulsive"),
        Err(e) if e.downcast_ref::<String>() == Some(&wanted) => Some("settle 11, where the Rust panics"),
        _ => differ("the Rust's finish_r_slice", format!("slab {ri} of another level"), "11".into(), wanted),
    }
}

// The builder that packs a table, with the locators of its levels.
pub fn table_builder(levels: Vec<rust::MeshLevel>, top: usize, [rmin, rmax, dr, _, threshold, beta]: [f64; 6]) -> rust::Adaptive3DBuilder {
    rust::Adaptive3DBuilder::with_subdivision(levels, rmin, rmax, dr, top, threshold, beta)
}

pub fn rust_dihedral(_: &RustTable) -> (f64, usize) {
    (omega_step(0.0), 1)
}

pub fn lookup(t: &RustTable, q: &Query) -> f64 {
    t.lookup(q.r, &Vector3::from(q.a))
}

pub fn lookup_boltzmann(t: &RustTable, q: &Query, beta: f64) -> f64 {
    t.lookup_boltzmann(q.r, &Vector3::from(q.a), beta)
}

// Shown of tables of two molecules alone.
pub fn rust_distances(_: &RustTable, _: &Query) -> [f64; 2] {
    [0.0; 2]
}

// ---- the interpolated readings of documents 01 and 02

pub fn plain_sum(weights: &[[f64; 3]], v: &[f64]) -> f64 {
    let b = weights[0];
    (b[0] * v[0] + b[1] * v[1]) + b[2] * v[2]
}

// The least of all three energies, the sum of all three weights by their distance from it, and its logarithm.
pub fn weighted_average(weights: &[[f64; 3]], v: &[f64], beta: f64) -> (f64, &'static str) {
    let b = weights[0];
    let least = v.iter().copied().fold(f64::NAN, |u, e| if u.is_nan() || e < u { e } else { u });
    if least.is_infinite() {
        return (f64::INFINITY, "weighted, the least infinite");
    }
    let term = |k: usize| b[k] * exponential(-beta * (v[k] - least));
    let sum = (term(0) + term(1)) + term(2);
    if sum <= 0.0 {
        return (f64::INFINITY, "weighted, no sum");
    }
    let energy = least - logarithm(sum) / beta;
    let words = match () {
        _ if energy.is_nan() => "weighted, a NaN",
        _ if energy.is_infinite() => "weighted, infinite",
        _ if b.iter().any(|w| *w < 0.0) => "weighted, a weight below 0",
        _ if b.contains(&0.0) => "weighted, a weight of 0",
        _ => "weighted, three corners",
    };
    (energy, words)
}
