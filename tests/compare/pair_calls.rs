// The library's calls on a table of two molecules, by the declarations that the page above has; atom_calls.rs has those on a table of one molecule against an atom, under the same names.
use crate::refusals::Held;
pub use super::icotable::{fresh, read, reading, set, settle, write, Builder, Grid, Table, Value};

pub fn grid([rmin, rmax, dr, omega_step, threshold, beta]: [f64; 6], [n_r, n_omega]: [u64; 2]) -> Grid {
    Grid { rmin, rmax, dr, omega_step, threshold, beta, n_r, n_omega }
}

pub fn builder(grid: Grid, b: &Held) -> Builder {
    Builder { grid, top: b.top, level: b.level, packed: b.packed }
}

pub fn packed(b: &Builder) -> u64 {
    b.packed
}

// The turns of `compute_gradient`'s loops: for each pair of vertices the neighbours of the first, then those of the second.
pub fn comparisons(neighbours: &[Vec<u16>]) -> u64 {
    neighbours.iter().map(|a| neighbours.iter().map(|b| (a.len() + b.len()) as u64).sum::<u64>()).sum()
}
