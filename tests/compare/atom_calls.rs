// The library's calls on a table of one molecule against an atom, by the declarations that the page above has; pair_calls.rs has those on a table of two molecules, under the same names.
use crate::refusals::Held;
use super::icotable::{atom_reading, atom_set, AtomBuilt, AtomLists, Lent, Query};
pub use super::icotable::{
    atom_fresh as fresh, atom_read as read, atom_settle as settle, atom_write as write, AtomBuilder as Builder, AtomGrid as Grid, AtomTable as Table, Energy as Value,
};

pub fn grid([rmin, rmax, dr, _, threshold, beta]: [f64; 6], [n_r, _]: [u64; 2]) -> Grid {
    Grid { rmin, rmax, dr, threshold, beta, n_r }
}

pub fn set(b: Builder, l: &mut AtomLists, ri: u64, _: u64, energies: &[f64]) -> AtomBuilt {
    atom_set(b, l, ri, energies)
}

pub fn reading(table: &Table, l: Lent, q: &Query) -> Value {
    atom_reading(table, l, q.r, q.a)
}

pub fn builder(grid: Grid, b: &Held) -> Builder {
    Builder { grid, top: b.top, level: b.level }
}

pub fn packed(_: &Builder) -> u64 {
    0
}

// The turns of `compute_gradient_1d`'s loops.
pub fn comparisons(neighbours: &[Vec<u16>]) -> u64 {
    neighbours.iter().map(|a| a.len() as u64).sum()
}
