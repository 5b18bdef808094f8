//! Pair-energy tables over distance, dihedral angle and two orientations, and of one molecule against an atom over distance
//! and one orientation: build, write, read, look up.
//!
//! A safe wrapper over libicotable.a, whose functions are proved, and over the helpers of hosts/c, which keep journals, tables on disk, seals, mesh
//! files and slab files for C, Python and Rust alike. It needs nothing but std, that library and a C compiler, or an installed libicotable.
//!
//! | item | what it is |
//! |---|---|
//! | [`Mesh`] | the meshes and locators of all levels; [`search`] finds a direction without a locator |
//! | [`Builder`], [`AtomBuilder`] | a table that is being built, of two molecules and of one against an atom |
//! | [`Journaled`], [`JournalOptions`] | a builder whose calls are kept in a file, so that a killed job goes on |
//! | [`Table`], [`AtomTable`] | a table that is read; [`repack`] packs one that was loosely packed |
//! | [`Seal`] | what a table on disk was built with, and which bytes it has |
//! | [`Slab`] | a file of one slab's energies, which a task of a cluster writes |
//! | [`Tail`] | what a host adds beyond a table's distances |
//! | [`sizing`], [`atom_sizing`] | what a build needs, beforehand |
//! | [`RowLists`] | a builder's rows, in words and in lists |
//! | [`Refusal`], [`Error`] | why a call was refused, with its number and words; a refused call alters nothing |
//!
//! ```
//! use simgrale::{settings, Builder, Mesh, Table};
//!
//! # let folder = std::env::temp_dir().join(format!("simgrale-first-{}", std::process::id()));
//! # std::fs::create_dir_all(&folder)?;
//! # let path = folder.join("table.icotable");
//! let mut builder = Builder::new(settings(1.0, 9.0, 1.0, 1.0472, 0.5, 0.4), Mesh::icospheres(2)?)?;
//! for ri in 0..builder.grid().n_r {
//!     for oi in 0..builder.grid().n_omega {
//!         let pairs = builder.directions().len().pow(2);
//!         builder.set(ri, oi, &vec![-1.0; pairs])?;
//!     }
//!     builder.settle(ri)?;
//! }
//! builder.save(&path)?;
//!
//! let table = Table::open(&path)?;
//! assert_eq!(table.lookup(4.3, 0.5, [0.0, 0.0, 1.0], [0.0, 1.0, 0.0])?, -1.0);
//! # std::fs::remove_dir_all(folder)?;
//! # Ok::<(), simgrale::Error>(())
//! ```
//!
//! **Not proved** is the wrapper itself: it sizes the lists, hands them over and turns numbers into the enum. Neither are the helpers in C: what
//! makes meshes and keeps files and journals.
//!
//! **Threads.** Meshes, builders, tables and errors are [`Send`] and [`Sync`]: library and helpers keep no state. Readings of one table may run in any
//! number of threads at once; a builder's `&mut self` has one caller at a time.
//!
//! **Floating point.** The proofs speak of one floating-point environment. [`Builder::new`], [`Table::open`], [`Table::read`], [`Table::view`], the
//! atom's and the journals' ask whether the thread that calls has it ([`FloatEnvironment`]); a thread that alters it afterwards, or another thread
//! with another one, is not asked again.
//!
//! **Stack.** Settling takes up to 88 kB (docs/GUIDE.md).
#![deny(missing_docs)]

mod atom;
mod builder;
mod environment;
mod error;
mod found;
mod helpers;
mod journal;
mod journal_refusal;
mod lists;
mod mesh;
mod refusal;
mod repack;
mod row;
mod seal;
mod sizing;
mod slab;
mod sys;
mod table;
mod tail;
mod words;

pub use atom::{AtomBuilder, AtomTable};
pub use builder::{Builder, Settled};
pub use environment::FloatEnvironment;
pub use error::Error;
pub use found::{search, Found};
pub use journal::{Guard, JournalOptions, Journaled, Step};
pub use journal_refusal::JournalRefusal;
pub use mesh::{Level, Mesh};
pub use refusal::Refusal;
pub use repack::{repack, Repacked};
pub use row::{Kind, Row};
pub use seal::Seal;
pub use sizing::{atom_sizing, sizing, sizing_with_terms, LevelSizing, Sizing};
pub use slab::Slab;
pub use sys::{AtomGrid, Grid};
pub use table::{Place, Reading, Span, Table};
pub use tail::{power, Tail, Term};
pub use words::{rows_to_words, words_to_rows, RowLists};

// What the documentation says of threads, for the compiler to check.
const _: () = {
    const fn send_and_sync<T: Send + Sync + 'static>() {}
    send_and_sync::<Mesh>();
    send_and_sync::<Builder>();
    send_and_sync::<AtomBuilder>();
    send_and_sync::<Journaled<Builder>>();
    send_and_sync::<Journaled<AtomBuilder>>();
    send_and_sync::<Table>();
    send_and_sync::<AtomTable>();
    send_and_sync::<Error>();
};

/// Settings of a new table; the library works out the two bin counts. Distances have the caller's unit, `omega_step` is in radians, `threshold` per
/// radian, and `beta` is one over the unit of energies. [`Grid`] has an example.
pub fn settings(rmin: f64, rmax: f64, dr: f64, omega_step: f64, threshold: f64, beta: f64) -> Grid {
    Grid { rmin, rmax, dr, omega_step, threshold, beta, n_r: 0, n_omega: 0 }
}

/// Settings of a new table of one molecule against an atom; the library works out the bin count. Units are as in [`settings`].
///
/// ```
/// use simgrale::{atom_settings, AtomBuilder, AtomGrid, Error, Mesh, Refusal};
///
/// let grid = atom_settings(1.0, 25.0, 0.5, 0.5, 0.4);
/// assert_eq!(AtomBuilder::new(grid, Mesh::icospheres(2)?)?.grid(), AtomGrid { n_r: 48, ..grid });
/// let error = AtomBuilder::new(AtomGrid { dr: 0.0, ..grid }, Mesh::icospheres(2)?).unwrap_err();
/// assert_eq!(error, Error::Refused(Refusal::Settings));
/// # Ok::<(), Error>(())
/// ```
pub fn atom_settings(rmin: f64, rmax: f64, dr: f64, threshold: f64, beta: f64) -> AtomGrid {
    AtomGrid { rmin, rmax, dr, threshold, beta, n_r: 0 }
}

/// Vertices of a level; none above level 15.
///
/// ```
/// assert_eq!([0, 1, 15, 16].map(simgrale::vertex_count), [Some(12), Some(42), Some(2562), None]);
/// ```
pub fn vertex_count(level: u64) -> Option<usize> {
    let n = sys::vertices(level);
    (n > 0).then_some(n as usize)
}

#[cfg(test)]
mod tests {
    use super::sys;

    #[test]
    fn numbers_have_the_headers_meaning() {
        assert_eq!(sys::root(2.0).to_bits(), 0x3FF6A09E667F3BCD);
        assert_eq!(sys::exp(0.0), 1.0);
        assert_eq!(sys::ln(1.0).to_bits(), 0);
        assert_eq!(sys::ln(5e-324).to_bits(), 0xC0874385446D71C3);
        assert_eq!(sys::ln(-0.0), f64::NEG_INFINITY);
        assert!(sys::ln(-1.0).is_nan());
        assert_eq!([0, 1, 5].map(|n| sys::power(3.0, n)), [1.0, 3.0, 243.0]);
        assert_eq!(sys::mul_add(3.0, 4.0, -12.0), 0.0);
        assert_eq!(sys::narrow(16777217.0), 16777216.0);
        let cases = [f64::NAN, f64::INFINITY, -1e39, 1.0, 16777217.0, 16777219.0, 0.1].map(sys::narrow_case);
        assert_eq!(cases, [0, 0, 1, 2, 3, 4, 5]);
    }
}
