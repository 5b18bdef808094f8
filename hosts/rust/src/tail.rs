//! The long-range tail of a table: what a host adds beyond its distances.
use crate::{helpers, sys};

/// A term of a [`Tail`]: coefficient · exp(-kappa·r) / r^power, as the Rust crate's `TailCorrectionTerm`.
#[derive(Clone, Copy, Debug, PartialEq)]
pub struct Term {
    /// Finite.
    pub coefficient: f64,
    /// One over the screening length, or 0; finite.
    pub kappa: f64,
    /// At most 2147483647.
    pub power: u32,
}

/// A long-range tail: the prefactor times the sum of the terms. Without terms nothing of it is stored, and its energy is 0.
///
/// ```
/// use simgrale::{settings, Builder, Mesh, Refusal, Table, Tail, Term};
///
/// let builder = Builder::new(settings(1.0, 4.0, 1.0, 3.2, 0.5, 0.4), Mesh::icospheres(0)?)?;
/// let mut tail = Tail { terms: vec![Term { coefficient: -2.0, kappa: 0.1, power: 1 }], prefactor: Some(17.7) };
/// let table = Table::read(builder.write_tail(&tail)?, builder.mesh().clone())?;
/// assert_eq!((table.tail(), table.terms()), (tail.clone(), tail.terms.clone()));
/// // beyond the table a host takes the tail: the reading is 0 there
/// let (r, a) = (40.0, [0.0, 0.0, 1.0]);
/// let energy = if r > table.grid().rmax { table.tail_energy(r)? } else { table.lookup(r, 0.0, a, a)? };
/// assert!((energy - 17.7 * -2.0 * (-0.1 * r).exp() / r).abs() < 1e-12);
/// # let path = std::env::temp_dir().join(format!("simgrale-tail-{}.icotable", std::process::id()));
/// builder.save_tail(&path, &tail)?;
/// assert_eq!(Table::open(&path)?.terms(), tail.terms);
/// # std::fs::remove_file(path.with_extension("icotable.meta"))?;
/// # std::fs::remove_file(path)?;
/// tail.prefactor = None;
/// assert_eq!(builder.write_tail(&tail), Err(Refusal::Prefactor));
/// # Ok::<(), simgrale::Error>(())
/// ```
#[derive(Clone, Debug, Default, PartialEq)]
pub struct Tail {
    /// In the order of the file.
    pub terms: Vec<Term>,
    /// None is refused where there are terms.
    pub prefactor: Option<f64>,
}

// As the library takes it: a list for each part.
pub(crate) struct Lists {
    coefficients: Vec<f64>,
    kappas: Vec<f64>,
    powers: Vec<u32>,
    prefactor: Option<f64>,
}

impl Lists {
    pub(crate) fn of(tail: &Tail) -> Lists {
        let terms = || tail.terms.iter();
        Lists {
            coefficients: terms().map(|t| t.coefficient).collect(),
            kappas: terms().map(|t| t.kappa).collect(),
            powers: terms().map(|t| t.power).collect(),
            prefactor: tail.prefactor,
        }
    }

    pub(crate) fn lent(&self) -> sys::Tail<'_> {
        let prefactor = self.prefactor.as_ref().map_or(&[][..], std::slice::from_ref);
        sys::Tail { coefficients: &self.coefficients, kappas: &self.kappas, powers: &self.powers, prefactor }
    }

    // As a build takes it. A handle takes a prefactor in any case; where there are terms and none, the caller refuses.
    pub(crate) fn terms(&self) -> helpers::Terms {
        let (coefficients, kappas, powers) = (self.coefficients.as_ptr(), self.kappas.as_ptr(), self.powers.as_ptr());
        helpers::Terms { coefficients, kappas, powers, count: self.powers.len(), prefactor: self.prefactor.unwrap_or(0.0) }
    }
}

impl Tail {
    // The bytes by which a file is longer.
    pub(crate) fn length(&self) -> usize {
        match self.terms.len() {
            0 => 0,
            n => 12 + 20 * n,
        }
    }

    // That of a file with so many terms from a byte on.
    pub(crate) fn of(file: &[u8], start: u64, terms: u64) -> Tail {
        let double = |at: usize| f64::from_le_bytes(file[at..at + 8].try_into().expect("eight bytes"));
        let term = |i: u64| {
            let at = (start + 20 * i) as usize;
            let power = u32::from_le_bytes(file[at + 16..at + 20].try_into().expect("four bytes"));
            Term { coefficient: double(at), kappa: double(at + 8), power }
        };
        Tail { terms: (0..terms).map(term).collect(), prefactor: (terms > 0).then(|| double((start + 20 * terms) as usize)) }
    }
}

/// r to the power n as a tail has it: 1 for n = 0, else that of n/2, rounded down, squared, and times r where n is odd, each product
/// rounded.
///
/// ```
/// assert_eq!(simgrale::power(1.5, 0), 1.0);
/// assert_eq!(simgrale::power(1.5, 3), 1.5 * 1.5 * 1.5);
/// ```
pub fn power(r: f64, n: u32) -> f64 {
    sys::power(r, n)
}
