// A long-range tail as it is handed to write: drawn at random, its bytes, its questions and its energy, read from document 02's text and from nothing else; and the Rust's metadata of it.
use crate::average::exponential;
use crate::icotable;
use crate::meshes::Random;
use crate::refusals::{self, Held, Lists};
use crate::rust_tail::{TableMetadata, TailCorrectionTerm};
use crate::samples::sample;

// Terms as many as coefficients; kappas and powers may be longer, and the prefactor is the first entry of its list.
#[derive(Clone, Debug, Default)]
pub struct Tail {
    pub coefficients: Vec<f64>,
    pub kappas: Vec<f64>,
    pub powers: Vec<u32>,
    pub prefactor: Vec<f64>,
}

const LARGEST: u32 = i32::MAX as u32;

fn finite(random: &mut Random) -> f64 {
    loop {
        let x = sample(random);
        if x.is_finite() {
            return x;
        }
    }
}

// Zeros, subnormal and huge numbers, and usual ones, of both signs.
fn coefficient(random: &mut Random) -> f64 {
    match random.below(8) {
        0 => [0.0, -0.0, 1.0, -1.0][random.below(4)],
        1 => [5e-324, -5e-324, 1e-310, f64::MAX, f64::MIN, f64::MIN_POSITIVE][random.below(6)],
        2 => finite(random),
        _ => random.unit() * [1.0, 100.0, 1e6][random.below(3)],
    }
}

fn kappa(random: &mut Random) -> f64 {
    match random.below(8) {
        0 | 1 => [0.0, -0.0][random.below(2)],
        2 => -random.unit().abs(),
        3 => [1e3, 1e300, -1e300, 745.2, -709.79, 5e-324][random.below(6)],
        4 => finite(random),
        _ => random.unit().abs() * [0.01, 0.1, 1.0, 10.0][random.below(4)],
    }
}

// Any that is accepted: the usual ones, each power of two and beside it, the largest.
fn power(random: &mut Random) -> u32 {
    match random.below(8) {
        0 => (1u32 << random.below(31)) - 1 + random.below(2) as u32,
        1 => [0, 1, 2, LARGEST, LARGEST - 1][random.below(5)],
        2 => random.bits() as u32 >> (1 + random.below(31)),
        _ => random.below(13) as u32,
    }
}

fn prefactor(random: &mut Random) -> f64 {
    match random.below(6) {
        0 => [0.0, -0.0, 1.0, -1.0, 5e-324, f64::MAX, f64::MIN][random.below(7)],
        1 => finite(random),
        _ => 1389.35 * random.unit(),
    }
}

impl Tail {
    pub fn drawn(count: usize, random: &mut Random) -> Tail {
        if random.below(2) == 0 {
            return Tail::usual(count, random);
        }
        Tail {
            coefficients: (0..count).map(|_| coefficient(random)).collect(),
            kappas: (0..count + random.below(3)).map(|_| kappa(random)).collect(),
            powers: (0..count + random.below(3)).map(|_| power(random)).collect(),
            prefactor: (0..1 + random.below(2)).map(|_| prefactor(random)).collect(),
        }
    }

    // Terms whose energies are numbers at most distances.
    fn usual(count: usize, random: &mut Random) -> Tail {
        Tail {
            coefficients: (0..count).map(|_| random.unit() * 100.0).collect(),
            kappas: (0..count).map(|_| [0.0, random.unit().abs() * 0.2][random.below(2)]).collect(),
            powers: (0..count).map(|_| random.below(13) as u32).collect(),
            prefactor: vec![1389.35 * random.unit()],
        }
    }

    // No terms: whatever else is handed over is not looked at.
    pub fn none(random: &mut Random) -> Tail {
        let odd = |random: &mut Random| [f64::NAN, f64::INFINITY, 1.0][random.below(3)];
        Tail {
            coefficients: Vec::new(),
            kappas: (0..random.below(3)).map(|_| odd(random)).collect(),
            powers: (0..random.below(3)).map(|_| u32::MAX).collect(),
            prefactor: (0..random.below(3)).map(|_| odd(random)).collect(),
        }
    }

    pub fn len(&self) -> usize {
        self.coefficients.len()
    }

    pub fn lent(&self) -> icotable::Tail<'_> {
        icotable::Tail { coefficients: &self.coefficients, kappas: &self.kappas, powers: &self.powers, prefactor: &self.prefactor }
    }

    // "A sixth section after its count holds the terms ..; after them stands the prefactor"; "No terms means no section"
    pub fn bytes(&self) -> Vec<u8> {
        if self.len() == 0 {
            return Vec::new();
        }
        let mut bytes = (self.len() as u32).to_le_bytes().to_vec();
        for i in 0..self.len() {
            bytes.extend(self.coefficients[i].to_le_bytes());
            bytes.extend(self.kappas[i].to_le_bytes());
            bytes.extend(self.powers[i].to_le_bytes());
        }
        bytes.extend(self.prefactor[0].to_le_bytes());
        bytes
    }

    // The Rust's metadata with these terms.
    pub fn metadata(&self) -> TableMetadata {
        let term = |i: usize| TailCorrectionTerm { coefficient: self.coefficients[i], kappa: self.kappas[i], power: self.powers[i] };
        TableMetadata { tail_terms: (0..self.len()).map(term).collect(), electric_prefactor: self.prefactor.first().copied(), ..TableMetadata::default() }
    }

    // One thing wrong that 6, 22 or 23 is to see, or that none of them sees.
    pub fn spoilt(&mut self, random: &mut Random) {
        let i = random.below(self.len().max(1));
        let odd = [f64::NAN, f64::INFINITY, f64::NEG_INFINITY][random.below(3)];
        match random.below(7) {
            0 => self.kappas.truncate(i),
            1 => self.powers.truncate(i),
            2 => self.prefactor.clear(),
            3 if self.len() > 0 => self.coefficients[i] = odd,
            4 if i < self.kappas.len() => self.kappas[i] = odd,
            5 if i < self.powers.len() => self.powers[i] = [LARGEST + 1, u32::MAX][random.below(2)],
            _ if !self.prefactor.is_empty() => self.prefactor[0] = odd,
            _ => (),
        }
    }

    fn valid(&self) -> bool {
        let n = self.len();
        let floats = self.coefficients.iter().chain(&self.kappas[..n]).chain(&self.prefactor[..1]);
        floats.into_iter().all(|x| x.is_finite()) && self.powers[..n].iter().all(|&p| p <= LARGEST)
    }
}

// Document 02's questions of a write: those of document 01 up to 15, the length of the lists of terms beside that of the others, then 22, 23 and 12.
pub fn question(b: &Held, lent: &[usize; 8], lists: &Lists, t: &Tail, output: usize) -> u64 {
    let early = refusals::write(b, lent, lists, usize::MAX);
    let n = t.len();
    if (early == 0 || early > 6) && (t.kappas.len() < n || t.powers.len() < n) {
        return 6;
    }
    if early != 0 {
        return early;
    }
    if n > 0 && t.prefactor.is_empty() {
        return 22;
    }
    if n > 0 && !t.valid() {
        return 23;
    }
    let sixth = if n > 0 { 4 + 20 * n + 8 } else { 0 };
    if output < refusals::file_length(b, lists) + sixth {
        return 12;
    }
    0
}

// r^n by the binary digits of n, from the first on.
pub fn raised(r: f64, n: u32) -> f64 {
    let mut p = 1.0;
    for place in (0..32 - n.leading_zeros()).rev() {
        p *= p;
        if n >> place & 1 == 1 {
            p *= r;
        }
    }
    p
}

// The tail of a table that may be any over a file that may be any: the number and the energy.
pub fn reading(terms: u64, start: u64, file: &[u8], r: f64) -> (u64, f64) {
    if r.is_nan() {
        return (18, 0.0);
    }
    if terms == 0 {
        return (0, 0.0);
    }
    let end = start as u128 + terms as u128 * 20 + 8;
    if end > file.len() as u128 {
        return (19, 0.0);
    }
    let float = |at: usize| f64::from_le_bytes(file[at..at + 8].try_into().unwrap());
    let mut sum = -0.0;
    for t in (start as usize..).step_by(20).take(terms as usize) {
        let n = u32::from_le_bytes(file[t + 16..t + 20].try_into().unwrap());
        let (c, k) = (float(t), float(t + 8));
        sum += (c * exponential((-k) * r)) / raised(r, n);
    }
    (0, float(end as usize - 8) * sum)
}

// A distance: zeros, below 0, subnormal, infinite, inside the table, just beyond it, near 1, where large powers are neither 0 nor infinite, and any; a NaN seldom.
pub fn distance(rmin: f64, rmax: f64, random: &mut Random) -> f64 {
    match random.below(12) {
        0 => [0.0, -0.0, 5e-324, -5e-324, 1e-310, f64::INFINITY, f64::NEG_INFINITY, -1.0, f64::MAX][random.below(9)],
        1 => [f64::NAN, sample(random), sample(random), sample(random)][random.below(4)],
        2 => rmin + (rmax - rmin) * random.unit().abs(),
        3 => [rmax.next_down(), rmax, rmax.next_up(), rmax + 1.0][random.below(4)],
        4 => 1.0 + random.unit() * [1e-9, 1e-6, 1e-3][random.below(3)],
        5 => -(1.0 + random.unit().abs() * 100.0),
        6 => sample(random),
        _ => 1.0 + random.unit().abs() * [10.0, 100.0, 1000.0][random.below(3)],
    }
}
