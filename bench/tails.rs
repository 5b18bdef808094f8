// A long-range tail beside the Rust's `tail_energy` with the machine's `exp` and `powi`. What the library answers is compared first, bit for bit, with the same over E and document 02's power. The
// library that landed is not asked: the first with a tail has none before it.
use crate::icotable::{self, Table};
use crate::meshes::Random;
use crate::timing::{each, least, used};

#[allow(dead_code, clippy::all)]
mod defined {
    include!(concat!(env!("COMPARE"), "/tail.rs"));
}
#[allow(dead_code, clippy::all)]
mod native {
    include!(concat!(env!("COMPARE"), "/tail_native.rs"));
}

// Powers as of a dipole and a charge, and of an attraction; the first is not screened.
fn parts(i: usize) -> (f64, f64, u32) {
    (1.5 - i as f64, 0.1 * i as f64, [1, 3, 4, 6][i % 4])
}

// Document 01's table of 66 bytes with so many terms behind it.
fn file(terms: usize) -> Vec<u8> {
    let mut file = Vec::new();
    let words = |file: &mut Vec<u8>, list: &[u32]| list.iter().for_each(|x| file.extend(x.to_le_bytes()));
    let doubles = |file: &mut Vec<u8>, list: &[f64]| list.iter().for_each(|x| file.extend(x.to_le_bytes()));
    words(&mut file, &[3]);
    doubles(&mut file, &[0.0, 1.0, 6.0]);
    words(&mut file, &[2, 1, 1, 1, 12, 1]);
    file.extend([0, 0]);
    words(&mut file, &[u32::MAX, 0, 0, terms as u32]);
    for (coefficient, kappa, power) in (0..terms).map(parts) {
        doubles(&mut file, &[coefficient, kappa]);
        words(&mut file, &[power]);
    }
    doubles(&mut file, &[17.7]);
    file
}

macro_rules! metadata {
    ($of:ident, $terms:expr) => {
        $of::TableMetadata {
            tail_terms: (0..$terms).map(parts).map(|(coefficient, kappa, power)| $of::TailCorrectionTerm { coefficient, kappa, power }).collect(),
            electric_prefactor: Some(17.7),
            ..Default::default()
        }
    };
}

// Nanoseconds of a tail at a distance.
pub fn measure(terms: usize, queries: usize, rounds: usize, random: &mut Random) -> [f64; 3] {
    let file = file(terms);
    let table: Table = icotable::read(&file);
    assert_eq!((table.number, table.terms), (0, terms as u64));
    let distances: Vec<f64> = (0..queries).map(|_| 30.0 + 20.0 * random.unit()).collect();
    let (defined, native) = (metadata!(defined, terms), metadata!(native, terms));
    for &r in &distances {
        let value = icotable::tail(&table, &file, r);
        assert_eq!((value.number, value.energy.to_bits()), (0, defined.tail_energy(r).to_bits()), "the tail at {r}");
    }
    let mut ours = || each(&distances, |&r| used(icotable::tail(&table, &file, r)));
    let mut rust = || each(&distances, |&r| used(native.tail_energy(r)));
    let mut time = least(rounds, queries, [&mut || (), &mut ours, &mut rust]);
    time[0] = f64::NAN;
    time
}
