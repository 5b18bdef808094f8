// A span of distances, from document 02's text (paper 14) and from nothing else: the number of the first question that is answered no, or 0, with both bins, both energies and the NaNs of Scalar rows.
// What a host hands in may be any number, so places are whole numbers of 128 bits.
use crate::icotable::{Spanned, Table};
use std::f64::consts::TAU;

fn u32_of(bytes: &[u8]) -> u32 {
    u32::from_le_bytes(bytes.try_into().unwrap())
}

// `at` is below its count, and its bytes are inside the file.
fn item(file: &[u8], start: u64, count: u64, at: u128, width: u128) -> Option<&[u8]> {
    let first = start as u128 + at * width;
    (at < count as u128 && first + width <= file.len() as u128).then(|| &file[first as usize..][..width as usize])
}

// The bin of a distance, as a reading has it.
pub fn bin(t: &Table, r: f64) -> u64 {
    (((r - t.grid.rmin) / t.grid.dr + 0.5) as u64).min(t.grid.n_r.saturating_sub(1))
}

pub fn dihedral_bin(t: &Table, omega: f64) -> u64 {
    let angle = omega % TAU;
    let angle = if angle < 0.0 { angle + TAU } else { angle };
    (angle / t.grid.omega_step + 0.5) as u64 % t.grid.n_omega
}

// The energies met so far, and how many scalars were a NaN.
#[derive(Default)]
struct Met {
    ends: Option<(f64, f64)>,
    scalar_nans: u64,
}

impl Met {
    fn meet(&mut self, e: f64) {
        if e.is_nan() {
            return;
        }
        let (smallest, largest) = self.ends.unwrap_or((e, e));
        self.ends = Some((if e < smallest { e } else { smallest }, if e > largest { e } else { largest }));
    }

    fn row(&mut self, t: &Table, file: &[u8], row: &[u8]) -> Option<()> {
        match row[0] {
            0 => {
                let e = f32::from_bits(u32_of(&row[6..])) as f64;
                self.scalar_nans += e.is_nan() as u64;
                self.meet(e);
            }
            1 => self.meet(f64::INFINITY),
            2 | 3 if (row[1] as u64) < t.levels => {
                let n = 10 * (row[1] as u128 + 1).pow(2) + 2;
                for k in 0..n * n {
                    let e = item(file, t.start[4], t.energies, u32_of(&row[2..6]) as u128 + k, 4)?;
                    self.meet(f32::from_bits(u32_of(e)) as f64);
                }
            }
            _ => return None,
        }
        Some(())
    }
}

// The rows of the bins; none where 19 is answered no.
fn met(t: &Table, file: &[u8], first: u64, last: u64, omega: f64) -> Option<Met> {
    if t.grid.n_r == 0 || t.grid.n_omega == 0 {
        return None;
    }
    let mut met = Met::default();
    let oi = dihedral_bin(t, omega);
    for i in first..=last {
        let row = item(file, t.start[3], t.rows, i as u128 * t.grid.n_omega as u128 + oi as u128, 10)?;
        met.row(t, file, row)?;
    }
    Some(met)
}

pub fn spanned(t: &Table, file: &[u8], low: f64, high: f64, omega: f64) -> Spanned {
    let refused = |number| Spanned { number, ..Spanned::default() };
    if low.is_nan() || high.is_nan() || !omega.is_finite() {
        return refused(18);
    }
    let rmax = (t.grid.n_r as f64).mul_add(t.grid.dr, t.grid.rmin);
    if low > high || [low, high].iter().any(|&r| r < t.grid.rmin || r > rmax) {
        return refused(26);
    }
    let (first, last) = (bin(t, low), bin(t, high));
    match met(t, file, first, last, omega) {
        None => refused(19),
        Some(Met { ends, scalar_nans }) => {
            let (smallest, largest) = ends.unwrap_or((f64::NAN, f64::NAN));
            Spanned { number: 0, first, last, smallest, largest, scalar_nans }
        }
    }
}
