// A plain writer and checker of the table file (docs/FORMAT.md).
use crate::shape::{self, per, HEADS};

fn mesh(kind: u8) -> bool {
    kind == 2 || kind == 3
}

// A builder's lists, as they are lent.
pub struct Held<'a> {
    pub rmin: f64,
    pub dr: f64,
    pub step: f64,
    pub n_r: u32,
    pub n_omega: u32,
    pub top: u8,
    pub store: &'a [f64],
    pub kinds: &'a [u8],
    pub levels: &'a [u8],
    pub values: &'a [u32],
}

// Writes the table file; its length. The machine's cast narrows.
pub fn write(b: &Held, out: &mut [u8]) -> usize {
    let mut at = 0;
    let mut put = |bytes: &[u8]| {
        out[at..at + bytes.len()].copy_from_slice(bytes);
        at += bytes.len();
    };
    put(&(HEADS[0] as u32).to_le_bytes());
    for x in &[b.rmin, b.dr, b.step][..HEADS[0]] {
        put(&x.to_le_bytes());
    }
    put(&(HEADS[1] as u32).to_le_bytes());
    for n in &[b.n_r, b.n_omega][..HEADS[1]] {
        put(&n.to_le_bytes());
    }
    put(&(b.top as u32 + 1).to_le_bytes());
    for m in 0..b.top as u32 + 1 {
        put(&(10 * (m + 1) * (m + 1) + 2).to_le_bytes());
    }
    let slabs = (b.n_r * b.n_omega) as usize;
    put(&(slabs as u32).to_le_bytes());
    let mut offset = 0;
    for s in 0..slabs {
        let (kind, level, value) = (b.kinds[s], b.levels[s], b.values[s]);
        put(&[kind, level]);
        put(&(if mesh(kind) { offset } else { u32::MAX }).to_le_bytes());
        put(&value.to_le_bytes());
        if mesh(kind) {
            offset += per(level as u64) as u32;
        }
    }
    put(&offset.to_le_bytes());
    for s in 0..slabs {
        if !mesh(b.kinds[s]) {
            continue;
        }
        let n = per(b.levels[s] as u64);
        let from = s * per(b.top as u64);
        for (place, x) in out[at..at + 4 * n].chunks_exact_mut(4).zip(&b.store[from..from + n]) {
            place.copy_from_slice(&(*x as f32).to_le_bytes());
        }
        at += 4 * n;
    }
    at
}

fn number(file: &[u8], at: usize) -> Option<u32> {
    let bytes = file.get(at..at.checked_add(4)?)?;
    Some(u32::from_le_bytes(bytes.try_into().unwrap()))
}

fn float(file: &[u8], at: usize) -> f64 {
    f64::from_le_bytes(file[at..at + 8].try_into().unwrap())
}

// The items of the five sections, and what stands behind them; none where they do not follow their counts to the last byte. A table of two molecules may have a sixth section there: the count of
// its terms, which is not 0, 20 bytes a term and the 8 of the prefactor.
fn sections(file: &[u8]) -> Option<([&[u8]; 5], &[u8])> {
    let mut parts: [&[u8]; 5] = [&[]; 5];
    let mut at = 0;
    for (part, width) in parts.iter_mut().zip([8, 4, 4, 10, 4]) {
        let end = at + 4 + number(file, at)? as usize * width;
        *part = file.get(at + 4..end)?;
        at = end;
    }
    let sixth = &file[at..];
    let terms = number(sixth, 0).unwrap_or(0) as usize;
    let ended = sixth.is_empty() || shape::PAIR && terms > 0 && sixth.len() == 4 + 20 * terms + 8;
    (ended && parts[0].len() == 8 * HEADS[0] && parts[1].len() == 4 * HEADS[1]).then_some((parts, sixth))
}

// 23, of a sixth section: every value finite, and no power above 2147483647.
fn sixth_held(sixth: &[u8]) -> bool {
    let Some(terms) = sixth.get(4..) else { return true };
    let (terms, prefactor) = terms.split_at(terms.len() - 8);
    let held = |t: &[u8]| float(t, 0).is_finite() && float(t, 8).is_finite() && number(t, 16).unwrap() <= i32::MAX as u32;
    terms.chunks_exact(20).all(held) && float(prefactor, 0).is_finite()
}

fn grid_held(parts: &[&[u8]; 5]) -> bool {
    let (rmin, dr) = (float(parts[0], 0), float(parts[0], 8));
    let n_r = number(parts[1], 0).unwrap() as usize;
    // an atom's file has neither, and one bin
    let step = if shape::PAIR { float(parts[0], 16) } else { 6.0 };
    let n_omega = number(parts[1], 4).map_or(1, |n| n as usize);
    let levels = parts[2].len() / 4;
    let above = |x: f64| x.is_finite() && x > 0.0;
    let rmax = (n_r as f64).mul_add(dr, rmin);
    rmin.is_finite()
        && above(dr)
        && above(step)
        && (1..=16).contains(&levels)
        && (1..=65535).contains(&n_r)
        && (1..=65535).contains(&n_omega)
        && n_omega == (std::f64::consts::TAU / step + 0.5) as usize
        && n_r == ((rmax - rmin) / dr + 0.5) as usize
        && n_r * n_omega * per(levels as u64 - 1) <= u32::MAX as usize
        && parts[3].len() / 10 == n_r * n_omega
        && (0..levels).all(|m| number(parts[2], 4 * m) == Some(10 * (m as u32 + 1).pow(2) + 2))
}

fn nan_bits(x: u32) -> bool {
    x & 0x7FFF_FFFF > 0x7F80_0000
}

// The number of the first question from 13 to 17, then 23, that is answered no, or 0.
pub fn read(file: &[u8]) -> u64 {
    read_over(usize::MAX, usize::MAX, file)
}

// The same for the viewer: 24 after 14.
pub fn view(file: &[u8]) -> u64 {
    read_over(4, 4096, file)
}

fn read_over(most_levels: usize, most_rows: usize, file: &[u8]) -> u64 {
    let Some((parts, sixth)) = sections(file) else { return 13 };
    if !grid_held(&parts) {
        return 14;
    }
    let levels = parts[2].len() / 4;
    if levels > most_levels || parts[3].len() / 10 > most_rows {
        return 24;
    }
    for row in parts[3].chunks_exact(10) {
        let (offset, scalar) = (number(row, 2).unwrap(), number(row, 6).unwrap());
        let held = match row[0] {
            0 => row[1] == 0 && offset == u32::MAX && (!nan_bits(scalar) || scalar == 0x7FC0_0000),
            1 => row[1] == 0 && offset == u32::MAX && scalar == 0,
            2 | 3 => (row[1] as usize) < levels && scalar == 0,
            _ => false,
        };
        if !held {
            return 15;
        }
    }
    let mut place = 0;
    for row in parts[3].chunks_exact(10).filter(|row| mesh(row[0])) {
        if number(row, 2).unwrap() as usize != place {
            return 16;
        }
        place += per(row[1] as u64);
    }
    if place != parts[4].len() / 4 {
        return 16;
    }
    if parts[4].chunks_exact(4).any(|x| f32::from_le_bytes(x.try_into().unwrap()).is_nan()) {
        return 17;
    }
    if !sixth_held(sixth) {
        return 23;
    }
    0
}
