// Tables with rows of all kinds, the same as a host can make them or a fault can leave them, and spans of their distances, drawn at random.
use crate::icotable::{Grid, Table};
use crate::meshes::Random;
use std::f64::consts::TAU;

const KINDS: [[u8; 8]; 4] = [[0, 0, 0, 1, 2, 2, 2, 3], [0, 0, 0, 0, 0, 0, 0, 1], [2, 2, 2, 2, 2, 2, 2, 2], [0, 1, 2, 3, 0, 1, 2, 3]];

// In some tables zeros of both signs are the smallest or the largest.
fn energy(random: &mut Random, odd: usize) -> f32 {
    if odd > 3 {
        return [0.0, -0.0, 0.0, -0.0, if odd == 4 { 0.5 } else { -0.5 }, f32::NAN][random.below(6)];
    }
    match random.below(if odd == 0 { 4 } else { 40 }) {
        0 => [0.0, -0.0, f32::INFINITY, f32::NEG_INFINITY, 1e-45, -1e-45, f32::MAX, f32::MIN][random.below(8)],
        1 if odd < 2 => f32::from_bits(0x7fc0_0000 | random.bits() as u32 >> 10),
        _ => random.unit() as f32 * [1.0, 20.0, 1e-40][random.below(3)],
    }
}

// A file of one or two levels, and what read answers for one like it. Whether read accepts it, with its NaNs, is not asked.
pub fn table(random: &mut Random) -> (Table, Vec<u8>) {
    let (levels, n_r, n_omega) = (1 + random.below(2) as u64, 1 + random.below(9) as u64, 1 + random.below(3) as u64);
    let rmin = [0.0, -0.0, 1.5, -2.25, 1e9, 1e-300, random.unit() * 10.0][random.below(7)];
    let dr = [1.0, 0.1, 0.3, 1e-3, 1e-300, random.unit().abs() + 1e-9][random.below(6)];
    let step = TAU / n_omega as f64;
    let (kinds, odd) = (KINDS[random.below(4)], random.below(6));
    let mut file = Vec::new();
    file.extend(3u32.to_le_bytes());
    [rmin, dr, step].iter().for_each(|x: &f64| file.extend(x.to_le_bytes()));
    [2, n_r, n_omega, levels].iter().for_each(|&n| file.extend((n as u32).to_le_bytes()));
    (0..levels).for_each(|m| file.extend((10 * (m + 1) * (m + 1) + 2).to_le_bytes()[..4].iter()));
    file.extend(((n_r * n_omega) as u32).to_le_bytes());
    let (rows_start, mut energies) = (file.len() as u64, Vec::new());
    for _ in 0..n_r * n_omega {
        let (kind, level) = (kinds[random.below(8)], random.below(levels as usize) as u8);
        let (offset, scalar) = match kind {
            0 => (u32::MAX, energy(random, odd).to_bits()),
            1 => (u32::MAX, 0),
            _ => {
                let n = 10 * (level as usize + 1).pow(2) + 2;
                let at = energies.len() as u32;
                let same = random.below(6) == 0;
                let one = energy(random, odd);
                energies.extend((0..n * n).map(|_| if same { one } else { energy(random, odd) }));
                (at, 0)
            }
        };
        file.extend([kind, if kind < 2 { 0 } else { level }]);
        file.extend(offset.to_le_bytes());
        file.extend(scalar.to_le_bytes());
    }
    file.extend((energies.len() as u32).to_le_bytes());
    let energies_start = file.len() as u64;
    energies.iter().for_each(|e| file.extend(e.to_bits().to_le_bytes()));
    let rmax = (n_r as f64).mul_add(dr, rmin);
    let grid = Grid { rmin, rmax, dr, omega_step: step, threshold: 0.0, beta: 0.0, n_r, n_omega };
    let start = [4, 32, 44, rows_start, energies_start, file.len() as u64];
    (Table { number: 0, grid, levels, rows: n_r * n_omega, energies: energies.len() as u64, terms: 0, start }, file)
}

// The same, as a host can make it or a fault can leave it.
pub fn altered(t: &Table, file: &[u8], random: &mut Random) -> (Table, Vec<u8>) {
    let (mut t, mut file) = (*t, file.to_vec());
    for _ in 0..1 + random.below(2) {
        let row = t.start[3] as usize + 10 * random.below((t.rows as usize).clamp(1, 20));
        let any = [0, 1, 2, u64::MAX, u64::MAX - 1, 1 << 63, 1 << 32, random.bits(), random.below(200) as u64][random.below(9)];
        match random.below(12) {
            0 => file.truncate(random.below(file.len() + 1)),
            1 if row < file.len() => file[row] = [4, 255, random.below(4) as u8][random.below(3)],
            2 if row + 1 < file.len() => file[row + 1] = [1, 2, 16, 255][random.below(4)],
            3 if row + 5 < file.len() => file[row + 2 + random.below(4)] = random.bits() as u8,
            4 => t.rows = any,
            5 => t.energies = any,
            6 => t.levels = any,
            7 => t.grid.n_r = any,
            8 => t.grid.n_omega = any,
            9 => t.start[3 + random.below(2)] = any,
            10 => t.grid.rmax = random.finite(),
            _ => {
                let x = [random.finite(), f64::NAN, f64::INFINITY, 0.0, -1.0][random.below(5)];
                *[&mut t.grid.rmin, &mut t.grid.dr, &mut t.grid.omega_step][random.below(3)] = x;
            }
        }
    }
    (t, file)
}

// ---- what is asked for

fn beside(x: f64, random: &mut Random) -> f64 {
    [x, x.next_up(), x.next_down()][random.below(3)]
}

fn end(t: &Table, random: &mut Random) -> f64 {
    let k = random.below((t.grid.n_r as usize).clamp(1, 100) + 1) as f64;
    match random.below(12) {
        0 => beside(t.grid.rmin, random),
        1 => beside((t.grid.n_r as f64).mul_add(t.grid.dr, t.grid.rmin), random),
        2 | 3 => beside(t.grid.rmin + k * t.grid.dr, random),
        4 | 5 => beside(t.grid.rmin + (k + 0.5) * t.grid.dr, random),
        6 if random.below(6) == 0 => [f64::NAN, f64::INFINITY, f64::NEG_INFINITY, -0.0, random.finite()][random.below(5)],
        _ => t.grid.rmin + (t.grid.n_r as f64) * t.grid.dr * (0.5 + 0.5 * random.unit()),
    }
}

fn angle(t: &Table, random: &mut Random) -> f64 {
    match random.below(8) {
        0 => beside(random.whole(4) * t.grid.omega_step, random),
        1 => beside((random.whole(4) + 0.5) * t.grid.omega_step, random),
        2 if random.below(10) == 0 => [f64::NAN, f64::INFINITY, f64::MAX, -TAU][random.below(4)],
        _ => random.unit() * 20.0,
    }
}

// A low and a high end, mostly in order, and a dihedral angle.
pub fn ends(t: &Table, random: &mut Random) -> [f64; 3] {
    let (a, b) = (end(t, random), end(t, random));
    let swap = a > b && random.below(5) != 0;
    [if swap { b } else { a }, if swap { a } else { b }, angle(t, random)]
}
