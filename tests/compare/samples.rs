// Numbers that are hard for one operation or another: edges, ties and numbers beside them, operands that cancel.
use crate::meshes::Random;
use std::f64::consts::TAU;

// Where something changes, for f64, for f32, for whole numbers and for E; each is taken with both signs.
const PATTERNS: [u64; 54] = [
    0, 1, 2, 0x000FFFFFFFFFFFFF, 0x0010000000000000, 0x0010000000000001, 0x001FFFFFFFFFFFFF, 0x3CA0000000000000, 0x3CB0000000000000,
    0x3FDFFFFFFFFFFFFF, 0x3FE0000000000000, 0x3FE0000000000001, 0x3FEFFFFFFFFFFFFF, 0x3FF0000000000000, 0x3FF0000000000001,
    0x3FF8000000000000, 0x4004000000000000, 0x4330000000000000, 0x433FFFFFFFFFFFFF, 0x4340000000000000, 0x43DFFFFFFFFFFFFF,
    0x43E0000000000000, 0x43EFFFFFFFFFFFFF, 0x43F0000000000000, 0x7FE0000000000000, 0x7FEFFFFFFFFFFFFF, 0x7FF0000000000000,
    0x7FF0000000000001, 0x7FF8000000000000, 0x7FFFFFFFFFFFFFFF, 0x368FFFFFFFFFFFFF, 0x3690000000000000, 0x3690000000000001,
    0x36A0000000000000, 0x380FFFFFDFFFFFFF, 0x380FFFFFE0000000, 0x3810000000000000, 0x3FF0000010000000, 0x3FF0000030000000,
    0x47EFFFFFEFFFFFFF, 0x47EFFFFFF0000000, 0x40861FFFFFFFFFFF, 0x4086200000000000, 0x4086200000000001, 0x408627FFFFFFFFFF,
    0x4086280000000000, 0x4086280000000001, 0x401921FB54442D18, 0x4087499999999999, 0x408749999999999A, 0x408749999999999B,
    0x40862E51EB851EB7, 0x40862E51EB851EB8, 0x40862E51EB851EB9,
];
pub const EDGES: usize = 2 * PATTERNS.len();

pub fn edge(i: usize) -> f64 {
    f64::from_bits(PATTERNS[i / 2] | (i as u64 & 1) << 63)
}

// So many patterns on.
pub fn step(x: f64, patterns: i64) -> f64 {
    f64::from_bits(x.to_bits().wrapping_add_signed(patterns))
}

fn few(random: &mut Random) -> i64 {
    random.below(7) as i64 - 3
}

fn between(random: &mut Random, least: i64, most: i64) -> i64 {
    least + random.below((most - least + 1) as usize) as i64
}

// Of either sign, with an exponent's field. Half have only a few digits: their results are exact or ties.
fn with_field(random: &mut Random, field: i64) -> f64 {
    let mut b = random.bits() & 0x800f_ffff_ffff_ffff;
    if random.below(2) == 0 {
        b &= u64::MAX << random.below(53);
    }
    f64::from_bits(b | (field.clamp(0, 2046) as u64) << 52)
}

// A whole number of any number of digits.
pub fn number(random: &mut Random) -> u64 {
    let n = random.bits() >> random.below(64);
    let zeros = random.below(64);
    match random.below(4) {
        0 => n,
        // half way between two floats, or beside it
        1 => (n | 1 << 63) & !0x7ff | 0x400,
        2 => ((n | 1 << 63) & !0x7ff | 0x400).wrapping_add_signed(few(random)),
        _ => n >> zeros << zeros,
    }
}

pub fn sample(random: &mut Random) -> f64 {
    match random.below(8) {
        0 => f64::from_bits(random.bits()),
        1 => with_field(random, 0),
        2 => {
            let field = between(random, 1, 2046);
            with_field(random, field)
        }
        3 => {
            let field = between(random, 1000, 1100);
            with_field(random, field)
        }
        // halves, whole numbers, and beside them
        4 => step(random.whole(1 << 20) / 2.0, few(random)),
        5 => step(number(random) as f64 * [0.5, -0.5, 1.0, -1.0][random.below(4)], few(random)),
        6 => step(2f64.powi(between(random, -1074, 1023) as i32), few(random)),
        _ => step(edge(random.below(EDGES)), few(random)),
    }
}

// Half way between two f32, or beside it; else any.
pub fn narrow_tie(random: &mut Random) -> f64 {
    if random.below(3) == 0 {
        return sample(random);
    }
    let kept = random.below(24);
    let field = if kept < 23 { 874 + kept as i64 } else { between(random, 897, 1150) };
    let half = 1u64 << (51 - kept);
    let b = with_field(random, field).to_bits();
    step(f64::from_bits(b & !(2 * half - 1) | half), between(random, -1, 1))
}

// Whose root is near half way between two floats, or near a float; else any.
pub fn near_root(random: &mut Random) -> f64 {
    let m = random.bits() >> 11 | 1 << 52;
    match random.below(4) {
        0 => sample(random),
        1 => {
            let t = (m >> random.below(53)) as f64;
            step(t * t, few(random))
        }
        _ => {
            let odd = 2 * m as u128 + 1;
            let near = step((odd * odd) as f64, between(random, -1, 1));
            near * 4f64.powi(between(random, -560, 458) as i32)
        }
    }
}

// Near a multiple of TAU, below 0 or not; else any, large ones seldom since their remainder takes long.
pub fn near_multiple(random: &mut Random) -> f64 {
    match random.below(16) {
        0 => sample(random),
        1 | 2 => -f64::from_bits(random.bits() >> 2),
        3..=7 => {
            let many = 1 << random.below(40);
            step(random.whole(many) * TAU, few(random))
        }
        8 | 9 => {
            let field = between(random, 1020, 1090);
            with_field(random, field)
        }
        _ => random.unit() * 100.0,
    }
}

// E's range, and where its k changes.
pub fn exponent(random: &mut Random) -> f64 {
    let halves = between(random, -1077, 1024) as f64 + 0.5;
    match random.below(4) {
        0 => sample(random),
        1 => step(halves * std::f64::consts::LN_2, few(random)),
        2 => random.unit() * 750.0,
        _ => {
            let field = between(random, 990, 1032);
            with_field(random, field)
        }
    }
}

// Numbers above 0: beside 1, beside the root of 2 at any exponent, of any field; and any.
pub fn logarithm(random: &mut Random) -> f64 {
    let field = between(random, 0, 2046);
    match random.below(4) {
        0 => sample(random),
        1 => step(1.0, few(random) << random.below(52)),
        2 => step(f64::from_bits(std::f64::consts::SQRT_2.to_bits() & 0x000f_ffff_ffff_ffff | (field as u64) << 52), few(random)),
        _ => with_field(random, field).abs(),
    }
}

// For a power: any number, or one beside 1, whose large powers are neither 0 nor infinite; a small exponent, any, or one beside a power of 2.
pub fn base_and_exponent(random: &mut Random) -> (f64, u32) {
    let n = match random.below(4) {
        0 => random.below(20) as u32,
        1 => random.bits() as u32,
        _ => (1u32 << random.below(32)).wrapping_add(random.below(5) as u32).wrapping_sub(2),
    };
    let r = match random.below(3) {
        0 => edge(random.below(EDGES)),
        1 => (1.0 + random.unit() * 2f64.powi(-(random.below(33) as i32))) * [1.0, -1.0][random.below(2)],
        _ => sample(random),
    };
    (r, n)
}

// For a fused product and sum: the addend is near the product, almost undoes it, or decides a tie of it from far below.
pub fn cancelling(random: &mut Random) -> [f64; 3] {
    let kind = random.below(6);
    if kind == 0 {
        return [sample(random), sample(random), sample(random)];
    }
    // of the product: in the middle, or near either end
    let product = [1023, 0, 2046][random.below(3)] + between(random, -60, 60);
    let field = (product + 1023) / 2 + between(random, -100, 100);
    let (a, b) = (with_field(random, field), with_field(random, product + 1023 - field));
    match kind {
        1 => {
            let near = product + between(random, -120, 120);
            [a, b, with_field(random, near)]
        }
        2 | 3 => [a, b, step(-(a * b), few(random))],
        // products of 54 digits: half of them are ties
        _ => {
            let wide = |random: &mut Random| ((random.bits() >> 37 | 1 << 26 | 1) as f64) * [1.0, -1.0][random.below(2)];
            let (a, b) = (wide(random), wide(random));
            let far = 1023 - between(random, 0, 300);
            [a, b, with_field(random, far)]
        }
    }
}
