// Writes the vectors of every operation but exp, one a line: the name, the operands' bits and the bits of the answer
// that Rust's operators and library give. The sequence of operands is fixed, so two runs write the same bytes.
use std::collections::HashSet;
use std::hash::Hash;
use std::io::{BufWriter, Write};

const TOP: u64 = 1 << 63;
const DIGITS: u64 = (1 << 52) - 1;
const INFINITE: u64 = 0x7ff << 52;
const NAN: u64 = 0x7ff8 << 48;
const TAU: u64 = 0x401921fb54442d18;

// Marsaglia's xorshift of 64 bits.
struct Random(u64);

impl Random {
    fn bits(&mut self) -> u64 {
        self.0 ^= self.0 << 13;
        self.0 ^= self.0 >> 7;
        self.0 ^= self.0 << 17;
        self.0
    }

    // From low up to, and without, high. Its lean toward some numbers is too small to matter here.
    fn between(&mut self, low: u64, high: u64) -> u64 {
        low + self.bits() % (high - low)
    }

    // A float of either sign whose exponent lies from low up to, and without, high.
    fn float(&mut self, low: i64, high: i64) -> u64 {
        let field = self.between((low + 1023) as u64, (high + 1023) as u64);
        self.bits() & (TOP | DIGITS) | field << 52
    }

    // The same with few digits, so that sums and products come near ties and whole numbers.
    fn short(&mut self, low: i64, high: i64, digits: u64) -> u64 {
        let kept = self.between(0, digits + 1);
        self.float(low, high) & !(DIGITS >> kept)
    }

    fn of(&mut self, list: &[u64]) -> u64 {
        list[self.between(0, list.len() as u64) as usize]
    }
}

fn f(bits: u64) -> f64 {
    f64::from_bits(bits)
}

// The bits of an answer, with one pattern for every NaN. The test is on the bits: with x.is_nan() in its place an
// optimizing compiler was seen to let the NaN of a square root through as it is.
fn bits(x: f64) -> u64 {
    let b = x.to_bits();
    if b & !TOP > INFINITE { NAN } else { b }
}

fn bits32(x: f32) -> u32 {
    let b = x.to_bits();
    if b << 1 > 0xff00_0000 { 0x7fc0_0000 } else { b }
}

fn settled(x: f64) -> f64 {
    f(bits(x))
}

// Both signs of zeros, subnormals, the ends of the range, infinities, NaNs of several patterns and small numbers.
fn edges() -> Vec<u64> {
    let mut positive = vec![
        0, 1, 2, 3, DIGITS - 1, DIGITS, DIGITS + 1, DIGITS + 2, (2 << 52) - 1, 2 << 52, (1 << 51) - 1, 1 << 51, (1 << 51) + 1,
        INFINITE - 1, INFINITE - 2, INFINITE - (1 << 52), INFINITE, INFINITE + 1, NAN, TOP - 1, TAU, TAU - 1, TAU + 1,
    ];
    for x in [0.5, 1.0, 1.5, 2.0, 2.5, 3.0, 3.5, 4.0, 0.1, 1e10, 1e-10, 1e300, 1e-300] as [f64; 13] {
        let b = x.to_bits();
        positive.extend([b - 1, b, b + 1]);
    }
    both_signs(&positive)
}

// Each operand once: a vector that stands twice tests no more.
fn distinct<T: Copy + Eq + Hash>(list: Vec<T>) -> Vec<T> {
    let mut seen = HashSet::new();
    list.into_iter().filter(|&x| seen.insert(x)).collect()
}

fn both_signs(positive: &[u64]) -> Vec<u64> {
    positive.iter().flat_map(|&b| [b, b | TOP]).collect()
}

// Every power of two with its two neighbours, or each step-th of them.
fn powers(step: usize) -> Vec<u64> {
    (1..2047u64).step_by(step).flat_map(|e| [(e << 52) - 1, e << 52, (e << 52) + 1]).collect()
}

// Numbers around the halves and the whole numbers, up to and past the last half that an f64 has.
fn halves(random: &mut Random) -> Vec<u64> {
    let mut list = Vec::new();
    for n in 0..60u32 {
        list.push((n as f64 * 0.5).to_bits());
    }
    for e in 0..54 {
        let whole = f(random.float(e, e + 1) & !TOP).floor();
        list.extend([whole, whole + 0.5, whole - 0.5, whole + 0.25].map(f64::to_bits));
    }
    let near: Vec<u64> = list.iter().skip(1).flat_map(|&b| [b - 1, b, b + 1]).collect();
    list.extend(near);
    both_signs(&list)
}

// Random bits, and random numbers of ordinary size.
fn ordinary(random: &mut Random, list: &mut Vec<u64>, count: usize) {
    for k in 0..count {
        let b = match k % 4 {
            0 => random.bits(),
            1 => random.float(-10, 20),
            2 => random.short(-10, 60, 12),
            _ => random.float(-3, 4),
        };
        list.push(b);
    }
}

fn plain(random: &mut Random) -> Vec<u64> {
    let mut list = edges();
    list.extend(both_signs(&powers(7)));
    ordinary(random, &mut list, 600);
    list
}

fn for_root(random: &mut Random) -> Vec<u64> {
    let mut list = edges();
    list.extend(powers(5));
    for k in 0..400 {
        let square = f(random.short(-500, 500, 26));
        let b = (square * square).to_bits();
        list.extend([b - 1, b, b + 1]);
        list.push(random.between(1, 2 << (k % 52)));
    }
    while list.len() < 4000 {
        let b = match list.len() % 3 {
            0 => random.bits() & !TOP,
            1 => random.float(-2, 3) & !TOP,
            _ => random.short(-1000, 1000, 20) & !TOP,
        };
        list.push(b);
    }
    list
}

fn for_mul_add(random: &mut Random) -> Vec<[u64; 3]> {
    let mut list = Vec::new();
    let edges = edges();
    for _ in 0..900 {
        list.push([random.of(&edges), random.of(&edges), random.of(&edges)]);
    }
    for k in 0..3600 {
        list.push(triple(random, k % 9));
    }
    list
}

fn triple(random: &mut Random, kind: usize) -> [u64; 3] {
    match kind {
        0 => [random.bits(), random.bits(), random.bits()],
        // ordinary numbers
        1 => [random.float(-3, 4), random.float(-3, 4), random.float(-6, 7)],
        // every distance between the product and the addend
        2 => [random.float(-30, 30), random.float(-30, 30), random.float(-130, 130)],
        // cancellation: the addend is the product rounded, negated, or a near neighbour of it
        3 => {
            let (a, b) = (random.float(-20, 20), random.float(-20, 20));
            let c = (-(f(a) * f(b))).to_bits();
            [a, b, c + random.between(0, 5) - 2]
        }
        // cancellation that leaves nothing, or one of few digits
        4 => {
            let (a, b) = (random.short(-20, 20, 20), random.short(-20, 20, 20));
            let c = (-(f(a) * f(b))).to_bits();
            [a, b, c + (random.between(0, 3) << random.between(0, 30))]
        }
        // a tie: the product is half of the addend's last place, or a neighbour of that
        5 => {
            let c = random.float(-20, 20);
            let exponent = (c >> 52 & 0x7ff) as i64 - 1023;
            let half = exponent - 53;
            let sign = random.bits() & TOP;
            let off = random.between(0, 3);
            [((half + 10 + 1023) as u64) << 52 | sign, (1013 << 52) + off - (off / 2) * 3, c]
        }
        // underflow: the product alone, or beside a subnormal addend
        6 => {
            let digits = random.of(&[2, 20, 52]);
            let addend = random.bits() & (TOP | (2 << 52) - 1);
            [random.short(-545, -520, digits), random.short(-545, -520, digits), random.of(&[0, 1, TOP, TOP | 1, addend, addend])]
        }
        // a subnormal factor
        7 => [random.bits() & (TOP | DIGITS), random.float(-20, 200), random.bits() & (TOP | (64 << 52) - 1)],
        // overflow, and the addend that takes it back
        _ => [random.float(508, 513), random.float(508, 513), random.float(1017, 1024)],
    }
}

fn for_narrow(random: &mut Random) -> Vec<u64> {
    let mut list = edges();
    for e in -152..130i64 {
        list.push(((e + 1023) as u64) << 52);
        list.push(random.float(e, e + 1));
    }
    // ties among the f32s, and their neighbours
    for k in 0..400 {
        let e = if k % 2 == 0 { random.between(0, 254) } else { random.between(0, 3) };
        let low = (e << 23 | random.bits() & 0x7f_ffff) as u32;
        let middle = (f32::from_bits(low) as f64 + f32::from_bits(low + 1) as f64) / 2.0;
        let b = middle.to_bits() | random.bits() & TOP;
        list.extend([b - 1, b, b + 1, (f32::from_bits(low) as f64).to_bits()]);
    }
    // around the largest f32, the tie above it, the smallest f32 and the half of it
    for x in [f32::MAX as f64, 3.4028235677973366e38, f32::MIN_POSITIVE as f64, 1.401298464324817e-45, 7.006492321624085e-46] {
        let b = x.to_bits();
        list.extend(both_signs(&[b - 2, b - 1, b, b + 1, b + 2]));
    }
    while list.len() < 3200 {
        let b = match list.len() % 4 {
            0 => random.bits(),
            1 => random.float(-3, 4),
            2 => random.float(-151, -124),
            _ => random.float(120, 129),
        };
        list.push(b);
    }
    list
}

fn for_widen(random: &mut Random) -> Vec<u32> {
    let mut list = vec![
        0, 1, 2, 0x7f_fffe, 0x7f_ffff, 0x80_0000, 0x80_0001, 0x7f7f_ffff, 0x7f80_0000, 0x7f80_0001, 0x7fc0_0000, 0x7fff_ffff, 0x3f80_0000,
    ];
    list.extend((1..255).flat_map(|e: u32| [(e << 23) - 1, e << 23, (e << 23) + 1]));
    for k in 0..23 {
        list.extend([1 << k, (2 << k) - 1, random.between(1 << k, 2 << k) as u32]);
    }
    list = list.iter().flat_map(|&b| [b, b | 1 << 31]).collect();
    while list.len() < 2400 {
        list.push(random.bits() as u32);
    }
    list
}

fn for_whole(random: &mut Random) -> Vec<u64> {
    let mut list = edges();
    list.extend(halves(random));
    ordinary(random, &mut list, 1400);
    list
}

fn for_integer(random: &mut Random) -> Vec<u64> {
    let mut list = for_whole(random);
    for e in [31, 32, 52, 53, 62, 63, 64, 65] {
        let b = (e + 1023) << 52;
        list.extend(both_signs(&[b - 2, b - 1, b, b + 1, b + 2]));
    }
    for _ in 0..400 {
        list.push(random.float(50, 66));
    }
    list
}

fn integers(random: &mut Random) -> Vec<u64> {
    let mut list = vec![0, u64::MAX];
    for k in 0..64 {
        list.extend([(1 << k) - 1, 1 << k, (1 << k) + 1]);
    }
    // ties: the digits that an f64 has no room for are a one and zeros, or next to that
    for k in 0..600 {
        let room = 1 + k % 11;
        let n = (random.bits() | TOP) >> (11 - room);
        let tie = n >> room << room | 1 << (room - 1);
        list.extend([tie - 1, tie, tie + 1]);
    }
    list.extend((1..=2048).step_by(32).map(|k| u64::MAX - k));
    while list.len() < 2600 {
        let places = random.between(0, 64);
        list.push(random.bits() >> places);
    }
    list
}

fn pairs(random: &mut Random) -> Vec<[u64; 2]> {
    let edges = edges();
    let mut list = Vec::new();
    let few = [0, 1, DIGITS + 1, 0x3ff << 52, INFINITE - 1, INFINITE, INFINITE + 1, NAN];
    for a in both_signs(&few) {
        for b in both_signs(&few) {
            list.push([a, b]);
        }
    }
    for _ in 0..800 {
        list.push([random.of(&edges), random.of(&edges)]);
    }
    for k in 0..1200 {
        let a = if k % 2 == 0 { random.bits() } else { random.float(-3, 4) };
        let b = match k % 5 {
            0 => a,
            1 => a ^ TOP,
            2 => a ^ 1 << random.between(0, 20),
            3 => random.float(-3, 4),
            _ => random.bits(),
        };
        list.push([a, b]);
    }
    list
}

fn for_rem_tau(random: &mut Random) -> Vec<u64> {
    let mut list = edges();
    for k in 0..200u32 {
        let b = (f(TAU) * k as f64).to_bits();
        list.extend(both_signs(&[b, b + 1, b.saturating_sub(1)]));
    }
    list.extend(both_signs(&powers(11)));
    ordinary(random, &mut list, 600);
    list
}

fn total_order(x: f64, y: f64) -> bool {
    settled(x).total_cmp(&settled(y)).is_le()
}

fn larger(a: f64, b: f64) -> f64 {
    if a.is_nan() || b > a { b } else { a }
}

fn smaller(a: f64, b: f64) -> f64 {
    if a.is_nan() || b < a { b } else { a }
}

fn rem_tau(x: f64) -> f64 {
    let t = x % f(TAU);
    if t < 0.0 { t + f(TAU) } else { t }
}

fn floats(out: &mut impl Write, name: &str, list: Vec<u64>, operation: fn(f64) -> f64) -> std::io::Result<()> {
    for b in distinct(list) {
        writeln!(out, "{name} {b:016X} {:016X}", bits(operation(f(b))))?;
    }
    Ok(())
}

fn main() -> std::io::Result<()> {
    let out = &mut BufWriter::new(std::io::stdout());
    let random = &mut Random(0x9e3779b97f4a7c15);
    floats(out, "root", for_root(random), f64::sqrt)?;
    for [a, b, c] in distinct(for_mul_add(random)) {
        writeln!(out, "mul_add {a:016X} {b:016X} {c:016X} {:016X}", bits(f(a).mul_add(f(b), f(c))))?;
    }
    for b in distinct(for_narrow(random)) {
        writeln!(out, "narrow {b:016X} {:08X}", bits32(f(b) as f32))?;
    }
    for b in distinct(for_widen(random)) {
        writeln!(out, "widen {b:08X} {:016X}", bits(f32::from_bits(b) as f64))?;
    }
    floats(out, "floor", for_whole(random), f64::floor)?;
    floats(out, "ceiling", for_whole(random), f64::ceil)?;
    for b in distinct(for_integer(random)) {
        writeln!(out, "to_u64 {b:016X} {:016X}", f(b) as u64)?;
    }
    for b in distinct(for_integer(random)) {
        writeln!(out, "to_i64 {b:016X} {:016X}", f(b) as i64)?;
    }
    for n in distinct(integers(random)) {
        writeln!(out, "of_u64 {n:016X} {:016X}", bits(n as f64))?;
    }
    for [a, b] in distinct(pairs(random)) {
        writeln!(out, "total_order {a:016X} {b:016X} {}", total_order(f(a), f(b)) as u8)?;
    }
    for [a, b] in distinct(pairs(random)) {
        writeln!(out, "max {a:016X} {b:016X} {:016X}", bits(larger(f(a), f(b))))?;
    }
    for [a, b] in distinct(pairs(random)) {
        writeln!(out, "min {a:016X} {b:016X} {:016X}", bits(smaller(f(a), f(b))))?;
    }
    floats(out, "abs", plain(random), f64::abs)?;
    for b in distinct(plain(random)) {
        writeln!(out, "is_finite {b:016X} {}", f(b).is_finite() as u8)?;
    }
    floats(out, "rem_tau", for_rem_tau(random), rem_tau)?;
    out.flush()
}
