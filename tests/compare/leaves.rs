// Compares each operation on numbers of the static library libfloat_c.a with the machine's or Rust's own, bit for bit (any NaN is equal to any other): leaves SEED short|long.
// Edges first, then inputs at random; the long run has widen go through every f32. Max, min, the total order and the remainder are written out here as document 01 has them; E,
// ln and the power are the oracle's. The cases of narrow are those of IEEE 754's clause 4.3.1, at every f32 in the long run. Prints a line for each operation, and ends with status 1 where one of them differs.
mod arguments;
#[allow(dead_code)]
mod lines;
#[allow(dead_code)]
mod meshes;
#[allow(dead_code, clippy::all)]
mod average {
    include!(concat!(env!("COMPARE"), "/average.rs"));
}
#[allow(dead_code, clippy::all)]
mod builder {
    include!(concat!(env!("COMPARE"), "/builder.rs"));
}
#[allow(dead_code, clippy::all)]
mod rust_tail {
    include!(concat!(env!("COMPARE"), "/tail.rs"));
}
mod samples;

use arguments::arguments;
use lines::bits;
use meshes::Random;
use samples::{base_and_exponent, cancelling, edge, near_multiple, near_root, narrow_tie, number, sample, step, EDGES};
use std::f64::consts::TAU;

extern "C" {
    fn float_root(x: f64) -> f64;
    fn float_mul_add(a: f64, b: f64, c: f64) -> f64;
    fn float_narrow(x: f64) -> f32;
    fn float_narrow_case(x: f64) -> u64;
    fn float_narrow_all(xs: *const f64, a: usize, out: *mut f32, b: usize);
    fn float_exp(y: f64) -> f64;
    fn float_ln(x: f64) -> f64;
    fn float_power(r: f64, n: u32) -> f64;
    fn float_is_finite(x: f64) -> bool;
    fn float_widen(x: f32) -> f64;
    fn float_floor(x: f64) -> f64;
    fn float_ceiling(x: f64) -> f64;
    fn float_to_u64(x: f64) -> u64;
    fn float_to_i64(x: f64) -> i64;
    fn float_of_u64(n: u64) -> f64;
    fn float_total_order(x: f64, y: f64) -> bool;
    fn float_max(a: f64, b: f64) -> f64;
    fn float_min(a: f64, b: f64) -> f64;
    fn float_abs(x: f64) -> f64;
    fn float_rem_tau(x: f64) -> f64;
}

// ---- document 01's words

// "return the other operand beside a NaN and, of zeros of both signs, the first operand"
fn max(a: f64, b: f64) -> f64 {
    match (a.is_nan(), b.is_nan()) {
        (true, _) => b,
        (_, true) => a,
        _ if b > a => b,
        _ => a,
    }
}

fn min(a: f64, b: f64) -> f64 {
    match (a.is_nan(), b.is_nan()) {
        (true, _) => b,
        (_, true) => a,
        _ if b < a => b,
        _ => a,
    }
}

// Any NaN counts as the positive quiet one.
fn total_order(x: f64, y: f64) -> bool {
    f64::from_bits(bits(x)).total_cmp(&f64::from_bits(bits(y))).is_le()
}

// "Remainder by TAU is `%`, plus TAU when below 0": the exact remainder over whole numbers, since the library's `%` and Rust's are the same function of the C library.
fn rem_tau(x: f64) -> f64 {
    if !x.is_finite() {
        return f64::NAN;
    }
    let (b, turn) = (x.to_bits(), TAU.to_bits() & ((1 << 52) - 1) | 1 << 52);
    let (field, fraction) = (b >> 52 & 0x7ff, b & ((1 << 52) - 1));
    let whole = if field == 0 { fraction } else { fraction | 1 << 52 };
    // x is whole * 2^(field - 1075), and TAU is turn * 2^-50; below the field 1025 x is less than 4
    let mut t = x.abs();
    if field >= 1025 {
        let mut rest = whole % turn;
        let mut left = field - 1025;
        while left > 0 {
            let by = left.min(64);
            rest = (((rest as u128) << by) % turn as u128) as u64;
            left -= by;
        }
        t = rest as f64 * 2f64.powi(-50);
    }
    let t = t.copysign(x);
    if t < 0.0 {
        t + TAU
    } else {
        t
    }
}

// ---- the cases of narrowing

// The f32 above a finite one of no sign, as an f64; above the largest it is the place where the next one would be.
fn above(low: f32) -> f64 {
    if low == f32::MAX {
        2f64.powi(128)
    } else {
        f32::from_bits(low.to_bits() + 1) as f64
    }
}

// By the two f32 around the number: overflow first, then on which side of the middle it lies, and of which last bit the lower one is.
fn narrow_case(x: f64) -> u64 {
    let size = x.abs();
    if !size.is_finite() {
        return 0;
    }
    if size >= 2f64.powi(128) - 2f64.powi(103) {
        return 1;
    }
    let near = size as f32;
    let low = if near as f64 > size { f32::from_bits(near.to_bits() - 1) } else { near };
    let middle = (low as f64 + above(low)) / 2.0;
    match (size < middle, size > middle) {
        (true, _) => 2,
        (_, true) => 5,
        _ => 3 + (low.to_bits() % 2) as u64,
    }
}

// ---- the comparison

// Inputs of an operation, and what was found.
struct Leaf {
    name: &'static str,
    all: u64,
    wrong: u64,
}

impl Leaf {
    fn new(name: &'static str) -> Leaf {
        Leaf { name, all: 0, wrong: 0 }
    }

    fn judge(&mut self, input: [u64; 3], got: u64, want: u64) {
        self.all += 1;
        if got != want {
            self.wrong += 1;
            if self.wrong <= 3 {
                println!("DIFFERENCE: {} of {input:016X?} is {got:016X}, not {want:016X}", self.name);
            }
        }
    }

    // How many differ.
    fn done(&self) -> u64 {
        println!("{}: {} inputs, {} differences", self.name, self.all, self.wrong);
        assert!(self.all > 0, "nothing was compared");
        self.wrong
    }
}

fn single(x: f32) -> u64 {
    bits(x as f64)
}

fn unary(name: &'static str, count: u64, random: &mut Random, draw: impl Fn(&mut Random) -> f64, ours: impl Fn(f64) -> u64, theirs: impl Fn(f64) -> u64) -> u64 {
    let mut leaf = Leaf::new(name);
    for i in 0..count.max(EDGES as u64) {
        let x = if i < EDGES as u64 { edge(i as usize) } else { draw(random) };
        leaf.judge([x.to_bits(), 0, 0], ours(x), theirs(x));
    }
    leaf.done()
}

fn binary(name: &'static str, count: u64, random: &mut Random, ours: impl Fn(f64, f64) -> u64, theirs: impl Fn(f64, f64) -> u64) -> u64 {
    let mut leaf = Leaf::new(name);
    let edges = (EDGES * EDGES) as u64;
    for i in 0..count.max(edges) {
        let (x, y) = if i < edges {
            (edge(i as usize % EDGES), edge(i as usize / EDGES))
        } else {
            let x = sample(random);
            let near = step(x, random.below(5) as i64 - 2);
            (x, [near, -near, sample(random), sample(random)][random.below(4)])
        };
        leaf.judge([x.to_bits(), y.to_bits(), 0], ours(x, y), theirs(x, y));
    }
    leaf.done()
}

fn fused(count: u64, random: &mut Random) -> u64 {
    let mut leaf = Leaf::new("mul_add");
    let edges = (EDGES * EDGES * EDGES) as u64;
    for i in 0..count.max(edges) {
        let k = i as usize;
        let [a, b, c] = if i < edges {
            [edge(k % EDGES), edge(k / EDGES % EDGES), edge(k / EDGES / EDGES)]
        } else {
            cancelling(random)
        };
        leaf.judge([a, b, c].map(f64::to_bits), bits(unsafe { float_mul_add(a, b, c) }), bits(a.mul_add(b, c)));
    }
    leaf.done()
}

// Lists of up to 64 numbers, into lists that are shorter or longer: what is beyond stays.
fn narrow_all(count: u64, random: &mut Random) -> u64 {
    let mut leaf = Leaf::new("narrow, a list");
    while leaf.all < count {
        let xs: Vec<f64> = (0..random.below(65)).map(|_| narrow_tie(random)).collect();
        let before: Vec<f32> = (0..random.below(80)).map(|_| f32::from_bits(random.bits() as u32)).collect();
        let mut out = before.clone();
        let n = random.below(out.len() + 1);
        unsafe { float_narrow_all(xs.as_ptr(), xs.len(), out.as_mut_ptr(), n) };
        for (i, (x, was)) in out.iter().zip(&before).enumerate() {
            let narrowed = i < n && i < xs.len();
            let (got, want) = if narrowed { (single(*x), single(xs[i] as f32)) } else { (x.to_bits() as u64, was.to_bits() as u64) };
            leaf.judge([i as u64, xs.get(i).map_or(0, |x| x.to_bits()), n as u64], got, want);
        }
    }
    leaf.done()
}

// The middle between an f32 and the next, one place of f64 to each side, and the f32 itself, with either sign: the case, and that it alone gives
// the machine's cast and narrow's answer.
fn middles(count: u64, all: bool, random: &mut Random) -> u64 {
    const FINITE: u64 = 0x7F80_0000;
    let mut leaf = Leaf::new("narrow and its case around the middles");
    for i in 0..if all { FINITE } else { count } {
        let pattern = if all { i as u32 } else { (random.bits() % FINITE) as u32 };
        let low = f32::from_bits(pattern);
        let middle = (low as f64 + above(low)) / 2.0;
        let [tie, more] = if low == f32::MAX { [1, 1] } else { [3 + (pattern % 2) as u64, 5] };
        for (x, case) in [(low as f64, 2), (step(middle, -1), 2), (middle, tie), (step(middle, 1), more)] {
            let made = [0, 0x7F80_0000, pattern, pattern, pattern + 1, pattern + 1][case as usize];
            for (x, sign) in [(x, 0), (-x, 1 << 31)] {
                let want = sign | made;
                let other = (x as f32).to_bits() ^ want | unsafe { float_narrow(x) }.to_bits() ^ want;
                leaf.judge([x.to_bits(), 0, 0], (other as u64) << 4 | unsafe { float_narrow_case(x) }, case);
            }
        }
    }
    leaf.done()
}

fn power(count: u64, random: &mut Random) -> u64 {
    let mut leaf = Leaf::new("power");
    for _ in 0..count {
        let (r, n) = base_and_exponent(random);
        leaf.judge([r.to_bits(), n as u64, 0], bits(unsafe { float_power(r, n) }), bits(rust_tail::raised(r, n)));
    }
    leaf.done()
}

fn of_u64(count: u64, random: &mut Random) -> u64 {
    let mut leaf = Leaf::new("of_u64");
    for i in 0..count {
        let n = if i < 1 << 16 { [i, u64::MAX - i, (1 << 53) + i, (1 << 63) + i][i as usize % 4] } else { number(random) };
        leaf.judge([n, 0, 0], bits(unsafe { float_of_u64(n) }), bits(n as f64));
    }
    leaf.done()
}

fn widen(count: u64, all: bool, random: &mut Random) -> u64 {
    let mut leaf = Leaf::new("widen");
    for i in 0..if all { 1 << 32 } else { count } {
        let x = f32::from_bits(if all { i as u32 } else { random.bits() as u32 });
        leaf.judge([x.to_bits() as u64, 0, 0], bits(unsafe { float_widen(x) }), bits(x as f64));
    }
    leaf.done()
}

// From -708 to 709 E has the bits that document 01 gave it by one product, p * 2^k: at the middle and both ends of every k, beside them and at random numbers between.
fn as_before(each: u64, random: &mut Random, ours: impl Fn(f64) -> u64) -> u64 {
    let mut leaf = Leaf::new("E as before");
    for k in -1021..=1023 {
        let at = |part: f64, steps: i64| step((k as f64 + part) * std::f64::consts::LN_2, steps);
        let beside = [-0.5, 0.0, 0.5].into_iter().flat_map(|part| (-3..=3).map(move |steps| (part, steps)));
        let inside: Vec<f64> = beside.map(|(part, steps)| at(part, steps)).chain((0..each).map(|_| at(random.unit() / 2.0, 0))).collect();
        for y in inside.into_iter().chain([-708.0, 709.0]).filter(|y| (-708.0..=709.0).contains(y)) {
            let (p, k) = builder::steps(y);
            leaf.judge([y.to_bits(), 0, 0], ours(y), bits(p * builder::power(k)));
        }
    }
    leaf.done()
}

fn main() {
    let (mut random, length) = arguments();
    // inputs of each operation
    let n = length.choose(2_000_000, 100_000_000);
    let all = length.choose(false, true);
    let r = &mut random;
    let some = |r: &mut Random| sample(r);
    let mut wrong = 0;
    unsafe {
        wrong += unary("root", n, r, near_root, |x| bits(float_root(x)), |x| bits(x.sqrt()));
        wrong += fused(n, r);
        wrong += unary("narrow", n, r, narrow_tie, |x| single(float_narrow(x)), |x| single(x as f32));
        wrong += unary("narrow's case", n, r, narrow_tie, |x| float_narrow_case(x), narrow_case);
        wrong += middles(n / 8, all, r);
        wrong += narrow_all(n, r);
        wrong += widen(n, all, r);
        wrong += unary("floor", n, r, some, |x| bits(float_floor(x)), |x| bits(x.floor()));
        wrong += unary("ceiling", n, r, some, |x| bits(float_ceiling(x)), |x| bits(x.ceil()));
        wrong += unary("to_u64", n, r, some, |x| float_to_u64(x), |x| x as u64);
        wrong += unary("to_i64", n, r, some, |x| float_to_i64(x) as u64, |x| x as i64 as u64);
        wrong += of_u64(n, r);
        wrong += binary("total_order", n, r, |x, y| float_total_order(x, y) as u64, |x, y| total_order(x, y) as u64);
        wrong += binary("max", n, r, |x, y| bits(float_max(x, y)), |x, y| bits(max(x, y)));
        wrong += binary("min", n, r, |x, y| bits(float_min(x, y)), |x, y| bits(min(x, y)));
        wrong += unary("abs", n, r, some, |x| bits(float_abs(x)), |x| bits(x.abs()));
        wrong += unary("is_finite", n, r, some, |x| float_is_finite(x) as u64, |x| x.is_finite() as u64);
        wrong += unary("rem_tau", n, r, near_multiple, |x| bits(float_rem_tau(x)), |x| bits(rem_tau(x)));
        wrong += unary("E", n, r, samples::exponent, |x| bits(float_exp(x)), |x| bits(builder::exponential(x)));
        wrong += as_before(n / 2000, r, |x| bits(float_exp(x)));
        wrong += unary("ln", n, r, samples::logarithm, |x| bits(float_ln(x)), |x| bits(average::logarithm(x)));
        wrong += power(n, r);
    }
    println!("leaves: {wrong} differences");
    std::process::exit((wrong > 0) as i32);
}
