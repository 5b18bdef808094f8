// How the sides are timed, and how a figure is printed. The sides are the library that landed, the new one and what they stand beside, in this order.
use std::hint::black_box;
use std::sync::atomic::{AtomicBool, Ordering::Relaxed};

// Whether the landed library takes part: not where it was not built or has no such function, nor for a profiler. The table has a column for it where it was built.
pub static LANDED: AtomicBool = AtomicBool::new(cfg!(landed));

// How much above its bar a ratio may be in one run.
const NEAR: f64 = 1.1;

pub fn landed() -> bool {
    LANDED.load(Relaxed)
}

// A result that counts as used.
pub fn used<T>(x: T) {
    black_box(x);
}

// Each item in turn, of which the compiler learns nothing.
pub fn each<T>(list: &[T], mut run: impl FnMut(&T)) {
    for x in list {
        run(black_box(x));
    }
}

// The nanoseconds that this thread has run, so that what else the machine does counts less (CLOCK_THREAD_CPUTIME_ID of Linux).
fn clock() -> i64 {
    extern "C" {
        fn clock_gettime(clock: i32, time: *mut [i64; 2]) -> i32;
    }
    let mut time = [0; 2];
    assert_eq!(unsafe { clock_gettime(3, &mut time) }, 0);
    time[0] * 1_000_000_000 + time[1]
}

// Nanoseconds of each side for each of `parts` parts; NaN for the landed library where it takes no part. The sides take turns, round after round; the least counts, since whatever disturbs a round
// makes it longer.
pub fn least(rounds: usize, parts: usize, sides: [&mut dyn FnMut(); 3]) -> [f64; 3] {
    turns(rounds, parts, sides, landed())
}

// The same of any three sides.
#[cfg(not(atom))]
pub fn least_of_three(rounds: usize, parts: usize, sides: [&mut dyn FnMut(); 3]) -> [f64; 3] {
    turns(rounds, parts, sides, true)
}

fn turns(rounds: usize, parts: usize, sides: [&mut dyn FnMut(); 3], first: bool) -> [f64; 3] {
    let mut least = [i64::MAX; 3];
    for round in 0..rounds {
        for turn in 0..3 {
            // each side comes after each of the others, and none after itself, whose lists would still be in the cache
            let k = if round % 2 == 0 { turn } else { (3 - turn) % 3 };
            if k > 0 || first {
                let start = clock();
                sides[k]();
                least[k] = least[k].min(clock() - start);
            }
        }
    }
    least.map(|t| if t == i64::MAX { f64::NAN } else { t as f64 / parts as f64 })
}

// The same of the new library alone.
pub fn least_alone(rounds: usize, parts: usize, mut run: impl FnMut()) -> f64 {
    least(rounds, parts, [&mut || (), &mut run, &mut || ()])[1]
}

// A number with as many digits as it is worth; a NaN where nothing was timed.
pub fn figure(x: f64) -> String {
    match x {
        x if x.is_nan() => "-".into(),
        x if x < 10.0 => format!("{x:.2}"),
        x if x < 100.0 => format!("{x:.1}"),
        _ => format!("{x:.0}"),
    }
}

fn ratio(x: f64) -> String {
    if x.is_nan() { "-".into() } else { format!("{x:.2}") }
}

// What the new library is held to.
#[derive(Clone, Copy)]
pub enum Bar {
    // so many times the other side's time
    Times(f64),
    // the landed library's time
    Landed,
    // the same as Times, of which a miss is no miss
    Goal(f64),
}

// A line of the table.
pub fn row(what: &str, unit: &str, [before, new, other]: [f64; 3], bar: Bar) {
    let (held, words) = match bar {
        Bar::Times(x) => (new / other <= x * NEAR, x.to_string()),
        Bar::Landed => (!(new / before > NEAR), "landed".into()),
        Bar::Goal(x) => (true, format!("goal {x}")),
    };
    let mark = if held { "" } else { "**" };
    if cfg!(beside) {
        println!("| {what} | {unit} | {} | {} | {} | {} | {mark}{:.2}{mark} | {words} |", figure(before), figure(new), figure(other), ratio(before / other), new / other);
    } else {
        println!("| {what} | {unit} | {} | {} | {mark}{:.2}{mark} | {words} |", figure(new), figure(other), new / other);
    }
}

// A figure of the new library, its ratio, and that of the landed one.
pub fn with_ratio([before, new, other]: [f64; 3], parts: f64) -> String {
    let was = if landed() { format!(", was {:.2}", before / other) } else { String::new() };
    format!("{} ({:.2}{was})", figure(new * parts), new / other)
}
