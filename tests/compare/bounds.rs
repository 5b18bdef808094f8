// Lists of calls for what numbers at random hardly ever meet: a table's rmax that is another where it is not fused, gradients at a bound or beside it, energies beside Repulsive's bound, and means that
// another order of the sum, or a product in the quotient's place, would narrow to another f32.
use crate::caller::{Caller, Rule, NOWHERE, PRIME};
use crate::lists::{list, list_of, room, rule, settings};
use crate::meshes::Random;
use crate::refusals::{distance_count, Settings};
use crate::samples::{narrow_tie, step};
use crate::shape::{self, per};
use std::f64::consts::TAU;

// What the lists of this page are counted as.
pub const CASES: [&str; 3] = [
    "a list whose rmax is another where it is not fused",
    "a list whose threshold is at a gradient, at ten times one, or beside it",
    "a list of means at ties, of sums that cancel, or beside Repulsive's bound",
];

// A list of one kind or another; at high levels, where there are few, a bound more often.
pub fn drawn(caller: &mut Caller, random: &mut Random, top: u64) {
    let most = room(caller, top);
    match random.below(if top > 5 { 4 } else { 8 }) {
        0 if most > 6 => {
            let s = unfused_elsewhere(random, most);
            list_of(caller, random, top, s);
            caller.case(CASES[0]);
        }
        1 => at_thresholds(caller, random, top),
        2 => means(caller, random, top),
        _ => list(caller, random, top),
    }
}

// Seven distance bins or more, and an rmax that is another where product and sum are rounded one by one.
fn unfused_elsewhere(random: &mut Random, most: u64) -> Settings {
    loop {
        let n_r = 7.0 + random.below(most as usize - 6) as f64;
        let dr = (1.5 + 0.5 * random.unit()) * 10f64.powi(random.below(7) as i32 - 3);
        let rmin = dr * 40.0 * random.unit();
        let rmax = rmin + dr * (n_r + 0.4 * random.unit());
        let fused = n_r.mul_add(dr, rmin);
        let counted = [rmax, fused].iter().all(|&end| distance_count(rmin, end, dr) as f64 == n_r);
        if counted && fused != n_r * dr + rmin {
            let omega_step = shape::omega_step(TAU / (1 + random.below(most as usize / n_r as usize)) as f64);
            return Settings { rmin, rmax, dr, omega_step, ..settings(random, most) };
        }
    }
}

// A threshold at a gradient or beside it; or one whose tenth is there; or one whose tenth is, by a quotient, on one side of the gradient and, as a product with 0.1, on the other.
fn threshold_at(g: f64, random: &mut Random) -> Option<f64> {
    let near = |x: f64, random: &mut Random| step(x, random.below(3) as i64 - 1);
    let mut tenfold = (-12..=12).map(|k| step(10.0 * g, k)).filter(|t| t.is_finite());
    match random.below(4) {
        0 => Some(near(g, random)),
        1 => {
            let tenth = near(g, random);
            tenfold.find(|t| t / 10.0 == tenth)
        }
        _ => tenfold.find(|t| (g < t / 10.0) != (g < t * 0.1)),
    }
}

// A slice set, and settled with a threshold that its gradients, known beforehand, are at or beside; then the list goes on.
fn at_thresholds(caller: &mut Caller, random: &mut Random, top: u64) {
    let all = caller.lists.lengths();
    let beta = [1.0, 0.4, 3.0][random.below(3)];
    let s = Settings { threshold: 0.1, beta, ..settings(random, room(caller, top)) };
    assert_eq!(caller.fresh(s, top, [0, 0], all), 0);
    let rules: Vec<Rule> = (0..caller.held.n_omega).map(|_| rule(caller, random, false)).collect();
    let mut gradients: Vec<f64> = rules.iter().map(|r| caller.gradient(&r.energies())).filter(|g| *g > 0.0 && g.is_finite()).collect();
    gradients.sort_by(f64::total_cmp);
    // the largest decides on the level
    if random.below(2) == 0 {
        gradients.drain(..gradients.len().saturating_sub(1));
    }
    if let Some(threshold) = gradients.iter().find_map(|&g| threshold_at(g, random)) {
        assert_eq!(caller.fresh(Settings { threshold, ..s }, top, [0, 0], all), 0);
        caller.case(CASES[1]);
    }
    for (oi, r) in rules.into_iter().enumerate() {
        caller.set(0, oi as u64, r, all);
    }
    caller.settle(0, all);
    if random.below(2) == 0 {
        // settled again with another threshold: where it is lower, what is nearest stays so
        let by = [0.0, 0.01, 20.0, random.unit().abs()][random.below(4)];
        caller.hold_threshold((caller.held.settings.threshold * by).min(f64::MAX));
        caller.settle(0, all);
    }
    for ri in 1..caller.held.n_r {
        let r = rule(caller, random, true);
        caller.set(ri, 0, r, all);
        caller.settle(ri, all);
    }
}

// An energy half way between two f32 or beside it, and one that differs from it by some last places of the sum: their mean, the second being one of `count`, narrows otherwise where the sum is
// multiplied by 1 / count. The last that was drawn, where none of them does.
fn tied_mean(count: f64, random: &mut Random) -> (f64, f64) {
    let mut drawn = (0.0, 0.0);
    for _ in 0..300 {
        let tie = narrow_tie(random);
        let sum = (tie * count).abs();
        let one = tie + random.whole(2) * (sum.next_up() - sum);
        let sum = (count - 1.0) * tie + one;
        if sum.is_finite() {
            drawn = (tie, one);
            if (sum / count) as f32 != (sum * (1.0 / count)) as f32 {
                break;
            }
        }
    }
    drawn
}

// Energies as above; small ones between which a large one comes and goes; equal ones beside the first that is repulsive.
fn mean_rule(caller: &Caller, random: &mut Random) -> Rule {
    let count = per(caller.held.level);
    let flat = |base: f64| Rule { count, modulus: 1, seed: 1, base, step: 0.0, places: [(NOWHERE, 0.0); 2] };
    match random.below(3) {
        0 => {
            let (tie, one) = tied_mean(count as f64, random);
            Rule { places: [(random.below(count), one), (NOWHERE, 0.0)], ..flat(tie) }
        }
        1 => {
            let (modulus, seed) = (1 + random.below(1000) as u64, 1 + random.below(PRIME as usize - 1) as u64);
            let large = random.unit() * 2f64.powi(50 + random.below(800) as i32);
            let (a, b) = (random.below(count), random.below(count));
            Rule { modulus, seed, base: random.unit(), step: random.unit(), places: [(a, large), (b, -large)], ..flat(0.0) }
        }
        _ => flat(step(9.210340371976182 / caller.held.settings.beta, random.below(2001) as i64 - 1000)),
    }
}

// Every slab set by such a rule. At a tiny beta all weights are 1, and each slab becomes the Scalar of its mean.
fn means(caller: &mut Caller, random: &mut Random, top: u64) {
    let all = caller.lists.lengths();
    let s = Settings { threshold: 0.1, beta: [1.0, 0.4, 1e-300, 1e-320][random.below(4)], ..settings(random, room(caller, top)) };
    assert_eq!(caller.fresh(s, top, [0, 0], all), 0);
    for ri in 0..caller.held.n_r {
        for oi in 0..caller.held.n_omega {
            let r = mean_rule(caller, random);
            caller.set(ri, oi, r, all);
        }
        caller.settle(ri, all);
    }
    caller.case(CASES[2]);
}
