// Lists of calls of fresh, set and settle: made by hand for what has to occur, and at random with refused calls of each kind among them.
use crate::caller::{Caller, Rule, NOWHERE, PRIME};
use crate::lines::bits;
use crate::meshes::{angle, Mesh, Random};
use crate::builder::SlabResolution;
use crate::refusals::{self, dihedral_count, distance_count, vertices_below, Held, Settings};
use crate::shape::{self, per};
use std::f64::consts::TAU;

// Lends meshes of the levels from 0 on, with angles as a function has them.
pub fn lend(caller: &mut Caller, meshes: &[Mesh], mut angle_of: impl FnMut(f64) -> f64) {
    let mut lent = [Vec::new(), Vec::new(), Vec::new(), Vec::new()];
    for mesh in meshes {
        let part = mesh.lent();
        lent[0].extend(part.vertices.iter().map(|&x| bits(x)));
        lent[1].extend(part.counts.iter().map(|&n| n as u64));
        lent[2].extend(part.neighbours.iter().map(|&n| n as u64));
        for (i, near) in mesh.neighbours.iter().enumerate() {
            for k in 0..6 {
                let a = near.get(k).map(|&w| angle(&mesh.vertices[i], &mesh.vertices[w as usize]));
                lent[3].push(a.map(|a| bits(angle_of(a))).unwrap_or(bits(f64::NAN)));
            }
        }
    }
    for (k, words) in lent.iter().enumerate() {
        // what is lent already is not written again
        if (0..words.len()).any(|i| caller.lists.word(3 + k, i) != words[i]) {
            caller.entries(3 + k, 0, words);
        }
    }
}

// Energies of the current level by a rule; calm ones settle as Scalar or Mesh nearest over most meshes.
pub fn rule(caller: &Caller, random: &mut Random, calm: bool) -> Rule {
    let count = per(caller.held.level);
    let Settings { threshold, beta, .. } = caller.held.settings;
    let modulus = 1 + random.below(1000) as u64;
    let seed = 1 + random.below(PRIME as usize - 1) as u64;
    let slope = threshold / (beta * modulus as f64);
    let mut r = Rule { count, modulus, seed, base: 0.0, step: 0.0, places: [(NOWHERE, 0.0); 2] };
    match if calm { [0, 1, 4, 5, 6, 6, 6, 6][random.below(8)] } else { random.below(20) } {
        0 => (),
        1 => (r.base, r.step) = (-0.0, -0.0),
        2 | 3 => (r.base, r.step) = (10.0 / beta, slope),
        4 => r.base = random.unit() * 5.0 / beta,
        // slopes far below, between and above the two bounds
        5 => (r.base, r.step) = (random.unit() / beta, slope * 0.01),
        6..=9 => (r.base, r.step) = (random.unit() * 0.01 / beta, slope * 0.2),
        10 | 11 => r.step = 3.0 / (beta * modulus as f64),
        12 => (r.base, r.step) = (f64::INFINITY, 1.0),
        13 => (r.base, r.step) = (f64::NEG_INFINITY, 1.0),
        // over both cuts of E, or up to its last finite values and a little beyond
        14 => {
            let (base, range) = [(-710.5, 1457.0), (-709.8, 1.5)][random.below(2)];
            (r.base, r.step) = (base / beta, range / (beta * modulus as f64));
        }
        15 => r.base = 1e-310 * random.unit(),
        16 => r.base = [1e-46, -1e-46, 1e-40, -1e-45][random.below(4)],
        17 => (r.base, r.step) = (-1.7e308, 1e305),
        18 => r.base = [9.210340371976182, 9.210340371976184, 9.21034037197618][random.below(3)] / beta,
        _ => (r.base, r.step) = (random.finite(), random.finite()),
    }
    if r.energies().iter().any(|e| e.is_nan()) {
        r.step = 0.0;
    }
    for k in 0..2 {
        if !calm && random.below(8) == 0 {
            let values = [0.0, -0.0, 0.3 / beta, 20.0 / beta, -700.0 / beta, f64::INFINITY, f64::NEG_INFINITY, 5e-324];
            r.places[k] = (random.below(count), values[random.below(8)]);
        }
    }
    r
}

// Settings of at most `most` slabs, all of which question 1 lets through.
pub fn settings(random: &mut Random, most: u64) -> Settings {
    loop {
        let n_r = 1 + random.below(shape::DISTANCES) as u64;
        let n_omega = 1 + random.below(6) as u64;
        let dr = [1.0, 0.3, 1e-3, 1e300][random.below(4)];
        let rmin = [0.0, -0.0, 2.5, -7.0][random.below(4)] * dr;
        let rmax = rmin + dr * (n_r as f64 + random.unit() * 0.49);
        let omega_step = shape::omega_step(TAU / (n_omega as f64 + random.unit() * 0.49));
        let threshold = [0.1, 0.1, 0.1, 0.5, 0.5, 2.0, 0.0, 1e-320, 1e308][random.below(9)];
        let beta = [1.0, 1.0, 1.0, 0.4, 3.0, 1e-300, 1e-320, 1e200][random.below(8)];
        let s = Settings { rmin, rmax, dr, omega_step, threshold, beta };
        let slabs = distance_count(rmin, rmax, dr) * dihedral_count(omega_step);
        if rmax > rmin && (1..=most).contains(&slabs) {
            return s;
        }
    }
}

pub const WRONG: usize = shape::WRONG.len();

// The builder with one thing wrong.
pub fn wrong(b: Held, which: usize, random: &mut Random) -> Held {
    let mut b = b;
    let bad = [f64::NAN, f64::INFINITY, 0.0, -1.0][random.below(4)];
    match shape::WRONG[which] {
        0 => b.settings.rmin = [f64::NAN, f64::NEG_INFINITY][random.below(2)],
        1 => b.settings.rmax = b.settings.rmin,
        2 => b.settings.dr = bad,
        3 => b.settings.omega_step = bad,
        4 => b.settings.beta = bad,
        5 => b.settings.threshold = [f64::NAN, f64::INFINITY, -1e-300, -1.0][random.below(4)],
        6 => b.top = [16, u64::MAX][random.below(2)],
        7 => b.level = [b.top + 1, u64::MAX][random.below(2)],
        8 => b.n_r = [b.n_r + 1, 0, u64::MAX][random.below(3)],
        9 => b.n_omega = [b.n_omega + 1, 0, u64::MAX][random.below(3)],
        10 => b.settings.rmax = f64::INFINITY,
        11 => b.settings.omega_step = [1e-5, 20.0][random.below(2)],
        12 => (b.settings.rmin, b.settings.rmax, b.settings.dr, b.n_r) = (0.0, 1.79e308, 1.1e308, 2),
        _ => {
            // 40,000 distance bins by 800 of the dihedral angle
            (b.settings.rmin, b.settings.rmax, b.settings.dr, b.n_r) = (0.0, 40000.0, 1.0, 40000);
            b.settings.omega_step = TAU / 800.0;
            b.n_omega = dihedral_count(b.settings.omega_step);
        }
    }
    b
}

pub const WRONG_MESH: usize = 8;

// One entry of a mesh altered: the list, the place, what it becomes.
pub fn wrong_mesh(caller: &Caller, which: usize, random: &mut Random) -> (usize, usize, u64) {
    let v = random.below(caller.lists.counts.len());
    let k = 6 * v + random.below(6);
    match which {
        0 => (3, 3 * v + random.below(3), bits([f64::NAN, f64::INFINITY][random.below(2)])),
        1 => (4, v, [0, 4, 7, 255][random.below(4)]),
        2 => (5, k, [v as u64, 65535, 92, 12][random.below(4)]),
        3 => (5, k, random.below(12) as u64),
        4 => (5, k, caller.lists.neighbours[6 * v] as u64),
        5 => (6, k, bits(-1e-300)),
        6 => (6, k, bits([f64::NAN, f64::INFINITY][random.below(2)])),
        _ => (6, 6 * v + 5, bits(-1.0)),
    }
}

// How long each list has to be.
pub fn needed_lengths(b: &Held) -> [usize; 8] {
    let all = vertices_below(b.top + 1);
    let slabs = (b.n_r * b.n_omega) as usize;
    [slabs * per(b.top), slabs, slabs, slabs, 3 * all, all, 6 * all, 6 * all]
}

// A call with something wrong about it: what is handed in, and which entries were altered: list, place, before, now.
struct Odd {
    good: Held,
    lent: [usize; 8],
    ri: u64,
    oi: u64,
    rule: Rule,
    undo: Vec<(usize, usize, u64, u64)>,
}

impl Odd {
    fn alter(&mut self, caller: &mut Caller, list: usize, at: usize, n: u64) {
        self.undo.push((list, at, caller.lists.word(list, at), n));
        caller.entries(list, at, &[n]);
    }

    // One thing wrong.
    fn spoil(&mut self, caller: &mut Caller, random: &mut Random) {
        let good = self.good;
        let slabs = (good.n_r * good.n_omega) as usize;
        match random.below(9) {
            0 => self.ri = [good.n_r, u64::MAX, 1 << 32][random.below(3)],
            1 if shape::PAIR => self.oi = [good.n_omega, u64::MAX, 1 << 32][random.below(3)],
            2 => {
                let n = [per(0), per(1), per(2), 0][random.below(4)];
                self.rule.count = [n, self.rule.count.saturating_sub(1), self.rule.count + 1][random.below(3)];
            }
            3 => self.rule.places[0] = (random.below(per(0)), f64::NAN),
            4 => {
                // one short, or exactly as long as needed
                let k = random.below(8);
                self.lent[k] = needed_lengths(&good)[k] - random.below(2);
            }
            5 => {
                let b = wrong(good, random.below(WRONG), random);
                caller.hold(b);
                caller.altered = !same(&b, &good);
            }
            6 => {
                let (list, at, n) = wrong_mesh(caller, random.below(WRONG_MESH), random);
                self.alter(caller, list, at, n);
            }
            7 => {
                let (s, kind) = (random.below(slabs), [4, 255][random.below(2)]);
                // a bit of the rest above a kind that is known
                let rest = caller.rests && random.below(2) == 0;
                self.alter(caller, 0, s, if rest { caller.lists.word(0, s) | 0x100 << random.below(16) } else { kind });
            }
            _ => {
                let s = random.below(slabs);
                // a level of a row that holds energies: too high, or another one
                if caller.lists.kinds[s] >= 2 {
                    let level = [good.top + 1, (caller.lists.levels[s] as u64 + 1) % (good.top + 1), 255][random.below(3)];
                    self.alter(caller, 1, s, level);
                }
            }
        }
    }

    // Where the Rust would not see what was altered, only a refused call is made.
    fn call(&mut self, caller: &mut Caller, random: &mut Random, what: usize) {
        let Odd { good, lent, ri, oi, rule, .. } = *self;
        match what {
            0 => {
                let b = wrong(good, random.below(WRONG), random);
                if refusals::fresh(b.settings, b.top, &lent, &caller.lists).1 != 0 {
                    caller.fresh(b.settings, b.top, [b.n_r, b.n_omega], lent);
                }
            }
            1 | 2 => {
                if !caller.altered || refusals::set(&caller.held, &lent, &caller.lists, ri, oi, &rule.energies()) != 0 {
                    let accepted = caller.set(ri, oi, rule, lent) == 0;
                    // what was altered of this slab's row is gone
                    self.undo.retain(|u| !(accepted && u.0 < 3 && u.1 as u64 == ri * good.n_omega + oi));
                }
            }
            _ => {
                let unseen = self.undo.iter().any(|u| u.0 == 1 || u.0 > 2 && !unread(caller, u));
                if !(caller.altered || unseen) || refusals::settle(&caller.held, &lent, &caller.lists, ri) != 0 {
                    caller.settle(ri, lent);
                }
            }
        }
    }
}

// A call with something wrong about it, which is put right again behind it.
fn odd_call(caller: &mut Caller, random: &mut Random) {
    let good = caller.held;
    let ri = random.below(good.n_r as usize) as u64;
    let oi = random.below(good.n_omega as usize) as u64;
    let mut odd = Odd { good, lent: caller.lists.lengths(), ri, oi, rule: rule(caller, random, false), undo: Vec::new() };
    let what = random.below(5);
    for _ in 0..1 + random.below(2) {
        odd.spoil(caller, random);
    }
    odd.call(caller, random, what);
    for (list, at, before, now) in odd.undo.into_iter().rev() {
        if caller.lists.word(list, at) == now {
            caller.entries(list, at, &[before]);
        }
    }
    if caller.altered {
        caller.hold(good);
        caller.altered = false;
    }
    // a builder by hand: whatever its number of packed energies is, the calls go on from it
    if shape::PAIR && random.below(8) == 0 {
        caller.hold(Held { packed: [0, u64::MAX, random.below(1 << 30) as u64][random.below(3)], ..caller.held });
    }
}

fn same(a: &Held, b: &Held) -> bool {
    format!("{a:?}") == format!("{b:?}")
}

// A place of a mesh that no accepted settle reads: a vertex, the sixth of five, or one of a level above the top.
fn unread(caller: &Caller, u: &(usize, usize, u64, u64)) -> bool {
    let v = match u.0 {
        3 => return true,
        4 => u.1,
        _ => u.1 / 6,
    };
    v >= vertices_below(caller.held.top + 1) || u.0 > 4 && u.1 % 6 >= caller.lists.counts[v] as usize
}

// How many slabs of a level the lent lists have room for.
pub fn room(caller: &Caller, top: u64) -> u64 {
    (caller.lists.store.len() / per(top)).min(caller.lists.kinds.len()) as u64
}

// A list of calls: fresh, then slice after slice set and settled, with other calls in between.
pub fn list(caller: &mut Caller, random: &mut Random, top: u64) {
    let s = settings(random, room(caller, top));
    list_of(caller, random, top, s);
}

pub fn list_of(caller: &mut Caller, random: &mut Random, top: u64, s: Settings) {
    let all = caller.lists.lengths();
    assert_eq!(caller.fresh(s, top, [0, 9], all), 0);
    for ri in 0..caller.held.n_r {
        let calm = random.below(2) == 0;
        for oi in 0..caller.held.n_omega {
            if random.below(6) != 0 {
                let r = rule(caller, random, calm);
                caller.set(ri, oi, r, all);
            }
            if random.below(3) == 0 {
                odd_call(caller, random);
            }
        }
        if random.below(8) == 0 {
            // a slice that may be of another level by the time it is settled
            let r = rule(caller, random, calm);
            caller.set(random.below(caller.held.n_r as usize) as u64, 0, r, all);
        }
        caller.settle(ri, all);
        if random.below(3) == 0 {
            caller.settle(random.below(caller.held.n_r as usize) as u64, all);
        }
    }
    odd_call(caller, random);
    odd_call(caller, random);
}

// The accident: twelve slabs of level 1 that stay Mesh nearest are settled, the level drops, and they are settled again. Here the second call is refused with 11. The Rust takes it, and its
// table has more energies than its rows account for. Against an atom there is one slab, and the Rust panics.
pub fn accident(caller: &mut Caller) {
    let all = caller.lists.lengths();
    let s = Settings { rmin: 0.0, rmax: 1.0, dr: 1.0, omega_step: shape::omega_step(TAU / 12.0), threshold: 0.1, beta: 1.0 };
    assert_eq!(caller.fresh(s, 1, [0, 0], all), 0);
    let r = Rule { count: per(1), modulus: 1, seed: 1, base: 0.0, step: 0.0, places: [(100.min(per(1) - 1), 0.05), (NOWHERE, 0.0)] };
    for oi in 0..caller.held.n_omega {
        assert_eq!(caller.set(0, oi, r, all), 0);
    }
    assert_eq!(caller.settle(0, all), 0);
    assert_eq!(caller.held.level, 0);
    assert_eq!(caller.settle(0, all), 11);
    if !shape::PAIR {
        return;
    }
    let mut rust = caller.rust.take().unwrap();
    rust.finish_r_slice(0);
    assert!(rust.slab_res.iter().all(|r| *r == SlabResolution::Mesh { level: 0, interpolate: false }));
    let table = rust.build();
    assert_eq!(table.slab_offsets[11], 11 * 144);
    println!("the accident in the Rust: {} energies, {} of which no row accounts for", table.data.len(), table.data.len() - 12 * 144);
}

// Repulsive rows and the level: a row that is Repulsive from before keeps it; set anew, it does not.
pub fn repulsive_rows(caller: &mut Caller) {
    let all = caller.lists.lengths();
    let s = Settings { rmin: 0.0, rmax: 2.0, dr: 1.0, omega_step: TAU / 2.0, threshold: 0.1, beta: 1.0 };
    assert_eq!(caller.fresh(s, 1, [2, 2], all), 0);
    let flat = |e| Rule { count: 1764, modulus: 1, seed: 1, base: e, step: 0.0, places: [(NOWHERE, 0.0); 2] };
    for (oi, e) in [(0, 10.0), (1, 0.5)] {
        caller.set(0, oi, flat(e), all);
    }
    caller.settle(0, all);
    caller.set(0, 1, flat(0.25), all);
    caller.settle(0, all);
    assert_eq!(caller.held.level, 1);
    caller.settle(1, all);
    caller.set(0, 0, flat(-0.0), all);
    caller.settle(0, all);
    assert_eq!(caller.held.level, 0);
}

// Three slices, each settled as Mesh nearest at a level of its own.
pub fn descent(caller: &mut Caller) {
    let all = caller.lists.lengths();
    let s = Settings { rmin: 0.0, rmax: 3.0, dr: 1.0, omega_step: 6.0, threshold: 0.1, beta: 1.0 };
    assert_eq!(caller.fresh(s, 2, [0, 0], all), 0);
    for ri in 0..3 {
        // of an atom's few energies the steepest pair is less steep at a low level
        let step = if shape::PAIR { 1e-4 } else { 4e-4 / (1 << caller.held.level) as f64 };
        let r = Rule { count: per(caller.held.level), modulus: 100, seed: 1 + ri, base: -0.25, step, places: [(NOWHERE, 0.0); 2] };
        assert_eq!([caller.set(ri, 0, r, all), caller.settle(ri, all)], [0, 0]);
    }
    assert_eq!(caller.lists.kinds[..3], [2, 2, 2]);
    assert_eq!(caller.lists.levels[..3], [2, 1, 0]);
}

// Each thing that can be wrong with a builder or a mesh, in each call.
pub fn refused(caller: &mut Caller, random: &mut Random) {
    let all = caller.lists.lengths();
    let s = Settings { rmin: 1.0, rmax: 3.0, dr: 1.0, omega_step: shape::omega_step(TAU / 2.0), threshold: 0.1, beta: 1.0 };
    assert_eq!(caller.fresh(s, 1, [5, 5], all), 0);
    let good = caller.held;
    let r = rule(caller, random, true);
    for which in 0..WRONG {
        let b = wrong(good, which, random);
        if refusals::fresh(b.settings, b.top, &all, &caller.lists).1 != 0 {
            caller.fresh(b.settings, b.top, [b.n_r, b.n_omega], all);
        }
        caller.hold(b);
        caller.altered = true;
        assert!(caller.set(0, 0, r, all) > 0 && caller.settle(0, all) > 0);
    }
    caller.hold(good);
    caller.altered = false;
    for which in 0..2 * WRONG_MESH {
        let (list, at, n) = wrong_mesh(caller, which % WRONG_MESH, random);
        let before = caller.lists.word(list, at);
        caller.entries(list, at, &[n]);
        if refusals::settle(&good, &all, &caller.lists, 0) != 0 {
            caller.fresh(s, 1, [0, 0], all);
            caller.settle(0, all);
        }
        caller.entries(list, at, &[before]);
    }
}

// Lists that are exactly as long as needed, and one of them one short.
pub fn lengths(caller: &mut Caller, random: &mut Random) {
    let s = Settings { rmin: 1.0, rmax: 3.0, dr: 1.0, omega_step: shape::omega_step(TAU / 2.0), threshold: 0.1, beta: 1.0 };
    let (b, _) = refusals::fresh(s, 1, &caller.lists.lengths(), &caller.lists);
    let exact = needed_lengths(&b);
    assert_eq!(caller.fresh(s, 1, [0, 0], exact), 0);
    let r = rule(caller, random, true);
    assert_eq!(caller.set(1, b.n_omega - 1, r, exact), 0);
    for k in 0..8 {
        let mut short = exact;
        short[k] -= 1;
        assert_eq!([caller.fresh(s, 1, [0, 0], short), caller.settle(1, short)], [6, 6]);
        assert_eq!(caller.set(1, b.n_omega - 1, r, short), if k < 4 { 6 } else { 0 });
    }
    assert_eq!(caller.settle(1, exact), 0);
}

// Over meshes none of whose pairs counts: the mean of infinities of both signs. With one pair at a huge angle: a gradient that is subnormal.
pub fn odd_numbers(caller: &mut Caller) {
    let all = caller.lists.lengths();
    let s = Settings { rmin: 0.0, rmax: 1.0, dr: 1.0, omega_step: 6.0, threshold: 0.1, beta: 1.0 };
    let of_vertex_0 = if shape::PAIR { 3 } else { 0 };
    let with = |places| Rule { count: per(0), modulus: 1, seed: 1, base: 0.0, step: 0.0, places };
    assert_eq!(caller.fresh(s, 0, [0, 0], all), 0);
    caller.set(0, 0, with([(3, f64::INFINITY), (5, f64::NEG_INFINITY)]), all);
    caller.settle(0, all);
    let before = caller.lists.word(6, 0);
    caller.entries(6, 0, &[bits(1e308)]);
    for threshold in [1e-309, 5e-308, 0.1] {
        assert_eq!(caller.fresh(Settings { threshold, ..s }, 0, [0, 0], all), 0);
        caller.set(0, 0, with([(of_vertex_0, 20.0), (NOWHERE, 0.0)]), all);
        caller.settle(0, all);
    }
    caller.entries(6, 0, &[before]);
}

// Weights at both ends of E, where one pair of vertices counts: the last finite ones, infinite ones, subnormal ones, and 0. A place that the pair does not meet keeps the slab from being Repulsive.
pub fn far_weights(caller: &mut Caller) {
    let all = caller.lists.lengths();
    let s = Settings { rmin: 0.0, rmax: 1.0, dr: 1.0, omega_step: 6.0, threshold: 1e-318, beta: 1.0 };
    let before = caller.lists.word(6, 0);
    let unmet = if shape::PAIR { 67 } else { 11 };
    caller.entries(6, 0, &[bits(1.0)]);
    for (base, apart, kind) in [(-709.78, NOWHERE, 3), (-720.0, NOWHERE, 0), (720.0, unmet, 3), (746.0, unmet, 0)] {
        let r = Rule { count: per(0), modulus: 100, seed: 1, base, step: 0.005, places: [(apart, 0.0), (NOWHERE, 0.0)] };
        assert_eq!(caller.fresh(s, 0, [0, 0], all), 0);
        assert_eq!([caller.set(0, 0, r, all), caller.settle(0, all)], [0, 0]);
        assert_eq!(caller.lists.kinds[0], kind);
    }
    caller.entries(6, 0, &[before]);
}
