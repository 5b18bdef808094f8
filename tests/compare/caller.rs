// The caller of a list of calls: the lent lists, the builder as the calls left it, and the Rust's builder. Every call is answered here, by the Rust and by refusals.rs, and handed on with its answer.
use crate::builder::{MeshLevel, SlabResolution};
use crate::refusals::{self, vertices_below, vertices_of, Held, Lists, Settings};
use crate::shape::{self, per, RustBuilder};
use std::collections::BTreeMap;

pub const PRIME: u64 = 2_147_483_647;
// a place that no energy has
pub const NOWHERE: usize = usize::MAX;

#[derive(Clone, Copy)]
pub struct Rule {
    pub count: usize,
    pub modulus: u64,
    pub seed: u64,
    pub base: f64,
    pub step: f64,
    pub places: [(usize, f64); 2],
}

impl Rule {
    pub fn energies(&self) -> Vec<f64> {
        let mut x = self.seed;
        let mut list: Vec<f64> = (0..self.count)
            .map(|_| {
                x = x % PRIME * 16807 % PRIME;
                self.base + self.step * (x.checked_rem(self.modulus).unwrap_or(0) as f64)
            })
            .collect();
        for (i, e) in self.places {
            if i < list.len() {
                list[i] = e;
            }
        }
        list
    }
}

// A call: what is handed in. For fresh `held` has the two counts that it takes no notice of.
pub enum What<'a> {
    Fresh,
    Set(u64, u64, &'a Rule, &'a [f64]),
    Settle(u64),
}

pub struct Call<'a> {
    pub what: What<'a>,
    pub held: Held,
    pub lent: [usize; 8],
}

// Its answer; the lists afterwards are the caller's.
pub struct Answer {
    pub number: u64,
    pub gradient: f64,
    pub comparisons: u64,
    pub held: Held,
}

// Where the calls go: to a file of tests/replay, or to the static library.
pub trait Sink {
    // The lists as they are lent at first.
    fn lend(&mut self, lists: &Lists);
    // Entries that are altered by hand.
    fn entries(&mut self, list: usize, start: usize, words: &[u64]);
    // A builder that is held from here on.
    fn hold(&mut self, b: &Held);
    fn call(&mut self, call: &Call, answer: &Answer, lists: &Lists);
}

pub struct Caller<'a> {
    pub sink: &'a mut dyn Sink,
    pub lists: Lists,
    pub held: Held,
    pub rust: Option<RustBuilder>,
    // the builder was altered by hand, and every call with it is to be refused
    pub altered: bool,
    // whether words are given rests; the stored lines have no room for one but where calls.rs puts it
    pub rests: bool,
    pub cases: BTreeMap<String, usize>,
    pub gradients: usize,
}

impl<'a> Caller<'a> {
    pub fn new(lists: Lists, sink: &'a mut dyn Sink) -> Self {
        let settings = Settings { rmin: 0.0, rmax: 0.0, dr: 0.0, omega_step: 0.0, threshold: 0.0, beta: 0.0 };
        sink.lend(&lists);
        Caller {
            sink,
            lists,
            held: Held { settings, n_r: 0, n_omega: 0, top: 0, level: 0, packed: 0 },
            rust: None,
            altered: false,
            rests: false,
            cases: BTreeMap::new(),
            gradients: 0,
        }
    }

    pub fn case(&mut self, words: &str) {
        *self.cases.entry(words.to_string()).or_default() += 1;
    }

    pub fn entries(&mut self, list: usize, start: usize, words: &[u64]) {
        for (i, &n) in words.iter().enumerate() {
            self.lists.put(list, start + i, n);
        }
        self.sink.entries(list, start, words);
    }

    // Document 02's number of packed energies moves by what the sum over the rows moves, wrapping; the atom's builder has none.
    fn count(&mut self, before: u64) {
        if shape::PAIR {
            self.held.packed = self.held.packed.wrapping_add(refusals::packed(&self.lists)).wrapping_sub(before);
        }
    }

    pub fn hold(&mut self, b: Held) {
        self.sink.hold(&b);
        self.held = b;
    }

    // A builder whose threshold is altered by hand to another that question 1 lets through.
    pub fn hold_threshold(&mut self, threshold: f64) {
        let settings = Settings { threshold, ..self.held.settings };
        self.hold(Held { settings, ..self.held });
        self.rust.as_mut().unwrap().gradient_threshold = threshold;
    }

    // Hands a call on, once it is answered.
    fn finish(&mut self, what: What, held: Held, lent: [usize; 8], number: u64, gradient: f64, comparisons: u64) {
        let name = match what {
            What::Fresh => "fresh",
            What::Set(..) => "set",
            What::Settle(_) => "settle",
        };
        let answer = Answer { number, gradient, comparisons, held: self.held };
        self.sink.call(&Call { what, held, lent }, &answer, &self.lists);
        self.case(&format!("{name} {number}"));
        if name != "fresh" && refusals::rest(&held, &self.lists) {
            self.case(&format!("{name} {number}, a word having a rest"));
        }
    }

    fn mesh(&self, level: u64) -> MeshLevel {
        let (n, first) = (vertices_of(level), vertices_below(level));
        let part = |v: usize| 6 * (first + v)..6 * (first + v) + self.lists.counts[first + v] as usize;
        MeshLevel {
            n_div: level as usize,
            n_vertices: n,
            angles: (0..n).map(|v| self.lists.angles[part(v)].to_vec()).collect(),
            neighbors: (0..n).map(|v| self.lists.neighbours[part(v)].to_vec()).collect(),
        }
    }

    // The gradient of a slab at the current level, 0 where it is repulsive: of a builder apart, with a threshold that no gradient is below.
    pub fn gradient(&self, energies: &[f64]) -> f64 {
        let level = self.held.level;
        let levels = (0..=level).map(|m| self.mesh(m)).collect();
        let mut b = shape::rust_builder(levels, level as usize, [0.0, 1.0, 1.0, 6.0, 0.0, self.held.settings.beta]);
        shape::set_slab(&mut b, 0, 0, energies);
        b.finish_r_slice(0)
    }

    // The row of a slab as the Rust has it.
    fn take_row(&mut self, s: usize) {
        let rust = self.rust.as_ref().unwrap();
        let (kind, level, value) = match rust.slab_res[s] {
            SlabResolution::Scalar(x) => (0, 0, if x.is_nan() { 0x7fc0_0000 } else { x.to_bits() }),
            SlabResolution::Repulsive => (1, 0, 0),
            SlabResolution::Mesh { level, interpolate } => (if interpolate { 3 } else { 2 }, level, 0),
        };
        assert_eq!(rust.slab_data[s].is_some(), kind >= 2);
        (self.lists.kinds[s], self.lists.levels[s], self.lists.values[s]) = (kind, level, value);
    }

    pub fn fresh(&mut self, settings: Settings, top: u64, counts: [u64; 2], lent: [usize; 8]) -> u64 {
        let (b, number) = refusals::fresh(settings, top, &lent, &self.lists);
        if number == 0 {
            let levels = (0..=top).map(|m| self.mesh(m)).collect();
            let rust = shape::rust_builder(levels, top as usize, settings.list());
            assert_eq!(shape::bins(&rust), [b.n_r, b.n_omega]);
            let slabs = rust.slab_res.len();
            self.rust = Some(rust);
            self.held = b;
            self.lists.store[..slabs * per(top)].fill(0.0);
            (0..slabs).for_each(|s| self.take_row(s));
        }
        // fresh ignores the counts that it is handed, and is handed no level
        let handed = Held { n_r: counts[0], n_omega: counts[1], level: 77, ..b };
        self.finish(What::Fresh, handed, lent, number, 0.0, 0);
        number
    }

    pub fn set(&mut self, ri: u64, oi: u64, rule: Rule, lent: [usize; 8]) -> u64 {
        let energies = rule.energies();
        let number = refusals::set(&self.held, &lent, &self.lists, ri, oi, &energies);
        let before = self.held;
        if number == 0 {
            assert!(!self.altered);
            let packed = refusals::packed(&self.lists);
            let s = (ri * self.held.n_omega + oi) as usize;
            shape::set_slab(self.rust.as_mut().unwrap(), ri as usize, oi as usize, &energies);
            self.lists.store[s * per(self.held.top)..][..energies.len()].copy_from_slice(&energies);
            self.take_row(s);
            self.count(packed);
        }
        self.finish(What::Set(ri, oi, &rule, &energies), before, lent, number, 0.0, 0);
        number
    }

    pub fn settle(&mut self, ri: u64, lent: [usize; 8]) -> u64 {
        let number = refusals::settle(&self.held, &lent, &self.lists, ri);
        let before = self.held;
        let (mut gradient, mut comparisons) = (0.0, 0);
        if number == 0 {
            assert!(!self.altered);
            self.gradients += 1;
            let slice = (ri * self.held.n_omega) as usize..((ri + 1) * self.held.n_omega) as usize;
            let kinds = self.lists.kinds[slice.clone()].to_vec();
            let packed = refusals::packed(&self.lists);
            let rust = self.rust.as_mut().unwrap();
            gradient = rust.finish_r_slice(ri as usize);
            let level = rust.current_level as u64;
            slice.clone().for_each(|s| self.take_row(s));
            comparisons = self.compared(&kinds, slice.start);
            self.settled(&kinds, slice, level, gradient);
            self.held.level = level;
            self.count(packed);
        }
        if number == 11 && !self.altered {
            if let Some(words) = shape::settled_elsewhere(self.rust.as_ref().unwrap(), ri as usize) {
                self.case(words);
            }
        }
        self.finish(What::Settle(ri), before, lent, number, gradient, comparisons);
        number
    }

    // Document 02's comparisons, which the Rust does not count: those that its gradient makes, for every slab that held energies and is not Repulsive now.
    fn compared(&self, before: &[u32], first: usize) -> u64 {
        let each = shape::comparisons(&self.mesh(self.held.level).neighbors);
        let reached = |k: usize| before[k] >= 2 && self.lists.kinds[first + k] != 1;
        (0..before.len()).filter(|&k| reached(k)).map(|_| each).sum()
    }

    // Which cases a settled slice has.
    fn settled(&mut self, before: &[u32], slice: std::ops::Range<usize>, level: u64, gradient: f64) {
        let words = ["Scalar", "Repulsive", "Mesh nearest", "Mesh interpolated"];
        for (k, s) in slice.clone().enumerate() {
            if before[k] >= 2 {
                let kind = self.lists.kinds[s] as usize;
                self.case(&format!("level {}: settles as {}", self.held.level, words[kind]));
                let x = f32::from_bits(self.lists.values[s]);
                match kind {
                    0 if x.is_nan() => self.case("Scalar NaN"),
                    0 if x.is_infinite() => self.case("Scalar infinity"),
                    0 if x.to_bits() == 0x8000_0000 => self.case("Scalar -0.0"),
                    0 if x.is_subnormal() => self.case("Scalar subnormal"),
                    _ => (),
                }
            }
        }
        let held = before.iter().any(|&k| k >= 2);
        let repulsive = slice.clone().any(|s| self.lists.kinds[s] == 1);
        if level < self.held.level {
            self.case("the level drops");
            if self.lists.kinds.iter().take((self.held.n_r * self.held.n_omega) as usize).any(|&k| k == 1) {
                self.case("the level drops, a row of another slice being Repulsive");
            }
            if slice.clone().all(|s| self.lists.kinds[s] == 0) {
                self.case("the level drops, all rows being Scalar");
            }
        } else if self.held.level > 0 {
            if !held {
                self.case("a slice without energies: no drop");
            } else if repulsive && before.contains(&1) && gradient < self.held.settings.threshold {
                self.case("no drop, a row being Repulsive from before");
            } else if repulsive {
                self.case("no drop, a row being Repulsive now");
            } else {
                self.case("no drop, by the gradient");
            }
        }
        if gradient.is_infinite() {
            self.case("an infinite gradient");
        }
        if gradient > 0.0 && gradient.is_subnormal() {
            self.case("a subnormal gradient");
        }
    }
}
