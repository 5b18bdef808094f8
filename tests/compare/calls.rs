// Writes the lists of calls that tests/replay has as calls, with the answers, gradients, levels and rows that the Rust gives, and the comparisons that caller.rs counts; a refused call's number is document 01's (refusals.rs). The
// first argument names the file, and what the replay prints where all agrees goes to the second. Prints which cases occur, and fails where one is missing. A third argument, a number, gives
// other lists of the same kinds. Built with --cfg atom it writes calls_atom, of tables of one molecule against an atom.
mod lines;
#[allow(dead_code)]
mod meshes;
#[allow(dead_code)]
mod caller;
mod lists;
mod refusals;
#[allow(dead_code)]
mod report;
#[allow(dead_code, clippy::all)]
mod average {
    include!(concat!(env!("COMPARE"), "/average.rs"));
}
#[allow(dead_code, clippy::all)]
mod builder {
    #[cfg(not(atom))]
    include!(concat!(env!("COMPARE"), "/builder.rs"));
    #[cfg(atom)]
    include!(concat!(env!("COMPARE"), "/atom_builder.rs"));
}
#[allow(dead_code, clippy::all)]
mod oracle {
    include!(concat!(env!("COMPARE"), "/oracle.rs"));
}
#[allow(dead_code, clippy::all)]
mod rust {
    #[cfg(not(atom))]
    include!(concat!(env!("COMPARE"), "/lookup.rs"));
    #[cfg(atom)]
    include!(concat!(env!("COMPARE"), "/atom_lookup.rs"));
}
#[allow(dead_code)]
#[path = "../../hosts/rust/src/sys.rs"]
mod icotable;
#[allow(dead_code, unused_imports)]
#[cfg_attr(atom, path = "atom.rs")]
#[cfg_attr(not(atom), path = "pair.rs")]
mod shape;

use caller::{Answer, Call, Caller, Rule, Sink, What, NOWHERE, PRIME};
use lines::{bits, Fixed};
use lists::{accident, descent, far_weights, lend, lengths, list, odd_numbers, refused, repulsive_rows};
use meshes::{icosphere, Mesh, Random};
use refusals::{vertices_below, Held, Lists, Settings};
use shape::{per, PAIR};

const LINE: usize = 591;

const HEAD: &[&str] = &[
    "Lists of calls of fresh, set and settle, 591 letters a line; numbers in hexadecimal, floats by their bits. A line that starts so is passed over.",
    "01 fresh, 02 set, 03 settle: the number answered (00: accepted), the level after the call, settle's gradient and comparisons, the store's stamp; twelve rows: kind, level, value;",
    "how many entries are lent of store, kinds, levels, values, vertices, neighbour counts, neighbours, angles; rmin, rmax, dr, omega step, threshold, beta, both bin counts, top level, level;",
    "distance bin, dihedral bin; the rule of the energies: how many they are, modulus m, seed, base, step, then two places with values of their own (FFFF: none).",
    "Energy i is base + step * (x % m), x being the seed after i + 1 turns of x = x * 16807 % 2147483647. The stamp is h = (h * 16807 + bits % 2147483647 + 1) % 2147483647 over the store, from 1.",
    "04 entries of a lent list (0 kinds, 1 levels, 2 values, 3 vertices, 4 counts, 5 neighbours, 6 angles): the list, the first place, how many, the entries. 05 a builder that is held from there on.",
];

const IN_WORDS: &str = "A row is a word, and a kind that is put there has the word's rest above it, of which the rows of an answer show nothing. 15 for a rest is document 02's.";

const AGAINST_AN_ATOM: &str = "Against an atom: the omega step, the second bin count and the dihedral bin are not handed in.";

type Line = Fixed<LINE>;

impl Fixed<LINE> {
    fn builder(&mut self, b: &Held) {
        let s = b.settings;
        let floats = [s.rmin, s.rmax, s.dr, s.omega_step, s.threshold, s.beta];
        let words = floats.map(bits).into_iter().chain([b.n_r, b.n_omega, b.top, b.level]);
        for (k, n) in words.enumerate() {
            self.put(286 + 17 * k, 16, n);
        }
    }

    fn rule(&mut self, r: &Rule) {
        self.put(490, 4, r.count as u64);
        self.put(495, 8, r.modulus);
        self.put(504, 8, r.seed);
        self.put(513, 16, bits(r.base));
        self.put(530, 16, bits(r.step));
        for (k, (place, e)) in r.places.into_iter().enumerate() {
            self.put(547 + 22 * k, 4, place.min(0xffff) as u64);
            self.put(552 + 22 * k, 16, bits(e));
        }
    }
}

// The lines of the file.
#[derive(Default)]
struct Written {
    out: Vec<u8>,
}

fn stamp(store: &[f64]) -> u64 {
    store.iter().fold(1, |h, &e| (h * 16807 + bits(e) % PRIME + 1) % PRIME)
}

impl Sink for Written {
    fn lend(&mut self, _: &Lists) {}

    fn entries(&mut self, list: usize, start: usize, words: &[u64]) {
        for (k, part) in words.chunks(32).enumerate() {
            let mut line = Line::new(4);
            line.put(3, 2, list as u64);
            line.put(6, 4, (start + 32 * k) as u64);
            line.put(11, 2, part.len() as u64);
            for (i, &n) in part.iter().enumerate() {
                line.put(14 + 17 * i, 16, n);
            }
            self.out.extend(line.0);
        }
    }

    fn hold(&mut self, b: &Held) {
        let mut line = Line::new(5);
        line.builder(b);
        self.out.extend(line.0);
    }

    fn call(&mut self, call: &Call, answer: &Answer, lists: &Lists) {
        let mut line = match call.what {
            What::Fresh => Line::new(1),
            What::Set(ri, oi, rule, _) => {
                let mut line = Line::new(2);
                line.put(456, 16, ri);
                line.put(473, 16, oi);
                line.rule(rule);
                line
            }
            What::Settle(ri) => {
                let mut line = Line::new(3);
                line.put(456, 16, ri);
                line
            }
        };
        line.builder(&call.held);
        line.put(3, 2, answer.number);
        line.put(6, 16, answer.held.level);
        line.put(23, 16, bits(answer.gradient));
        line.put(40, 16, answer.comparisons);
        line.put(57, 8, stamp(&lists.store));
        for i in 0..12 {
            line.put(66 + 15 * i, 2, lists.kinds[i] as u64 & 0xff);
            line.put(69 + 15 * i, 2, lists.levels[i] as u64);
            line.put(72 + 15 * i, 8, lists.values[i] as u64);
        }
        for (k, &n) in call.lent.iter().enumerate() {
            line.put(246 + 5 * k, 4, n as u64);
        }
        self.out.extend(line.0);
    }
}

// What the replay has before the first line.
fn blank() -> Lists {
    let n = vertices_below(3);
    Lists {
        store: vec![1.0; 25392],
        kinds: vec![9; 12],
        levels: vec![9; 12],
        values: vec![9; 12],
        vertices: vec![0.0; 3 * n],
        counts: vec![0; n],
        neighbours: vec![0; 6 * n],
        angles: vec![0.0; 6 * n],
    }
}

// Cases that the lists are to have.
fn needed() -> Vec<String> {
    let mut words = Vec::new();
    for (what, numbers) in [("fresh", 0..8), ("set", 0..7), ("set", 8..11), ("settle", 0..9)] {
        // an atom never has too many energies
        words.extend(numbers.filter(|&n| PAIR || n != 5).map(|n| format!("{what} {n}")));
    }
    words.extend(["settle 11", "settle 15"].map(String::from));
    for level in 0..3 {
        for kind in ["Scalar", "Repulsive", "Mesh nearest", "Mesh interpolated"] {
            words.push(format!("level {level}: settles as {kind}"));
        }
    }
    let other = [
        "Scalar NaN",
        "Scalar infinity",
        "Scalar -0.0",
        "Scalar subnormal",
        "the level drops",
        "the level drops, a row of another slice being Repulsive",
        "the level drops, all rows being Scalar",
        "a slice without energies: no drop",
        "no drop, a row being Repulsive now",
        "no drop, by the gradient",
        "an infinite gradient",
        "a subnormal gradient",
    ];
    words.extend(other.map(String::from));
    // an atom's slice is one slab
    if PAIR {
        words.extend(["set 0", "set 15", "settle 0", "settle 6", "settle 15"].map(|what| format!("{what}, a word having a rest")));
    }
    words.push(if PAIR { "no drop, a row being Repulsive from before" } else { "settle 11, where the Rust panics" }.to_string());
    words
}

// Words with a rest, by document 02: refused where set would replace one and where settle touches one, and as they were after every other call. The last word is beyond the slabs.
fn rests(caller: &mut Caller) {
    let all = caller.lists.lengths();
    let short = [all[0], 3, all[2], all[3], all[4], all[5], all[6], all[7]];
    let s = Settings { rmin: 0.0, rmax: 2.0, dr: 1.0, omega_step: 3.0, threshold: 0.1, beta: 1.0 };
    let r = Rule { count: per(0), modulus: 1, seed: 1, base: 3.0, step: 0.0, places: [(NOWHERE, 0.0); 2] };
    for rest in [1, 0x80, 0x8000, 0xffff] {
        caller.entries(0, 11, &[9 | rest << 8]);
        assert_eq!([caller.fresh(s, 0, [0, 0], all), caller.set(0, 0, r, all)], [0, 0]);
        caller.entries(0, 0, &[3 | rest << 8]);
        assert_eq!([caller.set(0, 0, r, all), caller.settle(0, all), caller.settle(0, short)], [15, 15, 6]);
        assert_eq!([caller.set(0, 1, r, all), caller.set(1, 0, r, all), caller.settle(1, all)], [0, 0, 0]);
        caller.entries(0, 0, &[3]);
        assert_eq!(caller.settle(0, all), 0);
    }
}

fn report(caller: &Caller, path: &str) {
    let count = |what: &str| {
        let refused = |n: usize| format!("{what} {n}");
        let sum: usize = (1..16).filter_map(|n| caller.cases.get(&refused(n))).sum();
        (caller.cases[&refused(0)], sum)
    };
    let mut text = String::new();
    let mut agree = |what: &str, n: usize| text.push_str(&format!("{what}: {n} of {n} agree\n"));
    let mut calls = 0;
    for what in ["fresh", "set", "settle"] {
        let (accepted, refused) = count(what);
        agree(&format!("{what}, accepted"), accepted);
        agree(&format!("{what}, refused"), refused);
        calls += accepted + refused;
    }
    agree("gradients", caller.gradients);
    agree("comparisons", caller.gradients);
    agree("levels", calls);
    agree("rows", 12 * calls);
    agree("stores", calls);
    std::fs::write(path, text).unwrap();
}

fn main() {
    let paths: Vec<String> = std::env::args().skip(1).collect();
    let mut written = Written::default();
    for words in HEAD.iter().chain([if PAIR { &IN_WORDS } else { &AGAINST_AN_ATOM }]) {
        written.out.extend(Line::remark(words).0);
    }
    let mut caller = Caller::new(blank(), &mut written);
    let seed: u64 = paths.get(2).map_or(0, |n| n.parse().unwrap());
    let mut random = Random(0x9e3779b97f4a7c15 ^ seed);
    let mut other = Random(0x853c49e6748fea9b ^ seed);
    let spheres: Vec<Mesh> = (0..3).map(icosphere).collect();
    lend(&mut caller, &spheres, |a| a);
    accident(&mut caller);
    if PAIR {
        repulsive_rows(&mut caller);
    }
    descent(&mut caller);
    refused(&mut caller, &mut random);
    lengths(&mut caller, &mut random);
    // an atom's lists are short, and more of them are needed for every case
    for k in 0..if PAIR { 24 } else { 60 } {
        list(&mut caller, &mut random, [0, 1, 2, 1, 2, 2][k % 6]);
    }
    let odd = [0.0, -0.0, 5e-324, 1e-12, 1.0000000000000002e-12, 1e-11, 3.0, 1e308];
    lend(&mut caller, &spheres, |_| odd[other.below(8)]);
    for k in 0..8 {
        list(&mut caller, &mut random, [0, 1][k % 2]);
    }
    // no pair counts, and every slab that is not repulsive becomes a scalar
    lend(&mut caller, &spheres, |_| odd[other.below(4)]);
    odd_numbers(&mut caller);
    far_weights(&mut caller);
    for k in 0..6 {
        list(&mut caller, &mut random, [0, 1][k % 2]);
    }
    let shuffled: Vec<Mesh> = spheres.iter().map(|m| m.shuffled(&mut random)).collect();
    lend(&mut caller, &shuffled, |a| a * (1.0 + 0.5 * other.unit()));
    for k in 0..12 {
        list(&mut caller, &mut random, [1, 0, 2][k % 3]);
    }
    if PAIR {
        rests(&mut caller);
    }
    for (words, n) in &caller.cases {
        println!("{n:5} {words}");
    }
    for words in needed() {
        assert!(seed != 0 || caller.cases.contains_key(&words), "no call has this case: {words}");
    }
    report(&caller, &paths[1]);
    std::fs::write(&paths[0], &written.out).unwrap();
    println!("{} letters, {} lines", written.out.len(), written.out.len() / LINE);
}
