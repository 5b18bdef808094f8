// Writes the calls that tests/replay has as tails: writes with a long-range tail, the files that they leave, readings of the tail, and powers. A reading of a file as it was written is the Rust's `tail_energy` with document
// 02's power and E; the other answers are document 02's text (tail.rs). The first argument names the file, and what the replay prints where all agrees goes to the second. Prints which cases occur, and fails where one is missing.
#[allow(dead_code, clippy::all)]
mod average {
    include!(concat!(env!("COMPARE"), "/average.rs"));
}
#[allow(dead_code, clippy::all)]
mod builder {
    include!(concat!(env!("COMPARE"), "/builder.rs"));
}
#[allow(dead_code, clippy::all)]
mod oracle {
    include!(concat!(env!("COMPARE"), "/oracle.rs"));
}
#[allow(dead_code, clippy::all)]
mod rust {
    include!(concat!(env!("COMPARE"), "/lookup.rs"));
}
#[allow(dead_code, clippy::all)]
mod rust_tail {
    include!(concat!(env!("COMPARE"), "/tail.rs"));
}
#[allow(dead_code)]
#[path = "../../hosts/rust/src/sys.rs"]
mod icotable;
#[allow(dead_code)]
mod lines;
#[allow(dead_code)]
mod meshes;
#[allow(dead_code)]
mod plain;
#[allow(dead_code)]
mod refusals;
#[allow(dead_code)]
mod samples;
#[allow(dead_code, unused_imports)]
#[path = "pair.rs"]
mod shape;
#[allow(dead_code)]
mod tail;

use lines::bits;
use meshes::{icosphere, Random};
use refusals::{Held, Lists, Settings};
use samples::base_and_exponent;
use std::collections::BTreeMap;
use tail::{distance, question, raised, Tail};

const HEAD: &str = "\
# Long-range tails; numbers in hexadecimal, floats by their bits. A line that starts so is passed over. The builder is that of fresh with rmin 2, rmax 4, dr 1,
# step 6, threshold 0.1, beta 1 and top level 0 over the mesh that the first lines have, every angle being 1.
# 01 a reading of the tail: whose answer it is (00 document 02's text; 01 the Rust's text with document 02's power and E), the number answered, the energy; how much of the file is lent, r.
# 02 entries of a list (0 file, 1 coefficients, 2 kappas, 3 powers, 4 prefactor, 5 vertices, 6 neighbour counts, 7 neighbours): the list, the first place, how many, the entries.
# 03 a write into the file: the number answered, the length, the stamp of the file's list afterwards; the number that the builder's side is refused with (00: none);
#    how many coefficients, kappas, powers and prefactors are lent, and how much of the file. The stamp is h = (h * 16807 + byte + 1) % 2147483647 from 1.
# 04 read: the number answered, the count of terms and their start; how much of the file is lent. An accepted answer is held, until a host alters it: 05, count and start.
# 06 a power: the answer, r, the exponent.
";

const ROOM: usize = 1024;
const SETTINGS: Settings = Settings { rmin: 2.0, rmax: 4.0, dr: 1.0, omega_step: 6.0, threshold: 0.1, beta: 1.0 };

// What the replay counts, in the order in which it prints them.
const COUNTED: [&str; 9] = [
    "writes, accepted",
    "writes, refused",
    "files read, accepted",
    "files read, refused",
    "tails, as the Rust",
    "tails, damaged or of a host's table",
    "tails, refused with 18",
    "tails, refused with 19",
    "powers",
];

struct Data {
    out: String,
    file: Vec<u8>,
    held: [u64; 2],
    lists: Lists,
    counts: BTreeMap<&'static str, usize>,
    cases: BTreeMap<String, usize>,
}

// The builder's lists after fresh, with room for no more.
fn fresh_lists() -> Lists {
    let mesh = icosphere(0);
    let lent = mesh.lent();
    Lists {
        store: vec![0.0; 288],
        kinds: vec![0; 2],
        levels: vec![0; 2],
        values: vec![0; 2],
        vertices: lent.vertices,
        counts: lent.counts,
        neighbours: lent.neighbours,
        angles: vec![1.0; 72],
    }
}

const BUILDER: Held = Held { settings: SETTINGS, n_r: 2, n_omega: 1, top: 0, level: 0, packed: 0 };

// The builder's side with something wrong that this question sees.
fn flawed(number: u64, lists: &mut Lists, lent: &mut [usize; 8]) -> Held {
    let mut b = BUILDER;
    match number {
        1 => b.settings.dr = f64::NAN,
        2 => b.top = 16,
        3 => b.n_r = 7,
        6 => lent[0] -= 1,
        7 => lists.neighbours[0] = 12,
        15 => lists.kinds[1] = 9,
        _ => (),
    }
    b
}

impl Data {
    fn new() -> Data {
        Data {
            out: HEAD.to_string(),
            file: vec![0; ROOM],
            held: [0; 2],
            lists: fresh_lists(),
            counts: COUNTED.iter().map(|&words| (words, 0)).collect(),
            cases: BTreeMap::new(),
        }
    }

    fn count(&mut self, words: &'static str) {
        *self.counts.get_mut(words).unwrap() += 1;
    }

    fn line(&mut self, words: String) {
        self.out.push_str(&words);
        self.out.push('\n');
    }

    fn entries(&mut self, list: usize, start: usize, width: usize, words: &[u64]) {
        for (k, part) in words.chunks(if list == 0 { 64 } else { 8 }).enumerate() {
            let apart = if list == 0 { "" } else { " " };
            let text: Vec<String> = part.iter().map(|n| format!("{n:0width$X}")).collect();
            self.line(format!("02 {list:02X} {:04X} {:02X} {}", start + k * if list == 0 { 64 } else { 8 }, part.len(), text.join(apart)));
        }
    }

    fn floats(&mut self, list: usize, floats: &[f64]) {
        let words: Vec<u64> = floats.iter().map(|x| x.to_bits()).collect();
        self.entries(list, 0, 16, &words);
    }

    fn mesh(&mut self) {
        self.floats(5, &self.lists.vertices.clone());
        let (counts, neighbours) = (self.lists.counts.clone(), self.lists.neighbours.clone());
        self.entries(6, 0, 2, &counts.iter().map(|&n| n as u64).collect::<Vec<_>>());
        self.entries(7, 0, 4, &neighbours.iter().map(|&n| n as u64).collect::<Vec<_>>());
    }

    fn lend(&mut self, t: &Tail) {
        self.floats(1, &t.coefficients);
        self.floats(2, &t.kappas);
        self.entries(3, 0, 8, &t.powers.iter().map(|&n| n as u64).collect::<Vec<_>>());
        self.floats(4, &t.prefactor);
    }

    // A write into the first bytes of the file's list.
    fn write(&mut self, t: &Tail, flaw: u64, room: usize) -> u64 {
        let mut lists = self.lists.clone();
        let mut lent = lists.lengths();
        let b = flawed(flaw, &mut lists, &mut lent);
        let number = question(&b, &lent, &lists, t, room);
        let mut length = 0;
        if number == 0 {
            let l = &self.lists;
            let kinds: Vec<u8> = l.kinds.iter().map(|&k| k as u8).collect();
            let held = plain::Held { rmin: 2.0, dr: 1.0, step: 6.0, n_r: 2, n_omega: 1, top: 0, store: &l.store, kinds: &kinds, levels: &l.levels, values: &l.values };
            length = plain::write(&held, &mut self.file);
            let sixth = t.bytes();
            self.file[length..length + sixth.len()].copy_from_slice(&sixth);
            length += sixth.len();
        }
        let stamp = self.file.iter().fold(1u64, |h, &b| (h * 16807 + b as u64 + 1) % 2147483647);
        let lists = [t.len(), t.kappas.len(), t.powers.len(), t.prefactor.len(), room].map(|n| format!("{n:04X}")).join(" ");
        self.line(format!("03 {number:02X} {length:04X} {stamp:08X} {flaw:02X} {lists}"));
        self.count(COUNTED[(number != 0) as usize]);
        *self.cases.entry(format!("write, answered {number}")).or_default() += 1;
        length as u64
    }

    // The start of the sixth section is 80 where there is one: the five before it have 76 bytes.
    fn read(&mut self, length: usize) {
        let number = plain::read(&self.file[..length]);
        let terms = self.file.get(76..80).filter(|_| length > 76).map_or(0, |b| u32::from_le_bytes(b.try_into().unwrap()) as u64);
        let answer = if number == 0 { [terms, if terms > 0 { 80 } else { length as u64 }] } else { [0; 2] };
        self.line(format!("04 {number:02X} {:08X} {:08X} {length:04X}", answer[0], answer[1]));
        if number == 0 {
            self.held = answer;
        }
        self.count(COUNTED[2 + (number != 0) as usize]);
        *self.cases.entry(format!("read, answered {number}")).or_default() += 1;
    }

    fn hold(&mut self, held: [u64; 2]) {
        self.held = held;
        self.line(format!("05 {:016X} {:016X}", held[0], held[1]));
    }

    // A reading; of a file as it was written it is the Rust's.
    fn reading(&mut self, lent: usize, r: f64, rust: Option<&Tail>) {
        let (number, energy) = tail::reading(self.held[0], self.held[1], &self.file[..lent], r);
        let whose = (rust.is_some() && number == 0) as u64;
        if let (Some(t), 0) = (rust, number) {
            assert_eq!(bits(t.metadata().tail_energy(r)), bits(energy), "the Rust's tail_energy and document 02's text, {t:?} at {r:e}");
        }
        self.line(format!("01 {whose:02X} {number:02X} {:016X} {lent:04X} {:016X}", bits(energy), bits(r)));
        self.count(match number {
            18 => COUNTED[6],
            19 => COUNTED[7],
            _ => COUNTED[5 - whose as usize],
        });
        *self.cases.entry(format!("tail, answered {number}, {}", if rust.is_some() { "as written" } else { "damaged or of a host" })).or_default() += 1;
    }

    // Bytes of the file altered.
    fn bytes(&mut self, at: usize, bytes: &[u8]) {
        self.file[at..at + bytes.len()].copy_from_slice(bytes);
        self.entries(0, at, 2, &bytes.iter().map(|&b| b as u64).collect::<Vec<_>>());
    }
}

// One tail: refused writes, the accepted one, its file whole and cut, readings, damage, tables of a host.
fn one(data: &mut Data, count: usize, random: &mut Random) {
    let t = Tail::drawn(count, random);
    for _ in 0..3 {
        let mut spoilt = t.clone();
        spoilt.spoilt(random);
        data.lend(&spoilt);
        let room = [ROOM, 0, 76, 76 + t.bytes().len() - (count > 0) as usize][random.below(4)];
        data.write(&spoilt, [0, 0, 0, 1, 2, 3, 6, 7, 15][random.below(9)], room);
    }
    data.lend(&t);
    let length = data.write(&t, 0, ROOM - random.below(2)) as usize;
    for cut in [length, length - 1, 76, length + 1, length - 8] {
        data.read(cut);
    }
    data.read(length);
    for _ in 0..6 {
        let r = distance(2.0, 4.0, random);
        data.reading(length, r, Some(&t));
    }
    hosts(data, length, random);
    if count > 0 {
        damage(data, count, length, random);
    }
}

fn hosts(data: &mut Data, length: usize, random: &mut Random) {
    let held = data.held;
    let n = length as u64;
    for made in [[held[0] + 1, held[1]], [held[0], held[1] + 1], [u64::MAX, held[1]], [1 << 63, 0], [1, n - 28], [1, n - 27], [(n - 8) / 20, 4], [0, u64::MAX]] {
        if random.below(2) == 0 {
            data.hold(made);
            data.reading(length, distance(2.0, 4.0, random), None);
        }
    }
    data.hold(held);
    data.reading(length - random.below(12), distance(2.0, 4.0, random), None);
}

// A term, a power or the prefactor altered after the file was read: what read answers now, and the tail with what it answered before.
fn damage(data: &mut Data, count: usize, length: usize, random: &mut Random) {
    let term = 80 + 20 * random.below(count);
    let odd = [f64::NAN, f64::INFINITY, f64::NEG_INFINITY][random.below(3)].to_le_bytes();
    let power = [1 << 31, u32::MAX, random.bits() as u32][random.below(3)].to_le_bytes();
    for (at, bytes) in [(term, &odd[..]), (term + 8, &odd), (term + 16, &power), (length - 8, &odd), (76, &[0, 0, 0, 0])] {
        let before = data.file[at..at + bytes.len()].to_vec();
        data.bytes(at, bytes);
        data.read(length);
        let held = data.held;
        data.hold([count as u64, 80]);
        data.reading(length, distance(2.0, 4.0, random), None);
        data.hold(held);
        data.bytes(at, &before);
    }
}

fn main() {
    let paths: Vec<String> = std::env::args().skip(1).collect();
    let mut random = Random::of(9);
    let mut data = Data::new();
    data.mesh();
    for k in 0..60 {
        one(&mut data, [0, 1, 1, 2, 3, 8][k % 6], &mut random);
    }
    for _ in 0..600 {
        let (r, n) = base_and_exponent(&mut random);
        data.line(format!("06 {:016X} {:016X} {n:08X}", bits(raised(r, n)), bits(r)));
        data.count("powers");
    }
    for (words, n) in &data.cases {
        println!("{n:5} {words}");
    }
    let writes = [0, 1, 2, 3, 6, 7, 12, 15, 22, 23].map(|n| format!("write, answered {n}"));
    let tails = ["0, as written", "18, as written", "0, damaged or of a host", "19, damaged or of a host"].map(|case| format!("tail, answered {case}"));
    for words in writes.iter().chain(&["0", "13", "23"].map(|n| format!("read, answered {n}"))).chain(&tails) {
        assert!(data.cases.contains_key(words), "nothing has this case: {words}");
    }
    let text: String = COUNTED.iter().map(|words| format!("{words}: {0} of {0} agree\n", data.counts[words])).collect();
    std::fs::write(&paths[1], text).unwrap();
    std::fs::write(&paths[0], &data.out).unwrap();
}
