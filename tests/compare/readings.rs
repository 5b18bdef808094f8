// Writes the readings that tests/replay has: tables that the Rust's `build` packs, with what its `lookup` answers; then damaged files, meshes and locators, and tables made by a host, with the
// answers of document 01's text (reading.rs). The first argument names the file, and what the replay prints where all agrees goes to the second. Prints which cases occur, and fails where one is missing.
// A third argument, a number, gives other readings of the same kinds. Built with --cfg atom it writes readings_atom, of tables of one molecule against an atom.
mod lines;
#[allow(dead_code)]
mod meshes;
#[allow(dead_code, clippy::all)]
mod average {
    include!(concat!(env!("COMPARE"), "/average.rs"));
}
#[allow(dead_code, clippy::all)]
mod builder {
    #[cfg(not(atom))]
    include!(concat!(env!("COMPARE"), "/builder.rs"));
    #[cfg(atom)]
    include!(concat!(env!("COMPARE"), "/atom_builder.rs"));
}
#[allow(dead_code, clippy::all)]
mod oracle {
    include!(concat!(env!("COMPARE"), "/oracle.rs"));
}
#[allow(dead_code, clippy::all)]
mod rust {
    #[cfg(not(atom))]
    include!(concat!(env!("COMPARE"), "/lookup.rs"));
    #[cfg(atom)]
    include!(concat!(env!("COMPARE"), "/atom_lookup.rs"));
}
#[allow(dead_code)]
#[path = "../../hosts/rust/src/sys.rs"]
mod icotable;
mod pack;
mod queries;
#[allow(dead_code)]
mod reader;
#[allow(dead_code)]
mod reading;
#[allow(dead_code)]
mod refusals;
#[allow(dead_code)]
mod report;
mod search;
#[allow(dead_code, unused_imports)]
#[cfg_attr(atom, path = "atom.rs")]
#[cfg_attr(not(atom), path = "pair.rs")]
mod shape;

use icotable::Query;
use lines::{bits, Fixed};
use meshes::{Mesh, Random};
use queries::asked;
use reader::{Lists, Reader, Sink, COUNTED, DAMAGED};
use reading::Answer;
use shape::{dihedral, Table, LENGTHS, PAIR};

const HEAD: &[&str] = &[
    "Readings of tables, 192 letters a line; numbers in hexadecimal, floats by their bits. A line that starts so is passed over.",
    "01 a reading: whose answer it is (00 that of document 01's text; else the Rust's: 01 outside, 02 Scalar, 03 Repulsive, 04 Mesh nearest, 05 interpolated),",
    "the number answered (00: accepted), the energy; how much is lent of file, vertices, cell offsets, cell vertices, face offsets, faces; r, omega, both directions.",
    "02 entries of one of these six lists: its number from 0 on, the first place, how many, the entries (bytes of the file without blanks).",
    "03 meshes of levels 0 and 1, in the 24 lines' letters behind it: vertices, neighbour counts, neighbours; the locator call is made for each.",
    "04 read: the number answered, and behind it how much of the file is lent. Its answer is held, until one of a host takes its place:",
    "05 rmin, rmax, dr, omega step, threshold, beta, both bin counts; 06 the counts of levels, rows and energies, and the starts of the five sections.",
    "07 beta: the reading behind it, which says 06, is weighted by it; its energy is the Rust's.",
    "08 the squared distances of both directions to their vertices, which the reading behind it shows; one without such a line shows 0.0 for both.",
];

const AGAINST_AN_ATOM: &str = "Against an atom: omega, the second direction, the omega step and the second bin count are not handed in.";

const LINE: usize = 192;
const MESHES: usize = 24 * LINE;

type Line = Fixed<LINE>;

impl Fixed<LINE> {
    fn words<const N: usize>(&mut self, words: [u64; N]) {
        for (k, n) in words.into_iter().enumerate() {
            self.put(56 + 17 * k, 16, n);
        }
    }
}

fn settings(t: &Table) -> [u64; 8] {
    let (omega_step, n_omega) = dihedral(&t.grid);
    let floats = [t.grid.rmin, t.grid.rmax, t.grid.dr, omega_step, t.grid.threshold, t.grid.beta].map(bits);
    [floats[0], floats[1], floats[2], floats[3], floats[4], floats[5], t.grid.n_r, n_omega]
}

fn sections(t: &Table) -> [u64; 8] {
    let s = t.start;
    [t.levels, t.rows, t.energies, s[0], s[1], s[2], s[3], s[4]]
}

// The lines of the file.
#[derive(Default)]
struct Written {
    out: Vec<u8>,
}

impl Sink for Written {
    fn lend(&mut self, meshes: [&Mesh; 2], _: &Lists) {
        self.out.extend(Line::new(3).0);
        let start = self.out.len();
        let lent = meshes.map(|m| m.lent());
        let mut put = |words: Vec<u64>, width: usize, across: usize| {
            for (i, n) in words.iter().enumerate() {
                self.out.extend(format!("{n:0width$X}").bytes());
                self.out.push(if (i + 1) % across == 0 { b'\n' } else { b' ' });
            }
        };
        put(lent.iter().flat_map(|l| l.vertices.iter().map(|&x| bits(x))).collect(), 16, 3);
        put(lent.iter().flat_map(|l| l.counts.iter().map(|&x| x as u64)).collect(), 2, 54);
        put(lent.iter().flat_map(|l| l.neighbours.iter().map(|&x| x as u64)).collect(), 4, 6);
        self.out.resize(start + MESHES - 1, b' ');
        self.out.push(b'\n');
    }

    fn entries(&mut self, list: usize, start: usize, words: &[u64]) {
        let (across, width, apart) = if list == 0 { (88, 2, 2) } else { (10, 16, 17) };
        for (k, part) in words.chunks(across).enumerate() {
            let mut line = Line::new(2);
            line.put(3, 2, list as u64);
            line.put(6, 4, (start + across * k) as u64);
            line.put(11, 2, part.len() as u64);
            for (i, &n) in part.iter().enumerate() {
                line.put(14 + apart * i, width, n);
            }
            self.out.extend(line.0);
        }
    }

    fn read(&mut self, file: &[u8], _: &Table) {
        let mut line = Line::new(4);
        line.put(6, 2, 0);
        line.put(26, 4, file.len() as u64);
        self.out.extend(line.0);
    }

    fn hold(&mut self, held: &Table, t: &Table) {
        for (what, words) in [(5, settings as fn(&Table) -> [u64; 8]), (6, sections)] {
            if words(t) != words(held) {
                let mut line = Line::new(what);
                line.words(words(t));
                self.out.extend(line.0);
            }
        }
    }

    fn reading(&mut self, _: &Table, _: &Lists, lent: &[usize; 6], q: &Query, a: &Answer, kind: usize) {
        self.distances(a);
        self.answered(lent, q, a, kind);
    }

    fn weighted(&mut self, _: &Table, _: &Lists, lent: &[usize; 6], q: &Query, beta: f64, a: &Answer) {
        self.distances(a);
        let mut line = Line::new(7);
        line.put(56, 16, bits(beta));
        self.out.extend(line.0);
        self.answered(lent, q, a, 6);
    }
}

impl Written {
    // The line before a reading that shows distances.
    fn distances(&mut self, a: &Answer) {
        if PAIR && a.words == "nearest" {
            let mut line = Line::new(8);
            line.words(a.distances.map(bits));
            self.out.extend(line.0);
        }
    }

    fn answered(&mut self, lent: &[usize; 6], q: &Query, a: &Answer, kind: usize) {
        let mut line = Line::new(1);
        line.put(3, 2, kind as u64);
        line.put(6, 2, a.number);
        line.put(9, 16, bits(a.energy));
        for (k, &n) in lent.iter().enumerate() {
            line.put(26 + 5 * k, 4, n as u64);
        }
        line.words([q.r, q.omega, q.a[0], q.a[1], q.a[2], q.b[0], q.b[1], q.b[2]].map(bits));
        self.out.extend(line.0);
    }
}

// Cases that the readings are to have: of both kinds, of those that nothing was done to, and of damaged ones.
const ANSWERED: &[&str] = &[
    " 0 below rmin",
    " 0 above rmax",
    " 0 Scalar",
    " 0 Repulsive",
    " 0 nearest",
    " 0 interpolated",
];
const NEEDED: &[&str] = &[
    "18 r is a NaN",
    "20 an empty cell",
    "21 beta, with a beta",
    " 0 weighted, a weight of 0, with a beta",
    " 0 weighted, the least infinite, with a beta",
];
const NEEDED_OF_ITS_KIND: [&str; 2] = if PAIR {
    ["18 omega is not finite", " 0 weighted, nine corners, with a beta"]
} else {
    [" 0 weighted, three corners, with a beta", " 0 weighted, no sum, with a beta"]
};

fn main() {
    let paths: Vec<String> = std::env::args().skip(1).collect();
    let seed: u64 = paths.get(2).map_or(0, |n| n.parse().unwrap());
    let mut random = Random(0x9e3779b97f4a7c15 ^ seed);
    let mut written = Written::default();
    for words in HEAD.iter().chain((!PAIR).then_some(&AGAINST_AN_ATOM)) {
        written.out.extend(Line::remark(words).0);
    }
    let mut reader = Reader::new(&mut written);
    // an atom's slab has fewer energies, and so fewer odd ones: more readings meet them
    asked(&mut reader, &mut random, if PAIR { 1 } else { 2 }, 6);
    for (words, n) in &reader.cases {
        println!("{n:5} {words}");
    }
    for words in ANSWERED.iter().chain(NEEDED).chain(&NEEDED_OF_ITS_KIND) {
        assert!(seed != 0 || reader.cases.contains_key(*words), "no reading has this case: {words}");
    }
    for words in LENGTHS {
        assert!(seed != 0 || reader.cases.contains_key(&format!("18 {words}")), "no reading is refused for {words}");
    }
    for words in ANSWERED.iter().chain(DAMAGED) {
        let words = format!("{words}, damaged or by a host");
        assert!(seed != 0 || reader.cases.contains_key(&words), "no reading has this case: {words}");
    }
    let mut text = String::new();
    for words in COUNTED {
        let n = reader.counts[words];
        text.push_str(&format!("{words}: {n} of {n} agree\n"));
    }
    std::fs::write(&paths[1], text).unwrap();
    std::fs::write(&paths[0], &written.out).unwrap();
    println!("{} letters, {} lines", written.out.len(), written.out.len() / LINE);
}
