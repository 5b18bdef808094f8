// Compares spans of distances of the static library libicotable.a with an independent reading of document 02's text (span.rs): spans SEED short|long. The Rust has none. Tables are drawn with all kinds of rows,
// NaNs, infinities and zeros of both signs among their energies; some files are cut or damaged, and some tables made by a host. Then readings at distances of accepted spans, plain and weighted: each one falls in
// the span's bins and, where its row is not interpolated and it is not a NaN, between its energies. Ends at the first difference, with its input.
#[allow(dead_code, clippy::all)]
mod oracle {
    include!(concat!(env!("COMPARE"), "/oracle.rs"));
}
mod arguments;
#[allow(dead_code)]
#[path = "../../hosts/rust/src/sys.rs"]
mod icotable;
#[allow(dead_code)]
mod lines;
#[allow(dead_code)]
mod meshes;
mod report;
mod span;
mod span_samples;

use arguments::arguments;
use icotable::{Lent, Query, Spanned, Table, Value};
use lines::bits;
use meshes::{icosphere, Mesh, Random};
use report::differ;
use span::{bin, dihedral_bin, spanned};
use span_samples::{altered, ends, table};
use std::collections::BTreeMap;

type Tally = BTreeMap<String, u64>;

fn add(tally: &mut Tally, words: &str, n: u64) {
    *tally.entry(words.to_string()).or_default() += n;
}

// ---- meshes and locators of levels 0 and 1, one after another

#[derive(Default)]
struct Lists {
    vertices: Vec<f64>,
    cell_offsets: Vec<u32>,
    cell_vertices: Vec<u16>,
    face_offsets: Vec<u32>,
    faces: Vec<u16>,
}

impl Lists {
    fn add(&mut self, mesh: &Mesh) {
        let (lent, level) = (mesh.lent(), mesh.level as u64);
        let (n, cells) = (icotable::vertices(level) as usize, icotable::cells(level) as usize);
        let mut made = (vec![0; cells], vec![0; 27 * n], vec![0; n + 1], vec![0; 45 * n]);
        let meshes = icotable::Meshes { vertices: &lent.vertices, counts: &lent.counts, neighbours: &lent.neighbours, angles: &lent.angles };
        let mut locator = icotable::Locator { cell_offsets: &mut made.0, cell_vertices: &mut made.1, face_offsets: &mut made.2, faces: &mut made.3 };
        assert_eq!(icotable::locator(level, meshes, &mut locator), 0);
        self.vertices.extend(&lent.vertices);
        self.cell_offsets.extend(made.0);
        self.cell_vertices.extend(made.1);
        self.face_offsets.extend(made.2);
        self.faces.extend(made.3);
    }

    fn lent<'a>(&'a self, file: &'a [u8]) -> Lent<'a> {
        let Lists { vertices, cell_offsets, cell_vertices, face_offsets, faces } = self;
        Lent { file, vertices, cell_offsets, cell_vertices, face_offsets, faces }
    }
}

// ---- spans

fn words(s: &Spanned) -> [u64; 6] {
    [s.number, s.first, s.last, bits(s.smallest), bits(s.largest), s.scalar_nans]
}

fn same_span(t: &Table, file: &[u8], ends: [f64; 3], of: &str, tally: &mut Tally) -> Spanned {
    report::input();
    let [low, high, omega] = ends;
    let (ours, wanted) = (icotable::span(t, file, low, high, omega), spanned(t, file, low, high, omega));
    if words(&ours) != words(&wanted) {
        let bits = ends.map(|x| format!("{x:e} ({:016X})", x.to_bits()));
        differ("span", format!("{bits:?} of {t:?}, {} bytes", file.len()), format!("{ours:?}"), format!("{wanted:?}"));
    }
    let nothing = if wanted.number == 0 && wanted.smallest.is_nan() { ", nothing but NaNs" } else { "" };
    add(tally, &format!("span, {of}, answered {}{nothing}", wanted.number), 1);
    ours
}

// ---- readings there

fn within(low: f64, high: f64, random: &mut Random) -> f64 {
    let r = match random.below(8) {
        0 => low,
        1 => high,
        2 => low.next_up(),
        3 => high.next_down(),
        _ => low + (high - low) * (0.5 + 0.5 * random.unit()),
    };
    if low <= r && r <= high { r } else { low }
}

const NAMES: [&str; 4] = ["Scalar", "Repulsive", "nearest", "interpolated"];

// A reading, plain or weighted, at a distance of the span.
fn read_within(t: &Table, lists: &Lists, file: &[u8], ends: [f64; 3], s: &Spanned, random: &mut Random, tally: &mut Tally) {
    let [low, high, omega] = ends;
    let q = Query { r: within(low, high, random), omega, a: random.direction(), b: random.direction() };
    let (i, lent) = (bin(t, q.r), lists.lent(file));
    let weighted = random.below(3) == 0;
    let Value { number, energy, .. } = if weighted { icotable::boltzmann(t, lent, &q, 0.5) } else { icotable::reading(t, lent, &q) };
    let row = t.start[3] + 10 * (i * t.grid.n_omega + dihedral_bin(t, omega));
    let name = NAMES[file[row as usize] as usize];
    let between = s.smallest <= energy && energy <= s.largest;
    report::input();
    if number != 0 || i < s.first || i > s.last || !between && !energy.is_nan() && name != "interpolated" {
        differ("a reading in a span", format!("{q:?} in {ends:?} of {t:?}, {name}"), format!("{number}, {energy:e}, bin {i}"), format!("{s:?}"));
    }
    let beyond = if between { "" } else if energy.is_nan() { ", a NaN" } else { ", outside its energies" };
    add(tally, &format!("reading in a span, {name}{beyond}"), 1);
    add(tally, "readings in spans", 1);
}

// ---- the run

// Cases that have to have occurred.
fn needed() -> Vec<String> {
    let mut words = Vec::new();
    words.extend(["0", "0, nothing but NaNs", "18", "26"].map(|n| format!("span, as drawn, answered {n}")));
    words.extend(["0", "18", "26", "19"].map(|n| format!("span, damaged or by a host, answered {n}")));
    words.extend(["Scalar", "Scalar, a NaN", "Repulsive", "nearest", "nearest, a NaN", "interpolated", "interpolated, a NaN"].map(|n| format!("reading in a span, {n}")));
    words
}

fn main() {
    let (mut random, length) = arguments();
    // tables; spans of each; readings in each span
    let (tables, spans, many) = length.choose((700, 12, 8), (12_000, 15, 10));
    let mut tally = Tally::new();
    let mut lists = Lists::default();
    [icosphere(0), icosphere(1)].iter().for_each(|mesh| lists.add(mesh));
    for _ in 0..tables {
        let (t, file) = table(&mut random);
        for _ in 0..spans {
            let ends = ends(&t, &mut random);
            let s = same_span(&t, &file, ends, "as drawn", &mut tally);
            for _ in 0..if s.number == 0 { many } else { 0 } {
                read_within(&t, &lists, &file, ends, &s, &mut random, &mut tally);
            }
            let (u, damaged) = altered(&t, &file, &mut random);
            same_span(&u, &damaged, ends, "damaged or by a host", &mut tally);
        }
    }
    for (words, n) in &tally {
        println!("{n:12} {words}");
    }
    for words in needed() {
        assert!(tally.contains_key(&words), "nothing was compared of this case: {words}");
    }
    println!("spans: 0 differences");
}
