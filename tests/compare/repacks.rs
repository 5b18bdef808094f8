// Compares repack of the static library libicotable.a with an independent reading of document 02's text: repacks SEED short|long. Loose files with gaps, shared parts and reordered offsets, with a gap at
// the end, with and without a tail; packed ones; damaged ones; and readings and tails of a loose file and of its packed one, bit for bit, over sound lists and over damaged ones. Ends at the first difference, with its input.
mod arguments;
#[path = "../../hosts/rust/src/sys.rs"]
#[allow(dead_code)]
mod icotable;
#[allow(dead_code)]
mod meshes;
mod report;

use arguments::arguments;
use icotable::{Lent, Locator, Meshes, Query, Table, Value};
use meshes::{icosphere, vertex_count, Random};
use report::differ;
use std::collections::BTreeMap;

const LEVELS: usize = 3;
// 13, 14, 15, 25 in the place of 16, 17, 23, 12
const ORDER: [u64; 7] = [13, 14, 15, 25, 17, 23, 12];

#[derive(Clone, Copy, Debug)]
enum Row {
    Scalar(u32),
    Repulsive,
    Mesh { level: usize, interpolate: bool, offset: usize },
}

// A table as a file has it, before its bytes.
#[derive(Clone, Debug)]
struct Loose {
    distances: u32,
    step: f64,
    dihedrals: u32,
    levels: usize,
    rows: Vec<Row>,
    energies: Vec<u32>,
    tail: Vec<u8>,
    terms: u64,
}

fn per(level: usize) -> usize {
    vertex_count(level) * vertex_count(level)
}

fn held(row: &Row) -> usize {
    match row {
        Row::Mesh { level, .. } => per(*level),
        _ => 0,
    }
}

fn section(file: &mut Vec<u8>, count: usize, bytes: impl IntoIterator<Item = u8>) {
    file.extend((count as u32).to_le_bytes());
    file.extend(bytes);
}

impl Loose {
    fn bytes(&self) -> Vec<u8> {
        let mut file = Vec::new();
        section(&mut file, 3, [0.0, 1.0, self.step].into_iter().flat_map(f64::to_le_bytes));
        section(&mut file, 2, [self.distances, self.dihedrals].into_iter().flat_map(u32::to_le_bytes));
        section(&mut file, self.levels, (0..self.levels).flat_map(|m| (vertex_count(m) as u32).to_le_bytes()));
        let row = |r: &Row| {
            let (kind, level, offset, scalar) = match *r {
                Row::Scalar(bits) => (0, 0, u32::MAX, bits),
                Row::Repulsive => (1, 0, u32::MAX, 0),
                Row::Mesh { level, interpolate, offset } => (2 + interpolate as u8, level as u8, offset as u32, 0),
            };
            let mut b = vec![kind, level];
            b.extend(offset.to_le_bytes());
            b.extend(scalar.to_le_bytes());
            b
        };
        section(&mut file, self.rows.len(), self.rows.iter().flat_map(row));
        section(&mut file, self.energies.len(), self.energies.iter().flat_map(|e| e.to_le_bytes()));
        file.extend(&self.tail);
        file
    }

    // document 02: each Mesh row's energies at its packed place, in row order; and the rows whose offset is another
    fn packed(&self) -> (Loose, u64) {
        let (mut next, mut energies, mut moved) = (self.clone(), Vec::new(), 0);
        for row in &mut next.rows {
            if let Row::Mesh { level, offset, .. } = row {
                let from = *offset;
                *offset = energies.len();
                moved += (*offset != from) as u64;
                energies.extend(&self.energies[from..from + per(*level)]);
            }
        }
        next.energies = energies;
        (next, moved)
    }

    fn rows_start(&self) -> usize {
        48 + 4 * self.levels
    }

    fn energies_start(&self) -> usize {
        self.rows_start() + 10 * self.rows.len() + 4
    }

    // what the sections give
    fn table(&self, grid: icotable::Grid, length: usize) -> Table {
        let start = self.energies_start();
        let end = start + 4 * self.energies.len();
        Table {
            number: 0,
            grid,
            levels: self.levels as u64,
            rows: self.rows.len() as u64,
            energies: self.energies.len() as u64,
            terms: self.terms,
            start: [4, 32, 44, self.rows_start() as u64, start as u64, if self.terms == 0 { length as u64 } else { end as u64 + 4 }],
        }
    }
}

fn energy(random: &mut Random) -> u32 {
    loop {
        let bits = random.bits() as u32;
        if !f32::from_bits(bits).is_nan() {
            return bits;
        }
    }
}

fn tail(random: &mut Random) -> (Vec<u8>, u64) {
    let terms = if random.below(2) == 0 { 0 } else { 1 + random.below(3) };
    let mut bytes = Vec::new();
    if terms > 0 {
        section(&mut bytes, terms, []);
        for _ in 0..terms {
            bytes.extend((random.unit() - 0.5).to_le_bytes());
            bytes.extend(random.unit().to_le_bytes());
            bytes.extend((random.below(13) as u32).to_le_bytes());
        }
        bytes.extend((3.0 * random.unit()).to_le_bytes());
    }
    (bytes, terms as u64)
}

fn row(levels: usize, random: &mut Random) -> Row {
    match random.below(6) {
        0 => Row::Scalar(if random.below(8) == 0 { 0x7FC0_0000 } else { energy(random) }),
        1 => Row::Repulsive,
        _ => Row::Mesh { level: random.below(levels), interpolate: random.below(2) == 0, offset: 0 },
    }
}

// Offsets in row order or in another, with gaps between, in front and behind; or anywhere, so that rows share parts.
fn place(rows: &mut [Row], random: &mut Random) -> (usize, &'static str) {
    let mut order: Vec<usize> = (0..rows.len()).collect();
    let kind = random.below(5);
    if kind == 2 || kind == 3 {
        random.shuffle(&mut order);
    }
    let most = rows.iter().map(held).max().unwrap_or(0);
    let room = most + random.below(1 + rows.iter().map(held).sum::<usize>());
    let mut at = 0;
    for i in order {
        let n = held(&rows[i]);
        if let Row::Mesh { offset, .. } = &mut rows[i] {
            if kind == 4 {
                *offset = random.below(room - n + 1);
            } else {
                at += if kind == 1 || kind == 3 { random.below(4) } else { 0 };
                *offset = at;
                at += n;
            }
        }
    }
    match kind {
        0 => (at + random.below(2), "files packed but for a gap at the end, or wholly"),
        1 => (at + random.below(3), "files with gaps"),
        2 => (at, "files with reordered offsets"),
        3 => (at + random.below(3), "files with reordered offsets and gaps"),
        _ => (room, "files whose rows share parts"),
    }
}

fn drawn(random: &mut Random) -> (Loose, &'static str) {
    let most = if random.below(8) == 0 { LEVELS } else { 2 };
    let levels = 1 + random.below(most);
    let (step, dihedrals) = if random.below(2) == 0 { (6.0, 1) } else { (3.0, 2) };
    let distances = 1 + random.below(4) as u32;
    let mut rows: Vec<Row> = (0..distances * dihedrals).map(|_| row(levels, random)).collect();
    let (count, words) = place(&mut rows, random);
    let (tail, terms) = tail(random);
    (Loose { distances, step, dihedrals, levels, rows, energies: (0..count).map(|_| energy(random)).collect(), tail, terms }, words)
}

fn words(l: &Loose) -> String {
    format!("{} levels, rows {:?}, {} energies, {} terms", l.levels, l.rows, l.energies.len(), l.terms)
}

// An accepted call: number, length, moved, the packed bytes, and what is beyond them stays; and the strict reader takes them.
fn accepted(l: &Loose, random: &mut Random) -> (Vec<u8>, Loose) {
    report::input();
    let (file, (wanted, moved)) = (l.bytes(), l.packed());
    let bytes = wanted.bytes();
    let before: Vec<u8> = (0..bytes.len() + random.below(20)).map(|_| random.bits() as u8).collect();
    let mut output = before.clone();
    let a = icotable::repack(&file, &mut output);
    let whole = [&bytes[..], &before[bytes.len()..]].concat();
    if (a.number, a.length, a.moved) != (0, bytes.len() as u64, moved) || output != whole {
        let at = output.iter().zip(&whole).position(|(x, y)| x != y);
        differ("repack", words(l), format!("{a:?}, first other byte {at:?}"), format!("0, {} bytes, {moved} moved", bytes.len()));
    }
    if icotable::read(&bytes).number != 0 || (icotable::read(&file).number == 0) != (file == bytes) {
        differ("read of the packed file", words(l), icotable::read(&bytes).number.to_string(), "0, and 0 for the loose one where it is packed".into());
    }
    let again = icotable::repack(&bytes, &mut output);
    if (again.number, again.length, again.moved) != (0, bytes.len() as u64, 0) || output != whole {
        differ("repack of a packed file", words(l), format!("{again:?}"), "the same bytes, 0 moved".into());
    }
    (bytes, wanted)
}

// A few things wrong, each with its number; the first in the order of the questions is the answer, and no byte is altered.
fn refused(l: &Loose, random: &mut Random, tally: &mut BTreeMap<String, u64>) {
    report::input();
    let mut l = l.clone();
    let mesh: Vec<usize> = (0..l.rows.len()).filter(|&i| held(&l.rows[i]) > 0).collect();
    let mut room = l.packed().0.bytes().len();
    let mut wrong = Vec::new();
    if random.below(3) == 0 && !mesh.is_empty() {
        let i = mesh[random.below(mesh.len())];
        let (count, n) = (l.energies.len(), held(&l.rows[i]));
        if let Row::Mesh { offset, .. } = &mut l.rows[i] {
            *offset = [count - n + 1, count, u32::MAX as usize][random.below(3)];
        }
        wrong.push(25);
    }
    if random.below(3) == 0 && !l.energies.is_empty() {
        let i = random.below(l.energies.len());
        l.energies[i] = [0x7FC0_0000, 0xFFFF_FFFF, 0x7F80_0001][random.below(3)];
        wrong.push(17);
    }
    if random.below(3) == 0 && l.terms > 0 {
        let at = l.tail.len() - 8;
        l.tail[at..].copy_from_slice(&f64::INFINITY.to_le_bytes());
        wrong.push(23);
    }
    let mut file = l.bytes();
    if random.below(6) == 0 {
        file[l.rows_start() + 10 * random.below(l.rows.len())] = 4;
        wrong.push(15);
    }
    if random.below(6) == 0 {
        file[44] = 13;
        wrong.push(14);
    }
    if random.below(8) == 0 {
        file.push(0);
        wrong.push(13);
    }
    if random.below(3) == 0 || wrong.is_empty() {
        room -= 1 + random.below(room);
        wrong.push(12);
    }
    let number = *ORDER.iter().find(|n| wrong.contains(n)).unwrap();
    let before: Vec<u8> = (0..room).map(|_| random.bits() as u8).collect();
    let mut output = before.clone();
    let a = icotable::repack(&file, &mut output);
    if (a.number, a.length, a.moved) != (number, 0, 0) || output != before {
        differ("repack", format!("{}, wrong {wrong:?}", words(&l)), format!("{a:?}"), format!("{number}, nothing altered"));
    }
    *tally.entry(format!("files refused with {number}")).or_default() += 1;
}

// What is lent to a reading: the icospheres of all levels and their locators.
#[derive(Default)]
struct World {
    vertices: Vec<f64>,
    cell_offsets: Vec<u32>,
    cell_vertices: Vec<u16>,
    face_offsets: Vec<u32>,
    faces: Vec<u16>,
}

impl World {
    fn new() -> World {
        let mut w = World::default();
        for level in 0..LEVELS {
            let mesh = icosphere(level).lent();
            let (n, cells) = (vertex_count(level), icotable::cells(level as u64) as usize);
            let (mut a, mut b, mut c, mut d) = (vec![0; cells], vec![0; 27 * n], vec![0; n + 1], vec![0; 45 * n]);
            let m = Meshes { vertices: &mesh.vertices, counts: &mesh.counts, neighbours: &mesh.neighbours, angles: &mesh.angles };
            let mut l = Locator { cell_offsets: &mut a, cell_vertices: &mut b, face_offsets: &mut c, faces: &mut d };
            assert_eq!(icotable::locator(level as u64, m, &mut l), 0);
            w.vertices.extend(mesh.vertices);
            w.cell_offsets.extend(a);
            w.cell_vertices.extend(b);
            w.face_offsets.extend(c);
            w.faces.extend(d);
        }
        w
    }

    fn damaged(&self, random: &mut Random) -> World {
        let mut w = World {
            vertices: self.vertices.clone(),
            cell_offsets: self.cell_offsets.clone(),
            cell_vertices: self.cell_vertices.clone(),
            face_offsets: self.face_offsets.clone(),
            faces: self.faces.clone(),
        };
        for _ in 0..40 {
            let (i, j, k, l) = (random.below(w.cell_offsets.len()), random.below(w.cell_vertices.len()), random.below(w.face_offsets.len()), random.below(w.faces.len()));
            match random.below(5) {
                0 => w.cell_offsets[i] = random.below(400) as u32,
                1 => w.cell_vertices[j] = random.below(120) as u16,
                2 => w.face_offsets[k] = random.below(400) as u32,
                3 => w.faces[l] = random.below(120) as u16,
                _ => w.vertices.truncate(random.below(w.vertices.len() + 1).max(30)),
            }
        }
        w
    }

    fn lent<'a>(&'a self, file: &'a [u8]) -> Lent<'a> {
        Lent { file, vertices: &self.vertices, cell_offsets: &self.cell_offsets, cell_vertices: &self.cell_vertices, face_offsets: &self.face_offsets, faces: &self.faces }
    }
}

fn bits(v: &Value) -> (u64, [u64; 3]) {
    let b = |x: f64| if x.is_nan() { u64::MAX } else { x.to_bits() };
    (v.number, [b(v.energy), b(v.distance_a), b(v.distance_b)])
}

// Readings of both files, plain and weighted, and their tails; how many, and how many of them read a row.
fn readings(l: &Loose, bytes: &[u8], world: &World, many: usize, random: &mut Random) -> (u64, u64) {
    let file = l.bytes();
    let new = icotable::read(bytes);
    let old = l.table(new.grid, file.len());
    let mut answered = 0;
    for _ in 0..many {
        report::input();
        let q = Query {
            r: (l.distances as f64 + 0.4) * random.unit() - 0.2,
            omega: 7.0 * random.unit(),
            a: random.direction(),
            b: random.direction(),
        };
        let beta = [0.5, 1.0, 0.0][random.below(3)];
        let (x, y) = (icotable::reading(&old, world.lent(&file), &q), icotable::reading(&new, world.lent(bytes), &q));
        let (u, v) = (icotable::boltzmann(&old, world.lent(&file), &q, beta), icotable::boltzmann(&new, world.lent(bytes), &q, beta));
        let (s, t) = (icotable::tail(&old, &file, q.r), icotable::tail(&new, bytes, q.r));
        if bits(&x) != bits(&y) || bits(&u) != bits(&v) || bits(&s) != bits(&t) {
            differ("readings", format!("{}, {q:?}, beta {beta}", words(l)), format!("{y:?}, {v:?}, {t:?}"), format!("{x:?}, {u:?}, {s:?}"));
        }
        answered += (x.number == 0) as u64;
    }
    (many as u64, answered)
}

fn main() {
    let (mut random, length) = arguments();
    let (files, many) = length.choose((4_000, 20), (60_000, 40));
    let world = World::new();
    let mut tally = BTreeMap::new();
    let mut add = |words: &str, n: u64| *tally.entry(words.to_string()).or_default() += n;
    let (mut refusals, mut longer, mut still) = (BTreeMap::new(), 0, 0);
    for _ in 0..files {
        let (l, kind) = drawn(&mut random);
        let (bytes, _) = accepted(&l, &mut random);
        longer += (bytes.len() > l.bytes().len()) as u64;
        still += (bytes == l.bytes()) as u64;
        add(kind, 1);
        add(if l.terms > 0 { "files with a tail" } else { "files without one" }, 1);
        refused(&l, &mut random, &mut refusals);
        let (asked, answered) = readings(&l, &bytes, &world, many, &mut random);
        add("pairs of readings, plain, weighted and of the tail", asked);
        add("of these answered", answered);
        let (asked, answered) = readings(&l, &bytes, &world.damaged(&mut random), many, &mut random);
        add("the same over damaged lists", asked);
        add("of those answered", answered);
    }
    add("files whose packed one is longer", longer);
    add("files that come back byte for byte", still);
    for (words, n) in tally.iter().chain(&refusals) {
        println!("{n:12} {words}");
    }
    assert!(tally.values().all(|&n| n > 0) && refusals.len() == ORDER.len(), "a case was not met");
    println!("repacks: 0 differences");
}
