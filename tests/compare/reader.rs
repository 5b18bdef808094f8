// The reader of tables: the lent lists, the table that is held, and the Rust's table. Every reading is answered here and handed on with its answer: the Rust's energy where nothing was damaged or
// made by a host, and that of document 01's text (reading.rs) where something was.
use crate::icotable::{Lent, Query};
use crate::lines::bits;
use crate::meshes::{Mesh, Random};
use crate::oracle::FaceGrid;
use crate::reading::{cell_offsets_below, reading, vertices_below, weighted, Answer};
use crate::report::differ;
use crate::shape::{lookup, lookup_boltzmann, rust_distances, RustTable, Table};
use std::collections::BTreeMap;

pub const FILE: usize = 16384;

// Lists, by their numbers: 0 file, 1 vertices, 2 cell offsets, 3 cell vertices, 4 face offsets, 5 faces.
#[derive(Clone, Default)]
pub struct Lists {
    pub file: Vec<u8>,
    pub vertices: Vec<f64>,
    pub cell_offsets: Vec<u32>,
    pub cell_vertices: Vec<u16>,
    pub face_offsets: Vec<u32>,
    pub faces: Vec<u16>,
}

impl Lists {
    pub fn lengths(&self) -> [usize; 6] {
        [self.file.len(), self.vertices.len(), self.cell_offsets.len(), self.cell_vertices.len(), self.face_offsets.len(), self.faces.len()]
    }

    pub fn word(&self, list: usize, at: usize) -> u64 {
        match list {
            0 => self.file[at] as u64,
            1 => bits(self.vertices[at]),
            2 => self.cell_offsets[at] as u64,
            3 => self.cell_vertices[at] as u64,
            4 => self.face_offsets[at] as u64,
            _ => self.faces[at] as u64,
        }
    }

    fn put(&mut self, list: usize, at: usize, n: u64) {
        match list {
            0 => self.file[at] = n as u8,
            1 => self.vertices[at] = f64::from_bits(n),
            2 => self.cell_offsets[at] = n as u32,
            3 => self.cell_vertices[at] = n as u16,
            4 => self.face_offsets[at] = n as u32,
            _ => self.faces[at] = n as u16,
        }
    }

    // The first entries of each.
    pub fn lent(&self, n: &[usize; 6]) -> Lent<'_> {
        Lent {
            file: &self.file[..n[0]],
            vertices: &self.vertices[..n[1]],
            cell_offsets: &self.cell_offsets[..n[2]],
            cell_vertices: &self.cell_vertices[..n[3]],
            face_offsets: &self.face_offsets[..n[4]],
            faces: &self.faces[..n[5]],
        }
    }
}

// Something damaged: entries altered, fewer of them lent, another table.
#[derive(Clone)]
pub struct Damage {
    pub entries: Vec<(usize, usize, u64)>,
    pub lent: [usize; 6],
    pub table: Table,
}

// Where the readings go: to a file of tests/replay, or to the static library.
pub trait Sink {
    // Meshes of levels 0 and 1, and the lists with their locators.
    fn lend(&mut self, meshes: [&Mesh; 2], lists: &Lists);
    // Entries that are altered by hand.
    fn entries(&mut self, list: usize, start: usize, words: &[u64]);
    // The file, and what read returns for it.
    fn read(&mut self, file: &[u8], table: &Table);
    // A table that takes the place of the one held.
    fn hold(&mut self, held: &Table, table: &Table);
    // A reading, its answer, and whose it is: 0 that of document 01's text, else the Rust's, by kind.
    fn reading(&mut self, table: &Table, lists: &Lists, lent: &[usize; 6], q: &Query, a: &Answer, kind: usize);
    // A weighted reading, and its answer: the Rust's where it is not refused.
    fn weighted(&mut self, table: &Table, lists: &Lists, lent: &[usize; 6], q: &Query, beta: f64, a: &Answer);
}

pub struct Reader<'a> {
    pub sink: &'a mut dyn Sink,
    pub lists: Lists,
    // what read returns for the file
    pub table: Table,
    // what is held
    held: Table,
    file_length: usize,
    pub rust: Option<RustTable>,
    pub cases: BTreeMap<String, usize>,
    pub counts: BTreeMap<&'static str, usize>,
    // of the betas
    random: Random,
}

// An energy of the Rust's and the distances that its own search works out, beside those of the documents' text.
fn alike(what: &str, asked: impl Fn() -> String, rust: &RustTable, q: &Query, theirs: f64, a: &Answer) {
    if bits(theirs) != bits(a.energy) {
        differ(what, asked(), format!("{:e}", a.energy), format!("{theirs:e}"));
    }
    let far = rust_distances(rust, q);
    if far.map(bits) != a.distances.map(bits) {
        differ("the Rust's search and document 02's distances", asked(), format!("{:?}", a.distances), format!("{far:?}"));
    }
}

// Where 01 admits a reading of the file as it was written, the Rust has to answer the same.
pub fn same_as_rust(rust: &RustTable, t: &Table, q: &Query, a: &Answer) {
    alike("the Rust's lookup and document 01's text", || format!("{q:?} of {t:?}"), rust, q, lookup(rust, q), a);
}

// The same of a weighted reading.
pub fn weighted_as_rust(rust: &RustTable, t: &Table, q: &Query, beta: f64, a: &Answer) {
    let what = "the Rust's lookup_boltzmann and document 02's text";
    alike(what, || format!("{q:?}, beta {beta:e}, of {t:?}"), rust, q, lookup_boltzmann(rust, q, beta), a);
}

// The beta of a weighted reading: subnormal, tiny, usual, huge; one in eight is refused.
pub fn beta(random: &mut Random) -> f64 {
    match random.below(8) {
        0 => [0.0, -0.0, -1.0, -5e-324, f64::NAN, f64::INFINITY, f64::NEG_INFINITY, -random.finite().abs()][random.below(8)],
        1 => f64::from_bits(1 + (random.bits() >> 12 >> random.below(52))),
        2 => [5e-324, f64::MIN_POSITIVE, 1e-300, 1e-20, 1e20, 1e300, f64::MAX][random.below(7)],
        3 => random.finite().abs().max(5e-324),
        _ => (1.0 + random.unit()) * [0.01, 1.0, 10.0, 1000.0][random.below(4)] + 1e-3,
    }
}

// What the replay counts, in the order in which it prints them.
pub const COUNTED: [&str; 13] = [
    "meshes and their locators",
    "files read",
    "outside the distances, as the Rust",
    "Scalar, as the Rust",
    "Repulsive, as the Rust",
    "Mesh nearest, as the Rust",
    "Mesh interpolated, as the Rust",
    "energies, damaged or made by a host",
    "refused with 18",
    "refused with 19",
    "refused with 20",
    "weighted, as the Rust",
    "weighted, refused",
];

// Cases that damage, or a host, is to lead to.
pub const DAMAGED: &[&str] = &[
    "19 no bins",
    "19 a row beyond the count",
    "19 a row beyond the file",
    "19 an unknown kind",
    "19 a level that is not held",
    "19 a cell offset beyond what was lent",
    "19 a cell's end below its start",
    "19 a cell entry beyond what was lent",
    "19 a cell's vertex number beyond n",
    "19 a vertex beyond what was lent",
    "19 a face offset beyond what was lent",
    "19 a face's end below its start",
    "19 a face entry beyond what was lent",
    "19 a face's vertex number beyond n",
    "19 an energy beyond the count",
    "19 an energy beyond the file",
    "20 an empty cell",
];

impl<'a> Reader<'a> {
    pub fn new(sink: &'a mut dyn Sink) -> Self {
        let n = vertices_below(2) as usize;
        let lists = Lists {
            file: vec![0; FILE],
            vertices: vec![0.0; 3 * n],
            cell_offsets: vec![0; cell_offsets_below(2) as usize],
            cell_vertices: vec![0; 27 * n],
            face_offsets: vec![0; n + 2],
            faces: vec![0; 45 * n],
        };
        Reader {
            sink,
            lists,
            table: Table::default(),
            held: Table::default(),
            file_length: 0,
            rust: None,
            cases: BTreeMap::new(),
            counts: COUNTED.iter().map(|&words| (words, 0)).collect(),
            random: Random::of(21),
        }
    }

    fn count(&mut self, words: &'static str) {
        *self.counts.get_mut(words).unwrap() += 1;
    }

    // All of each list, and of the file what the table has.
    pub fn lengths(&self) -> [usize; 6] {
        let mut n = self.lists.lengths();
        n[0] = self.file_length;
        n
    }

    // Meshes of levels 0 and 1; the locator call is made for each.
    pub fn lend(&mut self, meshes: [&Mesh; 2]) {
        for (level, mesh) in meshes.into_iter().enumerate() {
            assert_eq!(mesh.level, level);
            let grid = FaceGrid::new(&mesh.vertices, &mesh.neighbours);
            let below = vertices_below(level as u64) as usize;
            let faces = grid.adj_faces.iter().flat_map(|f| f.face.map(|v| v as u64)).collect();
            let parts: [(usize, Vec<u64>); 5] = [
                (3 * below, mesh.vertices.concat().into_iter().map(bits).collect()),
                (cell_offsets_below(level as u64) as usize, grid.vtx_offsets.iter().map(|&x| x as u64).collect()),
                (27 * below, grid.vertex_ids.iter().map(|&x| x as u64).collect()),
                (below + level, grid.adj_offsets.iter().map(|&x| x as u64).collect()),
                (45 * below, faces),
            ];
            for (k, (at, words)) in parts.into_iter().enumerate() {
                words.into_iter().enumerate().for_each(|(i, n)| self.lists.put(k + 1, at + i, n));
            }
        }
        self.sink.lend(meshes, &self.lists);
        self.count("meshes and their locators");
    }

    fn entries(&mut self, list: usize, start: usize, words: &[u64]) {
        words.iter().enumerate().for_each(|(i, &n)| self.lists.put(list, start + i, n));
        self.sink.entries(list, start, words);
    }

    // The table's file, and what read returns for it.
    pub fn read(&mut self, rust: RustTable, file: &[u8], table: Table) {
        let words: Vec<u64> = file.iter().map(|&b| b as u64).collect();
        self.entries(0, 0, &words);
        self.sink.read(file, &table);
        self.count("files read");
        (self.table, self.held, self.rust, self.file_length) = (table, table, Some(rust), file.len());
    }

    fn hold(&mut self, t: Table) {
        self.sink.hold(&self.held, &t);
        self.held = t;
    }

    pub fn undamaged(&self) -> Damage {
        Damage { entries: Vec::new(), lent: self.lengths(), table: self.table }
    }

    // Document 01's answer over damaged lists.
    pub fn answer(&self, d: &Damage, q: &Query) -> Answer {
        if d.entries.is_empty() {
            return reading(&d.table, self.lists.lent(&d.lent), q);
        }
        let mut lists = self.lists.clone();
        for &(list, at, n) in &d.entries {
            lists.put(list, at, n);
        }
        reading(&d.table, lists.lent(&d.lent), q)
    }

    // Hands a reading on.
    fn hand(&mut self, lent: &[usize; 6], q: &Query, a: &Answer, rust: bool) {
        let kinds = ["", "below rmin", "Scalar", "Repulsive", "nearest", "interpolated"];
        let words = if a.words == "above rmax" { "below rmin" } else { a.words };
        let kind = if rust { kinds.iter().position(|w| *w == words).unwrap_or(0) } else { 0 };
        self.sink.reading(&self.held, &self.lists, lent, q, a, kind);
        let counted = match a.number {
            0 if kind == 0 => 7,
            0 => kind + 1,
            n => n as usize - 10,
        };
        self.count(COUNTED[counted]);
        let who = if rust { "" } else { ", damaged or by a host" };
        *self.cases.entry(format!("{:2} {}{}", a.number, a.words, who)).or_default() += 1;
    }

    // Nothing damaged: where 01 does not refuse, the Rust has to answer the same.
    pub fn sound(&mut self, q: &Query) {
        let d = self.undamaged();
        let a = self.answer(&d, q);
        if a.number == 0 {
            same_as_rust(self.rust.as_ref().unwrap(), &d.table, q, &a);
        }
        self.hold(d.table);
        self.hand(&d.lent, q, &a, true);
        self.weigh(&d, q);
    }

    // The same reading, weighted.
    fn weigh(&mut self, d: &Damage, q: &Query) {
        let beta = beta(&mut self.random);
        let a = weighted(&d.table, self.lists.lent(&d.lent), q, beta);
        if a.number == 0 {
            weighted_as_rust(self.rust.as_ref().unwrap(), &d.table, q, beta, &a);
        }
        self.sink.weighted(&d.table, &self.lists, &d.lent, q, beta, &a);
        self.count(COUNTED[if a.number == 0 { 11 } else { 12 }]);
        *self.cases.entry(format!("{:2} {}, with a beta", a.number, a.words)).or_default() += 1;
    }

    // Damages, reads, and puts it right again; entries that follow each other in a list go together.
    pub fn damaged(&mut self, d: &Damage, q: &Query) {
        let runs: Vec<&[(usize, usize, u64)]> = d.entries.chunk_by(|a, b| (a.0, a.1 + 1) == (b.0, b.1)).collect();
        let words = |lists: &Lists, run: &[(usize, usize, u64)]| run.iter().map(|&(list, at, _)| lists.word(list, at)).collect();
        let before: Vec<Vec<u64>> = runs.iter().map(|run| words(&self.lists, run)).collect();
        let answer = self.answer(d, q);
        for run in &runs {
            self.entries(run[0].0, run[0].1, &run.iter().map(|e| e.2).collect::<Vec<_>>());
        }
        self.hold(d.table);
        self.hand(&d.lent, q, &answer, false);
        for (run, words) in runs.iter().zip(&before).rev() {
            self.entries(run[0].0, run[0].1, words);
        }
    }
}
