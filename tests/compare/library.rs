// The static library libicotable.a at the other end of the calls and readings: each one is made there, and its answer and every lent list compared. Ends at the first difference, with its input.
use crate::caller::{self, Answer, Call, What};
use crate::icotable::{self, Meshes, Query};
use crate::lines::bits;
use crate::meshes::{Mesh, Random};
use crate::oracle::FaceGrid;
use crate::reader;
use crate::reading;
use crate::refusals::{Held, Lists};
use crate::report::{self, differ};
use crate::shape::rows::{self, Rows};
use crate::shape::{self, grid_words, Builder, Table, Value};

fn builder_words(b: &Builder) -> (Vec<u64>, u64, u64, u64) {
    (grid_words(&b.grid), b.top, b.level, shape::packed(b))
}

pub fn table_words(t: &Table) -> (u64, Vec<u64>, Vec<u64>) {
    (t.number, grid_words(&t.grid), shape::section_words(t))
}

pub fn builder_of(b: &Held) -> Builder {
    shape::builder(shape::grid(b.settings.list(), [b.n_r, b.n_omega]), b)
}

// Lends so much of the lists to a call, rows in the form that the library takes, and takes back what it leaves there.
pub fn lending<A>(l: &mut Lists, lent: &[usize; 8], call: impl FnOnce(&mut rows::Lists, Meshes) -> A) -> A {
    let mut rows = Rows::of(&l.kinds, &l.levels, &l.values);
    let meshes = Meshes { vertices: &l.vertices[..lent[4]], counts: &l.counts[..lent[5]], neighbours: &l.neighbours[..lent[6]], angles: &l.angles[..lent[7]] };
    let answer = call(&mut rows.lent(&mut l.store[..lent[0]], [lent[1], lent[2], lent[3]]), meshes);
    (l.kinds, l.levels, l.values) = rows.numbers();
    answer
}

fn same_floats(a: &[f64], b: &[f64]) -> bool {
    a.len() == b.len() && a.iter().zip(b).all(|(x, y)| x.to_bits() == y.to_bits())
}

// Every entry of every list, those beyond what was lent or needed included.
pub fn same_lists(a: &Lists, b: &Lists) -> bool {
    same_floats(&a.store, &b.store)
        && (&a.kinds, &a.levels, &a.values) == (&b.kinds, &b.levels, &b.values)
        && same_floats(&a.vertices, &b.vertices)
        && (&a.counts, &a.neighbours) == (&b.counts, &b.neighbours)
        && same_floats(&a.angles, &b.angles)
}

// The builder's side: lists of its own, which the library's calls alone alter, beside what is altered by hand.
pub struct Library {
    lists: Lists,
    pub calls: u64,
    pub refused: u64,
    pub entries: u64,
}

impl Library {
    pub fn new() -> Library {
        Library { lists: Lists::default(), calls: 0, refused: 0, entries: 0 }
    }
}

impl caller::Sink for Library {
    fn lend(&mut self, lists: &Lists) {
        self.lists = lists.clone();
    }

    fn entries(&mut self, list: usize, start: usize, words: &[u64]) {
        words.iter().enumerate().for_each(|(i, &n)| self.lists.put(list, start + i, n));
    }

    fn hold(&mut self, _: &Held) {}

    fn call(&mut self, call: &Call, answer: &Answer, lists: &Lists) {
        report::input();
        let given = builder_of(&call.held);
        let (name, number, gradient, comparisons, builder) = lending(&mut self.lists, &call.lent, |l, m| match call.what {
            What::Fresh => {
                let a = shape::fresh(given.grid, given.top, l, m);
                ("fresh", a.number, 0.0, 0, a.builder)
            }
            What::Set(ri, oi, _, energies) => {
                let a = shape::set(given, l, ri, oi, energies);
                ("set", a.number, 0.0, 0, a.builder)
            }
            What::Settle(ri) => {
                let a = shape::settle(given, l, m, ri);
                ("settle", a.number, a.gradient, a.comparisons, a.builder)
            }
        });
        // a refused fresh answers with zeros, a refused set or settle with the builder as it came
        let wanted = match (answer.number, name) {
            (0, _) => builder_of(&answer.held),
            (_, "fresh") => Builder::default(),
            _ => given,
        };
        let input = || format!("{:?}, lent {:?}", call.held, call.lent);
        if (number, bits(gradient), comparisons) != (answer.number, bits(answer.gradient), answer.comparisons) {
            let said = |number: u64, gradient: f64, comparisons: u64| format!("{number}, gradient {gradient:e}, {comparisons} comparisons");
            differ(name, input(), said(number, gradient, comparisons), said(answer.number, answer.gradient, answer.comparisons));
        }
        if builder_words(&builder) != builder_words(&wanted) {
            differ(name, input(), format!("{builder:?}"), format!("{wanted:?}"));
        }
        if !same_lists(&self.lists, lists) {
            differ(name, input(), "other entries in a lent list".into(), format!("rows {:?} {:?} {:?}", lists.kinds, lists.levels, lists.values));
        }
        self.calls += 1;
        self.refused += (number > 0) as u64;
        self.entries += lists.lengths().iter().sum::<usize>() as u64;
    }
}

// The four lists of a level, each entry what is given, with `more` beyond the needed ones.
pub fn locator_lists(level: usize, more: usize, mut entry: impl FnMut() -> u64) -> reader::Lists {
    let (n, cells) = (icotable::vertices(level as u64) as usize, icotable::cells(level as u64) as usize);
    reader::Lists {
        file: Vec::new(),
        vertices: Vec::new(),
        cell_offsets: (0..cells + more).map(|_| entry() as u32).collect(),
        cell_vertices: (0..27 * n + more).map(|_| entry() as u16).collect(),
        face_offsets: (0..n + 1 + more).map(|_| entry() as u32).collect(),
        faces: (0..45 * n + more).map(|_| entry() as u16).collect(),
    }
}

fn same_list<T: PartialEq + Copy + std::fmt::Debug>(name: &str, mesh: &Mesh, theirs: Vec<T>, before: &[T], ours: &[T]) -> u64 {
    for (i, x) in ours.iter().enumerate() {
        let want = theirs.get(i).unwrap_or(&before[i]);
        if x != want {
            differ("locator", format!("{}, {name} {i}", mesh.name), format!("{x:?}"), format!("{want:?}"));
        }
    }
    ours.len() as u64
}

// The locator call of one mesh against `FaceGrid::new`, in lists that hold something before; how many entries were compared.
pub fn locator(mesh: &Mesh, grid: &FaceGrid, lists: &mut reader::Lists) -> u64 {
    report::input();
    let before = lists.clone();
    let lent = mesh.lent();
    let m = Meshes { vertices: &lent.vertices, counts: &lent.counts, neighbours: &lent.neighbours, angles: &lent.angles };
    let mut l = icotable::Locator {
        cell_offsets: &mut lists.cell_offsets,
        cell_vertices: &mut lists.cell_vertices,
        face_offsets: &mut lists.face_offsets,
        faces: &mut lists.faces,
    };
    let number = icotable::locator(mesh.level as u64, m, &mut l);
    if number != 0 {
        differ("locator", mesh.name.clone(), number.to_string(), "0".into());
    }
    let faces = grid.adj_faces.iter().flat_map(|f| f.face.map(|v| v as u16)).collect();
    same_list("cell offset", mesh, grid.vtx_offsets.clone(), &before.cell_offsets, &lists.cell_offsets)
        + same_list("cell vertex", mesh, grid.vertex_ids.clone(), &before.cell_vertices, &lists.cell_vertices)
        + same_list("face offset", mesh, grid.adj_offsets.clone(), &before.face_offsets, &lists.face_offsets)
        + same_list("face entry", mesh, faces, &before.faces, &lists.faces)
}

// The same, behind the meshes and locators of the levels below; `more` entries beyond the needed ones are compared and left out.
pub fn add_level(mesh: &Mesh, grid: &FaceGrid, more: usize, entry: impl FnMut() -> u64, lists: &mut reader::Lists) -> u64 {
    let mut made = locator_lists(mesh.level, more, entry);
    let entries = locator(mesh, grid, &mut made);
    lists.vertices.extend(mesh.vertices.concat());
    lists.cell_offsets.extend(&made.cell_offsets[..made.cell_offsets.len() - more]);
    lists.cell_vertices.extend(&made.cell_vertices[..made.cell_vertices.len() - more]);
    lists.face_offsets.extend(&made.face_offsets[..made.face_offsets.len() - more]);
    lists.faces.extend(&made.faces[..made.faces.len() - more]);
    entries
}

fn same_value(name: &str, got: Value, table: &Table, lent: icotable::Lent, asked: impl Fn() -> String, a: &reading::Answer) {
    report::input();
    let far = shape::distances(&got);
    if (got.number, bits(got.energy), far.map(bits)) != (a.number, bits(a.energy), a.distances.map(bits)) {
        let lengths = [lent.file.len(), lent.vertices.len(), lent.cell_offsets.len(), lent.cell_vertices.len(), lent.face_offsets.len(), lent.faces.len()];
        let input = format!("{} of {table:?}, lent {lengths:?}", asked());
        let shown = |number: u64, energy: f64, far: [f64; 2]| format!("{number}, {energy:e}, distances {far:?}");
        differ(name, input, shown(got.number, got.energy, far), shown(a.number, a.energy, a.distances));
    }
}

// A reading, and the file that it is of.
pub fn same_reading(table: &Table, lent: icotable::Lent, q: &Query, a: &reading::Answer) {
    same_value("reading", shape::reading(table, lent, q), table, lent, || format!("{q:?}"), a);
}

// The same, weighted.
pub fn same_weighted(table: &Table, lent: icotable::Lent, q: &Query, beta: f64, a: &reading::Answer) {
    same_value("weighted reading", shape::boltzmann(table, lent, q, beta), table, lent, || format!("{q:?}, beta {beta:e}"), a);
}

// A file in words: the first bytes of it, where it is long.
pub fn file_words(file: &[u8]) -> String {
    format!("{} bytes, the first of them {:02X?}", file.len(), &file[..file.len().min(1000)])
}

pub fn same_table(file: &[u8], table: &Table) {
    report::input();
    let got = shape::read(file);
    if table_words(&got) != table_words(table) {
        differ("read", file_words(file), format!("{got:?}"), format!("{table:?}"));
    }
}

// The reading's side.
pub struct Readings {
    pub answered: u64,
    pub refused: u64,
    pub files: u64,
    // each reading is weighted, too, by a beta of its own
    pub random: Random,
    pub weighted: u64,
}

impl reader::Sink for Readings {
    fn lend(&mut self, meshes: [&Mesh; 2], _: &reader::Lists) {
        for mesh in meshes {
            let grid = FaceGrid::new(&mesh.vertices, &mesh.neighbours);
            locator(mesh, &grid, &mut locator_lists(mesh.level, 3, || 0xabab));
        }
    }

    fn entries(&mut self, _: usize, _: usize, _: &[u64]) {}

    fn read(&mut self, file: &[u8], table: &Table) {
        same_table(file, table);
        self.files += 1;
    }

    fn hold(&mut self, _: &Table, _: &Table) {}

    fn reading(&mut self, table: &Table, lists: &reader::Lists, lent: &[usize; 6], q: &Query, a: &reading::Answer, _: usize) {
        same_reading(table, lists.lent(lent), q, a);
        *if a.number == 0 { &mut self.answered } else { &mut self.refused } += 1;
        let beta = reader::beta(&mut self.random);
        let w = reading::weighted(table, lists.lent(lent), q, beta);
        same_weighted(table, lists.lent(lent), q, beta, &w);
        self.weighted += 1;
    }

    fn weighted(&mut self, table: &Table, lists: &reader::Lists, lent: &[usize; 6], q: &Query, beta: f64, a: &reading::Answer) {
        same_weighted(table, lists.lent(lent), q, beta, a);
        self.weighted += 1;
    }
}
