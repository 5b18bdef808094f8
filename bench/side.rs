// What is timed of one library. Compiled for the library of this tree and, by bench/run, once more for the one that landed, each over its own declarations (hosts/rust/src/sys.rs,
// tests/compare/ours.rs) and with lists of its own, rows in the form that it takes (word_rows.rs, list_rows.rs there), so that no side finds in the cache what another has read.
use super::calls::{self, Builder, Grid, Table, Value};
use super::icotable::{self, Lent, Locator, Meshes, Query};
use super::ours;
use super::rows::{self, Rows};
use crate::meshes;
use crate::reader;
use crate::shape::{per, slice_bins};
use crate::timing::{each, used};
use std::hint::black_box;

#[rustfmt::skip]
extern "C" {
    #[cfg_attr(atom, link_name = "read_atoms")]
    fn read_all(
        table: *const Table, file: *const u8, a: usize, vertices: *const f64, b: usize, cell_offsets: *const u32, c: usize, cell_vertices: *const u16, d: usize,
        face_offsets: *const u32, e: usize, faces: *const u16, f: usize, queries: *const Query, count: usize, out: *mut Value,
    );
}

fn lent(m: &meshes::Lent) -> Meshes<'_> {
    Meshes { vertices: &m.vertices, counts: &m.counts, neighbours: &m.neighbours, angles: &m.angles }
}

// The lists of a builder, rows in the library's own form.
struct Own {
    store: Vec<f64>,
    rows: Rows,
    slabs: usize,
}

impl Own {
    fn lent(&mut self) -> rows::Lists<'_> {
        self.rows.lent(&mut self.store, [self.slabs; 3])
    }
}

pub struct Building<'a> {
    meshes: &'a meshes::Lent,
    builder: Builder,
    own: Own,
}

impl<'a> Building<'a> {
    // Settings of n_r distance bins and n_omega dihedral bins. The threshold is so low that every slab is left as it is.
    pub fn fresh(n_r: usize, n_omega: usize, top: usize, meshes: &'a meshes::Lent) -> Building<'a> {
        let omega_step = std::f64::consts::TAU / n_omega as f64;
        let grid = calls::grid([0.0, n_r as f64, 1.0, omega_step, 1e-9, 1.0], [0, 0]);
        let slabs = n_r * n_omega;
        let rows = Rows::of(&vec![0; slabs], &vec![0; slabs], &vec![0; slabs]);
        let mut own = Own { store: vec![0.0; slabs * per(top as u64)], rows, slabs };
        let a = calls::fresh(grid, top as u64, &mut own.lent(), lent(meshes));
        assert_eq!(a.number, 0);
        Building { meshes, builder: a.builder, own }
    }

    pub fn grid(&self) -> Grid {
        self.builder.grid
    }

    pub fn set(&mut self, ri: usize, oi: usize, energies: &[f64]) {
        assert_eq!(calls::set(self.builder, &mut self.own.lent(), ri as u64, oi as u64, energies).number, 0);
    }

    // One slab after another: a slice of two molecules, or slices of an atom.
    pub fn set_all(&mut self, given: &[Vec<f64>]) {
        let (mut s, n_omega) = (0, slice_bins(given.len())[1]);
        each(given, |e| {
            self.set(s / n_omega, s % n_omega, e);
            s += 1;
        });
    }

    // The largest gradient, and the level that is left. The builder stays as it was, and so does the work of another call.
    pub fn settle(&mut self, ri: usize) -> (u64, usize) {
        let a = calls::settle(self.builder, &mut black_box(&mut self.own).lent(), lent(self.meshes), ri as u64);
        assert_eq!(a.number, 0);
        (a.gradient.to_bits(), a.builder.level as usize)
    }

    // Kinds, levels and values.
    pub fn rows(&self) -> (Vec<u32>, Vec<u8>, Vec<u32>) {
        self.own.rows.numbers()
    }

    pub fn store(&self) -> &[f64] {
        &self.own.store
    }

    // The file's length.
    pub fn write(&mut self, output: &mut [u8]) -> usize {
        let a = calls::write(self.builder, black_box(&mut self.own).lent().held(), lent(self.meshes), output);
        assert_eq!(a.number, 0);
        a.length as usize
    }
}

pub fn read(file: &[u8]) {
    assert_eq!(calls::read(black_box(file)).number, 0);
}

pub fn exp(y: f64) -> f64 {
    icotable::exp(y)
}

// The search in one level's mesh.
pub struct Search {
    level: usize,
    mesh: meshes::Lent,
    lists: ours::Lists,
}

impl Search {
    pub fn new(level: usize, grid_size: usize, mesh: meshes::Lent) -> Search {
        let [a, b, c, d] = ours::needed(level, grid_size);
        let lists = ours::Lists { cell_offsets: vec![0; a], cell_vertices: vec![0; b], face_offsets: vec![0; c], faces: vec![0; d] };
        Search { level, mesh, lists }
    }

    pub fn locator(&mut self) {
        let ours::Lists { cell_offsets, cell_vertices, face_offsets, faces } = &mut self.lists;
        let mut out = Locator { cell_offsets, cell_vertices, face_offsets, faces };
        assert_eq!(icotable::locator(self.level as u64, lent(black_box(&self.mesh)), &mut out), 0);
    }

    pub fn nearest(&self, d: [f64; 3]) -> u64 {
        ours::find_nearest_vertex(self.level, &self.lists, &self.mesh.vertices, d).vertex
    }

    pub fn weights(&self, d: [f64; 3]) -> [f64; 3] {
        ours::locate(self.level, &self.lists, &self.mesh.vertices, d).weights
    }

    pub fn nearest_all(&self, directions: &[[f64; 3]]) {
        each(directions, |&d| used(ours::find_nearest_vertex(self.level, &self.lists, &self.mesh.vertices, d)));
    }

    pub fn locate_all(&self, directions: &[[f64; 3]]) {
        each(directions, |&d| used(ours::locate(self.level, &self.lists, &self.mesh.vertices, d)));
    }
}

fn held(l: &reader::Lists) -> Lent<'_> {
    Lent { file: &l.file, vertices: &l.vertices, cell_offsets: &l.cell_offsets, cell_vertices: &l.cell_vertices, face_offsets: &l.face_offsets, faces: &l.faces }
}

// Readings of one table.
pub struct Readings {
    lists: reader::Lists,
    table: Table,
    queries: Vec<Query>,
    out: Vec<Value>,
}

impl Readings {
    // The energies that are wanted are compared, bit for bit.
    pub fn new(lists: reader::Lists, queries: &[crate::icotable::Query], wanted: &[u64]) -> Readings {
        let queries: Vec<Query> = queries.iter().map(|q| Query { r: q.r, omega: q.omega, a: q.a, b: q.b }).collect();
        let table = calls::read(&lists.file);
        assert_eq!(table.number, 0);
        let mut made = Readings { lists, table, out: vec![Value::default(); queries.len()], queries };
        made.from_c();
        for ((q, x), &energy) in made.queries.iter().zip(&made.out).zip(wanted) {
            let y = calls::reading(&made.table, held(&made.lists), q);
            assert_eq!((x.number, x.energy.to_bits(), y.number, y.energy.to_bits()), (0, energy, 0, energy));
        }
        made
    }

    #[rustfmt::skip]
    pub fn from_c(&mut self) {
        let (l, queries) = (held(&self.lists), black_box(&self.queries));
        unsafe {
            read_all(
                &self.table, l.file.as_ptr(), l.file.len(), l.vertices.as_ptr(), l.vertices.len(), l.cell_offsets.as_ptr(), l.cell_offsets.len(),
                l.cell_vertices.as_ptr(), l.cell_vertices.len(), l.face_offsets.as_ptr(), l.face_offsets.len(), l.faces.as_ptr(), l.faces.len(),
                queries.as_ptr(), queries.len(), black_box(&mut self.out).as_mut_ptr(),
            )
        }
    }

    pub fn from_rust(&mut self) {
        let l = held(&self.lists);
        each(&self.queries, |q| used(calls::reading(&self.table, l, q)));
    }
}
