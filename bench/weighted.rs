// Weighted readings of one table by the library of this tree.
use crate::icotable::{Lent, Query};
use crate::reader::Lists;
use crate::shape::{self, Table, Value};
use crate::timing::{each, used};
use std::hint::black_box;

#[rustfmt::skip]
extern "C" {
    #[cfg_attr(atom, link_name = "read_weighted_atoms")]
    fn read_weighted(
        table: *const Table, file: *const u8, a: usize, vertices: *const f64, b: usize, cell_offsets: *const u32, c: usize, cell_vertices: *const u16, d: usize,
        face_offsets: *const u32, e: usize, faces: *const u16, f: usize, queries: *const Query, count: usize, beta: f64, out: *mut Value,
    );
}

pub struct Weighted {
    lists: Lists,
    table: Table,
    queries: Vec<Query>,
    beta: f64,
    out: Vec<Value>,
}

impl Weighted {
    // The energies that are wanted are compared, bit for bit.
    pub fn new(lists: Lists, queries: &[Query], beta: f64, wanted: &[u64]) -> Weighted {
        let table = shape::read(&lists.file);
        assert_eq!(table.number, 0);
        let mut made = Weighted { lists, table, queries: queries.to_vec(), beta, out: vec![Value::default(); queries.len()] };
        made.from_c();
        for ((q, x), &energy) in made.queries.iter().zip(&made.out).zip(wanted) {
            let y = shape::boltzmann(&made.table, made.lent(), q, beta);
            assert_eq!((x.number, x.energy.to_bits(), y.number, y.energy.to_bits()), (0, energy, 0, energy));
        }
        made
    }

    fn lent(&self) -> Lent<'_> {
        self.lists.lent(&self.lists.lengths())
    }

    #[rustfmt::skip]
    pub fn from_c(&mut self) {
        let (l, queries) = (self.lists.lent(&self.lists.lengths()), black_box(&self.queries));
        unsafe {
            read_weighted(
                &self.table, l.file.as_ptr(), l.file.len(), l.vertices.as_ptr(), l.vertices.len(), l.cell_offsets.as_ptr(), l.cell_offsets.len(),
                l.cell_vertices.as_ptr(), l.cell_vertices.len(), l.face_offsets.as_ptr(), l.face_offsets.len(), l.faces.as_ptr(), l.faces.len(),
                queries.as_ptr(), queries.len(), self.beta, black_box(&mut self.out).as_mut_ptr(),
            )
        }
    }

    pub fn from_rust(&mut self) {
        let l = self.lent();
        each(&self.queries, |q| used(shape::boltzmann(&self.table, l, q, black_box(self.beta))));
    }
}
