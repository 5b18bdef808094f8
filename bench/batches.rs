// Many readings of one table in one call, by the library of this tree.
use crate::icotable::{self, Query};
use crate::reader::Lists;
use crate::shape::{self, Table};
use std::hint::black_box;

pub struct Batch {
    lists: Lists,
    table: Table,
    poses: Vec<[f64; 8]>,
    beta: Option<f64>,
    numbers: Vec<u64>,
    answers: Vec<[f64; 3]>,
}

impl Batch {
    // The energies that are wanted are compared, bit for bit.
    pub fn new(lists: Lists, queries: &[Query], beta: Option<f64>, wanted: &[u64]) -> Batch {
        let table = shape::read(&lists.file);
        assert_eq!(table.number, 0);
        let poses = queries.iter().map(|q| [q.r, q.omega, q.a[0], q.a[1], q.a[2], q.b[0], q.b[1], q.b[2]]).collect();
        let mut made = Batch { lists, table, poses, beta, numbers: vec![0; queries.len()], answers: vec![[0.0; 3]; queries.len()] };
        made.read();
        for ((&number, answer), &energy) in made.numbers.iter().zip(&made.answers).zip(wanted) {
            assert_eq!((number, answer[0].to_bits()), (0, energy));
        }
        made
    }

    pub fn read(&mut self) {
        let l = self.lists.lent(&self.lists.lengths());
        let poses = black_box(&self.poses);
        let count = icotable::readings(&self.table, l, poses, self.beta.as_slice(), &mut self.numbers, black_box(&mut self.answers));
        assert_eq!(count, poses.len() as u64);
    }
}
