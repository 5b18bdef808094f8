// A small host of the static library: lists of its own over given meshes, every angle being 1, and readings of a file.
use crate::builder;
use crate::icotable::{self, Builder, Query, Table, Value};
use crate::library::{add_level, builder_of, lending};
use crate::meshes::Mesh;
use crate::oracle::FaceGrid;
use crate::reader;
use crate::refusals::{Held, Lists, Settings};
use crate::rust;

pub fn builder_levels(meshes: &[Mesh]) -> Vec<builder::MeshLevel> {
    let level = |m: &Mesh| builder::MeshLevel {
        n_div: m.level,
        n_vertices: m.vertices.len(),
        angles: m.neighbours.iter().map(|list| vec![1.0; list.len()]).collect(),
        neighbors: m.neighbours.clone(),
    };
    meshes.iter().map(level).collect()
}

pub fn table_levels(meshes: &[Mesh]) -> Vec<rust::MeshLevel> {
    let level = |m: &Mesh| rust::MeshLevel { n_vertices: m.vertices.len(), grid: FaceGrid::new(&m.vertices, &m.neighbours) };
    meshes.iter().map(level).collect()
}

pub struct Host {
    pub lists: Lists,
    top: u64,
    builder: Builder,
}

impl Host {
    // Room for four slabs.
    pub fn new(meshes: &[Mesh]) -> Host {
        let n = meshes.last().unwrap().vertices.len();
        let mut lists = Lists {
            store: vec![0.0; 4 * n * n],
            kinds: vec![0; 4],
            levels: vec![0; 4],
            values: vec![0; 4],
            ..Lists::default()
        };
        for mesh in meshes {
            let lent = mesh.lent();
            lists.vertices.extend(lent.vertices);
            lists.counts.extend(lent.counts);
            lists.neighbours.extend(lent.neighbours);
            lists.angles.extend(lent.angles);
        }
        Host { lists, top: meshes.len() as u64 - 1, builder: Builder::default() }
    }

    pub fn fresh(&mut self, settings: Settings) -> u64 {
        let grid = builder_of(&Held { settings, n_r: 0, n_omega: 0, top: 0, level: 0, packed: 0 }).grid;
        let lent = self.lists.lengths();
        let a = lending(&mut self.lists, &lent, |l, m| icotable::fresh(grid, self.top, l, m));
        self.builder = a.builder;
        a.number
    }

    pub fn set(&mut self, ri: u64, oi: u64, energies: &[f64]) -> u64 {
        let lent = self.lists.lengths();
        let a = lending(&mut self.lists, &lent, |l, _| icotable::set(self.builder, l, ri, oi, energies));
        self.builder = a.builder;
        a.number
    }

    pub fn settle(&mut self, ri: u64) -> (u64, f64) {
        let lent = self.lists.lengths();
        let a = lending(&mut self.lists, &lent, |l, m| icotable::settle(self.builder, l, m, ri));
        self.builder = a.builder;
        (a.number, a.gradient)
    }

    pub fn write(&mut self) -> Vec<u8> {
        let lent = self.lists.lengths();
        let mut file = vec![0; 100 + 14 * lent[0]];
        let a = lending(&mut self.lists, &lent, |l, m| icotable::write(self.builder, l.held(), m, &mut file));
        assert_eq!(a.number, 0);
        file.truncate(a.length as usize);
        file
    }

    // The number answered to a write with a tail, and the file where it is accepted.
    pub fn write_tail(&mut self, tail: icotable::Tail) -> (u64, Vec<u8>) {
        let lent = self.lists.lengths();
        let mut file = vec![0; 200 + 14 * lent[0]];
        let a = lending(&mut self.lists, &lent, |l, m| icotable::write_tail(self.builder, l.held(), m, tail, &mut file));
        file.truncate(a.length as usize);
        (a.number, file)
    }
}

// A file that was read, with the meshes and locators of its levels.
pub struct Tabled {
    table: Table,
    pub lists: reader::Lists,
}

impl Tabled {
    pub fn of(file: Vec<u8>, meshes: &[Mesh]) -> Tabled {
        let table = icotable::read(&file);
        assert_eq!(table.number, 0);
        let mut lists = reader::Lists { file, ..reader::Lists::default() };
        for mesh in meshes {
            add_level(mesh, &FaceGrid::new(&mesh.vertices, &mesh.neighbours), 0, || 0, &mut lists);
        }
        Tabled { table, lists }
    }

    pub fn reading(&self, q: &Query) -> Value {
        icotable::reading(&self.table, self.lists.lent(&self.lists.lengths()), q)
    }
}
