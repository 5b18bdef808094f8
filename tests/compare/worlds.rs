// Meshes of the levels from 0 to a top, with the Rust's locators and those that the library made of them.
use crate::builder;
use crate::caller::Caller;
use crate::library::add_level;
use crate::lists::lend;
use crate::meshes::{icosphere, sevens, strange_points, without_faces, Mesh, Random, STRANGE};
use crate::oracle::FaceGrid;
use crate::reader;
use crate::refusals::{vertices_below, Lists, Settings};
use crate::rust::{MeshLevel, SlabResolution};
use crate::shape::{self, per, RustBuilder, RustTable};

pub struct World {
    pub top: usize,
    pub meshes: Vec<Mesh>,
    // what a reading is lent beside its file
    pub lists: reader::Lists,
    // how many entries of locators were compared
    pub entries: u64,
    levels: Vec<MeshLevel>,
}

fn mesh(level: usize, random: &mut Random) -> Mesh {
    let base = match (level, random.below(4)) {
        (0, 0) => without_faces(),
        (1, 0) => sevens(),
        _ => icosphere(level),
    };
    match random.below(4) {
        0 => base,
        1 | 2 => base.shuffled(random),
        _ => {
            let kind = random.below(STRANGE);
            strange_points(&base, kind, random)
        }
    }
}

// The table that the Rust builds of its builder, with the locators of its levels.
pub fn table_of(s: Settings, levels: Vec<MeshLevel>, rust: &RustBuilder) -> RustTable {
    let top = levels.len() - 1;
    let mut b = shape::table_builder(levels, top, s.list());
    b.slab_data = rust.slab_data.clone();
    b.slab_res = rust
        .slab_res
        .iter()
        .map(|row| match *row {
            builder::SlabResolution::Scalar(x) => SlabResolution::Scalar(x),
            builder::SlabResolution::Repulsive => SlabResolution::Repulsive,
            builder::SlabResolution::Mesh { level, interpolate } => SlabResolution::Mesh { level, interpolate },
        })
        .collect();
    b.build()
}

impl World {
    // Low levels more often.
    pub fn low(random: &mut Random) -> World {
        let drawn = random.below(200);
        World::new(shape::TOPS.iter().filter(|&&below| drawn < below).count(), random)
    }

    pub fn new(top: usize, random: &mut Random) -> World {
        let mut world = World { top, meshes: Vec::new(), lists: reader::Lists::default(), entries: 0, levels: Vec::new() };
        for level in 0..=top {
            let mesh = mesh(level, random);
            let grid = FaceGrid::new(&mesh.vertices, &mesh.neighbours);
            let more = random.below(3);
            world.entries += add_level(&mesh, &grid, more, || random.bits(), &mut world.lists);
            world.levels.push(MeshLevel { n_vertices: mesh.vertices.len(), grid });
            world.meshes.push(mesh);
        }
        world
    }

    // A builder's lists, each entry a canary, with a few beyond the longest that a call needs.
    pub fn canaries(&self, random: &mut Random) -> Lists {
        let slabs = shape::SLABS[self.top.min(4)];
        let all = vertices_below(self.top as u64 + 1) + random.below(3);
        let more = random.below(5);
        Lists {
            store: (0..slabs * per(self.top as u64) + more).map(|_| random.finite()).collect(),
            kinds: (0..slabs + more).map(|_| random.bits() as u32 & shape::rows::KINDS).collect(),
            levels: (0..slabs + more).map(|_| random.bits() as u8).collect(),
            values: (0..slabs + more).map(|_| random.bits() as u32).collect(),
            vertices: (0..3 * all).map(|_| random.finite()).collect(),
            counts: (0..all).map(|_| random.bits() as u8).collect(),
            neighbours: (0..6 * all).map(|_| random.bits() as u16).collect(),
            angles: (0..6 * all).map(|_| random.finite()).collect(),
        }
    }

    // Lends the meshes to a builder, with angles of one kind or another.
    pub fn lend(&self, caller: &mut Caller, random: &mut Random) {
        let odd = [0.0, -0.0, 5e-324, 1e-12, 1.0000000000000002e-12, 1e-11, 3.0, 1e308];
        let kind = random.below(5);
        lend(caller, &self.meshes, |a| {
            // there is none between points so far out or so near the middle that their products are no numbers
            let a = if a.is_finite() && a >= 0.0 { a } else { 0.5 };
            match kind {
                0 => odd[random.below(8)],
                1 => odd[random.below(4)],
                2 => a * (1.0 + 0.5 * random.unit()),
                _ => a,
            }
        });
    }

    // The Rust's table of what a list of calls left.
    pub fn built(&mut self, caller: &Caller) -> RustTable {
        let levels = std::mem::take(&mut self.levels);
        table_of(caller.held.settings, levels, caller.rust.as_ref().unwrap())
    }

    // A table of these rows, one a distance, every energy 0.
    pub fn of_rows(&mut self, rows: Vec<SlabResolution>) -> RustTable {
        let levels = std::mem::take(&mut self.levels);
        let mut b = shape::table_builder(levels, self.top, [1.0, 1.0 + 0.5 * rows.len() as f64, 0.5, 6.0, 0.1, 1.0]);
        let energies = |row: &SlabResolution| match *row {
            SlabResolution::Mesh { level, .. } => Some(vec![0.0; per(level as u64)]),
            _ => None,
        };
        b.slab_data = rows.iter().map(energies).collect();
        b.slab_res = rows;
        b.build()
    }

    // The levels went into the table.
    pub fn take_back(&mut self, table: RustTable) {
        self.levels = table.levels;
    }
}
