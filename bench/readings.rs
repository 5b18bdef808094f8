// A reading beside the Rust's lookup. All answers are compared first, bit for bit.
#[cfg(not(atom))]
use crate::batches::Batch;
use crate::icotable::Query;
use crate::library::add_level;
use crate::meshes::{icosphere, Random};
use crate::native::rust as native;
use crate::oracle::{FaceGrid, Vector3};
use crate::pack::packed;
use crate::reader::Lists;
use crate::rust::{MeshLevel, SlabResolution};
use crate::shape::{self, lookup, lookup_boltzmann, RustTable};
#[cfg(not(atom))]
use crate::timing::least_of_three;
use crate::timing::{each, least, used};
use crate::weighted::Weighted;
use crate::{landed, new};

// The rows of a table: all of one kind.
#[derive(Clone, Copy)]
pub enum Rows {
    Scalar,
    Nearest,
    Interpolated,
}

// Who calls the library: a loop in C (readings.c), or one in Rust. Until version 0.6.0 a table was handed over by value, which rustc copies more slowly.
#[derive(Clone, Copy)]
pub enum Caller {
    C,
    Rust,
}

// A table of n_r distances and n_omega angles, Mesh rows at the level; with its file and what is lent beside it.
fn made(rows: Rows, level: usize, n_r: usize, n_omega: usize, random: &mut Random) -> (RustTable, Lists) {
    let mut lists = Lists::default();
    let mut levels = Vec::new();
    for m in 0..=level {
        let mesh = icosphere(m);
        let grid = FaceGrid::new(&mesh.vertices, &mesh.neighbours);
        add_level(&mesh, &grid, 0, || 0, &mut lists);
        levels.push(MeshLevel { n_vertices: mesh.vertices.len(), grid });
    }
    let per = shape::per(level as u64);
    let mut t = RustTable {
        metadata: None,
        rmin: 10.0,
        rmax: f64::mul_add(n_r as f64, 0.5, 10.0),
        dr: 0.5,
        n_r,
        #[cfg(not(atom))]
        omega_step: std::f64::consts::TAU / n_omega as f64,
        #[cfg(not(atom))]
        n_omega,
        levels,
        slab_res: Vec::new(),
        slab_offsets: Vec::new(),
        data: Vec::new(),
    };
    for s in 0..n_r * n_omega {
        if let Rows::Scalar = rows {
            t.slab_res.push(SlabResolution::Scalar(s as f32));
            t.slab_offsets.push(u32::MAX);
        } else {
            t.slab_res.push(SlabResolution::Mesh { level: level as u8, interpolate: matches!(rows, Rows::Interpolated) });
            t.slab_offsets.push(t.data.len() as u32);
            t.data.extend((0..per).map(|_| random.unit() as f32));
        }
    }
    lists.file = packed(&t).0;
    (t, lists)
}

fn drawn(count: usize, t: &RustTable, random: &mut Random) -> Vec<Query> {
    let far = |random: &mut Random| 10.0 + (random.unit() + 1.0) / 2.0 * (t.rmax - 10.0);
    (0..count).map(|_| Query { r: far(random), omega: random.unit() * 6.0, a: random.direction(), b: random.direction() }).collect()
}

#[cfg(not(atom))]
type NativeTable = native::Table6DAdaptive<f32>;
#[cfg(atom)]
type NativeTable = native::Table3DAdaptive<f32>;

#[cfg(not(atom))]
fn native_boltzmann(t: &NativeTable, q: &Query, beta: f64) -> f64 {
    t.lookup_boltzmann(q.r, q.omega, &Vector3::from(q.a), &Vector3::from(q.b), beta)
}

#[cfg(atom)]
fn native_boltzmann(t: &NativeTable, q: &Query, beta: f64) -> f64 {
    t.lookup_boltzmann(q.r, &Vector3::from(q.a), beta)
}

// The same table, for the machine's `exp` and `ln`.
fn native(t: RustTable) -> NativeTable {
    let row = |r: SlabResolution| match r {
        SlabResolution::Scalar(x) => native::SlabResolution::Scalar(x),
        SlabResolution::Repulsive => native::SlabResolution::Repulsive,
        SlabResolution::Mesh { level, interpolate } => native::SlabResolution::Mesh { level, interpolate },
    };
    NativeTable {
        metadata: None,
        rmin: t.rmin,
        rmax: t.rmax,
        dr: t.dr,
        n_r: t.n_r,
        #[cfg(not(atom))]
        omega_step: t.omega_step,
        #[cfg(not(atom))]
        n_omega: t.n_omega,
        levels: t.levels.into_iter().map(|l| native::MeshLevel { n_vertices: l.n_vertices, grid: l.grid }).collect(),
        slab_res: t.slab_res.into_iter().map(row).collect(),
        slab_offsets: t.slab_offsets,
        data: t.data,
    }
}

// Nanoseconds of a weighted reading of an interpolated row, beside the Rust's with the machine's `exp` and `ln`. What the library answers is compared with the Rust's over E and document 02's
// logarithm. The library that landed is not asked: the first with this reading has none before it.
pub fn weighted(caller: Caller, level: usize, bins: [usize; 2], queries: usize, rounds: usize, random: &mut Random) -> ([f64; 3], f64) {
    const BETA: f64 = 0.4;
    let (t, lists) = made(Rows::Interpolated, level, bins[0], bins[1], random);
    let megabytes = lists.file.len() as f64 / 1e6;
    let queries = drawn(queries, &t, random);
    let wanted: Vec<u64> = queries.iter().map(|q| lookup_boltzmann(&t, q, BETA).to_bits()).collect();
    let mut ours = Weighted::new(lists, &queries, BETA, &wanted);
    let t = native(t);
    let mut rust = || each(&queries, |q| used(native_boltzmann(&t, q, BETA)));
    let mut time = match caller {
        Caller::C => least(rounds, queries.len(), [&mut || (), &mut || ours.from_c(), &mut rust]),
        Caller::Rust => least(rounds, queries.len(), [&mut || (), &mut || ours.from_rust(), &mut rust]),
    };
    time[0] = f64::NAN;
    (time, megabytes)
}

// Nanoseconds of a reading, and the megabytes of its file.
pub fn measure(caller: Caller, rows: Rows, level: usize, bins: [usize; 2], queries: usize, rounds: usize, random: &mut Random) -> ([f64; 3], f64) {
    let (t, lists) = made(rows, level, bins[0], bins[1], random);
    let megabytes = lists.file.len() as f64 / 1e6;
    let queries = drawn(queries, &t, random);
    let wanted: Vec<u64> = queries.iter().map(|q| lookup(&t, q).to_bits()).collect();
    let mut a = landed::side::Readings::new(lists.clone(), &queries, &wanted);
    let mut b = new::side::Readings::new(lists.clone(), &queries, &wanted);
    drop(lists);
    let mut rust = || each(&queries, |q| used(lookup(&t, q)));
    let time = match caller {
        Caller::C => least(rounds, queries.len(), [&mut || a.from_c(), &mut || b.from_c(), &mut rust]),
        Caller::Rust => least(rounds, queries.len(), [&mut || a.from_rust(), &mut || b.from_rust(), &mut rust]),
    };
    (time, megabytes)
}

// Nanoseconds of a reading by a call for each, by one call for all, and in the Rust; and the megabytes of the file. Weighted ones stand beside the Rust's with the machine's `exp` and `ln`.
#[cfg(not(atom))]
pub fn batch(rows: Rows, beta: Option<f64>, bins: [usize; 2], queries: usize, rounds: usize, random: &mut Random) -> ([f64; 3], f64) {
    let (t, lists) = made(rows, 3, bins[0], bins[1], random);
    let megabytes = lists.file.len() as f64 / 1e6;
    let queries = drawn(queries, &t, random);
    let wanted: Vec<u64> = queries.iter().map(|q| beta.map_or_else(|| lookup(&t, q), |b| lookup_boltzmann(&t, q, b)).to_bits()).collect();
    let mut many = Batch::new(lists.clone(), &queries, beta, &wanted);
    let time = if let Some(b) = beta {
        let (mut one, t) = (Weighted::new(lists, &queries, b, &wanted), native(t));
        least_of_three(rounds, queries.len(), [&mut || one.from_c(), &mut || many.read(), &mut || each(&queries, |q| used(native_boltzmann(&t, q, b)))])
    } else {
        let mut one = new::side::Readings::new(lists, &queries, &wanted);
        least_of_three(rounds, queries.len(), [&mut || one.from_c(), &mut || many.read(), &mut || each(&queries, |q| used(lookup(&t, q)))])
    };
    (time, megabytes)
}
