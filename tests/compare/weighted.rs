// Weighted readings of tables made by hand, with energies of every kind: the library's beside the Rust's `lookup_boltzmann` and document 02's text.
use crate::icotable::{Lent, Query};
use crate::library::{same_table, same_weighted};
use crate::meshes::{scaled, Mesh, Random};
use crate::pack::packed;
use crate::queries::{query, query_at};
use crate::reader::{beta, weighted_as_rust};
use crate::reading;
use crate::rust::SlabResolution;
use crate::worlds::World;

const ROWS: usize = 12;
const KINDS: usize = 9;

// An energy of a slab of this kind; a file that was written holds no NaN, a damaged one may.
fn energy(kind: usize, random: &mut Random) -> f32 {
    let odd = [0.0, -0.0, f32::INFINITY, f32::NEG_INFINITY, f32::NAN, f32::MAX, f32::MIN, 1e-45, -1e-45];
    let usual = random.unit() as f32 * 20.0;
    match kind {
        0 | 1 => usual,
        2 if random.below(6) == 0 => odd[random.below(9)],
        2 => usual,
        3 => odd[random.below(2)],
        4 => odd[random.below(5)],
        5 => [f32::INFINITY, f32::INFINITY, f32::NAN, usual][random.below(4)],
        6 => usual * 1e37,
        7 => usual * 1e-41,
        _ => f32::from_bits(random.bits() as u32),
    }
}

fn resolution(level: usize, random: &mut Random) -> SlabResolution {
    match random.below(12) {
        0 => SlabResolution::Scalar([-1.5, f32::NAN, -0.0, f32::INFINITY][random.below(4)]),
        1 => SlabResolution::Repulsive,
        2 => SlabResolution::Mesh { level: level as u8, interpolate: false },
        _ => SlabResolution::Mesh { level: level as u8, interpolate: true },
    }
}

// Beside a vertex, an edge or the middle of a face: weights of 0, and so small that a product underflows.
fn beside(mesh: &Mesh, random: &mut Random) -> [f64; 3] {
    let i = random.below(mesh.vertices.len());
    let links = &mesh.neighbours[i];
    let [a, b] = [0, 1].map(|_| mesh.vertices[links[random.below(links.len())] as usize]);
    let mut small = || [0.0, 1e-300, 1e-165, 1e-17, 1e-9, 0.5, 1.0][random.below(7)];
    let (v, w) = (scaled(a, small()), scaled(b, small()));
    [0, 1, 2].map(|k| mesh.vertices[i][k] + v[k] + w[k])
}

// Readings of one table; each case is counted.
pub fn weighted(count: usize, random: &mut Random, add: &mut dyn FnMut(&str, u64)) {
    let top = random.below(2);
    let mut world = World::new(top, random);
    let rows = (0..ROWS).map(|_| resolution(random.below(top + 1), random)).collect();
    let mut table = world.of_rows(rows);
    let per = table.data.len().div_ceil(ROWS).max(1);
    for slab in table.data.chunks_mut(per) {
        let kind = random.below(KINDS);
        slab.iter_mut().for_each(|x| *x = energy(kind, random));
    }
    let (file, t) = packed(&table);
    if table.data.iter().all(|x| !x.is_nan()) {
        same_table(&file, &t);
    }
    let lent = Lent { file: &file, ..world.lists.lent(&world.lists.lengths()) };
    let ends = [&world.meshes[0], &world.meshes[top]];
    for _ in 0..count {
        let q = match random.below(8) {
            0 => query(&t, ends, random),
            1..=4 => query_at(&t, random.below(ROWS) as u64, ends, random),
            _ => {
                let m = ends[random.below(2)];
                Query { a: beside(m, random), b: beside(m, random), ..query_at(&t, random.below(ROWS) as u64, ends, random) }
            }
        };
        let beta = beta(random);
        let a = reading::weighted(&t, lent, &q, beta);
        if a.number == 0 {
            weighted_as_rust(&table, &t, &q, beta, &a);
        }
        same_weighted(&t, lent, &q, beta, &a);
        add(&format!("weighted reading, answered {}: {}", a.number, a.words), 1);
    }
    world.take_back(table);
}
