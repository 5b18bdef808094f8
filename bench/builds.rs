// Set, settle, write and read beside the Rust: set and settle as the Rust's builder has them, with the exponential of documents 01 and 02 and the lent angles; write and read, which the Rust has for another
// format, beside a plain writer and checker of the same file in Rust (tests/compare/plain.rs). What the sides answer is compared first, and lists are in the same state.
use crate::builder::{exponential, MeshLevel, SlabResolution};
use crate::meshes::{angle, icosphere, vertex_count, Lent, Random};
use crate::new::side::Building;
use crate::plain;
use crate::shape::{self, per, HEADS};
use crate::timing::{each, least, least_alone, used};
use crate::{landed, new};
use std::hint::black_box;

// The same meshes for all sides.
fn meshes(top: usize) -> (Lent, Vec<MeshLevel>) {
    let mut lent = Lent { vertices: Vec::new(), counts: Vec::new(), neighbours: Vec::new(), angles: Vec::new() };
    let mut levels = Vec::new();
    for m in 0..=top {
        let mesh = icosphere(m);
        let part = mesh.lent();
        let angles: Vec<Vec<f64>> = (0..mesh.vertices.len())
            .map(|i| mesh.neighbours[i].iter().map(|&k| angle(&mesh.vertices[i], &mesh.vertices[k as usize])).collect())
            .collect();
        lent.vertices.extend(part.vertices);
        lent.counts.extend(part.counts);
        lent.neighbours.extend(part.neighbours);
        lent.angles.extend(angles.iter().flat_map(|list| (0..6).map(|k| *list.get(k).unwrap_or(&f64::NAN))));
        levels.push(MeshLevel { n_div: m, n_vertices: vertex_count(m), neighbors: mesh.neighbours, angles });
    }
    (lent, levels)
}

// Energies of a few kT, either sign.
fn energies(n: usize, random: &mut Random) -> Vec<f64> {
    (0..n).map(|_| 3.0 * random.unit()).collect()
}

// Nanoseconds of set and of settle for an energy, on slabs of one slice; an atom's are a slice each.
pub fn slice(top: usize, slabs: usize, rounds: usize, random: &mut Random) -> [[f64; 3]; 2] {
    let (m, levels) = meshes(top);
    let per = per(top as u64);
    let [n_r, n_omega] = shape::slice_bins(slabs);
    let mut a = landed::side::Building::fresh(n_r, n_omega, top, &m);
    let mut b = Building::fresh(n_r, n_omega, top, &m);
    let g = b.grid();
    let mut rust = shape::rust_builder(levels, top, [g.rmin, g.rmax, g.dr, shape::dihedral(&g).0, g.threshold, g.beta]);
    let given: Vec<Vec<f64>> = (0..slabs).map(|_| energies(per, random)).collect();
    let mut in_rust = || {
        let mut s = 0;
        each(&given, |e| {
            shape::set_slab(&mut rust, s / n_omega, s % n_omega, e);
            s += 1;
        })
    };
    let set = least(rounds, slabs * per, [&mut || a.set_all(&given), &mut || b.set_all(&given), &mut in_rust]);
    a.set_all(&given);
    for ri in 0..n_r {
        let settled = (rust.finish_r_slice(ri).to_bits(), rust.current_level);
        assert_eq!((a.settle(ri), b.settle(ri)), (settled, settled));
    }
    let (landed_kinds, new_kinds) = (a.rows().0, b.rows().0);
    for (s, row) in rust.slab_res.iter().enumerate() {
        assert!(matches!(row, SlabResolution::Mesh { interpolate: true, .. }) && (landed_kinds[s], new_kinds[s]) == (3, 3));
        assert!(rust.slab_data[s].as_deref() == Some(&b.store()[s * per..(s + 1) * per]));
    }
    let mut in_rust = || (0..n_r).for_each(|ri| used(black_box(&mut rust).finish_r_slice(ri)));
    let settle = least(rounds, slabs * per, [&mut || (0..n_r).for_each(|ri| used(a.settle(ri))), &mut || (0..n_r).for_each(|ri| used(b.settle(ri))), &mut in_rust]);
    [set, settle]
}

// Nanoseconds of write and of read for a byte of a whole table, and its megabytes.
pub fn file(top: usize, n_r: usize, n_omega: usize, rounds: usize, random: &mut Random) -> ([[f64; 3]; 2], f64) {
    let (m, _) = meshes(top);
    let per = per(top as u64);
    let slabs = n_r * n_omega;
    let mut a = landed::side::Building::fresh(n_r, n_omega, top, &m);
    let mut b = Building::fresh(n_r, n_omega, top, &m);
    for s in 0..slabs {
        let e = energies(per, random);
        a.set(s / n_omega, s % n_omega, &e);
        b.set(s / n_omega, s % n_omega, &e);
    }
    let length = 20 + 8 * HEADS[0] + 4 * HEADS[1] + 4 * (top + 1) + 10 * slabs + 4 * slabs * per;
    let mut files = [(); 3].map(|_| vec![0u8; length]);
    let (g, store, (kinds, levels, values)) = (b.grid(), b.store().to_vec(), b.rows());
    let kinds: Vec<u8> = kinds.iter().map(|&k| k as u8).collect();
    let held = plain::Held {
        rmin: g.rmin,
        dr: g.dr,
        step: shape::dihedral(&g).0,
        n_r: n_r as u32,
        n_omega: n_omega as u32,
        top: top as u8,
        store: &store,
        kinds: &kinds,
        levels: &levels,
        values: &values,
    };
    let [x, y, z] = &mut files;
    assert_eq!((a.write(x), b.write(y), plain::write(&held, z)), (length, length, length));
    assert!(x == y && y == z);
    let write = least(rounds, length, [&mut || used(a.write(x)), &mut || used(b.write(y)), &mut || used(plain::write(black_box(&held), z))]);
    assert_eq!(plain::read(z), 0);
    let read = least(rounds, length, [&mut || landed::side::read(x), &mut || new::side::read(y), &mut || used(plain::read(black_box(z)))]);
    ([write, read], length as f64 / 1e6)
}

// Nanoseconds of E.
pub fn exp(random: &mut Random) -> [f64; 3] {
    let ys: Vec<f64> = (0..4096).map(|_| 8.0 * random.unit()).collect();
    for &y in &ys {
        let e = exponential(y).to_bits();
        assert_eq!((landed::side::exp(y).to_bits(), new::side::exp(y).to_bits()), (e, e));
    }
    let [mut a, mut b] = [landed::side::exp, new::side::exp].map(|f| { let ys = &ys; move || each(ys, |&y| used(f(y))) });
    least(400, ys.len(), [&mut a, &mut b, &mut || each(&ys, |&y| used(exponential(y)))])
}

// Microseconds of settle for a slab, by calls that end early: one that holds no energies has only the questions put, and one that is repulsive only its exponentials worked out.
pub fn settle_stages(top: usize, rounds: usize, random: &mut Random) -> [f64; 3] {
    let (m, _) = meshes(top);
    let per = per(top as u64);
    let mut none = Building::fresh(1, 1, top, &m);
    let questions = least_alone(rounds, 1000, || used(none.settle(0)));
    let [all_exponentials, all] = [vec![20.0; per], energies(per, random)].map(|e| {
        let b = std::cell::RefCell::new(Building::fresh(1, 1, top, &m));
        let mut set = || b.borrow_mut().set(0, 0, &e);
        set();
        // what settle left is set again between the rounds
        least(rounds, 1000, [&mut || (), &mut || used(b.borrow_mut().settle(0)), &mut set])[1]
    });
    [questions, all_exponentials, all]
}

// Microseconds of write: of a table whose slabs all hold energies, and of one that has rows alone.
pub fn write_stages(top: usize, slabs: usize, rounds: usize, random: &mut Random) -> [f64; 2] {
    let (m, _) = meshes(top);
    let per = per(top as u64);
    let mut b = Building::fresh(slabs, 1, top, &m);
    let mut output = vec![0; 200 + 10 * slabs + 4 * slabs * per];
    let rows = least_alone(rounds, 1000, || used(b.write(&mut output)));
    for ri in 0..slabs {
        b.set(ri, 0, &energies(per, random));
    }
    [rows, least_alone(rounds, 1000, || used(b.write(&mut output)))]
}
