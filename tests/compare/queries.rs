// What is asked of tables: readings over tables that the Rust packed, readings that are refused, damaged files, meshes and locators, and tables made by a host.
use crate::icotable::Query;
use crate::lines::bits;
use crate::meshes::{icosphere, scaled, sevens, without_faces, Mesh, Random};
use crate::oracle::FaceGrid;
use crate::pack::packed;
use crate::reader::{Damage, Reader, FILE};
use crate::reading::{cell_offset, search_in, vertices_below};
use crate::rust::{MeshLevel, SlabResolution};
use crate::shape::{self, per, Table};
use std::f64::consts::TAU;

#[derive(Clone, Copy)]
enum Row {
    Scalar(f32),
    Repulsive,
    Mesh(u8, bool),
}

const TINY: f32 = 1e-40;
const NEAREST: [Row; 2] = [Row::Mesh(0, false), Row::Mesh(1, false)];
const INTERPOLATED: [Row; 2] = [Row::Mesh(0, true), Row::Mesh(1, true)];

fn energies(n: usize, random: &mut Random) -> Vec<f64> {
    let some = [0.0, -0.0, f64::INFINITY, f64::NEG_INFINITY, 1e300, 1e-42, -1e-60, 3.4028235e38];
    let odd = random.below(3);
    let mut list: Vec<f64> = (0..n)
        .map(|_| match random.below(30) {
            0 if odd == 0 => some[random.below(8)],
            1 if odd == 0 => random.finite(),
            _ => random.unit() * 20.0,
        })
        .collect();
    // where no face fits, weights of 0 times this one: terms of -0.0
    list[0] = -1.25;
    list
}

// A table packed by the Rust, its file read.
fn table(reader: &mut Reader, random: &mut Random, meshes: [&Mesh; 2], top: usize, grid: [f64; 4], rows: &[Row]) {
    reader.lend(meshes);
    let levels = meshes[..top + 1].iter().map(|m| MeshLevel { n_vertices: m.vertices.len(), grid: FaceGrid::new(&m.vertices, &m.neighbours) });
    let [rmin, rmax, dr, step] = grid;
    let rmax = shape::rmax_of([rmin, rmax, dr], rows.len());
    let mut b = shape::table_builder(levels.collect(), top, [rmin, rmax, dr, step, 0.1, 1.0]);
    assert_eq!(b.slab_res.len(), rows.len());
    for (s, row) in rows.iter().enumerate() {
        (b.slab_res[s], b.slab_data[s]) = match *row {
            Row::Scalar(x) => (SlabResolution::Scalar(x), None),
            Row::Repulsive => (SlabResolution::Repulsive, None),
            Row::Mesh(level, interpolate) => {
                (SlabResolution::Mesh { level, interpolate }, Some(energies(per(level as u64), random)))
            }
        };
    }
    let built = b.build();
    let (file, t) = packed(&built);
    assert!(file.len() <= FILE);
    reader.read(built, &file, t);
}

// ---- what is asked for

fn step_of(x: f64, up: bool) -> f64 {
    if up { x.next_up() } else { x.next_down() }
}

fn distance(t: &Table, random: &mut Random) -> f64 {
    let k = random.below(t.grid.n_r as usize + 1) as f64;
    match random.below(13) {
        0 => t.grid.rmin,
        1 => step_of(t.grid.rmin, random.below(2) == 0),
        2 => t.grid.rmax,
        3 => step_of(t.grid.rmax, random.below(2) == 0),
        4 => t.grid.rmin + k * t.grid.dr,
        5 => t.grid.rmin + (k + 0.5) * t.grid.dr,
        6 => step_of(t.grid.rmin + (k + 0.5) * t.grid.dr, random.below(2) == 0),
        7 if random.below(3) == 0 => [f64::INFINITY, f64::NEG_INFINITY, t.grid.rmin - t.grid.dr, t.grid.rmax + t.grid.dr, f64::MAX, -0.0, 5e-324][random.below(7)],
        _ => t.grid.rmin + (t.grid.rmax - t.grid.rmin) * (0.5 + 0.5 * random.unit()),
    }
}

fn angle(t: &Table, random: &mut Random) -> f64 {
    let (omega_step, n_omega) = shape::dihedral(&t.grid);
    let k = random.whole(2 * n_omega as usize);
    let sign = if random.below(3) == 0 { -1.0 } else { 1.0 };
    sign * match random.below(11) {
        0 => [0.0, 5e-324, 1e-20, 1e-16, f64::MAX, 1e300][random.below(6)],
        1 => [TAU, TAU.next_down(), TAU.next_up(), 2.0 * TAU, 1e6 * TAU][random.below(5)],
        2 => k * omega_step,
        3 => (k + 0.5) * omega_step,
        4 => step_of((k + 0.5) * omega_step, random.below(2) == 0),
        5 => random.finite(),
        6 => random.unit() * 1e5,
        _ => random.unit() * TAU,
    }
}

fn direction(mesh: &Mesh, random: &mut Random) -> [f64; 3] {
    let i = random.below(mesh.vertices.len());
    let a = mesh.vertices[i];
    let b = mesh.vertices[mesh.neighbours[i][random.below(5)] as usize];
    let d = match random.below(12) {
        0 => {
            let mut d = [0.0, -0.0, 0.0];
            d[random.below(3)] = [1.0, -1.0][random.below(2)];
            d
        }
        1 => [0, 1, 2].map(|_| [1.0, -1.0][random.below(2)]),
        2 => a,
        3 => [a[0] + b[0], a[1] + b[1], a[2] + b[2]],
        4 => [random.whole(2), random.whole(2), random.whole(2)],
        5 => [random.unit(), random.unit() * 1e-9, random.unit()],
        6 => scaled(random.direction(), [1e-160, 1e153, 1e-3, 7.0][random.below(4)]),
        _ => random.direction(),
    };
    // few of what 18 refuses
    if d.iter().map(|x| x * x).sum::<f64>() > 0.0 || random.below(8) == 0 { d } else { random.direction() }
}

pub fn query(t: &Table, meshes: [&Mesh; 2], random: &mut Random) -> Query {
    let m = meshes[random.below(2)];
    Query { r: distance(t, random), omega: angle(t, random), a: direction(m, random), b: direction(m, random) }
}

// A query that reads a slab of the table.
pub fn query_at(t: &Table, s: u64, meshes: [&Mesh; 2], random: &mut Random) -> Query {
    let m = meshes[random.below(2)];
    let (omega_step, n_omega) = shape::dihedral(&t.grid);
    let (ri, oi) = (s / n_omega, s % n_omega);
    let (r, omega) = (t.grid.rmin + ri as f64 * t.grid.dr, oi as f64 * omega_step);
    Query { r, omega, a: direction(m, random), b: direction(m, random) }
}

fn readings(reader: &mut Reader, random: &mut Random, meshes: [&Mesh; 2], how_many: usize) {
    let t = reader.table;
    for _ in 0..how_many {
        let q = if random.below(3) == 0 { query(&t, meshes, random) } else { query_at(&t, random.below(t.rows as usize) as u64, meshes, random) };
        reader.sound(&q);
    }
}

// 18, at each slab's kind and outside the distances.
fn refused_queries(reader: &mut Reader, random: &mut Random, meshes: [&Mesh; 2]) {
    let t = reader.table;
    let bad = [[0.0, -0.0, 0.0], [1e-200, 0.0, -1e-200], [1e200, 1.0, 1.0], [f64::NAN, 1.0, 0.0], [1.0, f64::INFINITY, 0.0], [0.0, 5e-324, 0.0]];
    for (k, d) in bad.into_iter().enumerate() {
        for which in 0..2 {
            let mut q = query_at(&t, (2 * k + which) as u64 % t.rows, meshes, random);
            if k == which {
                q.r = t.grid.rmax + t.grid.dr;
            }
            *[&mut q.a, &mut q.b][which] = d;
            reader.sound(&q);
        }
    }
    for x in [f64::NAN, f64::INFINITY, f64::NEG_INFINITY] {
        for s in 0..3 {
            let mut q = query_at(&t, s, meshes, random);
            q.omega = x;
            if s == 2 {
                q.r = t.grid.rmin - t.grid.dr;
            }
            reader.sound(&q);
        }
    }
    for s in 0..4 {
        let mut q = query_at(&t, s, meshes, random);
        q.r = f64::NAN;
        reader.sound(&q);
    }
}

// ---- what is damaged

fn wide(random: &mut Random) -> u64 {
    let k = random.below(64);
    let near = random.below(3) as u64;
    match random.below(10) {
        0 => near,
        1 => u64::MAX - near,
        2 => (1 << 32) - 1 + near,
        3 => (1 << 63) - 1 + near,
        4 => 1 << k,
        5 => random.bits() >> k,
        6 => 65536,
        7 => (1 << 53) + near,
        _ => u64::MAX - random.below(20000) as u64,
    }
}

fn odd_float(random: &mut Random) -> f64 {
    let sign = [1.0, -1.0][random.below(2)];
    sign * [f64::NAN, f64::INFINITY, 0.0, 5e-324, 1e-310, 1.0, f64::MAX, f64::MIN_POSITIVE, random.finite()][random.below(9)]
}

// A byte of the file, among the rows more often than not.
fn damaged_file(t: &Table, random: &mut Random) -> (usize, usize, u64) {
    let row = t.start[3] as usize + 10 * random.below(t.rows as usize);
    match random.below(6) {
        0 => (0, row, random.below(6) as u64),
        1 => (0, row, 255),
        2 => (0, row + 1, [1, 2, 3, 255][random.below(4)]),
        3 => (0, row + 2 + random.below(4), [0, 1, 128, 255][random.below(4)]),
        4 => (0, row + 6 + random.below(4), random.below(256) as u64),
        _ => (0, random.below(t.start[4] as usize), random.below(256) as u64),
    }
}

fn damaged_list(reader: &Reader, random: &mut Random) -> (usize, usize, u64) {
    let list = 1 + random.below(5);
    let at = random.below(reader.lists.lengths()[list]);
    let now = reader.lists.word(list, at);
    let n = match list {
        1 => bits(odd_float(random)),
        2 | 4 => [now.saturating_sub(1), now + 1, 0, 0xffff_ffff, 0x8000_0000, 0x5555_5556, now + 40][random.below(7)],
        _ => [12, 41, 42, 65535, random.below(12) as u64][random.below(5)],
    };
    (list, at, n & if list == 2 || list == 4 { 0xffff_ffff } else { u64::MAX })
}

// How much is lent: of one list less.
fn less(reader: &Reader, random: &mut Random) -> [usize; 6] {
    let t = &reader.table;
    let mut lent = reader.lengths();
    let k = random.below(6);
    let row = t.start[3] as usize + 10 * random.below(t.rows as usize);
    lent[k] = match (k, random.below(3)) {
        (0, 0) => row + random.below(11),
        (0, _) => t.start[4] as usize + random.below(4 * t.energies as usize + 1),
        (_, 0) => random.below(lent[k]),
        _ => lent[k] - random.below(lent[k] / 8),
    };
    lent
}

// A table that a host made, from the one that read returned.
fn host(t: &Table, random: &mut Random) -> Table {
    let mut h = *t;
    let start = |now: u64, items: u64, random: &mut Random| {
        [wide(random), now.wrapping_sub(items * random.below(12) as u64), now + 1][random.below(3)]
    };
    for _ in 0..1 + random.below(2) {
        match random.below(10) {
            0 => h.grid.dr = odd_float(random),
            1 => shape::put_omega_step(&mut h.grid, odd_float(random)),
            2 => h.grid.rmin = odd_float(random),
            3 => h.grid.n_r = wide(random),
            4 => shape::put_n_omega(&mut h.grid, wide(random)),
            5 => h.levels = [wide(random), 1, 0][random.below(3)],
            6 => h.rows = [wide(random), random.below(t.rows as usize) as u64][random.below(2)],
            7 => h.energies = [wide(random), random.below(t.energies as usize) as u64][random.below(2)],
            8 => h.start[3] = start(h.start[3], 10, random),
            _ => h.start[4] = start(h.start[4], 4, random),
        }
    }
    // nothing reads these
    (h.grid.rmax, h.grid.threshold, h.grid.beta) = (odd_float(random), odd_float(random), odd_float(random));
    for k in 0..3 {
        h.start[k] = wide(random);
    }
    h
}

// Sums and products that come to what a file has once 2^64 is taken off: a product of bins, a row's place, an energy's place.
fn wrapped(reader: &Reader, random: &mut Random) -> (Damage, Query) {
    let mut d = reader.undamaged();
    let t = reader.table;
    // an atom's rows are its distances
    let k = if shape::PAIR { 1 + random.below(30) } else { 0 };
    let s = random.below(t.rows as usize) as u64;
    let mut q = query_at(&t, s, [&icosphere(0), &icosphere(1)], random);
    match random.below(5) {
        // 2^(64 - k) distances and 2^k angles: row 2^64
        0 => (q.r, q.omega) = (2f64.powi(64 - k as i32), 0.0),
        // row 2^63, ten bytes each
        1 => (q.r, q.omega) = (2f64.powi(63 - k as i32), 0.0),
        // the row's place, and the energy's
        2 => d.table.start[3] = t.start[3].wrapping_sub(10 * s),
        3 => d.table.start[3] = t.start[3].wrapping_sub(10 * (s + 1)),
        _ => d.table.start[4] = t.start[4].wrapping_sub(4 * random.below(2000) as u64),
    }
    if q.r > 1e9 {
        (d.table.grid.rmin, d.table.grid.dr, d.table.grid.n_r) = (0.0, 1.0, if shape::PAIR { 1 << 63 } else { u64::MAX });
        shape::put_n_omega(&mut d.table.grid, 1 << k);
    }
    (d.table.rows, d.table.energies) = (u64::MAX, u64::MAX);
    (d, q)
}

// At most `most` readings of each case that damage leads to.
fn damages(reader: &mut Reader, random: &mut Random, meshes: [&Mesh; 2], most: usize) {
    let t = reader.table;
    let mut seen: std::collections::BTreeMap<(usize, &str), usize> = std::collections::BTreeMap::new();
    for _ in 0..12000 {
        let what = random.below(5);
        let mut d = reader.undamaged();
        let s = random.below(t.rows as usize) as u64;
        let mut q = query_at(&t, s, meshes, random);
        match what {
            0 => d.entries.push(damaged_file(&t, random)),
            1 => d.entries.push(damaged_list(reader, random)),
            2 => d.lent = less(reader, random),
            3 => {
                d.table = host(&t, random);
                if random.below(2) == 0 {
                    q = query(&t, meshes, random);
                }
            }
            _ => (d, q) = wrapped(reader, random),
        }
        // an empty cell beside another damage: 19 before 20
        if what < 3 && random.below(6) == 0 {
            d.entries.push(damaged_list(reader, random));
        }
        let (sound, a) = (reader.answer(&reader.undamaged(), &q), reader.answer(&d, &q));
        let altered = sound.number != a.number || bits(sound.energy) != bits(a.energy);
        let n = seen.entry((what, a.words)).or_default();
        // a damage that shows is worth more than one that does not
        if *n < if altered || a.number > 0 { most } else { 1 } {
            *n += 1;
            reader.damaged(&d, &q);
        }
    }
}

// Each number that a host may hand in, at 0, 1 and beyond what 32 and 64 bits hold, and each float at its limits.
fn hosts(reader: &mut Reader, random: &mut Random, meshes: [&Mesh; 2]) {
    let t = reader.table;
    let whole = [0, 1, (1 << 32) - 1, 1 << 32, 1 << 63, u64::MAX];
    let floats = [f64::NAN, f64::INFINITY, f64::NEG_INFINITY, 0.0, -0.0, -1.0, 5e-324, -5e-324, 1e-310, f64::MAX];
    for field in 0..10 {
        for k in 0..if field < 3 { 10 } else { 6 } {
            let mut h = t;
            match field {
                0 => h.grid.dr = floats[k],
                1 => shape::put_omega_step(&mut h.grid, floats[k]),
                2 => h.grid.rmin = floats[k],
                3 => h.grid.n_r = whole[k],
                4 => shape::put_n_omega(&mut h.grid, whole[k]),
                5 => h.levels = whole[k],
                6 => h.rows = whole[k],
                7 => h.energies = whole[k],
                8 => h.start[3] = whole[k],
                _ => h.start[4] = whole[k],
            }
            // rows that hold energies: the first four
            let mut q = query_at(&t, random.below(4) as u64, meshes, random);
            q.omega += 0.01;
            let mut d = reader.undamaged();
            d.table = h;
            reader.damaged(&d, &q);
        }
    }
}

// As little as a reading needs, and one less: of each list, of each count.
fn edges(reader: &mut Reader, random: &mut Random, meshes: [&Mesh; 2]) {
    let t = reader.table;
    for s in 0..5 {
        let q = query_at(&t, s, meshes, random);
        if reader.answer(&reader.undamaged(), &q).number != 0 {
            continue;
        }
        for k in 0..9 {
            let with = |n: usize, reader: &Reader| {
                let mut d = reader.undamaged();
                match k {
                    6 => d.table.levels = n as u64,
                    7 => d.table.rows = n as u64,
                    8 => d.table.energies = n as u64,
                    _ => d.lent[k] = n,
                }
                d
            };
            let all = if k < 6 { reader.lengths()[k] } else { [t.levels, t.rows, t.energies][k - 6] as usize };
            // nothing short of it is enough
            let (mut short, mut enough) = (0, all);
            while short < enough {
                let n = (short + enough) / 2;
                if reader.answer(&with(n, reader), &q).number == 0 { enough = n } else { short = n + 1 }
            }
            if enough > 0 {
                for n in [enough - 1, enough] {
                    let d = with(n, reader);
                    reader.damaged(&d, &q);
                }
            }
        }
    }
}

// An angle that the remainder makes TAU is not in bin 0 of every grid that a host may make.
fn near_tau(reader: &mut Reader, random: &mut Random, meshes: [&Mesh; 2]) {
    let t = reader.table;
    for (omega_step, n_omega, omega) in [(2.0, 2, -1e-20), (2.0, 4, -5e-324), (2.0, 4, TAU), (4.0, 3, -1e-17), (1e-3, 12, -1e-30)] {
        let mut d = reader.undamaged();
        shape::put_omega_step(&mut d.table.grid, omega_step);
        shape::put_n_omega(&mut d.table.grid, n_omega);
        let q = Query { omega, ..query_at(&t, 0, meshes, random) };
        reader.damaged(&d, &q);
    }
}

// Cells without a vertex: 20, unless something of the other direction's cell is 19's.
fn empty_cells(reader: &mut Reader, random: &mut Random, meshes: [&Mesh; 2]) {
    let t = reader.table;
    let rows = [(0, 0), (1, 0), (2, 1), (3, 1)];
    let mut done = 0;
    while done < 16 {
        let (s, level) = rows[done % 4];
        let q = query_at(&t, s, meshes, random);
        if reader.answer(&reader.undamaged(), &q).number != 0 {
            continue;
        }
        let cells = [q.a, q.b].map(|d| cell_offset(level, d) as usize);
        let which = if shape::PAIR { done / 4 % 2 } else { 0 };
        let (empty, other) = (cells[which], cells[1 - which]);
        let mut d = reader.undamaged();
        d.entries.push((2, empty + 1, reader.lists.word(2, empty)));
        if done >= 8 {
            d.entries.push((2, other + 1, [0, 0xffff_ffff][done % 2]));
        }
        let wanted = if shape::PAIR && done >= 8 { 19 } else { 20 };
        if empty + 1 != other && empty != other + 1 && empty != other && reader.answer(&d, &q).number == wanted {
            reader.damaged(&d, &q);
            done += 1;
        }
    }
}

// An empty span for a direction, inside what is lent or beyond: of its cell, of the faces of its nearest vertex, or of all cells or faces.
fn empty_span(reader: &Reader, d: &mut Damage, level: u64, direction: [f64; 3], random: &mut Random) {
    let cell = cell_offset(level, direction) as usize;
    let nearest = search_in(&reader.lists.lent(&reader.lengths()), level, direction).nearest().map_or(0, |n| n.0 as usize);
    let face = (vertices_below(level) + level as u128) as usize + nearest;
    let (list, at, entries) = [(2, cell, 3), (4, face, 5)][random.below(2)];
    let lent = d.lent[entries] as u64;
    let e = [reader.lists.word(list, at), lent, lent + 1, lent / 3 + 1, 0xffff_ffff, 1 << 31, random.bits() >> 32][random.below(7)];
    let places = if random.below(4) == 0 { 0..d.lent[list] } else { at..at + 2 };
    d.entries.extend(places.map(|place| (list, place, e)));
}

// A table of slabs that are Mesh. Spans whose start equals their end touch no entry, wherever they lie; beside good ones, and beside other damage.
fn empty_spans(reader: &mut Reader, random: &mut Random, meshes: [&Mesh; 2], count: usize) {
    table(reader, random, meshes, 1, [0.5, 4.5, 1.0, 6.0], &[NEAREST, INTERPOLATED].concat());
    for _ in 0..count {
        let s = random.below(4) as u64;
        // of levels 0 and 1 in turn
        let level = s % 2;
        let q = query_at(&reader.table, s, meshes, random);
        let mut d = reader.undamaged();
        if random.below(4) == 0 {
            d.lent = less(reader, random);
        }
        for direction in [[q.a].as_slice(), &[q.b], &[q.a, q.b]][random.below(3)] {
            empty_span(reader, &mut d, level, *direction, random);
        }
        if random.below(4) == 0 {
            d.entries.push(damaged_list(reader, random));
        }
        reader.damaged(&d, &q);
    }
}

// One slab of level 0, and its mesh and locator alone: all offsets of cells one beyond the 324 places that are lent, and all offsets of faces 1 where no face is.
fn offsets_beyond(reader: &mut Reader, random: &mut Random, meshes: [&Mesh; 2]) {
    let q = Query { r: 0.5, omega: 0.0, a: [1.0, 0.0, 0.0], b: [0.0, 0.0, 1.0] };
    let mut asked = |row: Row, list: usize, e: u64, faces: usize, wanted: (u64, f64)| {
        table(reader, random, meshes, 0, [0.0, 1.0, 1.0, 6.0], &[row]);
        let mut d = reader.undamaged();
        d.lent = [d.lent[0], 36, 25, 324, 13, faces];
        d.entries = (0..d.lent[list]).map(|at| (list, at, e)).collect();
        let a = reader.answer(&d, &q);
        assert_eq!((a.number, a.energy), wanted);
        reader.damaged(&d, &q);
    };
    asked(NEAREST[0], 2, 325, 540, (20, 0.0));
    asked(INTERPOLATED[0], 2, 325, 540, (20, 0.0));
    asked(INTERPOLATED[0], 4, 1, 0, (0, 0.0));
}

// Tables and what is asked of them; `many` times as much of what is not damaged, and at most `most` of each case that is.
pub fn asked(reader: &mut Reader, random: &mut Random, many: usize, most: usize) {
    let spheres = [icosphere(0), icosphere(1)];
    let [n0, n1] = NEAREST;
    let [i0, i1] = INTERPOLATED;
    let scalar = |x: f32| Row::Scalar(x);
    let lent = [&spheres[0], &spheres[1]];
    let rows = [n0, i0, n1, i1, scalar(-1.5), Row::Repulsive, scalar(f32::NAN), scalar(-0.0), i0, Row::Repulsive, scalar(f32::INFINITY), scalar(TINY)];
    table(reader, random, lent, 1, [1.5, 2.4, 0.3, TAU / 4.0], &rows);
    readings(reader, random, lent, 200 * many);
    refused_queries(reader, random, lent);
    hosts(reader, random, lent);
    edges(reader, random, lent);
    near_tau(reader, random, lent);
    empty_cells(reader, random, lent);
    damages(reader, random, lent, most);

    let shuffled = [0, 1].map(|k| spheres[k].shuffled(random));
    let at = [0, 1].map(|k| shuffled[k].vertices.clone());
    let whole = [0, 1].map(|k| shuffled[k].over("whole numbers", |i| at[k][i].map(|x| (x * 1000.0).round() + random.whole(200))));
    let lent = [&whole[0], &whole[1]];
    table(reader, random, lent, 1, [-7.0, -6.998, 1e-3, TAU / 2.2], &[i1, scalar(7.0), n0, i0]);
    readings(reader, random, lent, 120 * many);

    let any = [0, 1].map(|k| shuffled[k].over("any finite", |_| [random.finite(), random.finite(), random.finite()]));
    let lent = [&any[0], &any[1]];
    table(reader, random, lent, 0, [0.0, 4e300, 1e300, 6.0], &[i0, n0, scalar(2.5), Row::Repulsive]);
    readings(reader, random, lent, 60 * many);

    let ones = [0, 1].map(|k| shuffled[k].over("whole numbers from -1 to 1", |_| [random.whole(1), random.whole(1), random.whole(1)]));
    let lent = [&ones[0], &ones[1]];
    table(reader, random, lent, 1, [2.0, 3.0, 0.5, TAU / 2.0], &[i0, n1, i1, n0]);
    readings(reader, random, lent, 120 * many);

    let odd = [without_faces(), sevens()];
    let lent = [&odd[0], &odd[1]];
    table(reader, random, lent, 1, [1e-3, 1.0, 1.0 / 3.0, 6.0], &[i0, i1, n0]);
    readings(reader, random, lent, 60 * many);
    damages(reader, random, lent, most.div_ceil(6));
    empty_spans(reader, random, [&spheres[0], &spheres[1]], 12 * many);
    offsets_beyond(reader, random, [&spheres[0], &spheres[1]]);
}
