// The reading of a table file, from document 01's text and from nothing else, and the weighted one, from document 02's: the number of the first question that is answered no, or 0, the energy and the squared
// distances that a nearest reading shows; and which case it is. What a host hands in may be any number, so places are whole numbers of 128 bits.
use crate::icotable::{Lent, Query};
use crate::search::{self, cell_of, cells_along, length, vertices_of, Refusal, Search};
use crate::shape::{self, Table, LENGTHS};
use std::f64::consts::TAU;

#[derive(Clone, Copy)]
pub struct Answer {
    pub number: u64,
    pub energy: f64,
    pub distances: [f64; 2],
    pub words: &'static str,
}

// An energy and its distances, and which case it is.
type Shown = (f64, [f64; 2], &'static str);

// "any other reading 0.0 for both"
const NONE: [f64; 2] = [0.0; 2];

pub fn vertices_below(level: u64) -> u128 {
    (0..level).map(vertices_of).sum()
}

pub fn cell_offsets_below(level: u64) -> u128 {
    (0..level).map(|m| 6 * cells_along(m) * cells_along(m) + 1).sum()
}

// "every row, energy .. entry touched inside what was lent": below its count, and its bytes inside the file
fn item<'a>(file: &'a [u8], start: u64, count: u64, at: u128, width: usize, words: [&'static str; 2]) -> Result<&'a [u8], Refusal> {
    if at >= count as u128 {
        return Err((19, words[0]));
    }
    let first = start as u128 + at * width as u128;
    if first + width as u128 > file.len() as u128 {
        return Err((19, words[1]));
    }
    Ok(&file[first as usize..][..width])
}

fn u32_of(bytes: &[u8]) -> u32 {
    u32::from_le_bytes(bytes.try_into().unwrap())
}

// The place of the first offset of a direction's cell.
pub fn cell_offset(level: u64, d: [f64; 3]) -> u128 {
    cell_offsets_below(level) + cell_of(level, d)
}

fn from<T>(list: &[T], first: u128) -> &[T] {
    usize::try_from(first).ok().and_then(|i| list.get(i..)).unwrap_or(&[])
}

// The search of a direction in the lists from the level's first entries on.
pub fn search_in<'a>(lent: &Lent<'a>, level: u64, d: [f64; 3]) -> Search<'a> {
    let n = vertices_below(level);
    let lists = search::Lent {
        vertices: from(lent.vertices, 3 * n),
        cell_offsets: from(lent.cell_offsets, cell_offsets_below(level)),
        cell_vertices: from(lent.cell_vertices, 27 * n),
        face_offsets: from(lent.face_offsets, n + level as u128),
        faces: from(lent.faces, 45 * n),
    };
    Search::new(lists, level, d)
}

// What is found of a direction: one vertex and its squared distance, or three and their weights.
struct Side {
    vertices: Vec<u16>,
    weights: [f64; 3],
    distance: f64,
}

fn found(lent: &Lent, level: u64, d: [f64; 3], interpolate: bool) -> Result<Side, Refusal> {
    let search = search_in(lent, level, d);
    if interpolate {
        return search.face().map(|(face, weights)| Side { vertices: face.to_vec(), weights, distance: 0.0 });
    }
    search.nearest().map(|(v, distance)| Side { vertices: vec![v], weights: [0.0; 3], distance })
}

fn mesh_row(t: &Table, lent: Lent, q: &Query, beta: Option<f64>, level: u64, offset: u32, interpolate: bool) -> Result<Shown, Refusal> {
    let sides: Vec<_> = shape::directions(q).into_iter().map(|d| found(&lent, level, d, interpolate)).collect();
    // 19 of either direction before 20 of either
    for number in [19, 20] {
        for side in &sides {
            match side {
                Err(refusal) if refusal.0 == number => return Err(*refusal),
                _ => (),
            }
        }
    }
    let sides = sides.into_iter().collect::<Result<Vec<_>, _>>()?;
    let n = vertices_of(level);
    // that of vertices i and j is at i * n + j, that of one vertex at its number
    let places = sides.iter().fold(vec![0], |places, side| places.iter().flat_map(|p| side.vertices.iter().map(move |&v| p * n + v as u128)).collect());
    let words = ["an energy beyond the count", "an energy beyond the file"];
    let mut energies = Vec::new();
    for place in places {
        let bytes = item(lent.file, t.start[4], t.energies, offset as u128 + place, 4, words)?;
        energies.push(f32::from_bits(u32_of(bytes)) as f64);
    }
    if !interpolate {
        // an atom's reading shows none
        let distances = if shape::PAIR { [0, 1].map(|k| sides[k].distance) } else { NONE };
        return Ok((energies[0], distances, "nearest"));
    }
    let weights: Vec<_> = sides.iter().map(|side| side.weights).collect();
    if let Some(beta) = beta {
        let (energy, words) = shape::weighted_average(&weights, &energies, beta);
        return Ok((energy, NONE, words));
    }
    Ok((shape::plain_sum(&weights, &energies), NONE, "interpolated"))
}

fn row(t: &Table, lent: Lent, q: &Query, beta: Option<f64>) -> Result<Shown, Refusal> {
    if q.r.is_nan() {
        return Err((18, "r is a NaN"));
    }
    if shape::PAIR && !q.omega.is_finite() {
        return Err((18, "omega is not finite"));
    }
    let held = |d: [f64; 3]| length(d).is_finite() && length(d) > 0.0;
    for (d, words) in shape::directions(q).into_iter().zip(LENGTHS) {
        if !held(d) {
            return Err((18, *words));
        }
    }
    if beta.is_some_and(|beta| !(beta.is_finite() && beta > 0.0)) {
        return Err((21, "beta"));
    }
    if q.r < t.grid.rmin || q.r > (t.grid.n_r as f64).mul_add(t.grid.dr, t.grid.rmin) {
        return Ok((0.0, NONE, if q.r < t.grid.rmin { "below rmin" } else { "above rmax" }));
    }
    let (omega_step, n_omega) = shape::dihedral(&t.grid);
    if t.grid.n_r == 0 || n_omega == 0 {
        return Err((19, "no bins"));
    }
    let ri = (((q.r - t.grid.rmin) / t.grid.dr + 0.5) as u64).min(t.grid.n_r - 1);
    let angle = q.omega % TAU;
    let angle = if angle < 0.0 { angle + TAU } else { angle };
    let oi = (angle / omega_step + 0.5) as u64 % n_omega;
    let s = ri as u128 * n_omega as u128 + oi as u128;
    let bytes = item(lent.file, t.start[3], t.rows, s, 10, ["a row beyond the count", "a row beyond the file"])?;
    let level = bytes[1] as u64;
    let interpolate = bytes[0] == 3;
    match bytes[0] {
        0 => Ok((f32::from_bits(u32_of(&bytes[6..])) as f64, NONE, "Scalar")),
        1 => Ok((f64::INFINITY, NONE, "Repulsive")),
        2 | 3 if level >= t.levels => Err((19, "a level that is not held")),
        2 | 3 => mesh_row(t, lent, q, beta, level, u32_of(&bytes[2..6]), interpolate),
        _ => Err((19, "an unknown kind")),
    }
}

pub fn reading(t: &Table, lent: Lent, q: &Query) -> Answer {
    answer(t, lent, q, None)
}

pub fn weighted(t: &Table, lent: Lent, q: &Query, beta: f64) -> Answer {
    answer(t, lent, q, Some(beta))
}

fn answer(t: &Table, lent: Lent, q: &Query, beta: Option<f64>) -> Answer {
    match row(t, lent, q, beta) {
        Ok((energy, distances, words)) => Answer { number: 0, energy, distances, words },
        Err((number, words)) => Answer { number, energy: 0.0, distances: NONE, words },
    }
}
