// The search of a direction, from document 01's text and from nothing else, over lists that may hold anything: its number and why, or the nearest vertex, or the face with its weights. What a host hands
// in may be any number, so places are whole numbers of 128 bits. The projections of a direction are the oracle's, which 01 names as the references of a search.
use crate::oracle::{cube_project, projected_barycentric, Vector3};
use std::ops::Range;

pub type Refusal = (u64, &'static str);

pub fn vertices_of(level: u64) -> u128 {
    10 * (level as u128 + 1) * (level as u128 + 1) + 2
}

pub fn cells_along(level: u64) -> u128 {
    (((vertices_of(level) as f64 / 6.0).sqrt() * 1.2).ceil() as u128).max(2)
}

fn entry<T: Copy>(list: &[T], at: u128) -> Option<T> {
    usize::try_from(at).ok().and_then(|i| list.get(i).copied())
}

pub fn length(d: [f64; 3]) -> f64 {
    ((d[0] * d[0] + d[1] * d[1]) + d[2] * d[2]).sqrt()
}

fn unit(d: [f64; 3]) -> [f64; 3] {
    let l = length(d);
    d.map(|x| x / l)
}

// The number of a direction's cell.
pub fn cell_of(level: u64, d: [f64; 3]) -> u128 {
    let g = cells_along(level);
    let (face, u, w) = cube_project(&unit(d));
    let place = |x: f64| (x.mul_add(0.5, 0.5) * g as f64).clamp(0.0, g as f64 - 1.0) as u128;
    face as u128 * g * g + place(u) * g + place(w)
}

// What is lent of a level, from its first entries on.
#[derive(Clone, Copy)]
pub struct Lent<'a> {
    pub vertices: &'a [f64],
    pub cell_offsets: &'a [u32],
    pub cell_vertices: &'a [u16],
    pub face_offsets: &'a [u32],
    pub faces: &'a [u16],
}

// The entries from the offset at a place to the next: "no end offset below its start". Where both are equal there is none, wherever they lie.
fn span(offsets: &[u32], at: u128, beyond: &'static str, below: &'static str) -> Result<Range<u32>, Refusal> {
    let offset = |k: u128| entry(offsets, at + k).ok_or((19, beyond));
    let (start, end) = (offset(0)?, offset(1)?);
    if end < start {
        return Err((19, below));
    }
    Ok(start..end)
}

pub struct Search<'a> {
    lent: Lent<'a>,
    level: u64,
    cell: u128,
    unit: [f64; 3],
}

impl<'a> Search<'a> {
    pub fn new(lent: Lent<'a>, level: u64, direction: [f64; 3]) -> Self {
        Search { lent, level, cell: cell_of(level, direction), unit: unit(direction) }
    }

    // "vertex numbers below n", and the coordinates inside what was lent
    fn vertex(&self, v: u16, beyond: &'static str) -> Result<[f64; 3], Refusal> {
        if v as u128 >= vertices_of(self.level) {
            return Err((19, beyond));
        }
        let x = |k: u128| entry(self.lent.vertices, 3 * v as u128 + k).ok_or((19, "a vertex beyond what was lent"));
        Ok([x(0)?, x(1)?, x(2)?])
    }

    fn squared(&self, v: [f64; 3]) -> f64 {
        let d = [0, 1, 2].map(|k| self.unit[k] - v[k]);
        let s = (d[0] * d[0] + d[1] * d[1]) + d[2] * d[2];
        // every NaN counts as the positive one
        if s.is_nan() { f64::NAN.abs() } else { s }
    }

    // The vertex of the cell, and the square of its distance.
    pub fn nearest(&self) -> Result<(u16, f64), Refusal> {
        let mut best: Option<(u16, f64)> = None;
        for i in span(self.lent.cell_offsets, self.cell, "a cell offset beyond what was lent", "a cell's end below its start")? {
            let v = entry(self.lent.cell_vertices, i as u128).ok_or((19, "a cell entry beyond what was lent"))?;
            let d = self.squared(self.vertex(v, "a cell's vertex number beyond n")?);
            if best.is_none_or(|b| d.total_cmp(&b.1).is_lt()) {
                best = Some((v, d));
            }
        }
        best.ok_or((20, "an empty cell"))
    }

    fn corner(&self, at: u128) -> Result<(u16, Vector3), Refusal> {
        let v = entry(self.lent.faces, at).ok_or((19, "a face entry beyond what was lent"))?;
        Ok((v, Vector3::from(self.vertex(v, "a face's vertex number beyond n")?)))
    }

    // The face of the nearest vertex that fits best, and the weights of its vertices; 0 0 0 where none fits.
    pub fn face(&self) -> Result<([u16; 3], [f64; 3]), Refusal> {
        let nearest = self.nearest()?.0;
        let mut best = ([0; 3], [0.0; 3]);
        let mut least = f64::NEG_INFINITY;
        let p = Vector3::from(self.unit);
        for i in span(self.lent.face_offsets, nearest as u128, "a face offset beyond what was lent", "a face's end below its start")? {
            let corner = |k: u128| self.corner(3 * i as u128 + k);
            let ((a, va), (b, vb), (c, vc)) = (corner(0)?, corner(1)?, corner(2)?);
            let w = projected_barycentric(&p, &va, &vb, &vc);
            let m = w[0].min(w[1]).min(w[2]);
            if m > least {
                least = m;
                best = ([a, b, c], w);
            }
        }
        Ok(best)
    }
}
