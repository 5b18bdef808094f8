// The questions that document 01 puts before fresh, set, settle and write, read from its text and from nothing else: each function gives the number of the first question that is answered no, or 0.
use crate::lines::bits;
use crate::shape::{per, HEADS, PAIR};
use std::f64::consts::TAU;

#[derive(Clone, Copy, Debug)]
pub struct Settings {
    pub rmin: f64,
    pub rmax: f64,
    pub dr: f64,
    pub omega_step: f64,
    pub threshold: f64,
    pub beta: f64,
}

impl Settings {
    pub fn list(&self) -> [f64; 6] {
        [self.rmin, self.rmax, self.dr, self.omega_step, self.threshold, self.beta]
    }
}

#[derive(Clone, Copy, Debug)]
pub struct Held {
    pub settings: Settings,
    pub n_r: u64,
    pub n_omega: u64,
    pub top: u64,
    pub level: u64,
    // of a table of two molecules
    pub packed: u64,
}

#[derive(Clone, Default)]
pub struct Lists {
    pub store: Vec<f64>,
    // of a table of two molecules with the rest of the row's word above it: a rest makes it an unknown kind
    pub kinds: Vec<u32>,
    pub levels: Vec<u8>,
    pub values: Vec<u32>,
    pub vertices: Vec<f64>,
    pub counts: Vec<u8>,
    pub neighbours: Vec<u16>,
    pub angles: Vec<f64>,
}

impl Lists {
    pub fn lengths(&self) -> [usize; 8] {
        [
            self.store.len(),
            self.kinds.len(),
            self.levels.len(),
            self.values.len(),
            self.vertices.len(),
            self.counts.len(),
            self.neighbours.len(),
            self.angles.len(),
        ]
    }

    // An entry by the number of its list: 0 kinds, 1 levels, 2 values, 3 vertices, 4 counts, 5 neighbours, 6 angles.
    pub fn word(&self, list: usize, at: usize) -> u64 {
        match list {
            0 => self.kinds[at] as u64,
            1 => self.levels[at] as u64,
            2 => self.values[at] as u64,
            3 => bits(self.vertices[at]),
            4 => self.counts[at] as u64,
            5 => self.neighbours[at] as u64,
            _ => bits(self.angles[at]),
        }
    }

    pub fn put(&mut self, list: usize, at: usize, n: u64) {
        match list {
            0 => self.kinds[at] = n as u32,
            1 => self.levels[at] = n as u8,
            2 => self.values[at] = n as u32,
            3 => self.vertices[at] = f64::from_bits(n),
            4 => self.counts[at] = n as u8,
            5 => self.neighbours[at] = n as u16,
            _ => self.angles[at] = f64::from_bits(n),
        }
    }
}

pub fn vertices_of(level: u64) -> usize {
    10 * (level as usize + 1) * (level as usize + 1) + 2
}

pub fn vertices_below(level: u64) -> usize {
    (0..level).map(vertices_of).sum()
}

// "Counts: (rmax - rmin)/dr + 0.5 and TAU/step + 0.5, truncated"
pub fn distance_count(rmin: f64, rmax: f64, dr: f64) -> u64 {
    ((rmax - rmin) / dr + 0.5) as u64
}

pub fn dihedral_count(step: f64) -> u64 {
    (TAU / step + 0.5) as u64
}

fn one_to_five(b: &Held) -> u64 {
    let s = b.settings;
    let positive = |x: f64| x.is_finite() && x > 0.0;
    let ranges = s.rmin.is_finite() && s.rmax > s.rmin && positive(s.dr) && positive(s.omega_step) && positive(s.beta);
    if !(ranges && s.threshold.is_finite() && s.threshold >= 0.0) {
        return 1;
    }
    if b.top > 15 || b.level > b.top {
        return 2;
    }
    let bins = 1..=65535;
    if !(bins.contains(&b.n_r) && bins.contains(&b.n_omega)) {
        return 3;
    }
    if b.n_r != distance_count(s.rmin, s.rmax, s.dr) || b.n_omega != dihedral_count(s.omega_step) {
        return 3;
    }
    // "the table's rmax is fused n_r·dr + rmin"
    let rmax = (b.n_r as f64).mul_add(s.dr, s.rmin);
    if b.n_r != distance_count(s.rmin, rmax, s.dr) {
        return 4;
    }
    if b.n_r * b.n_omega * per(b.top) as u64 > 4_294_967_295 {
        return 5;
    }
    0
}

fn slabs(b: &Held) -> usize {
    (b.n_r * b.n_omega) as usize
}

// 6 of store and rows
fn builder_room(b: &Held, lent: &[usize; 8]) -> bool {
    slabs(b) * per(b.top) <= lent[0] && (1..4).all(|k| slabs(b) <= lent[k])
}

fn mesh_room(b: &Held, lent: &[usize; 8]) -> bool {
    let n = vertices_below(b.top + 1);
    3 * n <= lent[4] && n <= lent[5] && 6 * n <= lent[6] && 6 * n <= lent[7]
}

// "each vertex has 5 or 6 distinct neighbours below n, not itself, each listing it in turn, with an angle each, finite and not below 0"
fn mesh_rule(level: u64, lists: &Lists) -> bool {
    let (n, first) = (vertices_of(level), vertices_below(level));
    let degree = |v: usize| lists.counts[first + v] as usize;
    let near = |v: usize| &lists.neighbours[6 * (first + v)..][..degree(v).min(6)];
    let angles = |v: usize| &lists.angles[6 * (first + v)..][..degree(v).min(6)];
    (0..n).all(|v| {
        let listed = near(v);
        lists.vertices[3 * (first + v)..][..3].iter().all(|x| x.is_finite())
            && (degree(v) == 5 || degree(v) == 6)
            && angles(v).iter().all(|a| a.is_finite() && *a >= 0.0)
            && listed.iter().enumerate().all(|(k, &w)| {
                let w = w as usize;
                w < n && w != v && !listed[..k].contains(&(w as u16)) && near(w).contains(&(v as u16))
            })
    })
}

fn with_meshes(b: &Held, lent: &[usize; 8], lists: &Lists) -> u64 {
    let number = one_to_five(b);
    if number != 0 {
        return number;
    }
    if !(builder_room(b, lent) && mesh_room(b, lent)) {
        return 6;
    }
    if !(0..=b.top).all(|level| mesh_rule(level, lists)) {
        return 7;
    }
    0
}

// The builder that the settings give; what it is answered.
pub fn fresh(settings: Settings, top: u64, lent: &[usize; 8], lists: &Lists) -> (Held, u64) {
    let n_r = distance_count(settings.rmin, settings.rmax, settings.dr);
    let n_omega = dihedral_count(settings.omega_step);
    let b = Held { settings, n_r, n_omega, top, level: top, packed: 0 };
    (b, with_meshes(&b, lent, lists))
}

pub fn set(b: &Held, lent: &[usize; 8], lists: &Lists, ri: u64, oi: u64, energies: &[f64]) -> u64 {
    let number = one_to_five(b);
    if number != 0 {
        return number;
    }
    if !builder_room(b, lent) {
        return 6;
    }
    if ri >= b.n_r || oi >= b.n_omega {
        return 8;
    }
    if energies.len() != per(b.level) {
        return 9;
    }
    if energies.iter().any(|e| e.is_nan()) {
        return 10;
    }
    // document 02: "Set now puts the kind and level part of 15, after 10, to the row it replaces"
    if PAIR && !row_held(b, lists, (ri * b.n_omega + oi) as usize) {
        return 15;
    }
    0
}

fn is_mesh(lists: &Lists, s: usize) -> bool {
    lists.kinds[s] == 2 || lists.kinds[s] == 3
}

// "Has each row a known kind, a held level if it is Mesh"
fn row_held(b: &Held, lists: &Lists, s: usize) -> bool {
    lists.kinds[s] <= 3 && (!is_mesh(lists, s) || lists.levels[s] as u64 <= b.top)
}

pub fn settle(b: &Held, lent: &[usize; 8], lists: &Lists, ri: u64) -> u64 {
    let number = with_meshes(b, lent, lists);
    if number != 0 {
        return number;
    }
    if ri >= b.n_r {
        return 8;
    }
    // the rows touched
    let slice = (ri * b.n_omega) as usize..((ri + 1) * b.n_omega) as usize;
    if !slice.clone().all(|s| row_held(b, lists, s)) {
        return 15;
    }
    // "Do all slabs of the slice that hold energies hold them from the current level?"
    if slice.clone().any(|s| is_mesh(lists, s) && lists.levels[s] as u64 != b.level) {
        return 11;
    }
    0
}

// Whether the word of one of the first slabs has a rest.
pub fn rest(b: &Held, lists: &Lists) -> bool {
    lists.kinds.iter().take(b.n_r.saturating_mul(b.n_omega) as usize).any(|&k| k > 255)
}

// "the sum over Mesh rows of their level's n·n", of all rows that are lent
pub fn packed(lists: &Lists) -> u64 {
    (0..lists.kinds.len().min(lists.levels.len())).filter(|&s| is_mesh(lists, s)).map(|s| per(lists.levels[s] as u64) as u64).sum()
}

// The file's length by its sections: a count each, then 8 bytes a float, 4 a bin count, 4 a level, 10 a row, 4 an energy.
#[allow(dead_code)]
pub fn file_length(b: &Held, lists: &Lists) -> usize {
    let energies = |s: usize| if is_mesh(lists, s) { per(lists.levels[s] as u64) } else { 0 };
    20 + 8 * HEADS[0] + 4 * HEADS[1] + 4 * (b.top as usize + 1) + 10 * slabs(b) + 4 * (0..slabs(b)).map(energies).sum::<usize>()
}

#[allow(dead_code)]
pub fn write(b: &Held, lent: &[usize; 8], lists: &Lists, output: usize) -> u64 {
    let number = with_meshes(b, lent, lists);
    if number != 0 {
        return number;
    }
    if !(0..slabs(b)).all(|s| row_held(b, lists, s)) {
        return 15;
    }
    if output < file_length(b, lists) {
        return 12;
    }
    0
}
