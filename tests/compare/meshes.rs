// Meshes and directions to search with. A sequence is fixed by its seed, so two runs with one seed see the same ones.
use std::collections::HashMap;

// Marsaglia's xorshift of 64 bits.
pub struct Random(pub u64);

impl Random {
    // The sequence of a seed, which may be any number; seeds that are near each other give sequences that are not.
    pub fn of(seed: u64) -> Random {
        let x = seed.wrapping_add(0x9e3779b97f4a7c15);
        let x = (x ^ x >> 30).wrapping_mul(0xbf58476d1ce4e5b9);
        let x = (x ^ x >> 27).wrapping_mul(0x94d049bb133111eb);
        // a sequence from 0 on would stay there
        Random((x ^ x >> 31).max(1))
    }

    pub fn bits(&mut self) -> u64 {
        self.0 ^= self.0 << 13;
        self.0 ^= self.0 >> 7;
        self.0 ^= self.0 << 17;
        self.0
    }

    pub fn below(&mut self, n: usize) -> usize {
        (self.bits() % n as u64) as usize
    }

    // From -1 to 1.
    pub fn unit(&mut self) -> f64 {
        (self.bits() >> 11) as f64 / (1u64 << 52) as f64 - 1.0
    }

    // Any finite f64: every exponent is as likely as another.
    pub fn finite(&mut self) -> f64 {
        loop {
            let x = f64::from_bits(self.bits());
            if x.is_finite() {
                return x;
            }
        }
    }

    // A whole number from -n to n.
    pub fn whole(&mut self, n: usize) -> f64 {
        self.below(2 * n + 1) as f64 - n as f64
    }

    pub fn direction(&mut self) -> [f64; 3] {
        loop {
            let v = [self.unit(), self.unit(), self.unit()];
            let l = v[0] * v[0] + v[1] * v[1] + v[2] * v[2];
            if 0.01 < l && l < 1.0 {
                return v;
            }
        }
    }

    pub fn shuffle<T>(&mut self, list: &mut [T]) {
        for i in (1..list.len()).rev() {
            list.swap(i, self.below(i + 1));
        }
    }
}

#[derive(Clone)]
pub struct Mesh {
    pub name: String,
    pub level: usize,
    pub vertices: Vec<[f64; 3]>,
    pub neighbours: Vec<Vec<u16>>,
}

// A mesh as it is lent: six places a vertex. A sixth that is not read is a number and an angle that the mesh rule would refuse.
pub struct Lent {
    pub vertices: Vec<f64>,
    pub counts: Vec<u8>,
    pub neighbours: Vec<u16>,
    pub angles: Vec<f64>,
}

pub fn vertex_count(level: usize) -> usize {
    10 * (level + 1) * (level + 1) + 2
}

impl Mesh {
    pub fn lent(&self) -> Lent {
        let mut lent = Lent {
            vertices: self.vertices.concat(),
            counts: Vec::new(),
            neighbours: Vec::new(),
            angles: Vec::new(),
        };
        for list in &self.neighbours {
            lent.counts.push(list.len() as u8);
            for k in 0..6 {
                lent.neighbours.push(*list.get(k).unwrap_or(&u16::MAX));
                lent.angles.push(if k < list.len() { 1.0 } else { f64::NAN });
            }
        }
        lent
    }

    pub fn named(mut self, words: &str) -> Mesh {
        self.name = format!("{}, {}", self.name, words);
        self
    }

    // The same graph over other points.
    pub fn over(&self, words: &str, mut point: impl FnMut(usize) -> [f64; 3]) -> Mesh {
        let vertices = (0..self.vertices.len()).map(&mut point).collect();
        Mesh { vertices, ..self.clone() }.named(words)
    }

    // Vertices in another order, and each one's neighbours too.
    pub fn shuffled(&self, random: &mut Random) -> Mesh {
        let n = self.vertices.len();
        let mut old: Vec<usize> = (0..n).collect();
        random.shuffle(&mut old);
        let mut new = vec![0; n];
        for (i, &o) in old.iter().enumerate() {
            new[o] = i as u16;
        }
        let mut neighbours: Vec<Vec<u16>> = Vec::new();
        for &o in &old {
            let mut list: Vec<u16> = self.neighbours[o].iter().map(|&w| new[w as usize]).collect();
            random.shuffle(&mut list);
            neighbours.push(list);
        }
        let vertices = old.iter().map(|&o| self.vertices[o]).collect();
        Mesh { vertices, neighbours, ..self.clone() }.named("shuffled")
    }

    // A mesh whose edges are given by a test.
    pub fn graph(name: &str, level: usize, points: Vec<[f64; 3]>, edge: impl Fn(usize, usize) -> bool) -> Mesh {
        let n = vertex_count(level);
        assert_eq!(points.len(), n);
        let row = |i: usize| (0..n).filter(|&j| i != j && edge(i, j)).map(|j| j as u16).collect();
        Mesh { name: name.to_string(), level, vertices: points, neighbours: (0..n).map(row).collect() }
    }
}

pub fn scaled(v: [f64; 3], by: f64) -> [f64; 3] {
    [v[0] * by, v[1] * by, v[2] * by]
}

pub fn normal(v: [f64; 3]) -> [f64; 3] {
    let l = (v[0] * v[0] + v[1] * v[1] + v[2] * v[2]).sqrt();
    [v[0] / l, v[1] / l, v[2] / l]
}

// The angle between two directions.
pub fn angle(a: &[f64], b: &[f64]) -> f64 {
    let dot: f64 = (0..3).map(|k| a[k] * b[k]).sum();
    let cross = [a[1] * b[2] - a[2] * b[1], a[2] * b[0] - a[0] * b[2], a[0] * b[1] - a[1] * b[0]];
    cross.iter().map(|x| x * x).sum::<f64>().sqrt().atan2(dot)
}

fn squared(a: [f64; 3], b: [f64; 3]) -> f64 {
    (0..3).map(|k| (a[k] - b[k]) * (a[k] - b[k])).sum()
}

fn icosahedron() -> Vec<[f64; 3]> {
    let golden = (1.0 + 5f64.sqrt()) / 2.0;
    let mut points = Vec::new();
    for k in 0..3 {
        for (a, b) in [(1.0, golden), (-1.0, golden), (1.0, -golden), (-1.0, -golden)] {
            let mut v = [0.0; 3];
            v[(k + 1) % 3] = a;
            v[(k + 2) % 3] = b;
            points.push(v);
        }
    }
    points
}

// The faces of the icosahedron cut into m + 1 parts along each edge, and drawn out to the sphere.
pub fn icosphere(level: usize) -> Mesh {
    let corners = icosahedron();
    let near = |a: usize, b: usize| a != b && squared(corners[a], corners[b]) < 5.0;
    let parts = level + 1;
    let mut number: HashMap<Vec<(usize, usize)>, usize> = HashMap::new();
    let mut points = Vec::new();
    let mut pairs = Vec::new();
    for a in 0..12 {
        for b in a + 1..12 {
            for c in b + 1..12 {
                if !(near(a, b) && near(b, c) && near(a, c)) {
                    continue;
                }
                // the point that has i parts of a, j of b and the rest of c
                let mut at = |i: usize, j: usize| {
                    let shares = [(a, i), (b, j), (c, parts - i - j)];
                    let key: Vec<(usize, usize)> = shares.into_iter().filter(|s| s.1 > 0).collect();
                    *number.entry(key.clone()).or_insert_with(|| {
                        let mut v = [0.0; 3];
                        for (corner, share) in key {
                            for k in 0..3 {
                                v[k] += corners[corner][k] * share as f64;
                            }
                        }
                        points.push(normal(v));
                        points.len() - 1
                    })
                };
                for i in 0..parts {
                    for j in 0..parts - i {
                        let (p, q, r) = (at(i, j), at(i + 1, j), at(i, j + 1));
                        pairs.extend([(p, q), (p, r), (q, r)]);
                    }
                }
            }
        }
    }
    let n = vertex_count(level);
    assert_eq!(points.len(), n);
    let mut neighbours = vec![Vec::new(); n];
    for (p, q) in pairs {
        if !neighbours[p].contains(&(q as u16)) {
            neighbours[p].push(q as u16);
            neighbours[q].push(p as u16);
        }
    }
    for list in &neighbours {
        assert!(list.len() == 5 || list.len() == 6);
    }
    Mesh { name: format!("icosphere of level {level}"), level, vertices: points, neighbours }
}

// Twelve vertices with five neighbours each and no face: two sixes, each vertex tied to all but one of the other six.
pub fn without_faces() -> Mesh {
    Mesh::graph("graph without faces", 0, icosphere(0).vertices, |i, j| i % 2 != j % 2 && i / 2 != j / 2)
}

// Forty-two vertices, in sevens that are all tied: the most faces that the mesh rule allows, 15 a vertex.
pub fn sevens() -> Mesh {
    Mesh::graph("six complete graphs on seven", 1, icosphere(1).vertices, |i, j| i % 6 == j % 6)
}

// Graphs over points of many kinds.
pub const STRANGE: usize = 12;

pub fn strange_points(base: &Mesh, kind: usize, random: &mut Random) -> Mesh {
    let at = base.vertices.clone();
    match kind {
        0 => base.over("every coordinate any finite number", |_| [random.finite(), random.finite(), random.finite()]),
        1 => base.over("whole numbers from -1 to 1", |_| [random.whole(1), random.whole(1), random.whole(1)]),
        2 => base.over("distorted to whole numbers", |i| normal(at[i]).map(|x| (x * 1000.0).round() + random.whole(200))),
        3 => base.over("lengths from 1e-300 to 1e300", |i| scaled(at[i], 10f64.powi(random.below(601) as i32 - 300))),
        4 => base.over("a coordinate in three made tiny", |i| at[i].map(|x| if random.below(3) == 0 { x * 1e-300 } else { x })),
        5 => base.over("near the largest", |i| at[i].map(|x| if random.below(2) == 0 { x * f64::MAX } else { x })),
        6 => base.over("subnormal", |_| [random.whole(4) * 5e-324, random.whole(4) * 5e-324, random.whole(4) * 5e-324]),
        7 => base.over("all in one octant", |_| random.direction().map(|x| x.abs())),
        8 => base.over("on one line", |_| scaled([1.0, 2.0, -3.0], random.unit())),
        9 => base.over("on a plane through the middle", |_| [random.unit(), random.unit(), 0.0]),
        10 => base.over("large and small in turn", |_| [0, 1, 2].map(|_| random.unit() * [1e-170, 1.0, 1e170][random.below(3)])),
        _ => base.over("random directions", |_| normal(random.direction())),
    }
}
