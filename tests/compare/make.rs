// Writes the blocks that tests/replay has as searches: meshes of levels 0 to 3, the lists and answers that the Rust gives for them, and
// 100 directions each. The Rust has no answer to a locator call that is refused, to searches in the lists that such a call leaves, and to
// a search whose cell is empty: there the answers are document 01's, from the search read apart (search.rs), which is compared with the Rust
// on the others. Numbers are in upper-case hexadecimal of fixed widths, one letter apart; every NaN has one pattern. How often the
// cases that are easy to miss occur is written to standard error, and none may be missing.
#[allow(dead_code)]
mod lines;
#[allow(dead_code)]
mod meshes;
#[allow(dead_code, clippy::all)]
mod oracle {
    include!(concat!(env!("COMPARE"), "/oracle.rs"));
}
#[allow(dead_code)]
mod search;

use lines::bits;
use meshes::{icosphere, scaled, sevens, without_faces, Mesh, Random};
use oracle::{FaceGrid, Vector3};
use search::Search;
use std::fmt::UpperHex;

const DIRECTIONS: usize = 100;
// what the lists hold before the call; in the u16 lists the lower half of it
const CANARY: u32 = 0xabab_abab;

// How often the cases that are easy to miss occur.
#[derive(Debug, Default)]
struct Seen {
    saturated_cell_numbers: usize,
    empty_cells: usize,
    nan_weights: usize,
    no_face_fits: usize,
}

impl Seen {
    // A cell number saturates where a vertex lies so far outside the cell's face that the number fits no i64.
    fn mesh(&mut self, mesh: &Mesh) {
        let far = |v: &[f64; 3], a: usize, b: usize| v[b] != 0.0 && (v[a] / v[b]).abs() > 1e19;
        self.saturated_cell_numbers += mesh.vertices.iter().filter(|v| (0..9).any(|k| far(v, k / 3, k % 3))).count();
    }

    fn direction(&mut self, answers: [u64; 10]) {
        let [number, _, _, _, a, b, c, weights @ ..] = answers;
        self.empty_cells += (number == 20) as usize;
        self.nan_weights += weights.iter().any(|&w| f64::from_bits(w).is_nan()) as usize;
        self.no_face_fits += (number == 0 && [a, b, c] == [0; 3] && weights == [0; 3]) as usize;
    }
}

// A list in places of a width, `across` to a line.
fn put<T: UpperHex>(list: &[T], width: usize, across: usize, out: &mut String) {
    for (i, x) in list.iter().enumerate() {
        out.push_str(&format!("{x:0width$X}"));
        out.push(if (i + 1) % across == 0 || i + 1 == list.len() { '\n' } else { ' ' });
    }
}

// A list in as many places as level 3 needs.
fn filled<T: Copy>(list: &[T], count: usize, filler: T) -> Vec<T> {
    list.iter().copied().chain(std::iter::repeat(filler)).take(count).collect()
}

// The lists that a locator call leaves; one that is refused, and has no grid, leaves what they held.
struct Locator {
    cell_offsets: Vec<u32>,
    cell_vertices: Vec<u16>,
    face_offsets: Vec<u32>,
    faces: Vec<u16>,
}

impl Locator {
    fn left(grid: Option<&FaceGrid>) -> Locator {
        let faces: Vec<u16> = grid.iter().flat_map(|g| &g.adj_faces).flat_map(|f| f.face.map(|v| v as u16)).collect();
        Locator {
            cell_offsets: filled(grid.map_or(&[], |g| &g.vtx_offsets), 295, CANARY),
            cell_vertices: filled(grid.map_or(&[], |g| &g.vertex_ids), 4374, CANARY as u16),
            face_offsets: filled(grid.map_or(&[], |g| &g.adj_offsets), 163, CANARY),
            faces: filled(&faces, 7290, CANARY as u16),
        }
    }

    fn put(&self, out: &mut String) {
        put(&self.cell_offsets, 8, 16, out);
        put(&self.cell_vertices, 4, 32, out);
        put(&self.face_offsets, 8, 16, out);
        put(&self.faces, 4, 30, out);
    }
}

// The answers to one direction: number, vertex and distance; number, face and weights. Those of the Rust, which has none where the cell is empty:
fn answers_of_rust(grid: &FaceGrid, mesh: &Mesh, d: [f64; 3]) -> Option<[u64; 10]> {
    let dir = Vector3::from(d);
    let p = dir.normalize();
    let cell = grid.cell_index(&p);
    if grid.vtx_offsets[cell] == grid.vtx_offsets[cell + 1] {
        return None;
    }
    let v = grid.find_nearest_vertex(&dir);
    let e = &p - &Vector3::from(mesh.vertices[v]);
    let (face, weights) = grid.locate(&dir);
    let [a, b, c] = face.map(|v| v as u64);
    let [x, y, z] = weights.map(bits);
    Some([0, v as u64, bits(e.dot(&e)), 0, a, b, c, x, y, z])
}

// Those of document 01's text, over the lists as they are lent:
fn answers_of_01(lists: &Locator, vertices: &[f64], level: usize, d: [f64; 3]) -> [u64; 10] {
    let Locator { cell_offsets, cell_vertices, face_offsets, faces } = lists;
    let search = Search::new(search::Lent { vertices, cell_offsets, cell_vertices, face_offsets, faces }, level as u64, d);
    let mut answers = [0; 10];
    match search.nearest() {
        Ok((v, distance)) => answers[1..3].copy_from_slice(&[v as u64, bits(distance)]),
        Err(refusal) => answers[0] = refusal.0,
    }
    match search.face() {
        Ok((face, weights)) => {
            answers[4..7].copy_from_slice(&face.map(|v| v as u64));
            answers[7..].copy_from_slice(&weights.map(bits));
        }
        Err(refusal) => answers[3] = refusal.0,
    }
    answers
}

fn directions(mesh: &Mesh, random: &mut Random) -> Vec<[f64; 3]> {
    let mut list = Vec::new();
    for axis in 0..3 {
        for x in [1.0, -1.0] {
            let mut d = [0.0, -0.0, 0.0];
            d[axis] = x;
            list.push(d);
        }
    }
    for corner in 0..8 {
        list.push([0, 1, 2].map(|k| if corner >> k & 1 == 0 { 1.0 } else { -1.0 }));
    }
    list.extend([[1e-160, 0.0, 1e-161], [1e153, -1e153, 1e150], [0.0; 3], [f64::NAN, 1.0, 1.0], [f64::INFINITY, 0.0, 1.0]]);
    while list.len() < DIRECTIONS {
        let i = random.below(mesh.vertices.len());
        let a = mesh.vertices[i];
        let b = mesh.vertices[mesh.neighbours[i][random.below(5)] as usize];
        let c = mesh.vertices[mesh.neighbours[i][random.below(5)] as usize];
        list.push(match random.below(8) {
            0 => a,
            1 => scaled(a, -2.0),
            2 => [a[0] + b[0], a[1] + b[1], a[2] + b[2]],
            3 => [a[0] + b[0] + c[0], a[1] + b[1] + c[1], a[2] + b[2] + c[2]],
            4 => [random.whole(2), random.whole(2), random.whole(2)],
            5 => [random.unit(), random.unit() * 1e-9, random.unit()],
            _ => random.direction(),
        });
    }
    list
}

// A block; a mesh that keeps the mesh rule is accepted, and one whose number is given is refused with it.
fn block(mesh: &Mesh, refused: u64, random: &mut Random, seen: &mut Seen, out: &mut String) {
    let lent = mesh.lent();
    let grid = (refused == 0).then(|| FaceGrid::new(&mesh.vertices, &mesh.neighbours));
    let lists = Locator::left(grid.as_ref());
    let vertices = filled(&lent.vertices, 486, 0.0);
    seen.mesh(mesh);
    let start = out.len();
    put(&[mesh.level as u64], 16, 1, out);
    put(&vertices.iter().map(|&x| bits(x)).collect::<Vec<_>>(), 16, 3, out);
    put(&filled(&lent.counts, 162, 0), 2, 54, out);
    put(&filled(&lent.neighbours, 972, 0xffff), 4, 6, out);
    put(&[refused], 16, 1, out);
    lists.put(out);
    for d in directions(mesh, random) {
        let of_01 = answers_of_01(&lists, &vertices, mesh.level, d);
        let answer = grid.as_ref().and_then(|g| answers_of_rust(g, mesh, d)).unwrap_or(of_01);
        assert_eq!(answer, of_01, "{}: {d:?}", mesh.name);
        seen.direction(answer);
        let mut line = d.map(bits).to_vec();
        line.extend(answer);
        put(&line, 16, 13, out);
    }
    assert_eq!(out.len() - start, 98184);
}

fn main() {
    let mut random = Random(0x853c49e6748fea9b);
    let (mut seen, mut out) = (Seen::default(), String::new());
    for base in (0..4).map(icosphere) {
        let mesh = base.shuffled(&mut random);
        block(&mesh, 0, &mut random, &mut seen, &mut out);
        let at = mesh.vertices.clone();
        let whole = mesh.over("whole numbers", |i| at[i].map(|x| (x * 1000.0).round() + random.whole(200)));
        block(&whole, 0, &mut random, &mut seen, &mut out);
        let tiny = mesh.over("tiny", |i| at[i].map(|x| if random.below(3) == 0 { x * 1e-300 } else { x }));
        block(&tiny, 0, &mut random, &mut seen, &mut out);
        let huge = mesh.over("huge", |i| at[i].map(|x| if random.below(2) == 0 { x * f64::MAX } else { x }));
        block(&huge, 0, &mut random, &mut seen, &mut out);
        let ones = mesh.over("whole numbers from -1 to 1", |_| [random.whole(1), random.whole(1), random.whole(1)]);
        block(&ones, 0, &mut random, &mut seen, &mut out);
        let any = mesh.over("any finite", |_| [random.finite(), random.finite(), random.finite()]);
        block(&any, 0, &mut random, &mut seen, &mut out);
    }
    block(&without_faces(), 0, &mut random, &mut seen, &mut out);
    block(&sevens(), 0, &mut random, &mut seen, &mut out);
    let mut broken = icosphere(1);
    broken.vertices[41][2] = f64::INFINITY;
    block(&broken, 7, &mut random, &mut seen, &mut out);
    let Seen { saturated_cell_numbers: a, empty_cells: b, nan_weights: c, no_face_fits: d } = seen;
    assert!(a > 0 && b > 0 && c > 0 && d > 0, "{seen:?}");
    eprintln!("{seen:?}");
    print!("{out}");
}
