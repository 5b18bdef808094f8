// Compares the searches and the locator call of the static library with those of the Rust, on one input after another, and
// ends at the first difference with its input: searches SEED short|long. Any NaN is equal to any other. The Rust panics where a cell is empty; there the answer is to be 20. Over lists that are
// damaged by hand the answers are those of the search read apart from document 01 (search.rs).
mod arguments;
#[allow(dead_code)]
mod lines;
#[allow(dead_code)]
mod meshes;
#[allow(dead_code, clippy::all)]
mod oracle {
    include!(concat!(env!("COMPARE"), "/oracle.rs"));
}
mod ours;
mod report;
mod search;

use arguments::arguments;
use lines::bits;
use meshes::{icosphere, scaled, sevens, strange_points, vertex_count, without_faces, Lent, Mesh, Random, STRANGE};
use oracle::{FaceGrid, Vector3};
use ours::{Lists, Located, Nearest};
use search::{Refusal, Search};
use std::collections::BTreeMap;

#[derive(Default)]
struct Tally {
    meshes: usize,
    entries: usize,
    refusals: usize,
    saturated: usize,
    directions: Vec<(&'static str, usize)>,
    damaged: BTreeMap<(u64, &'static str), usize>,
    empty: usize,
    unfit: usize,
    strange: usize,
    tied: usize,
    without: Without,
}

// The search without a locator. It puts question 7 to the whole mesh each time, so that of a large mesh's directions only some are put to it: one in 1 + n / `density`.
#[derive(Default)]
struct Without {
    density: usize,
    turn: usize,
    levels: [usize; 16],
    other: usize,
    empty: usize,
    lengthless: usize,
    refused: usize,
}

impl Without {
    fn due(&mut self, level: usize) -> bool {
        self.turn += 1;
        self.turn % (1 + vertex_count(level) / self.density) == 0
    }

    fn print(&self) {
        let all: usize = self.levels.iter().sum();
        println!("the search without a locator: {all} directions, of these {} on meshes that are shuffled or made by hand", self.other);
        println!("  by level, from 0: {:?}", self.levels);
        println!("  {} with an empty cell (20), {} without a length (18); {} refused calls", self.empty, self.lengthless, self.refused);
    }
}

impl Tally {
    fn direction(&mut self, kind: &'static str) {
        match self.directions.iter_mut().find(|d| d.0 == kind) {
            Some(d) => d.1 += 1,
            None => self.directions.push((kind, 1)),
        }
    }

    fn print(&self) {
        println!("locator: {} meshes, {} list entries, {} refused calls", self.meshes, self.entries, self.refusals);
        println!("  of vertices whose cell number saturates: {}", self.saturated);
        let all: usize = self.directions.iter().map(|d| d.1).sum();
        println!("find_nearest_vertex and locate: {all} directions");
        for (kind, count) in &self.directions {
            println!("  {count} {kind}");
        }
        println!("  of these {} with an empty cell (20), {} with several nearest vertices,", self.empty, self.tied);
        println!("  {} where no face fits, {} with a weight that is infinite or a NaN", self.unfit, self.strange);
        self.without.print();
        println!("find_nearest_vertex and locate over damaged lists: {} directions", self.damaged.values().sum::<usize>());
        for ((number, words), count) in &self.damaged {
            println!("  {count} answered {number}: {words}");
        }
        for words in DAMAGED {
            assert!(self.damaged.keys().any(|case| case.1 == words), "nothing was compared of this case: {words}");
        }
    }
}

fn words(xs: &[f64]) -> String {
    xs.iter().map(|&x| format!("{:016X} ({x:e})", x.to_bits())).collect::<Vec<_>>().join(" ")
}

fn nearest_words(a: &Nearest) -> String {
    format!("number {}, vertex {}, distance {}", a.number, a.vertex, words(&[a.distance]))
}

fn located_words(a: &Located) -> String {
    format!("number {}, vertex {}, distance {}, face {:?}, weights {}", a.number, a.vertex, words(&[a.distance]), a.face, words(&a.weights))
}

// What face location answers beside the nearest vertex, which it passes on; and where it is refused.
fn located_at(near: &Nearest, (face, weights): ([u64; 3], [f64; 3])) -> Located {
    Located { number: 0, vertex: near.vertex, distance: near.distance, face, weights }
}

fn not_located(number: u64) -> Located {
    Located { number, vertex: 0, distance: 0.0, face: [0; 3], weights: [0.0; 3] }
}

fn differ(mesh: &Mesh, what: &str, input: &str, ours: &str, wanted: &str) -> ! {
    let mut input = format!("{input}, on {}", mesh.name);
    if mesh.vertices.len() <= 42 {
        for (v, list) in mesh.vertices.iter().zip(&mesh.neighbours) {
            input.push_str(&format!("\n    vertex {} neighbours {list:?}", words(v)));
        }
    }
    report::differ(what, input, ours.into(), wanted.into())
}

fn grid_size(level: usize) -> usize {
    let n = vertex_count(level) as f64;
    2.max(((n / 6.0).sqrt() * 1.2).ceil() as usize)
}

// Lists with `more` entries beyond the needed ones, each entry a canary.
fn canaries(level: usize, more: usize, random: &mut Random) -> Lists {
    let [a, b, c, d] = ours::needed(level, grid_size(level)).map(|n| n + more);
    Lists {
        cell_offsets: (0..a).map(|_| random.bits() as u32).collect(),
        cell_vertices: (0..b).map(|_| random.bits() as u16).collect(),
        face_offsets: (0..c).map(|_| random.bits() as u32).collect(),
        faces: (0..d).map(|_| random.bits() as u16).collect(),
    }
}

fn same_list<T: PartialEq + std::fmt::Debug>(mesh: &Mesh, what: &str, theirs: &[T], before: &[T], ours: &[T]) {
    for i in 0..ours.len() {
        let want = if i < theirs.len() { &theirs[i] } else { &before[i] };
        if &ours[i] != want {
            let kind = if i < theirs.len() { "entry" } else { "entry behind the Rust's list, which is to stay," };
            differ(mesh, what, &format!("{kind} {i}"), &format!("{:?}", ours[i]), &format!("{want:?}"));
        }
    }
}

// The locator call against `FaceGrid::new`, entry by entry.
fn locators(mesh: &Mesh, lent: &Lent, grid: &FaceGrid, random: &mut Random, tally: &mut Tally) -> Lists {
    let more = random.below(4);
    let before = canaries(mesh.level, more, random);
    let mut lists = before.clone();
    report::input();
    let number = ours::locator(mesh.level as u64, lent, &mut lists);
    if number != 0 {
        differ(mesh, "the locator call", "the mesh", &format!("refused with {number}"), "accepted");
    }
    let faces: Vec<u16> = grid.adj_faces.iter().flat_map(|f| f.face.map(|v| v as u16)).collect();
    same_list(mesh, "cell offsets", &grid.vtx_offsets, &before.cell_offsets, &lists.cell_offsets);
    same_list(mesh, "cell vertices", &grid.vertex_ids, &before.cell_vertices, &lists.cell_vertices);
    same_list(mesh, "face offsets", &grid.adj_offsets, &before.face_offsets, &lists.face_offsets);
    same_list(mesh, "faces", &faces, &before.faces, &lists.faces);
    tally.meshes += 1;
    tally.entries += lists.cell_offsets.len() + lists.cell_vertices.len() + lists.face_offsets.len() + lists.faces.len();
    let ratio = |v: &[f64; 3], a: usize, b: usize| v[b] != 0.0 && (v[a] / v[b]).abs() > 1e19;
    tally.saturated += mesh.vertices.iter().filter(|v| (0..3).any(|a| (0..3).any(|b| ratio(v, a, b)))).count();
    lists
}

// Both searches of one direction, as they are to be answered.
fn same(mesh: &Mesh, vertices: &[f64], lists: &Lists, d: [f64; 3], nearest: Nearest, located: Located) {
    report::input();
    let input = || match mesh.level {
        0 | 1 => format!("{}, offsets of cells {:?} and of faces {:?}", words(&d), lists.cell_offsets, lists.face_offsets),
        _ => words(&d),
    };
    let got = ours::find_nearest_vertex(mesh.level, lists, vertices, d);
    if (got.number, got.vertex, bits(got.distance)) != (nearest.number, nearest.vertex, bits(nearest.distance)) {
        differ(mesh, "find_nearest_vertex", &input(), &nearest_words(&got), &nearest_words(&nearest));
    }
    let got = ours::locate(mesh.level, lists, vertices, d);
    let compared = |a: &Located| (a.number, a.vertex, bits(a.distance), a.face, a.weights.map(bits));
    if compared(&got) != compared(&located) {
        differ(mesh, "locate", &input(), &located_words(&got), &located_words(&located));
    }
}

// The same direction without a locator; what the Rust's search answers, unless the direction has no length.
fn without(mesh: &Mesh, lent: &Lent, d: [f64; 3], located: &Located, tally: &mut Without) {
    let length = Vector3::from(d).dot(&Vector3::from(d)).sqrt();
    let wanted = if length.is_finite() && length > 0.0 { *located } else { not_located(18) };
    report::input();
    let got = ours::search_over(mesh.level as u64, lent, d);
    let compared = |a: &Located| (a.number, a.vertex, bits(a.distance), a.face, a.weights.map(bits));
    if compared(&got) != compared(&wanted) {
        differ(mesh, "the search without a locator", &words(&d), &located_words(&got), &located_words(&wanted));
    }
    tally.levels[mesh.level] += 1;
    tally.other += (mesh.name != format!("icosphere of level {}", mesh.level)) as usize;
    tally.empty += (got.number == 20) as usize;
    tally.lengthless += (got.number == 18) as usize;
}

// A direction, as the Rust answers it.
fn search(mesh: &Mesh, lent: &Lent, lists: &Lists, grid: &FaceGrid, kind: &'static str, d: [f64; 3], tally: &mut Tally) {
    let dir = Vector3::from(d);
    let p = dir.normalize();
    let cell = grid.cell_index(&p);
    let listed = &grid.vertex_ids[grid.vtx_offsets[cell] as usize..grid.vtx_offsets[cell + 1] as usize];
    let distance = |v: usize| {
        let v = Vector3::from(mesh.vertices[v]);
        let e = Vector3 { x: p.x - v.x, y: p.y - v.y, z: p.z - v.z };
        e.x * e.x + e.y * e.y + e.z * e.z
    };
    let mut nearest = Nearest { number: 20, vertex: 0, distance: 0.0 };
    let mut located = not_located(20);
    if !listed.is_empty() {
        let v = grid.find_nearest_vertex(&dir);
        nearest = Nearest { number: 0, vertex: v as u64, distance: distance(v) };
        let (face, weights) = grid.locate(&dir);
        located = located_at(&nearest, (face.map(|v| v as u64), weights));
        let tied = listed.iter().filter(|&&w| bits(distance(w as usize)) == bits(nearest.distance)).count() > 1;
        tally.tied += tied as usize;
        tally.unfit += (face == [0; 3]) as usize;
        tally.strange += weights.iter().any(|w| !w.is_finite()) as usize;
    } else {
        tally.empty += 1;
    }
    same(mesh, &lent.vertices, lists, d, nearest, located);
    if tally.without.due(mesh.level) {
        without(mesh, lent, d, &located, &mut tally.without);
    }
    let l = p.dot(&p);
    tally.direction(if l.is_finite() && l > 0.0 { kind } else { "with no length, or an infinite one, or a NaN" });
}

// Axes and diagonals, with zeros of both signs.
fn corners() -> Vec<[f64; 3]> {
    let mut list = Vec::new();
    for x in [-1.0, -0.0, 0.0, 1.0] {
        for y in [-1.0, -0.0, 0.0, 1.0] {
            for z in [-1.0, -0.0, 0.0, 1.0] {
                list.push([x, y, z]);
            }
        }
    }
    list
}

// A direction to the border of two cells, or one float beside it.
fn border(g: usize, random: &mut Random) -> [f64; 3] {
    let mut coordinate = || {
        let u = 2.0 * random.below(g + 1) as f64 / g as f64 - 1.0;
        match random.below(3) {
            0 => u,
            1 => f64::from_bits(u.to_bits() + 1),
            _ => f64::from_bits(u.to_bits().saturating_sub(1)),
        }
    };
    let (u, w) = (coordinate(), coordinate());
    let s = if random.below(2) == 0 { 1.0 } else { -1.0 };
    let mut d = [s, u, w];
    d.rotate_right(random.below(3));
    scaled(d, [1.0, 0.25, 3.0][random.below(3)])
}

fn directions(mesh: &Mesh, g: usize, many: usize, random: &mut Random) -> Vec<(&'static str, [f64; 3])> {
    let mut list: Vec<(&'static str, [f64; 3])> = Vec::new();
    list.extend(corners().into_iter().map(|d| ("axes and diagonals", d)));
    let some = |random: &mut Random| random.below(mesh.vertices.len());
    for _ in 0..many {
        let i = some(random);
        let a = mesh.vertices[i];
        let b = mesh.vertices[mesh.neighbours[i][random.below(5)] as usize];
        let c = mesh.vertices[mesh.neighbours[i][random.below(5)] as usize];
        list.push(("to a vertex", a));
        list.push(("away from a vertex", scaled(a, -1.0)));
        list.push(("to the middle of an edge", [a[0] + b[0], a[1] + b[1], a[2] + b[2]]));
        list.push(("to the centre of a face", [a[0] + b[0] + c[0], a[1] + b[1] + c[1], a[2] + b[2] + c[2]]));
        list.push(("to the border of cells", border(g, random)));
        list.push(("whole numbers", [random.whole(3), random.whole(3), random.whole(3)]));
        list.push(("random", random.direction()));
        list.push(("random", random.direction()));
        list.push(("random", random.direction()));
        let down = 10f64.powi(-150 - random.below(13) as i32);
        list.push(("tiny", scaled(random.direction(), down)));
        let up = 10f64.powi(140 + random.below(15) as i32);
        list.push(("huge", scaled(random.direction(), up)));
        let mut flat = random.direction();
        flat[random.below(3)] *= 10f64.powi(-(random.below(330) as i32));
        list.push(("near a plane of two axes", flat));
        list.push(("any finite numbers", [random.finite(), random.finite(), random.finite()]));
    }
    for x in [f64::NAN, f64::INFINITY, f64::NEG_INFINITY, 1e200, 1e-200, 5e-324] {
        list.extend([("special", [x, 1.0, -2.0]), ("special", [0.0, x, x]), ("special", [x, -x, x])]);
    }
    list
}

fn compare(mesh: &Mesh, many: usize, random: &mut Random, tally: &mut Tally) {
    let lent = mesh.lent();
    let grid = FaceGrid::new(&mesh.vertices, &mesh.neighbours);
    if grid.grid_size != grid_size(mesh.level) {
        differ(mesh, "the grid size", "the mesh", &grid_size(mesh.level).to_string(), &grid.grid_size.to_string());
    }
    let lists = locators(mesh, &lent, &grid, random, tally);
    for (kind, d) in directions(mesh, grid.grid_size, many, random) {
        search(mesh, &lent, &lists, &grid, kind, d, tally);
    }
}

// ---- damaged lists

// One thing damaged about the lists that a direction is searched in: a span that is empty, wherever it lies; an offset, wherever it points; a vertex number.
fn damage(lists: &mut Lists, level: usize, cell: usize, nearest: usize, random: &mut Random) {
    let (cells, faces, n) = (lists.cell_vertices.len(), lists.faces.len(), vertex_count(level));
    let e = [cells, faces / 3, cells + 1, u32::MAX as usize, 1 << 31, 0, random.below(1 << 32)][random.below(7)] as u32;
    let v = [65535, n, random.below(n)][random.below(3)] as u16;
    match random.below(10) {
        0 | 1 => lists.cell_offsets[cell..cell + 2].fill(e),
        2 | 3 => lists.face_offsets[nearest..nearest + 2].fill(e),
        4 => lists.cell_offsets.fill(e),
        5 => lists.face_offsets.fill(e),
        6 => lists.cell_offsets[cell + random.below(2)] = e,
        7 => lists.face_offsets[nearest + random.below(2)] = e,
        8 => lists.cell_vertices[random.below(cells)] = v,
        _ => lists.faces[random.below(faces)] = v,
    }
}

// One list that is shorter.
fn cut(lists: &mut Lists, vertices: &mut Vec<f64>, cell: usize, nearest: usize, random: &mut Random) {
    match random.below(6) {
        0 => vertices.truncate(random.below(vertices.len())),
        1 => lists.cell_vertices.truncate(random.below(lists.cell_vertices.len())),
        2 => lists.faces.truncate(random.below(lists.faces.len())),
        3 => lists.faces.clear(),
        4 => lists.cell_offsets.truncate(cell + random.below(2)),
        _ => lists.face_offsets.truncate(nearest + random.below(2)),
    }
}

// A search over damaged lists, as it is read apart.
fn search_damaged(mesh: &Mesh, vertices: &[f64], lists: &Lists, d: [f64; 3], tally: &mut Tally) {
    let Lists { cell_offsets, cell_vertices, face_offsets, faces } = lists;
    let search = Search::new(search::Lent { vertices, cell_offsets, cell_vertices, face_offsets, faces }, mesh.level as u64, d);
    let (nearest, face) = (search.nearest(), search.face());
    let empty = face.is_ok_and(|f| f == ([0; 3], [0.0; 3]));
    let case: Refusal = face.err().unwrap_or((0, if empty { "no face fits" } else { "a face" }));
    *tally.damaged.entry(case).or_default() += 1;
    let nearest = match nearest {
        Ok((v, distance)) => Nearest { number: 0, vertex: v as u64, distance },
        Err((number, _)) => Nearest { number, vertex: 0, distance: 0.0 },
    };
    let located = match face {
        Ok((face, weights)) => located_at(&nearest, (face.map(|v| v as u64), weights)),
        Err((number, _)) => not_located(number),
    };
    same(mesh, vertices, lists, d, nearest, located);
}

fn damaged(mesh: &Mesh, many: usize, random: &mut Random, tally: &mut Tally) {
    let lent = mesh.lent();
    let grid = FaceGrid::new(&mesh.vertices, &mesh.neighbours);
    let good = locators(mesh, &lent, &grid, random, tally);
    for _ in 0..many {
        let d = random.direction();
        let p = Vector3::from(d).normalize();
        let cell = grid.cell_index(&p);
        let listed = grid.vtx_offsets[cell] < grid.vtx_offsets[cell + 1];
        let nearest = if listed { grid.find_nearest_vertex(&p) } else { 0 };
        let (mut lists, mut vertices) = (good.clone(), lent.vertices.clone());
        for _ in 0..random.below(3) {
            damage(&mut lists, mesh.level, cell, nearest, random);
        }
        if random.below(3) == 0 {
            cut(&mut lists, &mut vertices, cell, nearest, random);
        }
        search_damaged(mesh, &vertices, &lists, d, tally);
    }
}

// The questions 2, 6 and 7 of document 01; a call that is refused leaves the lists alone.
fn refused(mesh: &Mesh, random: &mut Random, tally: &mut Tally) {
    let mut expect = |what: &str, number: u64, level: u64, lent: &Lent, lists: &Lists| {
        let mut after = lists.clone();
        report::input();
        let got = ours::locator(level, lent, &mut after);
        if got != number || &after != lists {
            let stayed = if &after == lists { "lists as they were" } else { "lists changed" };
            differ(mesh, "a refused locator call", what, &format!("{got}, {stayed}"), &format!("(document 01) {number}, lists as they were"));
        }
        tally.refusals += 1;
    };
    let level = mesh.level as u64;
    let n = mesh.vertices.len();
    let lists = canaries(mesh.level, 0, random);
    let good = mesh.lent();
    for beyond in [16, 17, 255, 256, 1 << 32, u64::MAX] {
        expect("level beyond 15", 2, beyond, &good, &lists);
    }
    for list in 0..8 {
        let (mut lent, mut short) = (mesh.lent(), lists.clone());
        match list {
            0 => drop(lent.vertices.pop()),
            1 => drop(lent.counts.pop()),
            2 => drop(lent.neighbours.pop()),
            3 => drop(lent.angles.pop()),
            4 => drop(short.cell_offsets.pop()),
            5 => drop(short.cell_vertices.pop()),
            6 => drop(short.face_offsets.pop()),
            _ => drop(short.faces.pop()),
        }
        expect("a list one short", 6, level, &lent, &short);
        lent.counts[0] = 9;
        expect("a list one short, and a mesh against the rule", 6, level, &lent, &short);
    }
    for x in [f64::NAN, f64::INFINITY, f64::NEG_INFINITY] {
        let mut lent = mesh.lent();
        lent.vertices[3 * n - 1] = x;
        expect("a vertex that is not finite", 7, level, &lent, &lists);
    }
    for x in [f64::NAN, f64::INFINITY, -1.0, -5e-324] {
        let mut lent = mesh.lent();
        lent.angles[6 * n - 2] = x;
        expect("an angle against the rule", 7, level, &lent, &lists);
    }
    for count in [0, 4, 7, 255] {
        let mut lent = mesh.lent();
        lent.counts[n - 1] = count;
        expect("a count against the rule", 7, level, &lent, &lists);
    }
    let other = good.neighbours[1];
    let stranger = (0..n as u16).find(|w| *w != 0 && !mesh.neighbours[0].contains(w));
    for w in [0, n as u16, u16::MAX, other].into_iter().chain(stranger) {
        let mut lent = mesh.lent();
        lent.neighbours[0] = w;
        expect("a neighbour against the rule", 7, level, &lent, &lists);
    }
}

// The questions 2, 6, 7 without the angles, and 18, in this order.
fn refused_searches(mesh: &Mesh, tally: &mut Without) {
    const LENGTHLESS: [[f64; 3]; 4] = [[0.0, -0.0, 0.0], [f64::NAN, 1.0, 0.0], [f64::INFINITY, 0.0, 0.0], [1e200, 1e200, 0.0]];
    let mut expect = |what: &str, number: u64, level: u64, lent: &Lent| {
        for d in LENGTHLESS.into_iter().chain([[0.3, -0.2, 0.1]]) {
            report::input();
            let got = ours::search_over(level, lent, d);
            let wanted = not_located(number);
            let compared = |a: &Located| (a.number, a.vertex, a.distance.to_bits(), a.face, a.weights.map(f64::to_bits));
            if compared(&got) != compared(&wanted) {
                differ(mesh, "a refused search without a locator", what, &located_words(&got), &format!("(document 02) {}", located_words(&wanted)));
            }
            tally.refused += 1;
        }
    };
    let level = mesh.level as u64;
    let n = mesh.vertices.len();
    for beyond in [16, 17, 255, 256, 1 << 32, u64::MAX] {
        let mut lent = mesh.lent();
        expect("level beyond 15", 2, beyond, &lent);
        lent.counts[0] = 9;
        lent.vertices.pop();
        expect("level beyond 15, a list one short, and a mesh against the rule", 2, beyond, &lent);
    }
    for list in 0..3 {
        let mut lent = mesh.lent();
        match list {
            0 => drop(lent.vertices.pop()),
            1 => drop(lent.counts.pop()),
            _ => drop(lent.neighbours.pop()),
        }
        expect("a list one short", 6, level, &lent);
        lent.counts[0] = 9;
        expect("a list one short, and a mesh against the rule", 6, level, &lent);
    }
    for x in [f64::NAN, f64::INFINITY, f64::NEG_INFINITY] {
        let mut lent = mesh.lent();
        lent.vertices[3 * n - 1] = x;
        expect("a vertex that is not finite", 7, level, &lent);
    }
    for count in [0, 4, 7, 255] {
        let mut lent = mesh.lent();
        lent.counts[n - 1] = count;
        expect("a count against the rule", 7, level, &lent);
    }
    let stranger = (0..n as u16).find(|w| *w != 0 && !mesh.neighbours[0].contains(w));
    for w in [0, n as u16, u16::MAX, mesh.lent().neighbours[1]].into_iter().chain(stranger) {
        let mut lent = mesh.lent();
        lent.neighbours[0] = w;
        expect("a neighbour against the rule", 7, level, &lent);
    }
}

// Every function once, with answers worked out by hand, so that no argument stands in another's place.
fn signatures() {
    let mut lists = Lists {
        cell_offsets: (0..25).map(|cell| (cell > 3) as u32).collect(),
        cell_vertices: vec![7],
        face_offsets: (0..13).map(|v| (v > 7) as u32).collect(),
        faces: vec![2, 5, 7],
    };
    let mut lent = icosphere(0).lent();
    lent.vertices = vec![0.0; 36];
    lent.vertices[3 * 2] = 1.0;
    lent.vertices[3 * 5 + 1] = 1.0;
    lent.vertices[3 * 7] = 3.0;
    let a = ours::find_nearest_vertex(0, &lists, &lent.vertices, [2.0, 0.0, 0.0]);
    assert!((a.number, a.vertex, a.distance) == (0, 7, 4.0), "{}", nearest_words(&a));
    let a = ours::find_nearest_vertex(0, &lists, &lent.vertices, [-2.0, 0.0, 0.0]);
    assert!((a.number, a.vertex, a.distance) == (20, 0, 0.0), "{}", nearest_words(&a));
    let a = ours::locate(0, &lists, &lent.vertices, [2.0, 0.0, 0.0]);
    assert!((a.number, a.face, a.weights) == (0, [2, 5, 7], [1.0, 0.0, 0.0]), "{}", located_words(&a));
    let a = ours::locate(0, &lists, &lent.vertices[..24], [2.0, 0.0, 0.0]);
    assert!((a.number, a.face, a.weights) == (0, [2, 5, 7], [1.0, 0.0, 0.0]), "{}", located_words(&a));
    let a = ours::locate(0, &lists, &lent.vertices[..23], [2.0, 0.0, 0.0]);
    assert!((a.number, a.face, a.weights) == (19, [0; 3], [0.0; 3]), "{}", located_words(&a));
    assert_eq!(ours::locator(16, &lent, &mut lists), 2);
    let a = ours::search_over(0, &lent, [2.0, 0.0, 0.0]);
    assert!((a.number, a.vertex, a.distance) == (0, 2, 0.0), "{}", located_words(&a));
    println!("signatures: find_nearest_vertex, locate, locator and the search without a locator answer as worked out by hand");
}

// What has to have occurred over damaged lists.
const DAMAGED: [&str; 12] = [
    "a face",
    "no face fits",
    "a cell offset beyond what was lent",
    "a cell's end below its start",
    "a cell entry beyond what was lent",
    "a cell's vertex number beyond n",
    "a vertex beyond what was lent",
    "a face offset beyond what was lent",
    "a face's end below its start",
    "a face entry beyond what was lent",
    "a face's vertex number beyond n",
    "an empty cell",
];

fn main() {
    let (mut random, length) = arguments();
    let rounds = length.choose(1, 6);
    let mut tally = Tally::default();
    tally.without.density = length.choose(100, 600);
    signatures();
    let spheres: Vec<Mesh> = (0..16).map(icosphere).collect();
    for mesh in &spheres {
        compare(mesh, 2000 * rounds, &mut random, &mut tally);
        for _ in 0..2 * rounds {
            compare(&mesh.shuffled(&mut random), 1000, &mut random, &mut tally);
        }
    }
    let zeros = |m: &Mesh| m.over("all vertices 0", |_| [0.0, -0.0, 0.0]);
    let graphs = [icosphere(0), without_faces(), icosphere(1), sevens()];
    for mesh in &graphs {
        compare(mesh, 1000, &mut random, &mut tally);
        compare(&zeros(mesh), 50, &mut random, &mut tally);
        refused(mesh, &mut random, &mut tally);
        refused_searches(mesh, &mut tally.without);
        damaged(mesh, 5000 * rounds, &mut random, &mut tally);
        for _ in 0..60 * rounds {
            for kind in 0..STRANGE {
                let base = mesh.shuffled(&mut random);
                compare(&strange_points(&base, kind, &mut random), 20, &mut random, &mut tally);
            }
        }
    }
    for mesh in [&spheres[2], &spheres[3], &spheres[5], &spheres[15]] {
        refused(mesh, &mut random, &mut tally);
        refused_searches(mesh, &mut tally.without);
        damaged(mesh, 200 * rounds, &mut random, &mut tally);
        for kind in 0..STRANGE {
            let base = mesh.shuffled(&mut random);
            compare(&strange_points(&base, kind, &mut random), 200, &mut random, &mut tally);
        }
    }
    tally.print();
    println!("compare: all equal");
}
