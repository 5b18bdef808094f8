// A search without a locator beside the locator call and a search with it, by level, on an icosphere whose vertices are in another order: what one direction costs either way, and the number of
// directions from which the locator pays. Its questions are timed by a direction without a length, which is refused after them.
#[path = "../tests/compare/meshes.rs"]
#[allow(dead_code)]
mod meshes;
#[path = "../tests/compare/ours.rs"]
#[allow(dead_code)]
mod ours;
#[allow(dead_code)]
mod timing;

use meshes::{icosphere, vertex_count, Random};
use ours::Lists;
use std::hint::black_box;
use timing::{each, figure, least_alone, used};

const DIRECTIONS: usize = 32;

fn lists(level: usize) -> Lists {
    let n = vertex_count(level) as f64;
    let g = 2.max(((n / 6.0).sqrt() * 1.2).ceil() as usize);
    let [a, b, c, d] = ours::needed(level, g);
    Lists { cell_offsets: vec![0; a], cell_vertices: vec![0; b], face_offsets: vec![0; c], faces: vec![0; d] }
}

fn main() {
    let mut random = Random::of(12);
    println!("| level | vertices | locator call, µs | locate with it, µs | search without it, µs | of that its questions, µs | the same against the call and one locate | the locator pays from |");
    println!("|---|---|---|---|---|---|---|---|");
    for level in 0..16 {
        let mesh = icosphere(level).shuffled(&mut random);
        let (lent, mut lists) = (mesh.lent(), lists(level));
        let made = least_alone(60, 1, || used(ours::locator(level as u64, black_box(&lent), &mut lists))) / 1000.0;
        let directions: Vec<[f64; 3]> = (0..DIRECTIONS).map(|_| random.direction()).collect();
        for &d in &directions {
            let (a, b) = (ours::locate(level, &lists, &lent.vertices, d), ours::search_over(level as u64, &lent, d));
            assert_eq!((a.number, a.vertex, a.distance, a.face, a.weights), (b.number, b.vertex, b.distance, b.face, b.weights));
        }
        let with = least_alone(200, DIRECTIONS, || each(&directions, |&d| used(ours::locate(level, &lists, &lent.vertices, d)))) / 1000.0;
        let without = least_alone(60, DIRECTIONS, || each(&directions, |&d| used(ours::search_over(level as u64, &lent, d)))) / 1000.0;
        let asked = least_alone(60, DIRECTIONS, || each(&directions, |_| used(ours::search_over(level as u64, &lent, [0.0; 3])))) / 1000.0;
        let pays = (made / (without - with)).ceil();
        let figures = [made, with, without, asked].map(figure).join(" | ");
        println!("| {level} | {} | {figures} | {:.2} | {pays} |", vertex_count(level), without / (made + with));
    }
}
