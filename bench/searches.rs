// The search and the locator call beside the Rust's, on an icosphere whose vertices are in another order.
use crate::meshes::{icosphere, Random};
use crate::oracle::{FaceGrid, Vector3};
use crate::timing::{each, least, used};
use crate::{landed, new};
use std::hint::black_box;

// Nanoseconds of find_nearest_vertex, of locate, and of the locator call for a vertex.
pub fn measure(level: usize, random: &mut Random) -> [[f64; 3]; 3] {
    let mesh = icosphere(level).shuffled(random);
    let grid = FaceGrid::new(&mesh.vertices, &mesh.neighbours);
    let mut a = landed::side::Search::new(level, grid.grid_size, mesh.lent());
    let mut b = new::side::Search::new(level, grid.grid_size, mesh.lent());
    let mut rust = || drop(black_box(FaceGrid::new(black_box(&mesh.vertices), &mesh.neighbours)));
    let built = least(20, mesh.vertices.len(), [&mut || a.locator(), &mut || b.locator(), &mut rust]);
    a.locator();
    let directions: Vec<[f64; 3]> = (0..4096).map(|_| random.direction()).collect();
    for &d in &directions {
        let dir = Vector3::from(d);
        let (vertex, weights) = (grid.find_nearest_vertex(&dir) as u64, grid.locate(&dir).1);
        assert_eq!((a.nearest(d), a.weights(d), b.nearest(d), b.weights(d)), (vertex, weights, vertex, weights));
    }
    let mut rust = || each(&directions, |&d| used(grid.find_nearest_vertex(&Vector3::from(d))));
    let nearest = least(100, directions.len(), [&mut || a.nearest_all(&directions), &mut || b.nearest_all(&directions), &mut rust]);
    let mut rust = || each(&directions, |&d| used(grid.locate(&Vector3::from(d))));
    let located = least(100, directions.len(), [&mut || a.locate_all(&directions), &mut || b.locate_all(&directions), &mut rust]);
    [nearest, located, built]
}
