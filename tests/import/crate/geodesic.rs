// In the place of the Rust's subdivision/geodesic.rs, which is not at hand and calls hexasphere. The vertices are those of
// tests/compare/meshes.rs, rounded to f32 as hexasphere's are, which are then divided by their length, and reordered breadth
// first by the Rust's own functions; the weights are by the Rust's solid_angle_weights. So the meshes of the stored saves are
// of the Rust's form, and not its very numbers.
use super::{solid_angle_weights, MeshData};
use crate::flat::{apply_vertex_permutation, bfs_vertex_permutation};
use crate::meshes::icosphere;
use crate::Vector3;

pub(crate) fn build_mesh(level: usize) -> MeshData {
    let mesh = icosphere(level);
    let narrowed = |v: &[f64; 3]| Vector3::from(v.map(|x| x as f32 as f64)).normalize();
    let mut vertices: Vec<[f64; 3]> = mesh.vertices.iter().map(narrowed).map(|v| [v.x, v.y, v.z]).collect();
    let mut neighbors = mesh.neighbours;
    let permutation = bfs_vertex_permutation(&neighbors);
    let n = vertices.len();
    apply_vertex_permutation::<f64>(&permutation, &mut vertices, &mut neighbors, &mut [], n, 1);
    let weights = solid_angle_weights(&vertices, &neighbors);
    MeshData { vertices, weights, neighbors }
}
