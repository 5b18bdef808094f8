// Writes saves with the Rust's own `save`, and its own `lookup` of each save at some poses: saves FOLDER.
// adaptive.rs, lookup.rs, subdivision/mod.rs and subdivision/lattice.rs are the Rust's files as they are; flat.rs is what
// `make` cuts out of the Rust's. Not the Rust's: vector.rs in the place of nalgebra's vector, mesh.rs (a trait), and
// subdivision/geodesic.rs, since the Rust's mesh maker is not at hand.
#[allow(dead_code)]
mod adaptive;
#[allow(dead_code)]
mod flat;
#[allow(dead_code)]
mod lookup;
mod mesh;
#[path = "../../../tests/compare/meshes.rs"]
#[allow(dead_code)]
mod meshes;
mod poses;
mod saves;
#[allow(dead_code)]
mod subdivision;
mod vector;

mod ico {
    pub type Face = [usize; 3];
}

pub use flat::TableMetadata;
pub use vector::Vector3;

fn main() {
    let folder = std::env::args().nth(1).expect("a folder");
    saves::write(std::path::Path::new(&folder)).expect("the saves");
}
