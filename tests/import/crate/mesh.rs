// The trait that adaptive.rs has its meshes keep; the Rust's own file of it is not at hand.
#[allow(dead_code)]
pub trait AngularMesh {
    fn len(&self) -> usize;
    fn direction(&self, i: usize) -> crate::Vector3;
    fn weight(&self, i: usize) -> f64;
    fn neighbors(&self, i: usize) -> &[u16];
}
