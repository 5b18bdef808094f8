
// ---- not the Rust's: tables of one slab, to be refused by name
impl Table6DFlat<f32> {
    pub fn by_hand(vertices: Vec<[f64; 3]>, neighbors: Vec<Vec<u16>>) -> Self {
        let n = vertices.len();
        let data = vec![1.0; n * n];
        Self { rmin: 1.0, rmax: 2.0, dr: 1.0, n_r: 1, omega_step: 6.0, n_omega: 1, n_vertices: n, vertices, neighbors, data, metadata: None, locator: OnceLock::new() }
    }
}

impl Table3DFlat<f32> {
    pub fn by_hand(vertices: Vec<[f64; 3]>, neighbors: Vec<Vec<u16>>) -> Self {
        let n = vertices.len();
        Self { rmin: 1.0, rmax: 2.0, dr: 1.0, n_r: 1, n_vertices: n, vertices, neighbors, data: vec![1.0; n], locator: OnceLock::new() }
    }
}
