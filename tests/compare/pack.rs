// The table file of a table that the Rust built, byte by byte as document 01 lays it out, and what read returns for it.
use crate::rust::SlabResolution;
use crate::shape::{self, RustTable, Table, HEADS};

pub fn packed(t: &RustTable) -> (Vec<u8>, Table) {
    let mut file = Vec::new();
    let mut start = [0; 5];
    let mut section = |k: usize, count: usize, items: Vec<u8>| {
        file.extend((count as u32).to_le_bytes());
        start[k] = file.len() as u64;
        file.extend(items);
    };
    let (omega_step, n_omega) = shape::rust_dihedral(t);
    section(0, HEADS[0], [t.rmin, t.dr, omega_step][..HEADS[0]].iter().flat_map(|x| x.to_le_bytes()).collect());
    section(1, HEADS[1], [t.n_r, n_omega][..HEADS[1]].iter().flat_map(|&n| (n as u32).to_le_bytes()).collect());
    section(2, t.levels.len(), t.levels.iter().flat_map(|l| (l.n_vertices as u32).to_le_bytes()).collect());
    let mut rows = Vec::new();
    for (res, offset) in t.slab_res.iter().zip(&t.slab_offsets) {
        let (kind, level, scalar) = match *res {
            SlabResolution::Scalar(x) => (0, 0, if x.is_nan() { 0x7fc0_0000 } else { x.to_bits() }),
            SlabResolution::Repulsive => (1, 0, 0),
            SlabResolution::Mesh { level, interpolate } => (2 + interpolate as u8, level, 0),
        };
        rows.extend([kind, level]);
        rows.extend(offset.to_le_bytes());
        rows.extend(u32::to_le_bytes(scalar));
    }
    section(3, t.slab_res.len(), rows);
    section(4, t.data.len(), t.data.iter().flat_map(|x| x.to_bits().to_le_bytes()).collect());
    let grid = shape::grid([t.rmin, t.rmax, t.dr, omega_step, 0.0, 0.0], [t.n_r as u64, n_omega as u64]);
    let counts = [t.levels.len(), t.slab_res.len(), t.data.len()].map(|n| n as u64);
    let table = shape::table(grid, counts, start, &file);
    (file, table)
}
