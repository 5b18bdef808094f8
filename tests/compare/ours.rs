// The static library, as a Rust caller sees it: a slice is a pointer and a length.
use crate::meshes::{vertex_count, Lent};

#[repr(C)]
#[derive(Clone, Copy)]
pub struct Nearest {
    pub number: u64,
    pub vertex: u64,
    pub distance: f64,
}

#[repr(C)]
#[derive(Clone, Copy)]
pub struct Located {
    pub number: u64,
    pub vertex: u64,
    pub distance: f64,
    pub face: [u64; 3],
    pub weights: [f64; 3],
}

extern "C" {
    fn search_find_nearest_vertex(
        level: u8,
        cell_offsets: *const u32,
        cell_offsets_len: usize,
        cell_vertices: *const u16,
        cell_vertices_len: usize,
        vertices: *const f64,
        vertices_len: usize,
        x: f64,
        y: f64,
        z: f64,
    ) -> Nearest;
    fn search_locate(
        level: u8,
        cell_offsets: *const u32,
        cell_offsets_len: usize,
        cell_vertices: *const u16,
        cell_vertices_len: usize,
        face_offsets: *const u32,
        face_offsets_len: usize,
        faces: *const u16,
        faces_len: usize,
        vertices: *const f64,
        vertices_len: usize,
        x: f64,
        y: f64,
        z: f64,
    ) -> Located;
    fn search_mesh(
        level: u64,
        vertices: *const f64,
        vertices_len: usize,
        counts: *const u8,
        counts_len: usize,
        neighbours: *const u16,
        neighbours_len: usize,
        x: f64,
        y: f64,
        z: f64,
    ) -> Located;
    fn search_locator(
        level: u64,
        vertices: *const f64,
        vertices_len: usize,
        counts: *const u8,
        counts_len: usize,
        neighbours: *const u16,
        neighbours_len: usize,
        angles: *const f64,
        angles_len: usize,
        cell_offsets: *mut u32,
        cell_offsets_len: usize,
        cell_vertices: *mut u16,
        cell_vertices_len: usize,
        face_offsets: *mut u32,
        face_offsets_len: usize,
        faces: *mut u16,
        faces_len: usize,
    ) -> u64;
}

// The four lists that the locator call fills.
#[derive(Clone, PartialEq)]
pub struct Lists {
    pub cell_offsets: Vec<u32>,
    pub cell_vertices: Vec<u16>,
    pub face_offsets: Vec<u32>,
    pub faces: Vec<u16>,
}

// The lengths that a level needs, for a grid of g cells to an edge of the cube.
pub fn needed(level: usize, g: usize) -> [usize; 4] {
    let n = vertex_count(level);
    [6 * g * g + 1, 27 * n, n + 1, 45 * n]
}

pub fn locator(level: u64, mesh: &Lent, lists: &mut Lists) -> u64 {
    unsafe {
        search_locator(
            level,
            mesh.vertices.as_ptr(),
            mesh.vertices.len(),
            mesh.counts.as_ptr(),
            mesh.counts.len(),
            mesh.neighbours.as_ptr(),
            mesh.neighbours.len(),
            mesh.angles.as_ptr(),
            mesh.angles.len(),
            lists.cell_offsets.as_mut_ptr(),
            lists.cell_offsets.len(),
            lists.cell_vertices.as_mut_ptr(),
            lists.cell_vertices.len(),
            lists.face_offsets.as_mut_ptr(),
            lists.face_offsets.len(),
            lists.faces.as_mut_ptr(),
            lists.faces.len(),
        )
    }
}

pub fn find_nearest_vertex(level: usize, lists: &Lists, vertices: &[f64], d: [f64; 3]) -> Nearest {
    unsafe {
        search_find_nearest_vertex(
            level as u8,
            lists.cell_offsets.as_ptr(),
            lists.cell_offsets.len(),
            lists.cell_vertices.as_ptr(),
            lists.cell_vertices.len(),
            vertices.as_ptr(),
            vertices.len(),
            d[0],
            d[1],
            d[2],
        )
    }
}

pub fn locate(level: usize, lists: &Lists, vertices: &[f64], d: [f64; 3]) -> Located {
    unsafe {
        search_locate(
            level as u8,
            lists.cell_offsets.as_ptr(),
            lists.cell_offsets.len(),
            lists.cell_vertices.as_ptr(),
            lists.cell_vertices.len(),
            lists.face_offsets.as_ptr(),
            lists.face_offsets.len(),
            lists.faces.as_ptr(),
            lists.faces.len(),
            vertices.as_ptr(),
            vertices.len(),
            d[0],
            d[1],
            d[2],
        )
    }
}

// The search without a locator: the mesh's angles are not lent.
pub fn search_over(level: u64, mesh: &Lent, d: [f64; 3]) -> Located {
    unsafe {
        search_mesh(
            level,
            mesh.vertices.as_ptr(),
            mesh.vertices.len(),
            mesh.counts.as_ptr(),
            mesh.counts.len(),
            mesh.neighbours.as_ptr(),
            mesh.neighbours.len(),
            d[0],
            d[1],
            d[2],
        )
    }
}
