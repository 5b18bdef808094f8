//! Meshes of levels 0 to a top one, and their locators; in each list one level's part follows another's.
use crate::error::Error;
use crate::helpers::{self, Meshes};
use crate::refusal::{answer, Refusal};
use crate::sys;
use std::path::Path;

/// The meshes that a table is built over and read with, and their locators: levels from 0 to a top one.
///
/// Builders and tables share one by an [`Arc`](std::sync::Arc); where only one needs it, hand over the mesh itself. It is [`Send`] and [`Sync`],
/// and nothing alters it once it is made.
///
/// ```
/// use simgrale::{vertex_count, Mesh, Refusal};
///
/// let mesh = Mesh::icospheres(3)?;
/// assert_eq!((mesh.top(), mesh.directions(3).len(), vertex_count(3)), (3, 162, Some(162)));
/// assert!(mesh.directions(3).all(|[x, y, z]| (x * x + y * y + z * z - 1.0).abs() < 1e-12));
/// assert_eq!(mesh.directions(4).len(), 0);
/// assert_eq!(Mesh::icospheres(16), Err(Refusal::Level));
/// # Ok::<(), simgrale::Error>(())
/// ```
#[derive(Clone, Debug, PartialEq)]
pub struct Mesh {
    top: u64,
    vertices: Vec<f64>,
    counts: Vec<u8>,
    neighbours: Vec<u16>,
    angles: Vec<f64>,
    cell_offsets: Vec<u32>,
    cell_vertices: Vec<u16>,
    face_offsets: Vec<u32>,
    faces: Vec<u16>,
}

/// One level of a mesh as a host makes it. [`Mesh::new`] has an example.
#[derive(Clone, Debug, Default, PartialEq)]
pub struct Level {
    /// The place of each vertex: a point of the sphere of radius 1, which the mesh rule does not ask.
    pub vertices: Vec<[f64; 3]>,
    /// For each vertex its neighbours, 5 or 6, with the angle to each in radians.
    pub neighbours: Vec<Vec<(u16, f64)>>,
}

impl Mesh {
    /// The library's own meshes, icospheres: the faces of an icosahedron cut into m + 1 along each edge for level m. Their maker is C's
    /// (hosts/c/mesh.c) and is not proved; what it makes is put to the library's mesh rule.
    pub fn icospheres(top: u64) -> Result<Mesh, Refusal> {
        if top > 15 {
            return Err(Refusal::Level);
        }
        let refused = |number| Refusal::of(number).unwrap_or_else(|| panic!("{}", helpers::words(number)));
        helpers::make_meshes(top, Mesh::copied).map_err(refused)
    }

    /// The meshes of a mesh file (docs/FORMAT.md), which stands beside a table that is not over the library's own.
    ///
    /// ```
    /// use simgrale::Mesh;
    ///
    /// let path = std::env::temp_dir().join(format!("simgrale-{}.mesh", std::process::id()));
    /// let mesh = Mesh::icospheres(1)?;
    /// mesh.save(&path)?;
    /// assert_eq!(Mesh::load(&path)?, mesh);
    /// std::fs::write(&path, b"a letter, not a mesh file")?;
    /// assert_eq!(Mesh::load(&path).unwrap_err().number(), Some(242));
    /// # std::fs::remove_file(path)?;
    /// # Ok::<(), simgrale::Error>(())
    /// ```
    pub fn load(path: impl AsRef<Path>) -> Result<Mesh, Error> {
        helpers::load_meshes(path.as_ref(), Mesh::copied)
    }

    /// Writes all levels to a mesh file, in the place of one that is there. Builders write it by themselves where it is needed.
    pub fn save(&self, path: impl AsRef<Path>) -> Result<(), Error> {
        helpers::save_meshes(self, path.as_ref())
    }

    /// Meshes of a host's own, from level 0 on. Refused where one does not keep the mesh rule.
    ///
    /// ```
    /// use simgrale::{Mesh, Refusal};
    ///
    /// let mut level = Mesh::icospheres(0)?.level(0).expect("level 0 is there");
    /// assert_eq!(Mesh::new(std::slice::from_ref(&level))?, Mesh::icospheres(0)?);
    /// // a vertex that lists one that does not list it in turn
    /// level.neighbours[0].pop();
    /// assert_eq!(Mesh::new(&[level]), Err(Refusal::Mesh));
    /// assert_eq!(Mesh::new(&[]), Err(Refusal::ShortList));
    /// # Ok::<(), simgrale::Error>(())
    /// ```
    pub fn new(levels: &[Level]) -> Result<Mesh, Refusal> {
        let Some(top) = levels.len().checked_sub(1) else {
            return Err(Refusal::ShortList);
        };
        let mut mesh = Mesh {
            top: top as u64,
            vertices: Vec::new(),
            counts: Vec::new(),
            neighbours: Vec::new(),
            angles: Vec::new(),
            cell_offsets: Vec::new(),
            cell_vertices: Vec::new(),
            face_offsets: Vec::new(),
            faces: Vec::new(),
        };
        for (m, level) in levels.iter().enumerate() {
            mesh.push(m as u64, level)?;
        }
        Ok(mesh)
    }

    /// The level that a table over these meshes begins with.
    pub fn top(&self) -> u64 {
        self.top
    }

    /// The directions of a level's vertices, in their order; none above the top.
    pub fn directions(&self, level: u64) -> impl ExactSizeIterator<Item = [f64; 3]> + '_ {
        let at: usize = (0..level.min(self.top + 1)).map(|m| sys::vertices(m) as usize).sum();
        let n = if level > self.top { 0 } else { sys::vertices(level) as usize };
        self.vertices[3 * at..3 * (at + n)].chunks_exact(3).map(|v| [v[0], v[1], v[2]])
    }

    /// A level as it was made; none above the top.
    pub fn level(&self, level: u64) -> Option<Level> {
        if level > self.top {
            return None;
        }
        let vertices: Vec<[f64; 3]> = self.directions(level).collect();
        let at: usize = (0..level).map(|m| sys::vertices(m) as usize).sum();
        let list = |v: usize| (6 * v..6 * v + self.counts[v] as usize).map(|k| (self.neighbours[k], self.angles[k])).collect();
        Some(Level { neighbours: (at..at + vertices.len()).map(list).collect(), vertices })
    }

    // A copy of lists that C has.
    pub(crate) fn copied(m: &Meshes) -> Mesh {
        fn list<T: Copy>(first: *const T, count: usize) -> Vec<T> {
            unsafe { std::slice::from_raw_parts(first, count) }.to_vec()
        }
        Mesh {
            top: m.top,
            vertices: list(m.vertices, m.vertices_count),
            counts: list(m.neighbour_counts, m.neighbour_counts_count),
            neighbours: list(m.neighbours, m.neighbours_count),
            angles: list(m.angles, m.angles_count),
            cell_offsets: list(m.cell_offsets, m.cell_offsets_count),
            cell_vertices: list(m.cell_vertices, m.cell_vertices_count),
            face_offsets: list(m.face_offsets, m.face_offsets_count),
            faces: list(m.faces, m.faces_count),
        }
    }

    // The lists as C takes them, which reads alone.
    pub(crate) fn lists(&self) -> Meshes {
        Meshes {
            top: self.top,
            vertices: self.vertices.as_ptr(),
            angles: self.angles.as_ptr(),
            neighbour_counts: self.counts.as_ptr(),
            neighbours: self.neighbours.as_ptr(),
            cell_vertices: self.cell_vertices.as_ptr(),
            faces: self.faces.as_ptr(),
            cell_offsets: self.cell_offsets.as_ptr(),
            face_offsets: self.face_offsets.as_ptr(),
            vertices_count: self.vertices.len(),
            angles_count: self.angles.len(),
            neighbour_counts_count: self.counts.len(),
            neighbours_count: self.neighbours.len(),
            cell_offsets_count: self.cell_offsets.len(),
            cell_vertices_count: self.cell_vertices.len(),
            face_offsets_count: self.face_offsets.len(),
            faces_count: self.faces.len(),
        }
    }

    pub(crate) fn lent(&self) -> sys::Meshes<'_> {
        sys::Meshes { vertices: &self.vertices, counts: &self.counts, neighbours: &self.neighbours, angles: &self.angles }
    }

    // Neighbour counts and neighbours.
    pub(crate) fn links(&self) -> (&[u8], &[u16]) {
        (&self.counts, &self.neighbours)
    }

    // A level's vertices, neighbour counts and neighbours; none above the top.
    pub(crate) fn level_links(&self, level: u64) -> (&[f64], &[u8], &[u16]) {
        let at: usize = (0..level.min(self.top + 1)).map(|m| sys::vertices(m) as usize).sum();
        let end = if level > self.top { at } else { at + sys::vertices(level) as usize };
        (&self.vertices[3 * at..3 * end], &self.counts[at..end], &self.neighbours[6 * at..6 * end])
    }

    // One level more, with its locator.
    fn push(&mut self, m: u64, level: &Level) -> Result<(), Refusal> {
        let n = sys::vertices(m) as usize;
        if n > 0 && (level.vertices.len() != n || level.neighbours.len() != n) {
            return Err(Refusal::ShortList);
        }
        let at = self.counts.len();
        self.vertices.extend(level.vertices.iter().flatten());
        for list in &level.neighbours {
            self.counts.push(list.len().min(255) as u8);
            for k in 0..6 {
                let (w, angle) = list.get(k).copied().unwrap_or((0, 0.0));
                self.neighbours.push(w);
                self.angles.push(angle);
            }
        }
        let (cells, faces) = (self.cell_offsets.len(), self.face_offsets.len());
        self.cell_offsets.resize(cells + sys::cells(m) as usize, 0);
        self.cell_vertices.resize(27 * (at + n), 0);
        self.face_offsets.resize(faces + n + 1, 0);
        self.faces.resize(45 * (at + n), 0);
        let level = sys::Meshes {
            vertices: &self.vertices[3 * at..],
            counts: &self.counts[at..],
            neighbours: &self.neighbours[6 * at..],
            angles: &self.angles[6 * at..],
        };
        let mut locator = sys::Locator {
            cell_offsets: &mut self.cell_offsets[cells..],
            cell_vertices: &mut self.cell_vertices[27 * at..],
            face_offsets: &mut self.face_offsets[faces..],
            faces: &mut self.faces[45 * at..],
        };
        let number = sys::locator(m, level, &mut locator);
        answer(number, ())
    }
}
