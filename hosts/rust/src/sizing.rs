//! What a build needs, before anything is sampled.
use crate::refusal::{answer, Refusal};
use crate::sys::{self, AtomGrid, Grid, Size};
use crate::Mesh;

/// What a build needs, as the library works it out from settings and meshes alone. Builders size their own lists by it.
#[derive(Clone, Debug, PartialEq)]
pub struct Sizing {
    /// Slabs, each of which has a row.
    pub slabs: u64,
    /// Doubles in the store.
    pub store: u64,
    /// Bytes of the longest file: no list of calls writes a longer one, and setting every slab at the top level without settling
    /// writes one that long; of [`sizing_with_terms`] with at most, and with, that many terms.
    pub file: u64,
    /// One entry for each level, from 0 to the top one.
    pub levels: Vec<LevelSizing>,
}

/// The lengths of a level's locator lists, and the comparisons of one settle at it whose slabs are all filled and none Repulsive.
#[derive(Clone, Copy, Debug, PartialEq)]
pub struct LevelSizing {
    /// Entries of the list that says where each cell's vertices begin.
    pub cell_offsets: u64,
    /// Entries of the list of the cells' vertices.
    pub cell_vertices: u64,
    /// Entries of the list that says where each vertex's faces begin.
    pub face_offsets: u64,
    /// Entries of the list of the vertices' faces.
    pub faces: u64,
    /// Neighbour comparisons.
    pub comparisons: u64,
}

/// What a table of two molecules needs that has no long-range tail.
///
/// ```
/// use simgrale::{settings, sizing, sizing_with_terms, LevelSizing, Mesh, Refusal, Sizing};
///
/// let (grid, mesh) = (settings(1.0, 25.0, 0.75, 0.5235987755982988, 0.5, 0.40339), Mesh::icospheres(3)?);
/// let Sizing { slabs, store, file, levels } = sizing(grid, &mesh)?;
/// assert_eq!((slabs, store, file), (384, 384 * 162 * 162, 40_314_692));
/// let LevelSizing { cell_vertices, faces, comparisons, .. } = levels[3];
/// assert_eq!((levels.len(), cell_vertices, faces, comparisons), (4, 27 * 162, 45 * 162, 12 * 2 * 162 * 960));
/// // a long-range tail of two terms
/// assert_eq!(sizing_with_terms(grid, &mesh, 2)?.file, file + 12 + 2 * 20);
/// assert_eq!(sizing(settings(1.0, 25.0, -0.75, 0.5, 0.5, 0.4), &mesh), Err(Refusal::Settings));
/// # Ok::<(), simgrale::Error>(())
/// ```
pub fn sizing(settings: Grid, mesh: &Mesh) -> Result<Sizing, Refusal> {
    sizing_with_terms(settings, mesh, 0)
}

/// What a table of two molecules needs whose long-range tail has at most so many terms; [`sizing`] has an example.
pub fn sizing_with_terms(settings: Grid, mesh: &Mesh, terms: u64) -> Result<Sizing, Refusal> {
    let (counts, neighbours) = mesh.links();
    let n = sys::vertices(mesh.top());
    of(sys::sizing(settings, mesh.top(), counts, neighbours, terms), mesh.top(), n * n)
}

/// What a table of one molecule against an atom needs.
///
/// ```
/// use simgrale::{atom_settings, atom_sizing, Mesh};
///
/// let size = atom_sizing(atom_settings(1.0, 25.0, 0.5, 0.5, 0.40339), &Mesh::icospheres(5)?)?;
/// assert_eq!((size.slabs, size.store), (48, 48 * 362));
/// # Ok::<(), simgrale::Error>(())
/// ```
pub fn atom_sizing(settings: AtomGrid, mesh: &Mesh) -> Result<Sizing, Refusal> {
    let (counts, neighbours) = mesh.links();
    of(sys::atom_sizing(settings, mesh.top(), counts, neighbours), mesh.top(), sys::vertices(mesh.top()))
}

// `per` is the number of a slab's energies at the top level.
fn of(size: Size, top: u64, per: u64) -> Result<Sizing, Refusal> {
    answer(size.number, ())?;
    let level = |m: usize| LevelSizing {
        cell_offsets: size.cell_offsets[m],
        cell_vertices: size.cell_vertices[m],
        face_offsets: size.face_offsets[m],
        faces: size.faces[m],
        comparisons: size.comparisons[m],
    };
    Ok(Sizing { slabs: size.store / per, store: size.store, file: size.file, levels: (0..=top as usize).map(level).collect() })
}
