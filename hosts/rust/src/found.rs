//! A search without a locator.
use crate::refusal::{answer, Refusal};
use crate::{sys, Mesh};

/// Where a direction falls on a level's mesh: what [`Mesh::search`] answers.
#[derive(Clone, Copy, Debug, PartialEq)]
pub struct Found {
    /// The nearest vertex of the direction's cell.
    pub vertex: usize,
    /// The square of the distance to it from the direction, divided by its length.
    pub distance: f64,
    /// Of the vertex's faces the one that fits the direction best; face and weights are 0 throughout where none fits.
    pub face: [usize; 3],
    /// The direction's weights in that face.
    pub weights: [f64; 3],
}

/// Finds a direction of any length over one level's mesh as it is lent to the library: three coordinates a vertex, its neighbour count, and six
/// places for neighbours. The answer is that of a search with the mesh's locator, bit for bit. Every call looks over the whole mesh: docs/GUIDE.md
/// has the number of searches from which a locator takes less time.
///
/// ```
/// use simgrale::{search, Mesh};
///
/// let mesh = Mesh::icospheres(0)?;
/// let level = mesh.level(0).expect("level 0 is there");
/// let vertices: Vec<f64> = level.vertices.iter().flatten().copied().collect();
/// let counts: Vec<u8> = level.neighbours.iter().map(|list| list.len() as u8).collect();
/// // six places a vertex, of which one with five neighbours uses five
/// let places = |list: &Vec<(u16, f64)>| (0..6).map(|k| list.get(k).map_or(0, |w| w.0)).collect::<Vec<u16>>();
/// let neighbours: Vec<u16> = level.neighbours.iter().flat_map(places).collect();
/// let found = search(0, &vertices, &counts, &neighbours, [0.3, 0.5, 0.7])?;
/// assert_eq!(found, mesh.search(0, [0.3, 0.5, 0.7])?);
/// # Ok::<(), simgrale::Error>(())
/// ```
pub fn search(level: u64, vertices: &[f64], counts: &[u8], neighbours: &[u16], direction: [f64; 3]) -> Result<Found, Refusal> {
    let found = sys::search(level, vertices, counts, neighbours, direction);
    answer(found.number, ())?;
    Ok(Found { vertex: found.vertex as usize, distance: found.distance, face: found.face.map(|v| v as usize), weights: found.weights })
}

impl Mesh {
    /// Finds a direction of any length over one level, without its locator.
    ///
    /// ```
    /// use simgrale::{Found, Mesh, Refusal};
    ///
    /// let mesh = Mesh::icospheres(2)?;
    /// let Found { vertex, distance, face, weights } = mesh.search(2, [0.3, 0.5, 0.7])?;
    /// assert!(distance < 0.06 && face.contains(&vertex));
    /// assert!((weights.iter().sum::<f64>() - 1.0).abs() < 1e-12);
    /// assert_eq!(mesh.search(2, [0.0; 3]), Err(Refusal::Query));
    /// # Ok::<(), simgrale::Error>(())
    /// ```
    pub fn search(&self, level: u64, direction: [f64; 3]) -> Result<Found, Refusal> {
        let (vertices, counts, neighbours) = self.level_links(level);
        search(level, vertices, counts, neighbours, direction)
    }
}
