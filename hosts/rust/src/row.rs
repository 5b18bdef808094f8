//! The rows of a table file.

/// What a slab's row is: what a reading of the slab gives.
#[derive(Clone, Copy, Debug, PartialEq)]
pub enum Kind {
    /// This energy, whatever the directions. A slab that was never set is 0.0.
    Scalar(f32),
    /// A wall: infinity.
    Repulsive,
    /// From the slab's energies.
    Mesh {
        /// The mesh that they are of.
        level: u8,
        /// Over the faces that the directions meet; else at the nearest vertices.
        interpolate: bool,
    },
}

/// A slab's row, and its energies where it is a Mesh row. [`Table::rows`](crate::Table::rows) and
/// [`AtomTable::rows`](crate::AtomTable::rows) give one after another.
///
/// ```
/// use simgrale::{atom_settings, AtomBuilder, AtomTable, Kind, Mesh};
///
/// let mut builder = AtomBuilder::new(atom_settings(1.0, 4.0, 1.0, 0.5, 0.4), Mesh::icospheres(0)?)?;
/// builder.set(0, &[100.0; 12])?;
/// builder.set(1, &[0.0, 9.0, 1.0, 8.0, 2.0, 7.0, 3.0, 6.0, 4.0, 5.0, 0.0, 9.0])?;
/// for ri in 0..3 {
///     builder.settle(ri)?;
/// }
/// let table = AtomTable::read(builder.write()?, builder.mesh().clone())?;
/// let kinds: Vec<Kind> = table.rows().map(|(_, row)| row.kind).collect();
/// assert_eq!(kinds, [Kind::Repulsive, Kind::Mesh { level: 0, interpolate: true }, Kind::Scalar(0.0)]);
/// assert_eq!(table.row(1).map(|row| row.energies[1]), Some(9.0));
/// # Ok::<(), simgrale::Error>(())
/// ```
#[derive(Clone, Debug, PartialEq)]
pub struct Row {
    /// What it is.
    pub kind: Kind,
    /// That of vertices a and b of its level at a·n + b, against an atom that of vertex a at a; none where it is no Mesh row.
    pub energies: Vec<f32>,
}

impl Row {
    // Row s of a file whose sections begin at these places, a slab of a level having so many energies.
    pub(crate) fn of(file: &[u8], start: &[u64], s: u64, per: impl Fn(u64) -> usize) -> Row {
        let word = |at: usize| u32::from_le_bytes([file[at], file[at + 1], file[at + 2], file[at + 3]]);
        let at = (start[3] + 10 * s) as usize;
        let (level, offset) = (file[at + 1], word(at + 2));
        let kind = match file[at] {
            0 => Kind::Scalar(f32::from_bits(word(at + 6))),
            1 => Kind::Repulsive,
            kind => Kind::Mesh { level, interpolate: kind == 3 },
        };
        let count = match kind {
            Kind::Mesh { .. } => per(level as u64),
            _ => 0,
        };
        let energy = |i: usize| f32::from_bits(word(start[4] as usize + 4 * (offset as usize + i)));
        Row { kind, energies: (0..count).map(energy).collect() }
    }
}
