//! Loosely packed table files, made packed ones.
use crate::refusal::{answer, Refusal};
use crate::sys;

/// What [`repack`] gives.
#[derive(Clone, Debug, PartialEq, Eq)]
pub struct Repacked {
    /// The packed table file.
    pub file: Vec<u8>,
    /// How many rows have another offset than they had.
    pub moved: u64,
}

/// Packs a file of two molecules whose Mesh rows have their energies anywhere in section 5, with gaps, shared parts or in another order:
/// all else is unchanged, every reading stays, and [`Table::read`](crate::Table::read) accepts the result. A file that it accepts comes back as it
/// is. A row whose energies do not end inside section 5 is refused ([`Refusal::SlabPlace`]).
///
/// ```
/// use simgrale::{repack, settings, Builder, Error, Mesh, Refusal, Repacked, Table};
///
/// let mut builder = Builder::new(settings(1.0, 3.0, 1.0, 3.2, 0.5, 0.4), Mesh::icospheres(0)?)?;
/// builder.set(0, 0, &(0..144).map(f64::from).collect::<Vec<_>>())?;
/// let packed = builder.write()?;
/// // one energy more, behind all others: a gap that no row has
/// let (mut loose, count) = (packed.clone(), packed.len() - 4 * 144 - 4);
/// loose[count..count + 4].copy_from_slice(&145u32.to_le_bytes());
/// loose.extend([0; 4]);
/// assert_eq!(Table::read(loose.clone(), builder.mesh().clone()).unwrap_err(), Error::Refused(Refusal::Tiling));
/// assert_eq!(repack(&loose)?, Repacked { file: packed, moved: 0 });
/// # Ok::<(), Error>(())
/// ```
pub fn repack(file: &[u8]) -> Result<Repacked, Refusal> {
    let mut packed = vec![0; file.len()];
    let mut done = sys::repack(file, &mut packed);
    if done.number == Refusal::ShortOutput.number() {
        // shared parts: the last question alone was answered no, so the rows are sound
        packed = vec![0; packed_length(file)];
        done = sys::repack(file, &mut packed);
    }
    packed.truncate(done.length as usize);
    answer(done.number, Repacked { file: packed, moved: done.moved })
}

// The length of the packed file of one whose sections and rows are sound.
fn packed_length(file: &[u8]) -> usize {
    let count = |at: usize| u32::from_le_bytes([file[at], file[at + 1], file[at + 2], file[at + 3]]) as usize;
    let rows = 48 + 4 * count(40);
    let energies = rows + 10 * count(rows - 4) + 4;
    let per = |row: &[u8]| if row[0] > 1 { sys::vertices(row[1].into()).pow(2) as usize } else { 0 };
    let total: usize = file[rows..energies - 4].chunks(10).map(per).sum();
    file.len() - 4 * count(energies - 4) + 4 * total
}
