//! Seals of tables.
use crate::error::Error;
use crate::helpers;
use crate::sys::Grid;
use std::path::Path;

/// What a table's seal says: the file `path.meta` beside a table, which [`Builder::save`](crate::Builder::save) and
/// [`Journaled::write`](crate::Journaled::write) write (docs/FORMAT.md, Seals).
///
/// ```
/// use simgrale::{settings, Builder, Mesh, Seal};
///
/// # let folder = std::env::temp_dir().join(format!("simgrale-seal-{}", std::process::id()));
/// # std::fs::create_dir_all(&folder)?;
/// let path = folder.join("table.icotable");
/// assert_eq!(Seal::read(&path)?, None);
/// let builder = Builder::new(settings(1.0, 4.0, 1.0, 3.2, 0.5, 0.4), Mesh::icospheres(1)?)?;
/// builder.save(&path)?;
/// let seal = Seal::read(&path)?.expect("it was saved with one");
/// assert_eq!((seal.grid, seal.top, seal.own_meshes), (builder.grid(), 1, true));
/// assert_eq!((seal.table_length, seal.sha256.len(), seal.journal_sha256), (builder.file_length(), 64, None));
/// // a table that the host wrote itself: nothing is known of its build
/// assert_eq!((seal.guarded, seal.whole, seal.id, seal.label.as_str()), (None, None, None, ""));
/// # std::fs::remove_dir_all(folder)?;
/// # Ok::<(), simgrale::Error>(())
/// ```
#[derive(Clone, Debug, PartialEq)]
#[non_exhaustive]
pub struct Seal {
    /// The SHA-256 of the table in 64 hexadecimal digits.
    pub sha256: String,
    /// The table's length in bytes.
    pub table_length: u64,
    /// Whether the table is of one molecule against an atom. Its grid has no step of the dihedral angle then, and one dihedral bin.
    pub atom: bool,
    /// The settings and bin counts of the build, threshold and beta among them, which a table does not hold.
    pub grid: Grid,
    /// The top level of the build.
    pub top: u64,
    /// The hash of the meshes (docs/FORMAT.md).
    pub meshes_hash: u64,
    /// Whether these are the library's own.
    pub own_meshes: bool,
    /// The version of the library that wrote the table.
    pub version: String,
    /// The SHA-256 of the build's journal, if it had one.
    pub journal_sha256: Option<String>,
    /// Whether the guard was on; none where the seal does not know.
    pub guarded: Option<bool>,
    /// Whether every slab was set and every slice settled after its sets; none where the seal does not know. An unset slab reads as 0.0.
    pub whole: Option<bool>,
    /// The id of the build in 32 hexadecimal digits, if it had a journal of format version 2.
    pub id: Option<String>,
    /// The host's own words for what was sampled; empty without any.
    pub label: String,
}

// enum icotable_known
fn known(known: u32) -> Option<bool> {
    match known {
        1 => Some(true),
        2 => Some(false),
        _ => None,
    }
}

impl Seal {
    /// The seal beside a table of this path; none where there is none. One that is damaged, or of another format version, is refused.
    pub fn read(path: impl AsRef<Path>) -> Result<Option<Seal>, Error> {
        Ok(helpers::read_seal(path.as_ref())?.map(|s| Seal {
            sha256: helpers::field(&s.sha256),
            table_length: s.table_length,
            atom: s.atom != 0,
            grid: s.grid,
            top: s.top,
            meshes_hash: s.meshes_hash,
            own_meshes: s.own_meshes != 0,
            version: helpers::field(&s.version),
            journal_sha256: (s.journaled != 0).then(|| helpers::field(&s.journal_sha256)),
            guarded: known(s.guarded),
            whole: known(s.whole),
            id: s.identity.id(),
            label: s.identity.label(),
        }))
    }
}
