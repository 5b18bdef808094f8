//! Slab files.
use crate::atom::pair_grid;
use crate::error::Error;
use crate::helpers::{self, Plan};
use crate::sys::{AtomGrid, Grid};
use crate::Mesh;
use std::fmt;
use std::path::Path;
use std::sync::Arc;

/// The file of one slab's energies, which a task of a cluster writes for a build whose journal another process keeps (docs/FORMAT.md, Slab files;
/// `icotable collect`). A file is there whole or not at all.
///
/// ```
/// use simgrale::{settings, Builder, JournalOptions, Mesh, Slab};
/// use std::sync::Arc;
///
/// # let folder = std::env::temp_dir().join(format!("simgrale-slab-{}", std::process::id()));
/// # std::fs::create_dir_all(&folder)?;
/// let (grid, mesh) = (settings(1.0, 4.0, 1.0, 3.2, 0.5, 0.4), Arc::new(Mesh::icospheres(1)?));
/// let begin = |name, label| Builder::with_journal(folder.join(name), grid, mesh.clone(), JournalOptions::new().label(label));
/// let mut build = begin("build.journal", "water and ethanol")?;
/// // a task: slab (0, 1) at level 1
/// let mut slab = Slab::of_journal(folder.join("build.journal"), 1, 0, 1)?;
/// slab.write(&folder, &vec![-1.0; slab.count()])?;
/// assert!(folder.join(slab.file_name()).exists());
/// // the process that keeps the journal
/// build.set(0, 1, &build.slab(0, 1).read(&folder)?)?;
/// // another build with the same settings
/// let error = begin("other.journal", "two of water")?.slab(0, 1).read(&folder).unwrap_err();
/// assert_eq!(error.number(), Some(240));
/// assert!(error.to_string().contains("'water and ethanol'") && error.to_string().contains("'two of water'"));
/// # drop(build);
/// # std::fs::remove_dir_all(folder)?;
/// # Ok::<(), simgrale::Error>(())
/// ```
pub struct Slab(helpers::Slab);

impl Slab {
    /// Slab (ri, oi) at a level, of the build whose journal this is; against an atom oi is 0. What a task calls: the journal's head is read, and the
    /// journal may be open in another process.
    pub fn of_journal(path: impl AsRef<Path>, level: u64, ri: u64, oi: u64) -> Result<Slab, Error> {
        helpers::Slab::of_journal(path.as_ref(), level, ri, oi).map(Slab)
    }

    pub(crate) fn of_build(build: &helpers::Build, level: u64, ri: u64, oi: u64) -> Slab {
        Slab(helpers::Slab::of_build(build, level, ri, oi))
    }

    /// Slab (ri, oi) at a level, of a build with these settings and meshes whose journal is of format version 1: it has neither id nor label, and
    /// two molecules with equal settings have the same files.
    ///
    /// ```
    /// use simgrale::{settings, Mesh, Slab};
    ///
    /// let slab = Slab::new(settings(1.0, 4.0, 1.0, 3.2, 0.5, 0.4), &Mesh::icospheres(1)?.into(), 1, 2, 0);
    /// assert_eq!((slab.count(), slab.file_name().as_str()), (42 * 42, "slab-2-0-1.icoslab"));
    /// # Ok::<(), simgrale::Error>(())
    /// ```
    pub fn new(settings: Grid, mesh: &Arc<Mesh>, level: u64, ri: u64, oi: u64) -> Slab {
        Slab(helpers::Slab::new(&Plan { atom: false, grid: settings, mesh, flags: 0, label: None }, level, ri, oi))
    }

    /// The same against an atom.
    ///
    /// ```
    /// use simgrale::{atom_settings, Mesh, Slab};
    ///
    /// let slab = Slab::of_atom(atom_settings(1.0, 4.0, 1.0, 0.5, 0.4), &Mesh::icospheres(1)?.into(), 1, 2);
    /// assert_eq!((slab.count(), slab.file_name().as_str()), (42, "slab-2-0-1.icoslab"));
    /// # Ok::<(), simgrale::Error>(())
    /// ```
    pub fn of_atom(settings: AtomGrid, mesh: &Arc<Mesh>, level: u64, ri: u64) -> Slab {
        Slab(helpers::Slab::new(&Plan { atom: true, grid: pair_grid(settings), mesh, flags: 0, label: None }, level, ri, 0))
    }

    /// How many energies it has; 0 for a level above 15.
    pub fn count(&self) -> usize {
        self.0.count()
    }

    /// The name of its file.
    pub fn file_name(&self) -> String {
        self.0.file_name()
    }

    /// Writes its file to a folder, in the place of one that is there.
    pub fn write(&mut self, folder: impl AsRef<Path>, energies: &[f64]) -> Result<(), Error> {
        self.0.write(folder.as_ref(), energies)
    }

    /// Reads its energies.
    pub fn read(&mut self, folder: impl AsRef<Path>) -> Result<Vec<f64>, Error> {
        self.0.read(folder.as_ref())
    }
}

impl fmt::Debug for Slab {
    fn fmt(&self, f: &mut fmt::Formatter<'_>) -> fmt::Result {
        write!(f, "Slab({})", self.file_name())
    }
}
