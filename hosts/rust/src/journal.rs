//! A build whose calls are kept in a journal: the handle of hosts/c/icotable_handles.h, which keeps lists, journal and guard.
use crate::atom::pair_grid;
use crate::builder::Settled;
use crate::error::Error;
use crate::helpers::{Build, How, Plan};
use crate::refusal::Refusal;
use crate::sys::{AtomGrid, Grid};
use crate::tail::{self, Tail};
use crate::{AtomBuilder, Builder, Mesh, Slab};
use std::marker::PhantomData;
use std::path::Path;
use std::sync::Arc;

/// Whether calls are refused that the library accepts and that spoil a table: a set of a slice that was settled, a set or settle
/// before every nearer slice is settled, a settle while a slab of the slice is missing, a write with a slab missing or a slice
/// unsettled. At resume the recorded calls are asked, too.
///
/// ```
/// use simgrale::{settings, Builder, Error, Guard, JournalRefusal, Mesh};
///
/// let grid = settings(1.0, 4.0, 1.0, 3.2, 0.5, 0.4);
/// # let path = std::env::temp_dir().join(format!("simgrale-guard-{}.journal", std::process::id()));
/// let mut build = Builder::with_journal(&path, grid, Mesh::icospheres(0)?, Guard::On)?;
/// build.set(0, 0, &[1.0; 144])?;
/// let error = build.settle(0).unwrap_err();
/// assert_eq!(error.journal(), Some(JournalRefusal::SlabMissing));
/// assert!(error.to_string().ends_with("slab (0, 1), 1 of distance bin 0 in all"), "{error}");
/// # drop(build);
/// // without the guard the library decides
/// let mut build = Builder::resume(&path, grid, Mesh::icospheres(0)?, Guard::Off)?;
/// assert!(build.settle(0).is_ok());
/// # std::fs::remove_file(path)?;
/// # Ok::<(), Error>(())
/// ```
#[derive(Clone, Copy, Debug, Default, PartialEq, Eq)]
pub enum Guard {
    /// Such calls are refused.
    #[default]
    On,
    /// The library alone decides.
    Off,
}

/// How a journal is kept: with the guard or without, and with a label. A [`Guard`] alone is taken for it, too.
///
/// ```
/// use simgrale::{settings, Builder, Error, Guard, JournalOptions, JournalRefusal, Mesh};
///
/// let grid = settings(1.0, 4.0, 1.0, 3.2, 0.5, 0.4);
/// # let path = std::env::temp_dir().join(format!("simgrale-label-{}.journal", std::process::id()));
/// let options = JournalOptions::new().label("water and ethanol, OPLS");
/// let build = Builder::with_journal(&path, grid, Mesh::icospheres(0)?, options)?;
/// assert_eq!((build.label().as_str(), build.id().map(|id| id.len())), ("water and ethanol, OPLS", Some(32)));
/// # drop(build);
/// // a resume that hands over a label refuses a journal with another one; without a label any journal is resumed
/// let resumed = |options| Builder::resume(&path, grid, Mesh::icospheres(0).unwrap(), options);
/// let error = resumed(JournalOptions::new().label("two of water")).unwrap_err();
/// assert_eq!(error.journal(), Some(JournalRefusal::OtherIdentity));
/// assert_eq!(resumed(Guard::On.into())?.label(), "water and ethanol, OPLS");
/// # std::fs::remove_file(&path)?;
/// // for a library before 0.24, and without the guard
/// let options = JournalOptions::new().guard(Guard::Off).version_1();
/// assert_eq!(Builder::with_journal(&path, grid, Mesh::icospheres(0)?, options)?.id(), None);
/// # std::fs::remove_file(path)?;
/// # Ok::<(), Error>(())
/// ```
#[derive(Clone, Debug, Default, PartialEq, Eq)]
pub struct JournalOptions {
    guard: Guard,
    label: Option<String>,
    version_1: bool,
}

impl JournalOptions {
    /// With the guard, and without a label.
    pub fn new() -> JournalOptions {
        JournalOptions::default()
    }

    /// With the guard, or without it.
    pub fn guard(mut self, guard: Guard) -> JournalOptions {
        self.guard = guard;
        self
    }

    /// Your words for what is sampled, molecules and force field: UTF-8 of at most 4,096 bytes without control characters.
    pub fn label(mut self, label: impl Into<String>) -> JournalOptions {
        self.label = Some(label.into());
        self
    }

    /// A journal that begins has format version 1, without id and label, for a library before 0.24.
    pub fn version_1(mut self) -> JournalOptions {
        self.version_1 = true;
        self
    }

    fn flags(&self) -> u32 {
        u32::from(self.guard == Guard::Off) + 4 * u32::from(self.version_1)
    }
}

impl From<Guard> for JournalOptions {
    fn from(guard: Guard) -> JournalOptions {
        JournalOptions { guard, ..JournalOptions::default() }
    }
}

/// What a build does next, from contact outwards: what [`Journaled::next_step`] answers.
#[derive(Clone, Copy, Debug, PartialEq, Eq)]
pub enum Step {
    /// Sets slab (ri, oi) at the builder's level; against an atom oi is 0.
    Set {
        /// The distance bin.
        ri: u64,
        /// The dihedral bin.
        oi: u64,
    },
    /// Settles the slice.
    Settle {
        /// The distance bin.
        ri: u64,
    },
    /// Writes the table: every slab is set and every slice settled.
    Write,
}

/// A build with its journal, of the kind of table that `B` builds: an append-only file of the fresh, set and settle calls that were accepted, with
/// their answers. A call is made, its record brought to disk, and only then is it answered; where that fails, the call is taken back. A refused
/// call alters nothing and is not recorded. The file is locked as long as this lives. C keeps all of it (hosts/c/icotable_handles.h), as for Python.
///
/// A job that is killed and started again goes on where it was, and ends with the same table:
///
/// ```
/// use simgrale::{settings, Builder, Error, Guard, Journaled, Mesh, Step};
/// use std::path::Path;
///
/// // goes on with the build for so many calls, or until the table is written
/// fn job(folder: &Path, calls: usize) -> Result<(), Error> {
///     let (journal, grid) = (folder.join("build.journal"), settings(1.0, 5.0, 1.0, 2.1, 0.5, 0.4));
///     let mut build: Journaled<Builder> = Builder::open_journal(journal, grid, Mesh::icospheres(1)?, Guard::On)?;
///     for _ in 0..calls {
///         match build.next_step() {
///             Step::Set { ri, oi } => {
///                 let pairs = build.directions().len().pow(2) as u64;
///                 build.set(ri, oi, &(0..pairs).map(|i| ((i + oi) % 7) as f64 / (ri + 1) as f64).collect::<Vec<_>>())?
///             }
///             Step::Settle { ri } => {
///                 build.settle(ri)?;
///                 assert!(!build.level_lost(), "the remedy is a larger rmin");
///             }
///             Step::Write => return build.write(folder.join("table.icotable")),
///         }
///     }
///     Ok(())
/// }
///
/// # let folder = std::env::temp_dir().join(format!("simgrale-job-{}", std::process::id()));
/// # let table = folder.join("table.icotable");
/// # std::fs::create_dir_all(&folder)?;
/// job(&folder, usize::MAX)?;
/// let undisturbed = std::fs::read(&table)?;
/// # std::fs::remove_file(folder.join("build.journal"))?;
/// # std::fs::remove_file(&table)?;
/// // anew, and stopped after every third call
/// while !table.exists() {
///     job(&folder, 3)?;
/// }
/// assert_eq!(std::fs::read(&table)?, undisturbed);
/// # std::fs::remove_dir_all(folder)?;
/// # Ok::<(), Error>(())
/// ```
#[derive(Debug)]
pub struct Journaled<B> {
    build: Build,
    kind: PhantomData<fn() -> B>,
}

impl<B> Journaled<B> {
    fn new(how: How, path: &Path, plan: &Plan) -> Result<Journaled<B>, Error> {
        Ok(Journaled { build: Build::new(how, path, plan)?, kind: PhantomData })
    }
}

// What a build of each kind is opened with.
fn pair_plan<'a>(grid: Grid, mesh: &'a Arc<Mesh>, options: &'a JournalOptions) -> Plan<'a> {
    Plan { atom: false, grid, mesh, flags: options.flags(), label: options.label.as_deref() }
}

fn atom_plan<'a>(grid: AtomGrid, mesh: &'a Arc<Mesh>, options: &'a JournalOptions) -> Plan<'a> {
    Plan { atom: true, grid: pair_grid(grid), mesh, flags: options.flags(), label: options.label.as_deref() }
}

impl Builder {
    /// [Resumes](Builder::resume) the journal where it is there, and [begins](Builder::with_journal) it where it is not: what a job calls that a
    /// scheduler starts again. [`Journaled`] has an example.
    pub fn open_journal(
        path: impl AsRef<Path>,
        settings: Grid,
        mesh: impl Into<Arc<Mesh>>,
        options: impl Into<JournalOptions>,
    ) -> Result<Journaled<Builder>, Error> {
        Journaled::new(How::Open, path.as_ref(), &pair_plan(settings, &mesh.into(), &options.into()))
    }

    /// A build with no slab set, and a new journal of its calls. Refused ([`JournalRefusal::Exists`](crate::JournalRefusal::Exists)) where there is
    /// such a file. [`Journaled`] has an example.
    pub fn with_journal(
        path: impl AsRef<Path>,
        settings: Grid,
        mesh: impl Into<Arc<Mesh>>,
        options: impl Into<JournalOptions>,
    ) -> Result<Journaled<Builder>, Error> {
        Journaled::new(How::Begin, path.as_ref(), &pair_plan(settings, &mesh.into(), &options.into()))
    }

    /// The build that a journal's calls lead to, played again from fresh; each has to be answered as it was. Settings and meshes
    /// have to be those of the journal, to the bit, and so does a label that is handed over. A last record that is not whole is cut off; any other
    /// damage is refused with its place.
    pub fn resume(
        path: impl AsRef<Path>,
        settings: Grid,
        mesh: impl Into<Arc<Mesh>>,
        options: impl Into<JournalOptions>,
    ) -> Result<Journaled<Builder>, Error> {
        Journaled::new(How::Resume, path.as_ref(), &pair_plan(settings, &mesh.into(), &options.into()))
    }
}

impl AtomBuilder {
    /// As [`Builder::open_journal`].
    pub fn open_journal(
        path: impl AsRef<Path>,
        settings: AtomGrid,
        mesh: impl Into<Arc<Mesh>>,
        options: impl Into<JournalOptions>,
    ) -> Result<Journaled<AtomBuilder>, Error> {
        Journaled::new(How::Open, path.as_ref(), &atom_plan(settings, &mesh.into(), &options.into()))
    }

    /// As [`Builder::with_journal`].
    ///
    /// ```
    /// use simgrale::{atom_settings, AtomBuilder, Guard, Mesh, Step};
    ///
    /// let grid = atom_settings(1.0, 4.0, 1.0, 0.5, 0.4);
    /// # let path = std::env::temp_dir().join(format!("simgrale-ion-{}.journal", std::process::id()));
    /// let mut build = AtomBuilder::with_journal(&path, grid, Mesh::icospheres(1)?, Guard::On)?;
    /// build.set(0, &[1.0; 42])?;
    /// build.settle(0)?;
    /// # drop(build);
    /// // after a kill
    /// let mut build = AtomBuilder::resume(&path, grid, Mesh::icospheres(1)?, Guard::On)?;
    /// assert_eq!((build.records(), build.cut(), build.bytes()), (3, 0, std::fs::metadata(&path)?.len()));
    /// assert_eq!((build.is_set(0, 0), build.is_settled(0), build.is_set(1, 0), build.is_settled(3)), (Some(true), Some(true), Some(false), None));
    /// assert_eq!(build.next_step(), Step::Set { ri: 1, oi: 0 });
    /// assert!(build.write("ion.icotable").is_err());
    /// # std::fs::remove_file(path)?;
    /// # Ok::<(), simgrale::Error>(())
    /// ```
    pub fn with_journal(
        path: impl AsRef<Path>,
        settings: AtomGrid,
        mesh: impl Into<Arc<Mesh>>,
        options: impl Into<JournalOptions>,
    ) -> Result<Journaled<AtomBuilder>, Error> {
        Journaled::new(How::Begin, path.as_ref(), &atom_plan(settings, &mesh.into(), &options.into()))
    }

    /// As [`Builder::resume`].
    pub fn resume(
        path: impl AsRef<Path>,
        settings: AtomGrid,
        mesh: impl Into<Arc<Mesh>>,
        options: impl Into<JournalOptions>,
    ) -> Result<Journaled<AtomBuilder>, Error> {
        Journaled::new(How::Resume, path.as_ref(), &atom_plan(settings, &mesh.into(), &options.into()))
    }
}

impl<B> Journaled<B> {
    /// The calls in the journal, fresh among them.
    pub fn records(&self) -> u64 {
        self.build.state().records
    }

    /// The journal's length in bytes.
    pub fn bytes(&self) -> u64 {
        self.build.state().bytes
    }

    /// The bytes behind the last whole record that were cut off at resume.
    pub fn cut(&self) -> u64 {
        self.build.state().cut
    }

    /// The current level, at which slabs are set.
    pub fn level(&self) -> u64 {
        self.build.progress().level
    }

    /// Whether the level dropped before the first interpolated slice, as it does inside a wall, whose weights are flat
    /// where they are nearly 0. The well then has a coarser mesh than the top level's; begin again with a larger rmin.
    pub fn level_lost(&self) -> bool {
        self.build.progress().level_lost != 0
    }

    /// The length of the table's file in bytes, were it written now.
    pub fn file_length(&self) -> u64 {
        self.build.progress().length
    }

    /// The host's own words for what is sampled, of the journal's head; empty without any.
    pub fn label(&self) -> String {
        self.build.state().identity.label()
    }

    /// The id of the build in 32 hexadecimal digits, drawn when the journal was begun; none of a journal of format version 1.
    pub fn id(&self) -> Option<String> {
        self.build.state().identity.id()
    }

    /// The slab file of slab (ri, oi) at the current level; against an atom oi is 0. [`Slab`] has an example.
    pub fn slab(&self, ri: u64, oi: u64) -> Slab {
        Slab::of_build(&self.build, self.level(), ri, oi)
    }

    /// The meshes that it is built over.
    pub fn mesh(&self) -> &Arc<Mesh> {
        self.build.mesh()
    }

    /// The directions of the current level's vertices, in their order.
    pub fn directions(&self) -> Vec<[f64; 3]> {
        self.mesh().directions(self.level()).collect()
    }

    /// Whether a slab was set; none beyond the bins.
    pub fn is_set(&self, ri: u64, oi: u64) -> Option<bool> {
        let grid = &self.build.state().builder.grid;
        (ri < grid.n_r && oi < grid.n_omega).then(|| self.build.marks().0[(ri * grid.n_omega + oi) as usize] != 0)
    }

    /// Whether a slice was settled, and not set since; none beyond the bins.
    pub fn is_settled(&self, ri: u64) -> Option<bool> {
        self.build.marks().1.get(ri as usize).map(|settled| *settled != 0)
    }

    /// What the build does next.
    pub fn next_step(&self) -> Step {
        let p = self.build.progress();
        match p.step {
            0 => Step::Set { ri: p.ri, oi: p.oi },
            1 => Step::Settle { ri: p.ri },
            _ => Step::Write,
        }
    }

    /// Settles the slabs of a distance bin, kept. The level may drop.
    pub fn settle(&mut self, ri: u64) -> Result<Settled, Error> {
        let settled = self.build.settle(ri)?;
        Ok(Settled { gradient: settled.gradient, comparisons: settled.comparisons })
    }

    /// Writes the table to a file, its seal to `path.meta` and, where the meshes are not the library's own, these to `path.mesh`, as
    /// [`Builder::save`] does. Writes are not recorded.
    pub fn write(&mut self, path: impl AsRef<Path>) -> Result<(), Error> {
        self.build.write(path.as_ref())
    }
}

impl Journaled<Builder> {
    /// [`Builder::set`], kept.
    pub fn set(&mut self, ri: u64, oi: u64, energies: &[f64]) -> Result<(), Error> {
        self.build.set(ri, oi, energies)
    }

    /// The same as [`write`](Journaled::write) with a long-range tail.
    pub fn write_tail(&mut self, path: impl AsRef<Path>, tail: &Tail) -> Result<(), Error> {
        if tail.prefactor.is_none() && !tail.terms.is_empty() {
            return Err(Refusal::Prefactor.into());
        }
        self.build.write_tail(path.as_ref(), &tail::Lists::of(tail).terms())
    }

    /// The settings with the bin counts that they give.
    pub fn grid(&self) -> Grid {
        self.build.state().builder.grid
    }
}

impl Journaled<AtomBuilder> {
    /// [`AtomBuilder::set`], kept.
    pub fn set(&mut self, ri: u64, energies: &[f64]) -> Result<(), Error> {
        self.build.set(ri, 0, energies)
    }

    /// The settings with the bin count that they give.
    pub fn grid(&self) -> AtomGrid {
        let g = self.build.state().builder.grid;
        AtomGrid { rmin: g.rmin, rmax: g.rmax, dr: g.dr, threshold: g.threshold, beta: g.beta, n_r: g.n_r }
    }
}
