//! A table that is being built.
use crate::environment::FloatEnvironment;
use crate::error::Error;
use crate::helpers::Plan;
use crate::lists::Lists;
use crate::refusal::{answer, Refusal};
use crate::sizing::sizing;
use crate::sys::{self, Grid};
use crate::tail::{self, Tail};
use crate::Mesh;
use std::path::Path;
use std::sync::Arc;

/// A table of two molecules that is being built: owns the lists that it is built in. A refused call leaves all of them, and the builder, as they
/// were.
///
/// Slabs are set and slices settled from contact outwards, since the level may drop at each settle. It is [`Send`]: one thread at a time calls
/// it, whichever that is.
///
/// ```
/// use simgrale::{settings, Builder, Mesh, Table};
/// use std::sync::Arc;
///
/// // any energy of two molecules, at a distance and a dihedral angle, with directions a and b
/// fn energy(r: f64, omega: f64, a: [f64; 3], b: [f64; 3]) -> f64 {
///     (3.0 / r).powi(6) * (1.0 + a[2] * b[2] + 0.5 * omega.cos() * a[0] * b[1])
/// }
///
/// let mesh = Arc::new(Mesh::icospheres(2)?);
/// let mut builder = Builder::new(settings(1.0, 6.0, 1.0, 1.0472, 0.5, 0.4), mesh.clone())?;
/// let grid = builder.grid();
/// for ri in 0..grid.n_r {
///     let (r, directions) = (grid.rmin + ri as f64 * grid.dr, builder.directions());
///     for oi in 0..grid.n_omega {
///         let omega = oi as f64 * grid.omega_step;
///         let energies: Vec<f64> = directions.iter().flat_map(|&a| directions.iter().map(move |&b| energy(r, omega, a, b))).collect();
///         builder.set(ri, oi, &energies)?;
///     }
///     builder.settle(ri)?;
/// }
/// let file = builder.write()?;
/// assert_eq!(file.len() as u64, builder.file_length());
/// assert!(builder.share() < 1.0 && builder.level() < mesh.top());
/// let (a, b) = ([0.0, 0.0, 1.0], [0.0, 0.6, 0.8]);
/// let read = Table::read(file, mesh)?.lookup(3.0, 0.0, a, b)?;
/// assert!((read - energy(3.0, 0.0, a, b)).abs() < 0.1);
/// # Ok::<(), simgrale::Error>(())
/// ```
#[derive(Clone, Debug, PartialEq)]
pub struct Builder {
    held: sys::Builder,
    longest: u64,
    mesh: Arc<Mesh>,
    lists: Lists,
}

/// What a settle tells of its slice, or of its slab against an atom. [`Builder::settle`] has an example.
#[derive(Clone, Copy, Debug, PartialEq)]
pub struct Settled {
    /// The largest gradient of the slabs that still hold energies; against an atom the slab's own, also where it becomes Scalar.
    pub gradient: f64,
    /// The neighbour comparisons made: for each slab whose gradient was worked out 2·n times the total of the current level's
    /// neighbour counts, against an atom the total once.
    pub comparisons: u64,
}

// Energies of a slab.
pub(crate) fn per(level: u64) -> usize {
    (sys::vertices(level) as usize).pow(2)
}

impl Builder {
    /// A builder with no slab set, at the mesh's top level.
    pub fn new(settings: Grid, mesh: impl Into<Arc<Mesh>>) -> Result<Builder, Error> {
        FloatEnvironment::ask()?;
        let mesh = mesh.into();
        let size = sizing(settings, &mesh)?;
        let mut lists = Lists::of(&size);
        let built = sys::fresh(settings, mesh.top(), &mut lists.lent(), mesh.lent());
        Ok(answer(built.number, Builder { held: built.builder, longest: size.file, mesh, lists })?)
    }

    /// Gives the slab of a distance bin and a dihedral bin its energies: that of vertices a and b of the current level at a·n + b.
    pub fn set(&mut self, ri: u64, oi: u64, energies: &[f64]) -> Result<(), Refusal> {
        let built = sys::set(self.held, &mut self.lists.lent(), ri, oi, energies);
        self.held = built.builder;
        answer(built.number, ())
    }

    /// Settles the slabs of a distance bin. The level may drop.
    ///
    /// ```
    /// use simgrale::{settings, Builder, Mesh, Refusal, Settled};
    ///
    /// let mut builder = Builder::new(settings(1.0, 4.0, 1.0, 3.2, 0.5, 0.4), Mesh::icospheres(1)?)?;
    /// for oi in 0..2 {
    ///     builder.set(0, oi, &(0..42 * 42).map(|i| f64::from(i % 3) / 10.0).collect::<Vec<_>>())?;
    /// }
    /// let Settled { gradient, comparisons } = builder.settle(0)?;
    /// assert!(gradient > 0.0 && gradient < 0.5);
    /// // two slabs of 42 vertices with 240 neighbours in all
    /// assert_eq!((comparisons, builder.level()), (2 * (2 * 42 * 240), 0));
    /// // the energies are of a level that has gone: settled again they would be taken for others
    /// assert_eq!(builder.settle(0), Err(Refusal::OtherLevel));
    /// # Ok::<(), simgrale::Error>(())
    /// ```
    pub fn settle(&mut self, ri: u64) -> Result<Settled, Refusal> {
        let settled = sys::settle(self.held, &mut self.lists.lent(), self.mesh.lent(), ri);
        self.held = settled.builder;
        answer(settled.number, Settled { gradient: settled.gradient, comparisons: settled.comparisons })
    }

    /// The table file.
    pub fn write(&self) -> Result<Vec<u8>, Refusal> {
        let mut output = vec![0; self.file_length() as usize];
        let written = sys::write(self.held, self.lists.held(), self.mesh.lent(), &mut output);
        output.truncate(written.length as usize);
        answer(written.number, output)
    }

    /// The table file with a long-range tail, [`file_length`](Builder::file_length) and, where there are terms, 12 bytes and 20 a term long.
    /// [`Tail`] has an example.
    pub fn write_tail(&self, tail: &Tail) -> Result<Vec<u8>, Refusal> {
        let mut output = vec![0; self.file_length() as usize + tail.length()];
        let lists = tail::Lists::of(tail);
        let written = sys::write_tail(self.held, self.lists.held(), self.mesh.lent(), lists.lent(), &mut output);
        output.truncate(written.length as usize);
        answer(written.number, output)
    }

    /// Writes the table to a file, its seal to `path.meta` and, where the meshes are not the library's own, these to `path.mesh`: each under another
    /// name, brought to disk and renamed, in the place of what is there. A kill leaves the table before, or one that [`Table::open`](crate::Table::open)
    /// refuses until it is written again.
    ///
    /// ```
    /// use simgrale::{settings, Builder, Mesh, Table};
    ///
    /// let builder = Builder::new(settings(1.0, 4.0, 1.0, 3.2, 0.5, 0.4), Mesh::icospheres(0)?)?;
    /// # let folder = std::env::temp_dir().join(format!("simgrale-save-{}", std::process::id()));
    /// # std::fs::create_dir_all(&folder)?;
    /// let path = folder.join("table.icotable");
    /// builder.save(&path)?;
    /// assert_eq!(Table::open(&path)?.file(), builder.write()?);
    /// let error = builder.save("no/such/folder/table").unwrap_err();
    /// assert_eq!(error.number(), Some(267));
    /// assert!(error.to_string().ends_with("no/such/folder/table: No such file or directory"));
    /// # std::fs::remove_dir_all(folder)?;
    /// # Ok::<(), simgrale::Error>(())
    /// ```
    pub fn save(&self, path: impl AsRef<Path>) -> Result<(), Error> {
        self.plan().save(&self.write()?, path.as_ref())
    }

    /// The same with a long-range tail. [`Tail`] has an example.
    pub fn save_tail(&self, path: impl AsRef<Path>, tail: &Tail) -> Result<(), Error> {
        self.plan().save(&self.write_tail(tail)?, path.as_ref())
    }

    fn plan(&self) -> Plan<'_> {
        Plan { atom: false, grid: self.grid(), mesh: &self.mesh, flags: 0, label: None }
    }

    /// The length of the file that [`write`](Builder::write) would give now, in bytes. The builder counts as it is built, so no row is walked.
    pub fn file_length(&self) -> u64 {
        let grid = self.held.grid;
        52 + 4 * (self.held.top + 1) + 10 * grid.n_r * grid.n_omega + 4 * self.held.packed
    }

    /// That length as a share of the longest file: the one whose slabs all hold energies of the top level.
    pub fn share(&self) -> f64 {
        self.file_length() as f64 / self.longest as f64
    }

    /// The settings with the bin counts that they give.
    pub fn grid(&self) -> Grid {
        self.held.grid
    }

    /// The current level, at which slabs are set.
    pub fn level(&self) -> u64 {
        self.held.level
    }

    /// The rows as they are now, a word for each slab, those of a distance bin one after another;
    /// [`words_to_rows`](crate::words_to_rows) takes them apart.
    ///
    /// ```
    /// use simgrale::{settings, words_to_rows, Builder, Mesh};
    ///
    /// let mut builder = Builder::new(settings(1.0, 4.0, 1.0, 3.2, 0.5, 0.4), Mesh::icospheres(0)?)?;
    /// builder.set(1, 0, &[50.0; 144])?;
    /// assert_eq!(words_to_rows(builder.words())?.kinds, [0, 0, 3, 0, 0, 0]);
    /// builder.settle(1)?;
    /// assert_eq!(words_to_rows(builder.words())?.kinds, [0, 0, 1, 0, 0, 0]);
    /// # Ok::<(), simgrale::Error>(())
    /// ```
    pub fn words(&self) -> &[u64] {
        &self.lists.words
    }

    /// The meshes that it is built over.
    pub fn mesh(&self) -> &Arc<Mesh> {
        &self.mesh
    }

    /// The directions of the current level's vertices, in their order.
    pub fn directions(&self) -> Vec<[f64; 3]> {
        self.mesh.directions(self.level()).collect()
    }
}
