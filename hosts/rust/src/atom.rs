//! Tables of one molecule against an atom: a slab is one distance bin, with an energy for each vertex.
use crate::builder::Settled;
use crate::environment::FloatEnvironment;
use crate::error::Error;
use crate::helpers::{Plan, Reader};
use crate::lists::AtomLists;
use crate::refusal::{answer, Refusal};
use crate::row::Row;
use crate::sizing::atom_sizing;
use crate::sys::{self, AtomGrid, Grid};
use crate::table::{other_kind, Place};
use crate::Mesh;
use std::path::Path;
use std::sync::Arc;

// Energies of a slab.
fn per(level: u64) -> usize {
    sys::vertices(level) as usize
}

// As the helpers take settings of both kinds.
pub(crate) fn pair_grid(g: AtomGrid) -> Grid {
    Grid { rmin: g.rmin, rmax: g.rmax, dr: g.dr, omega_step: 0.0, threshold: g.threshold, beta: g.beta, n_r: g.n_r, n_omega: 1 }
}

/// A table of one molecule against an atom that is being built: owns its lists, and is [`Send`], as [`Builder`](crate::Builder) is.
///
/// ```
/// use simgrale::{atom_settings, AtomBuilder, AtomTable, Mesh};
///
/// let mut builder = AtomBuilder::new(atom_settings(1.0, 6.0, 1.0, 0.5, 0.4), Mesh::icospheres(3)?)?;
/// let grid = builder.grid();
/// for ri in 0..grid.n_r {
///     let r = grid.rmin + ri as f64 * grid.dr;
///     let energies: Vec<f64> = builder.directions().iter().map(|d| (3.0 / r).powi(6) * (1.0 + d[2])).collect();
///     builder.set(ri, &energies)?;
///     let settled = builder.settle(ri)?;
///     println!("distance {r}: gradient {}, level {}", settled.gradient, builder.level());
/// }
/// let table = AtomTable::read(builder.write()?, builder.mesh().clone())?;
/// let (read, sampled) = (table.lookup(2.0, [0.0, 3.0, 4.0])?, 1.5f64.powi(6) * 1.8);
/// assert!((read / sampled - 1.0).abs() < 0.02);
/// # Ok::<(), simgrale::Error>(())
/// ```
#[derive(Clone, Debug, PartialEq)]
pub struct AtomBuilder {
    held: sys::AtomBuilder,
    mesh: Arc<Mesh>,
    lists: AtomLists,
}

impl AtomBuilder {
    /// A builder with no slab set, at the mesh's top level.
    pub fn new(settings: AtomGrid, mesh: impl Into<Arc<Mesh>>) -> Result<AtomBuilder, Error> {
        FloatEnvironment::ask()?;
        let mesh = mesh.into();
        let mut lists = AtomLists::of(&atom_sizing(settings, &mesh)?);
        let built = sys::atom_fresh(settings, mesh.top(), &mut lists.lent(), mesh.lent());
        Ok(answer(built.number, AtomBuilder { held: built.builder, mesh, lists })?)
    }

    /// Gives the slab of a distance bin its energies, one for each vertex of the current level.
    pub fn set(&mut self, ri: u64, energies: &[f64]) -> Result<(), Refusal> {
        let built = sys::atom_set(self.held, &mut self.lists.lent(), ri, energies);
        self.held = built.builder;
        answer(built.number, ())
    }

    /// Settles the slab of a distance bin; gradient and comparisons are 0 where it holds no energies or is made Repulsive. The
    /// level may drop.
    pub fn settle(&mut self, ri: u64) -> Result<Settled, Refusal> {
        let settled = sys::atom_settle(self.held, &mut self.lists.lent(), self.mesh.lent(), ri);
        self.held = settled.builder;
        answer(settled.number, Settled { gradient: settled.gradient, comparisons: settled.comparisons })
    }

    /// The table file.
    pub fn write(&self) -> Result<Vec<u8>, Refusal> {
        let mut output = vec![0; self.lists.file_length(40, self.mesh.top(), per)];
        let written = sys::atom_write(self.held, self.lists.held(), self.mesh.lent(), &mut output);
        output.truncate(written.length as usize);
        answer(written.number, output)
    }

    /// Writes the table, its seal and, where they are not the library's own, its meshes, as [`Builder::save`](crate::Builder::save) does.
    pub fn save(&self, path: impl AsRef<Path>) -> Result<(), Error> {
        let plan = Plan { atom: true, grid: pair_grid(self.grid()), mesh: &self.mesh, flags: 0, label: None };
        plan.save(&self.write()?, path.as_ref())
    }

    /// The settings with the bin count that they give.
    pub fn grid(&self) -> AtomGrid {
        self.held.grid
    }

    /// The current level, at which slabs are set.
    pub fn level(&self) -> u64 {
        self.held.level
    }

    /// The meshes that it is built over.
    pub fn mesh(&self) -> &Arc<Mesh> {
        &self.mesh
    }

    /// The directions of the current level's vertices, in their order.
    pub fn directions(&self) -> Vec<[f64; 3]> {
        self.mesh.directions(self.level()).collect()
    }
}

/// A table of one molecule against an atom, which is [`Send`] and [`Sync`] as [`Table`](crate::Table) is. [`AtomBuilder`] has an example.
#[derive(Clone, Debug)]
pub struct AtomTable {
    held: sys::AtomTable,
    reader: Arc<Reader>,
}

impl AtomTable {
    /// Opens a file as [`Table::open`](crate::Table::open) does.
    ///
    /// ```
    /// use simgrale::{atom_settings, AtomBuilder, AtomTable, Error, Mesh};
    ///
    /// let builder = AtomBuilder::new(atom_settings(1.0, 4.0, 1.0, 0.5, 0.4), Mesh::icospheres(1)?)?;
    /// # let folder = std::env::temp_dir().join(format!("simgrale-atom-{}", std::process::id()));
    /// # std::fs::create_dir_all(&folder)?;
    /// let path = folder.join("ion.icotable");
    /// builder.save(&path)?;
    /// let table = AtomTable::open(&path)?;
    /// assert_eq!((table.levels(), table.grid().n_r, table.file().len()), (2, 3, 40 + 2 * 4 + 3 * 10));
    /// assert_eq!(AtomTable::open_with(&path, Mesh::icospheres(0)?).unwrap_err().number(), Some(268));
    /// # std::fs::remove_dir_all(folder)?;
    /// # Ok::<(), Error>(())
    /// ```
    pub fn open(path: impl AsRef<Path>) -> Result<AtomTable, Error> {
        AtomTable::of(Reader::open(path.as_ref())?, path.as_ref())
    }

    /// The same with meshes by hand, as [`Table::open_with`](crate::Table::open_with).
    pub fn open_with(path: impl AsRef<Path>, mesh: impl Into<Arc<Mesh>>) -> Result<AtomTable, Error> {
        AtomTable::of(Reader::open_with(path.as_ref(), mesh.into())?, path.as_ref())
    }

    /// Looks over a file that is in memory, all of it. The mesh has to be the one that the table was built over: a file does not hold it. One of
    /// fewer levels than the table has is refused with 268, and a file of two molecules with 262.
    pub fn read(file: Vec<u8>, mesh: impl Into<Arc<Mesh>>) -> Result<AtomTable, Error> {
        AtomTable::of(Reader::over(file, mesh.into())?, Path::new("bytes in memory"))
    }

    fn of(reader: Reader, path: &Path) -> Result<AtomTable, Error> {
        let held = *reader.atom_table().ok_or_else(|| other_kind(path, "Table"))?;
        Ok(AtomTable { held, reader: Arc::new(reader) })
    }

    /// Where a distance lies, as a reading compares it; [`Table::place`](crate::Table::place) has an example.
    pub fn place(&self, r: f64) -> Result<Place, Refusal> {
        Place::of(&self.reader, r)
    }

    /// The energy at a distance and a direction of any length: infinity inside a repulsive wall, 0 outside the table's
    /// distances, also below rmin.
    pub fn lookup(&self, r: f64, direction: [f64; 3]) -> Result<f64, Refusal> {
        let value = self.reader.atom_energy(r, direction);
        answer(value.number, value.energy)
    }

    /// The energy weighted by temperature: where a row is interpolated, the three energies are averaged by their weights and by
    /// exp(-beta·energy), each taken from the least of the three. Where that one's weight is 0 and the others' exponentials are,
    /// too, the answer is infinity. Rows of other kinds answer as in `lookup`; beta is as in
    /// [`Table::lookup_boltzmann`](crate::Table::lookup_boltzmann).
    ///
    /// ```
    /// use simgrale::{atom_settings, AtomBuilder, AtomTable, Mesh, Refusal};
    ///
    /// let mut builder = AtomBuilder::new(atom_settings(1.0, 4.0, 1.0, 0.5, 0.4), Mesh::icospheres(0)?)?;
    /// builder.set(1, &(0..12).map(f64::from).collect::<Vec<_>>())?;
    /// let table = AtomTable::read(builder.write()?, builder.mesh().clone())?;
    /// let d = [1.0, 2.0, 3.0];
    /// assert!(table.lookup_boltzmann(2.0, d, 0.4)? < table.lookup(2.0, d)?);
    /// assert_eq!(table.lookup_boltzmann(2.0, d, -0.4), Err(Refusal::ReadingBeta));
    /// # Ok::<(), simgrale::Error>(())
    /// ```
    pub fn lookup_boltzmann(&self, r: f64, direction: [f64; 3], beta: f64) -> Result<f64, Refusal> {
        let value = self.reader.atom_boltzmann(r, direction, beta);
        answer(value.number, value.energy)
    }

    /// Many energies in one call: for each pose, r and x, y, z of the direction, what `lookup` answers, or `lookup_boltzmann` with a beta. The poses
    /// are split among so many threads; 0 and 1 are the caller's own alone. Each answer is the same, to the bit, whatever their number.
    ///
    /// ```
    /// # use simgrale::{atom_settings, AtomBuilder, AtomTable, Mesh, Refusal};
    /// # let mut builder = AtomBuilder::new(atom_settings(1.0, 4.0, 1.0, 0.5, 0.4), Mesh::icospheres(0)?)?;
    /// # builder.set(1, &(0..12).map(f64::from).collect::<Vec<_>>())?;
    /// # let table = AtomTable::read(builder.write()?, builder.mesh().clone())?;
    /// let answers = table.lookups(&[[2.0, 1.0, 2.0, 3.0], [2.0, 0.0, 0.0, 0.0]], None, 4);
    /// assert_eq!(answers, [table.lookup(2.0, [1.0, 2.0, 3.0]), Err(Refusal::Query)]);
    /// # Ok::<(), simgrale::Error>(())
    /// ```
    pub fn lookups(&self, poses: &[[f64; 4]], beta: Option<f64>, threads: u32) -> Vec<Result<f64, Refusal>> {
        let (numbers, energies) = self.reader.energies::<4, 1>(poses, beta, threads);
        numbers.into_iter().zip(energies).map(|(number, [energy])| answer(number, energy)).collect()
    }

    /// The grid; rmax is the table's own, threshold and beta are 0.
    pub fn grid(&self) -> AtomGrid {
        self.held.grid
    }

    /// The levels that the table has, from 0 on.
    pub fn levels(&self) -> u64 {
        self.held.levels
    }

    /// The file, byte for byte.
    pub fn file(&self) -> &[u8] {
        self.reader.file()
    }

    /// The meshes that it is read with.
    pub fn mesh(&self) -> &Arc<Mesh> {
        self.reader.mesh()
    }

    /// The row of a distance bin; none beyond the table's.
    pub fn row(&self, ri: u64) -> Option<Row> {
        (ri < self.grid().n_r).then(|| self.slab(ri))
    }

    /// Every row with its distance bin. [`Row`] has an example.
    pub fn rows(&self) -> impl DoubleEndedIterator<Item = (u64, Row)> + ExactSizeIterator + '_ {
        (0..self.grid().n_r as usize).map(|ri| (ri as u64, self.slab(ri as u64)))
    }

    fn slab(&self, ri: u64) -> Row {
        Row::of(self.file(), &self.held.start, ri, per)
    }
}
