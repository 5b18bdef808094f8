//! A table file that the library accepted.
use crate::builder::per;
use crate::error::Error;
use crate::helpers::{words, Reader};
use crate::refusal::{answer, Refusal};
use crate::row::Row;
use crate::sys::{self, Grid};
use crate::tail::{Tail, Term};
use crate::Mesh;
use std::path::Path;
use std::sync::Arc;

/// A table of two molecules: a file that is mapped, or bytes in memory, with the meshes that it was built over.
///
/// It is [`Send`] and [`Sync`]: readings take `&self`, keep nothing and may run in any number of threads at once, each with the same answers.
/// The floating-point environment is asked of the thread that opens the table; every thread that reads needs the same ([`FloatEnvironment`](crate::FloatEnvironment)).
///
/// ```
/// use simgrale::{settings, Builder, Kind, Mesh, Refusal, Table};
/// use std::sync::Arc;
///
/// let mesh = Arc::new(Mesh::icospheres(1)?);
/// let mut builder = Builder::new(settings(1.0, 4.0, 1.0, 3.2, 0.5, 0.4), mesh.clone())?;
/// # let (a, b) = ([0.3, -0.2, 0.9], [0.0, 1.0, 0.5]);
/// let energies: Vec<f64> = (0..42 * 42).map(|i| f64::from(i % 7)).collect();
/// builder.set(1, 0, &energies)?;
///
/// let table = Table::read(builder.write()?, mesh)?;
/// let energy = table.lookup(2.0, 0.1, a, b)?;
/// assert!(energy.is_finite());
/// // each thread reads the same
/// std::thread::scope(|s| {
///     let threads: Vec<_> = (0..2).map(|_| s.spawn(|| table.lookup(2.0, 0.1, a, b))).collect();
///     threads.into_iter().for_each(|thread| assert_eq!(thread.join().unwrap(), Ok(energy)));
/// });
/// // a direction of no length is refused; a distance outside the table reads 0
/// assert_eq!(table.lookup(2.0, 0.1, [0.0; 3], b), Err(Refusal::Query));
/// assert_eq!(table.lookup(9.0, 0.1, a, b), Ok(0.0));
/// # Ok::<(), simgrale::Error>(())
/// ```
#[derive(Clone, Debug)]
pub struct Table {
    held: sys::Table,
    reader: Arc<Reader>,
}

// As C and Python refuse it.
pub(crate) fn other_kind(path: &Path, other: &str) -> Error {
    Error::Handle { number: 262, message: format!("{}: {} is for {other}", words(262), path.display()) }
}

/// What [`Table::reading`] answers.
#[derive(Clone, Copy, Debug, PartialEq)]
pub struct Reading {
    /// Infinity inside a repulsive wall, 0 outside the table's distances.
    pub energy: f64,
    /// Where the row is read at the nearest vertices: the square of the distance from the first direction, divided by its length, to the vertex
    /// that stands for it. 0 of any other reading.
    pub distance_a: f64,
    /// The same of the second direction.
    pub distance_b: f64,
}

impl Reading {
    fn of(value: sys::Value) -> Result<Reading, Refusal> {
        let sys::Value { number, energy, distance_a, distance_b } = value;
        answer(number, Reading { energy, distance_a, distance_b })
    }
}

/// Where a distance lies: [`Table::place`].
#[derive(Clone, Copy, Debug, PartialEq, Eq)]
pub enum Place {
    /// Below rmin, where every reading is 0. A simulation takes such a pair for one that overlaps.
    Nearer,
    /// In the table's distances, to which both ends belong.
    Inside,
    /// Above the table's rmax, where every reading is 0 and a host adds the long-range tail.
    Beyond,
}

impl Place {
    pub(crate) fn of(reader: &Reader, r: f64) -> Result<Place, Refusal> {
        match reader.place(r) {
            1 => Ok(Place::Nearer),
            2 => Ok(Place::Inside),
            3 => Ok(Place::Beyond),
            _ => Err(Refusal::Query),
        }
    }
}

/// What the distances of a span have in common; [`Table::span`] has an example.
#[derive(Clone, Copy, Debug, PartialEq)]
pub struct Span {
    /// The distance bin of the low end: every distance of the span falls in one from the first to the last.
    pub first: u64,
    /// The distance bin of the high end.
    pub last: u64,
    /// The smallest energy in the rows of these bins, at the given dihedral angle; a NaN where there is none. A reading there lies between the
    /// smallest and the largest, unless it is a NaN or its row is interpolated.
    pub smallest: f64,
    /// The largest one.
    pub largest: f64,
    /// How many Scalar rows among them hold a NaN.
    pub scalar_nans: u64,
}

impl Table {
    /// Maps a file and looks over all of it. The meshes are those of the mesh file `path.mesh` where the seal `path.meta` says so, else the
    /// library's own.
    ///
    /// Where there is a seal, the table has to be the sealed one, to the byte (255), and the meshes those of the seal (269). A mesh file without a
    /// seal is refused with 270: nothing says whether it is the table's, and [`open_with`](Table::open_with) takes it by hand. Without either the
    /// table is read over the library's own meshes, and nothing tells whether it was built over them.
    ///
    /// The file has to stay as it is while it is open. One that is replaced by a rename, as every writer of this package does, is no harm: the table
    /// goes on with what it opened. A program that writes into the file alters readings and [`file`](Table::file); one that cuts it short ends
    /// this process at a reading beyond its end (SIGBUS). [`read`](Table::read) takes bytes that nobody else has.
    ///
    /// ```
    /// use simgrale::{settings, Builder, Error, Mesh, Table, Tail, Term};
    ///
    /// # let folder = std::env::temp_dir().join(format!("simgrale-open-{}", std::process::id()));
    /// # std::fs::create_dir_all(&folder)?;
    /// let path = folder.join("table.icotable");
    /// Builder::new(settings(1.0, 4.0, 1.0, 3.2, 0.5, 0.4), Mesh::icospheres(1)?)?.save(&path)?;
    ///
    /// let table = Table::open(&path)?;
    /// assert_eq!((table.levels(), table.grid().n_r, table.grid().n_omega), (2, 3, 2));
    /// assert_eq!(table.file(), std::fs::read(&path)?);
    /// // another table under the same name, and the seal tells
    /// let other = Builder::new(settings(1.0, 4.0, 1.0, 3.2, 0.5, 0.4), Mesh::icospheres(1)?)?.write_tail(&Tail {
    ///     terms: vec![Term { coefficient: 1.0, kappa: 0.0, power: 6 }],
    ///     prefactor: Some(1.0),
    /// })?;
    /// drop(table);
    /// std::fs::write(&path, other)?;
    /// assert_eq!(Table::open(&path).unwrap_err().number(), Some(255));
    /// # std::fs::remove_dir_all(folder)?;
    /// # Ok::<(), Error>(())
    /// ```
    pub fn open(path: impl AsRef<Path>) -> Result<Table, Error> {
        Table::of(Reader::open(path.as_ref())?, path.as_ref())
    }

    /// The same with meshes by hand: for a table without a seal, as `icotable import` leaves it, those of its mesh file. Where there is a seal, they
    /// have to be those of the seal (269). Meshes of fewer levels than the table has are refused with 268.
    ///
    /// ```
    /// use simgrale::{settings, Builder, Error, Mesh, Table};
    /// # let folder = std::env::temp_dir().join(format!("simgrale-with-{}", std::process::id()));
    /// # std::fs::create_dir_all(&folder)?;
    /// # let path = folder.join("table.icotable");
    /// # let mesh = Mesh::icospheres(1)?;
    /// # std::fs::write(&path, Builder::new(settings(1.0, 4.0, 1.0, 3.2, 0.5, 0.4), mesh.clone())?.write()?)?;
    /// # mesh.save(folder.join("table.icotable.mesh"))?;
    ///
    /// // a table with a mesh file beside it, and no seal
    /// assert_eq!(Table::open(&path).unwrap_err().number(), Some(270));
    /// let table = Table::open_with(&path, Mesh::load(folder.join("table.icotable.mesh"))?)?;
    /// assert_eq!(table.mesh().top(), 1);
    /// assert_eq!(Table::open_with(&path, Mesh::icospheres(0)?).unwrap_err().number(), Some(268));
    /// # std::fs::remove_dir_all(folder)?;
    /// # Ok::<(), Error>(())
    /// ```
    pub fn open_with(path: impl AsRef<Path>, mesh: impl Into<Arc<Mesh>>) -> Result<Table, Error> {
        Table::of(Reader::open_with(path.as_ref(), mesh.into())?, path.as_ref())
    }

    /// Looks over a file that is in memory, all of it. The mesh has to be the one that the table was built over: a file does not hold it, and
    /// over other vertices a reading takes other energies, which nothing tells. One of fewer levels than the table has is refused with 268, and a
    /// file of one molecule against an atom with 262.
    pub fn read(file: Vec<u8>, mesh: impl Into<Arc<Mesh>>) -> Result<Table, Error> {
        Table::of(Reader::over(file, mesh.into())?, Path::new("bytes in memory"))
    }

    fn of(reader: Reader, path: &Path) -> Result<Table, Error> {
        let held = *reader.table().ok_or_else(|| other_kind(path, "AtomTable"))?;
        Ok(Table { held, reader: Arc::new(reader) })
    }

    /// The same under the bounds of a viewer: a file of more than 4 levels or 4,096 rows is refused ([`Refusal::ViewerBound`]). What it
    /// accepts [`read`](Table::read) accepts, as the same table.
    ///
    /// ```
    /// use simgrale::{settings, Builder, Error, Mesh, Refusal, Table};
    /// use std::sync::Arc;
    ///
    /// let mesh = Arc::new(Mesh::icospheres(4)?);
    /// let file = |top| Builder::new(settings(1.0, 4.0, 1.0, 3.2, 0.5, 0.4), Mesh::icospheres(top)?)?.write().map_err(Error::from);
    /// assert!(Table::view(file(3)?, mesh.clone()).is_ok());
    /// assert_eq!(Table::view(file(4)?, mesh).unwrap_err(), Error::Refused(Refusal::ViewerBound));
    /// # Ok::<(), Error>(())
    /// ```
    pub fn view(file: Vec<u8>, mesh: impl Into<Arc<Mesh>>) -> Result<Table, Error> {
        answer(sys::view(&file).number, ())?;
        Table::read(file, mesh)
    }

    /// Where a distance lies, as a reading compares it. A NaN is refused, as a reading refuses it.
    ///
    /// ```
    /// # use simgrale::{settings, Builder, Mesh, Place, Refusal, Table};
    /// # let mut builder = Builder::new(settings(1.0, 4.0, 1.0, 3.2, 0.5, 0.4), Mesh::icospheres(0)?)?;
    /// # let table = Table::read(builder.write()?, builder.mesh().clone())?;
    /// # let (r, a, b) = (0.5, [0.0, 0.0, 1.0], [0.0, 0.0, 1.0]);
    /// // below rmin a reading is 0, and a simulation wants a wall there
    /// let energy = if table.place(r)? == Place::Nearer { f64::INFINITY } else { table.lookup(r, 0.0, a, b)? };
    /// assert_eq!((table.lookup(r, 0.0, a, b)?, energy), (0.0, f64::INFINITY));
    /// assert_eq!((table.place(4.0), table.place(4.1)), (Ok(Place::Inside), Ok(Place::Beyond)));
    /// assert_eq!(table.place(f64::NAN), Err(Refusal::Query));
    /// # Ok::<(), simgrale::Error>(())
    /// ```
    pub fn place(&self, r: f64) -> Result<Place, Refusal> {
        Place::of(&self.reader, r)
    }

    /// The energy at a distance, a dihedral angle and two directions of any length: infinity inside a repulsive wall, 0
    /// outside the table's distances, also below rmin ([`place`](Table::place) tells). Which pose they stand for:
    /// docs/GUIDE.md, What a table is.
    pub fn lookup(&self, r: f64, omega: f64, a: [f64; 3], b: [f64; 3]) -> Result<f64, Refusal> {
        self.reading(r, omega, a, b).map(|reading| reading.energy)
    }

    /// The same, and how far the vertices lie that it was read at: whether a level is fine enough (docs/GUIDE.md).
    ///
    /// ```
    /// # use simgrale::{settings, Builder, Mesh, Reading, Table};
    /// # let mut builder = Builder::new(settings(1.0, 3.0, 1.0, 3.2, 0.5, 0.4), Mesh::icospheres(0)?)?;
    /// # builder.set(0, 0, &(0..144).map(|i| f64::from(i % 7)).collect::<Vec<_>>())?;
    /// # builder.set(1, 0, &(0..144).map(|i| f64::from(i % 7) / 10.0).collect::<Vec<_>>())?;
    /// # (0..2).try_for_each(|ri| builder.settle(ri).map(|_| ()))?;
    /// # let table = Table::read(builder.write()?, builder.mesh().clone())?;
    /// # let (a, b) = ([0.3, -0.2, 0.9], [0.0, 1.0, 0.5]);
    /// // an interpolated row shows no distances, one that is read at the nearest vertices does
    /// let (steep, smooth) = (table.reading(1.0, 0.0, a, b)?, table.reading(2.0, 0.0, a, b)?);
    /// assert_eq!(steep, Reading { energy: table.lookup(1.0, 0.0, a, b)?, distance_a: 0.0, distance_b: 0.0 });
    /// assert!(smooth.distance_a > 0.0 && smooth.distance_a < 0.42);
    /// # Ok::<(), simgrale::Error>(())
    /// ```
    pub fn reading(&self, r: f64, omega: f64, a: [f64; 3], b: [f64; 3]) -> Result<Reading, Refusal> {
        Reading::of(self.reader.energy(r, omega, a, b))
    }

    /// The energy weighted by temperature: where a row is interpolated, the nine energies are averaged by their weights and by
    /// exp(-beta·energy). Rows of other kinds answer as in `lookup`. Beta is the reading's own, one over the unit of energies,
    /// finite and above 0, or the reading is refused ([`Refusal::ReadingBeta`]), whatever the row and the distance are.
    ///
    /// ```
    /// # use simgrale::{settings, Builder, Mesh, Refusal, Table};
    /// # let mut builder = Builder::new(settings(1.0, 3.0, 1.0, 3.2, 0.5, 0.4), Mesh::icospheres(0)?)?;
    /// # builder.set(0, 0, &(0..144).map(|i| f64::from(i % 7)).collect::<Vec<_>>())?;
    /// # let table = Table::read(builder.write()?, builder.mesh().clone())?;
    /// # let (a, b) = ([0.3, -0.2, 0.9], [0.0, 1.0, 0.5]);
    /// let (plain, weighted) = (table.lookup(1.0, 0.0, a, b)?, table.lookup_boltzmann(1.0, 0.0, a, b, 0.4)?);
    /// assert!(weighted < plain);
    /// assert_eq!(table.reading_boltzmann(1.0, 0.0, a, b, 0.4)?.energy, weighted);
    /// assert_eq!(table.lookup_boltzmann(1.0, 0.0, a, b, 0.0), Err(Refusal::ReadingBeta));
    /// # Ok::<(), simgrale::Error>(())
    /// ```
    pub fn lookup_boltzmann(&self, r: f64, omega: f64, a: [f64; 3], b: [f64; 3], beta: f64) -> Result<f64, Refusal> {
        self.reading_boltzmann(r, omega, a, b, beta).map(|reading| reading.energy)
    }

    /// The weighted reading, and how far the vertices lie where it was read at the nearest ones.
    pub fn reading_boltzmann(&self, r: f64, omega: f64, a: [f64; 3], b: [f64; 3], beta: f64) -> Result<Reading, Refusal> {
        Reading::of(self.reader.boltzmann(r, omega, a, b, beta))
    }

    /// Many readings in one call: for each pose, r, omega, and x, y, z of both directions, what `reading` answers, or
    /// `reading_boltzmann` with a beta. A refused pose keeps no other from being answered. With a table larger than the processor's cache
    /// it is faster than so many calls, since poses wait for memory together.
    ///
    /// ```
    /// # use simgrale::{settings, Builder, Mesh, Refusal, Table};
    /// # let mut builder = Builder::new(settings(1.0, 3.0, 1.0, 3.2, 0.5, 0.4), Mesh::icospheres(0)?)?;
    /// # builder.set(0, 0, &(0..144).map(|i| f64::from(i % 7)).collect::<Vec<_>>())?;
    /// # let table = Table::read(builder.write()?, builder.mesh().clone())?;
    /// let poses = [[1.0, 0.0, 0.3, -0.2, 0.9, 0.0, 1.0, 0.5], [f64::NAN, 0.0, 1.0, 0.0, 0.0, 1.0, 0.0, 0.0]];
    /// let answers = table.readings(&poses, None);
    /// assert_eq!(answers[0], table.reading(1.0, 0.0, [0.3, -0.2, 0.9], [0.0, 1.0, 0.5]));
    /// assert_eq!(answers[1], Err(Refusal::Query));
    /// # Ok::<(), simgrale::Error>(())
    /// ```
    pub fn readings(&self, poses: &[[f64; 8]], beta: Option<f64>) -> Vec<Result<Reading, Refusal>> {
        self.readings_with_threads(poses, beta, 1)
    }

    /// The same, the poses split among so many threads; 0 and 1 are the caller's own alone, and none is started for fewer than 256 poses. Each answer
    /// is the same, to the bit, whatever their number.
    ///
    /// ```
    /// # use simgrale::{settings, Builder, Mesh, Table};
    /// # let mut builder = Builder::new(settings(1.0, 3.0, 1.0, 3.2, 0.5, 0.4), Mesh::icospheres(0)?)?;
    /// # builder.set(0, 0, &(0..144).map(|i| f64::from(i % 7)).collect::<Vec<_>>())?;
    /// # let table = Table::read(builder.write()?, builder.mesh().clone())?;
    /// let poses: Vec<[f64; 8]> = (0..1000).map(|i| [1.0, 0.0, 0.3, f64::from(i), 0.9, 0.0, 1.0, 0.5]).collect();
    /// assert_eq!(table.readings_with_threads(&poses, None, 2), table.readings(&poses, None));
    /// # Ok::<(), simgrale::Error>(())
    /// ```
    pub fn readings_with_threads(&self, poses: &[[f64; 8]], beta: Option<f64>, threads: u32) -> Vec<Result<Reading, Refusal>> {
        let (numbers, answers) = self.reader.energies::<8, 3>(poses, beta, threads);
        let value = |(number, [energy, distance_a, distance_b]): (u64, [f64; 3])| Reading::of(sys::Value { number, energy, distance_a, distance_b });
        numbers.into_iter().zip(answers).map(value).collect()
    }

    /// The long-range tail at a distance: what a host adds where r is beyond rmax and `lookup` gives 0. It answers inside the table, too,
    /// and is 0 without terms; at a NaN it is refused.
    pub fn tail_energy(&self, r: f64) -> Result<f64, Refusal> {
        let value = self.reader.tail(r);
        answer(value.number, value.energy)
    }

    /// The bins and the energies of all distances from `low` to `high` at a dihedral angle. Refused ([`Refusal::Span`]) where `low` is above `high`
    /// or an end is outside the table's distances.
    ///
    /// ```
    /// # use simgrale::{settings, Builder, Mesh, Refusal, Table};
    /// # let mut builder = Builder::new(settings(1.0, 4.0, 1.0, 3.2, 0.5, 0.4), Mesh::icospheres(0)?)?;
    /// # builder.set(1, 0, &(0..144).map(|i| f64::from(i % 7)).collect::<Vec<_>>())?;
    /// # let table = Table::read(builder.write()?, builder.mesh().clone())?;
    /// let span = table.span(1.2, 2.3, 0.0)?;
    /// assert_eq!((span.first, span.last, span.smallest, span.largest, span.scalar_nans), (0, 1, 0.0, 6.0, 0));
    /// assert_eq!(table.span(2.0, 9.0, 0.0), Err(Refusal::Span));
    /// # Ok::<(), simgrale::Error>(())
    /// ```
    pub fn span(&self, low: f64, high: f64, omega: f64) -> Result<Span, Refusal> {
        let sys::Spanned { number, first, last, smallest, largest, scalar_nans } = self.reader.span(low, high, omega);
        answer(number, Span { first, last, smallest, largest, scalar_nans })
    }

    /// The long-range tail as the file has it; without terms it has no prefactor.
    pub fn tail(&self) -> Tail {
        Tail::of(self.file(), self.held.start[5], self.held.terms)
    }

    /// The terms of the long-range tail.
    pub fn terms(&self) -> Vec<Term> {
        self.tail().terms
    }

    /// The grid; rmax is the table's own, threshold and beta are 0.
    pub fn grid(&self) -> Grid {
        self.held.grid
    }

    /// The levels that the table has, from 0 on.
    pub fn levels(&self) -> u64 {
        self.held.levels
    }

    /// The file, byte for byte.
    pub fn file(&self) -> &[u8] {
        self.reader.file()
    }

    /// The meshes that it is read with.
    pub fn mesh(&self) -> &Arc<Mesh> {
        self.reader.mesh()
    }

    /// The row of a distance bin and a dihedral bin; none beyond the table's.
    pub fn row(&self, ri: u64, oi: u64) -> Option<Row> {
        let grid = self.grid();
        (ri < grid.n_r && oi < grid.n_omega).then(|| self.slab(ri * grid.n_omega + oi))
    }

    /// Every row with its distance bin and its dihedral bin, those of a distance one after another. A row's energies are copied from the file as
    /// the iterator comes to it.
    ///
    /// ```
    /// use simgrale::{settings, Builder, Kind, Mesh, Table};
    ///
    /// let mut builder = Builder::new(settings(1.0, 4.0, 1.0, 3.2, 0.5, 0.4), Mesh::icospheres(0)?)?;
    /// builder.set(1, 1, &[50.0; 144])?;
    /// builder.set(2, 0, &(0..144).map(f64::from).collect::<Vec<_>>())?;
    /// builder.settle(1)?;
    /// let table = Table::read(builder.write()?, builder.mesh().clone())?;
    ///
    /// let walls: Vec<_> = table.rows().filter(|(_, _, row)| row.kind == Kind::Repulsive).map(|(ri, oi, _)| (ri, oi)).collect();
    /// assert_eq!((table.rows().len(), walls), (6, vec![(1, 1)]));
    /// let (ri, oi, row) = table.rows().max_by_key(|(_, _, row)| row.energies.len()).unwrap();
    /// assert_eq!((ri, oi, row.energies[143]), (2, 0, 143.0));
    /// assert_eq!(table.row(2, 0), Some(row));
    /// # Ok::<(), simgrale::Error>(())
    /// ```
    pub fn rows(&self) -> impl DoubleEndedIterator<Item = (u64, u64, Row)> + ExactSizeIterator + '_ {
        let Grid { n_r, n_omega, .. } = self.grid();
        (0..(n_r * n_omega) as usize).map(move |s| (s as u64 / n_omega, s as u64 % n_omega, self.slab(s as u64)))
    }

    fn slab(&self, s: u64) -> Row {
        Row::of(self.file(), &self.held.start, s, per)
    }
}
