//! The helpers of hosts/c as their headers declare them, and handles that own what C gives: the second place where a call leaves Rust. A test
//! compares the structs with the compiler's.
use crate::error::Error;
use crate::mesh::Mesh;
use crate::sys::{self, AtomTable, Energy, Grid, Spanned, Table, Value};
use std::ffi::{c_char, c_int, c_uint, CStr, CString};
use std::os::unix::ffi::OsStrExt;
use std::path::Path;
use std::ptr::{null, NonNull};
use std::sync::{Arc, OnceLock};

#[repr(C)]
pub(crate) struct Fault {
    pub(crate) number: u64,
    pub(crate) said: [c_char; 400],
}

#[repr(C)]
#[derive(Clone, Copy)]
pub(crate) struct Meshes {
    pub(crate) top: u64,
    pub(crate) vertices: *const f64,
    pub(crate) angles: *const f64,
    pub(crate) neighbour_counts: *const u8,
    pub(crate) neighbours: *const u16,
    pub(crate) cell_vertices: *const u16,
    pub(crate) faces: *const u16,
    pub(crate) cell_offsets: *const u32,
    pub(crate) face_offsets: *const u32,
    pub(crate) vertices_count: usize,
    pub(crate) angles_count: usize,
    pub(crate) neighbour_counts_count: usize,
    pub(crate) neighbours_count: usize,
    pub(crate) cell_offsets_count: usize,
    pub(crate) cell_vertices_count: usize,
    pub(crate) face_offsets_count: usize,
    pub(crate) faces_count: usize,
}

#[repr(C)]
pub(crate) struct BuildSettings {
    pub(crate) atom: c_int,
    pub(crate) grid: Grid,
    pub(crate) top: u64,
    pub(crate) journal: *const c_char,
    pub(crate) meshes: *const c_char,
    pub(crate) flags: c_uint,
    pub(crate) lent: *const Meshes,
    pub(crate) label: *const c_char,
}

/// Which build it is, beside its settings.
#[repr(C)]
#[derive(Clone, Copy)]
pub(crate) struct Identity {
    pub(crate) id: [u8; 16],
    pub(crate) label: [c_char; 4097],
}

#[repr(C)]
pub(crate) struct Progress {
    pub(crate) n_r: u64,
    pub(crate) n_omega: u64,
    pub(crate) top: u64,
    pub(crate) level: u64,
    pub(crate) slabs: u64,
    pub(crate) set: u64,
    pub(crate) settled: u64,
    pub(crate) length: u64,
    pub(crate) step: c_uint,
    pub(crate) ri: u64,
    pub(crate) oi: u64,
    pub(crate) level_lost: c_int,
}

#[repr(C)]
pub(crate) struct JournalSettled {
    pub(crate) number: u64,
    pub(crate) gradient: f64,
    pub(crate) comparisons: u64,
}

/// Its first part; the second is C's own.
#[repr(C)]
pub(crate) struct Journal {
    pub(crate) atom: c_int,
    pub(crate) guarded: c_int,
    pub(crate) builder: sys::Builder,
    pub(crate) records: u64,
    pub(crate) bytes: u64,
    pub(crate) cut: u64,
    pub(crate) slabs: u64,
    pub(crate) set_count: u64,
    pub(crate) settled_count: u64,
    pub(crate) set: *const u8,
    pub(crate) settled: *const u8,
    pub(crate) said: [c_char; 400],
    pub(crate) build: u64,
    pub(crate) meshes_hash: u64,
    pub(crate) version: u32,
    pub(crate) library: [u32; 3],
    pub(crate) identity: Identity,
    hidden: [u64; 12],
}

#[repr(C)]
pub(crate) struct Terms {
    pub(crate) coefficients: *const f64,
    pub(crate) kappas: *const f64,
    pub(crate) powers: *const u32,
    pub(crate) count: usize,
    pub(crate) prefactor: f64,
}

#[repr(C)]
pub(crate) struct Seal {
    pub(crate) sha256: [c_char; 65],
    pub(crate) table_length: u64,
    pub(crate) atom: c_int,
    pub(crate) grid: Grid,
    pub(crate) top: u64,
    pub(crate) levels: u64,
    pub(crate) meshes_hash: u64,
    pub(crate) own_meshes: c_int,
    pub(crate) version: [c_char; 32],
    pub(crate) journaled: c_int,
    pub(crate) journal_sha256: [c_char; 65],
    pub(crate) format: c_uint,
    pub(crate) guarded: c_uint,
    pub(crate) whole: c_uint,
    pub(crate) identity: Identity,
}

#[repr(C)]
pub(crate) struct Slab {
    pub(crate) atom: c_int,
    pub(crate) build: u64,
    pub(crate) level: u64,
    pub(crate) ri: u64,
    pub(crate) oi: u64,
    pub(crate) identity: Identity,
    pub(crate) said: [c_char; 400],
}

#[repr(C)]
pub(crate) struct RawBuild {
    hidden: [u8; 0],
}

#[repr(C)]
pub(crate) struct RawReader {
    hidden: [u8; 0],
}

type Opening = unsafe extern "C" fn(*const BuildSettings, *mut Fault) -> *mut RawBuild;

#[rustfmt::skip]
extern "C" {
    fn icotable_version() -> *const c_char;
    fn icotable_handle_words(number: u64) -> *const c_char;
    fn icotable_float_environment() -> c_uint;
    fn icotable_float_environment_words(environment: c_uint) -> *const c_char;
    fn icotable_make_meshes(m: *mut Meshes, top: u64) -> u64;
    fn icotable_free_meshes(m: *mut Meshes);
    fn icotable_meshes_load(m: *mut Meshes, path: *const c_char, fault: *mut Fault) -> u64;
    fn icotable_meshes_save(m: *const Meshes, path: *const c_char, fault: *mut Fault) -> u64;
    fn icotable_build_begin(s: *const BuildSettings, fault: *mut Fault) -> *mut RawBuild;
    fn icotable_build_resume(s: *const BuildSettings, fault: *mut Fault) -> *mut RawBuild;
    fn icotable_build_open(s: *const BuildSettings, fault: *mut Fault) -> *mut RawBuild;
    fn icotable_build_set(b: *mut RawBuild, ri: u64, oi: u64, energies: *const f64, count: usize) -> u64;
    fn icotable_build_settle(b: *mut RawBuild, ri: u64) -> JournalSettled;
    fn icotable_build_progress(b: *const RawBuild) -> Progress;
    fn icotable_build_write(b: *mut RawBuild, path: *const c_char) -> u64;
    fn icotable_build_write_tail(b: *mut RawBuild, path: *const c_char, tail: *const Terms) -> u64;
    fn icotable_build_state(b: *const RawBuild) -> *const Journal;
    fn icotable_build_said(b: *const RawBuild) -> *const c_char;
    fn icotable_build_close(b: *mut RawBuild);
    fn icotable_table_save(
        s: *const BuildSettings, table: *const u8, length: usize, path: *const c_char, fault: *mut Fault,
    ) -> u64;
    fn icotable_reader_open(path: *const c_char, meshes: *const c_char, fault: *mut Fault) -> *mut RawReader;
    fn icotable_reader_open_over(path: *const c_char, meshes: *const Meshes, fault: *mut Fault) -> *mut RawReader;
    fn icotable_reader_over(
        file: *const u8, length: usize, meshes: *const Meshes, fault: *mut Fault,
    ) -> *mut RawReader;
    fn icotable_reader_close(t: *mut RawReader);
    fn icotable_reader_table(t: *const RawReader) -> *const Table;
    fn icotable_reader_atom_table(t: *const RawReader) -> *const AtomTable;
    fn icotable_reader_file(t: *const RawReader, length: *mut usize) -> *const u8;
    fn icotable_reader_meshes(t: *const RawReader) -> *const Meshes;
    fn icotable_reader_energy(
        t: *const RawReader, r: f64, omega: f64, ax: f64, ay: f64, az: f64, bx: f64, by: f64, bz: f64,
    ) -> Value;
    fn icotable_reader_boltzmann(
        t: *const RawReader, r: f64, omega: f64, ax: f64, ay: f64, az: f64, bx: f64, by: f64, bz: f64, beta: f64,
    ) -> Value;
    fn icotable_reader_tail(t: *const RawReader, r: f64) -> Value;
    fn icotable_reader_span(t: *const RawReader, low: f64, high: f64, omega: f64) -> Spanned;
    fn icotable_reader_place(t: *const RawReader, r: f64) -> c_uint;
    fn icotable_reader_atom_energy(t: *const RawReader, r: f64, x: f64, y: f64, z: f64) -> Energy;
    fn icotable_reader_atom_boltzmann(t: *const RawReader, r: f64, x: f64, y: f64, z: f64, beta: f64) -> Energy;
    fn icotable_reader_energies(
        t: *const RawReader, poses: *const f64, count: usize, beta: *const f64, numbers: *mut u64, answers: *mut f64,
        threads: c_uint,
    ) -> u64;
    fn icotable_seal_read(s: *mut Seal, path: *const c_char, fault: *mut Fault) -> u64;
    fn icotable_build_hash(atom: c_int, grid: Grid, top: u64, meshes: *const Meshes) -> u64;
    fn icotable_journal_look(j: *mut Journal, path: *const c_char) -> u64;
    fn icotable_slab_of(j: *const Journal, level: u64, ri: u64, oi: u64) -> Slab;
    fn icotable_slab_count(s: *const Slab) -> u64;
    fn icotable_slab_name(s: *const Slab, name: *mut c_char);
    fn icotable_slab_write(s: *mut Slab, folder: *const c_char, energies: *const f64, count: usize) -> u64;
    fn icotable_slab_read(s: *mut Slab, folder: *const c_char, energies: *mut f64, count: usize) -> u64;
}

impl Identity {
    const NONE: Identity = Identity { id: [0; 16], label: [0; 4097] };

    /// In 32 hexadecimal digits, as the tool shows it.
    pub(crate) fn id(&self) -> Option<String> {
        let digits = || self.id.iter().map(|byte| format!("{byte:02x}")).collect();
        (self.id != [0; 16]).then(digits)
    }

    pub(crate) fn label(&self) -> String {
        field(&self.label)
    }
}

// ---- strings and refusals

/// The text of a pointer that C gives: its own for good, or a handle's for the moment.
fn text(said: *const c_char) -> String {
    unsafe { CStr::from_ptr(said) }.to_string_lossy().into_owned()
}

/// The text in a field, which ends with a 0.
pub(crate) fn field(said: &[c_char]) -> String {
    text(said.as_ptr())
}

pub(crate) fn words(number: u64) -> &'static str {
    unsafe { CStr::from_ptr(icotable_handle_words(number)) }.to_str().unwrap_or_default()
}

/// A path as C takes it, which would end at a zero byte.
pub(crate) fn name(path: &Path) -> Result<CString, Error> {
    let zero = |_| std::io::Error::new(std::io::ErrorKind::InvalidInput, "a zero byte in a file name");
    Ok(CString::new(path.as_os_str().as_bytes()).map_err(zero)?)
}

impl Fault {
    fn new() -> Fault {
        Fault { number: 0, said: [0; 400] }
    }

    fn error(&self) -> Error {
        Error::Handle { number: self.number, message: field(&self.said) }
    }
}

/// 0, or what the fault says.
fn accepted(number: u64, fault: &Fault) -> Result<(), Error> {
    match number {
        0 => Ok(()),
        _ => Err(fault.error()),
    }
}

/// A struct of another version's library would have other fields.
fn linked() {
    static ASKED: OnceLock<()> = OnceLock::new();
    ASKED.get_or_init(|| {
        let (found, wanted) = (text(unsafe { icotable_version() }), env!("CARGO_PKG_VERSION"));
        assert_eq!(found.rsplit_once('.').map(|v| v.0), wanted.rsplit_once('.').map(|v| v.0), "the version of the libicotable that is linked");
    });
}

// ---- the floating-point environment

pub(crate) fn float_environment() -> u32 {
    unsafe { icotable_float_environment() }
}

pub(crate) fn float_environment_words(environment: u32) -> String {
    text(unsafe { icotable_float_environment_words(environment) })
}

// ---- meshes

impl Meshes {
    pub(crate) fn none() -> Meshes {
        unsafe { std::mem::zeroed() }
    }

    /// Its lists, copied by `copy`, then freed.
    fn taken(mut self, number: u64, copy: impl FnOnce(&Meshes) -> Mesh) -> Result<Mesh, u64> {
        let mesh = if number == 0 { Ok(copy(&self)) } else { Err(number) };
        unsafe { icotable_free_meshes(&mut self) };
        mesh
    }
}

/// The library's own meshes; else the number that refuses them.
pub(crate) fn make_meshes(top: u64, copy: impl FnOnce(&Meshes) -> Mesh) -> Result<Mesh, u64> {
    linked();
    let mut made = Meshes::none();
    let number = unsafe { icotable_make_meshes(&mut made, top) };
    made.taken(number, copy)
}

pub(crate) fn load_meshes(path: &Path, copy: impl FnOnce(&Meshes) -> Mesh) -> Result<Mesh, Error> {
    linked();
    let (path, mut fault, mut loaded) = (name(path)?, Fault::new(), Meshes::none());
    let number = unsafe { icotable_meshes_load(&mut loaded, path.as_ptr(), &mut fault) };
    loaded.taken(number, copy).map_err(|_| fault.error())
}

pub(crate) fn save_meshes(mesh: &Mesh, path: &Path) -> Result<(), Error> {
    let (path, mut fault) = (name(path)?, Fault::new());
    let number = unsafe { icotable_meshes_save(&mesh.lists(), path.as_ptr(), &mut fault) };
    accepted(number, &fault)
}

// ---- builds

/// What a build is opened with.
pub(crate) struct Plan<'a> {
    pub(crate) atom: bool,
    pub(crate) grid: Grid,
    pub(crate) mesh: &'a Arc<Mesh>,
    pub(crate) flags: u32,
    pub(crate) label: Option<&'a str>,
}

impl Plan<'_> {
    fn settings(&self, lent: &Meshes, journal: *const c_char, label: &Option<CString>) -> BuildSettings {
        let (atom, top, label) = (c_int::from(self.atom), self.mesh.top(), label.as_ref().map_or(null(), |label| label.as_ptr()));
        BuildSettings { atom, grid: self.grid, top, journal, meshes: null(), flags: self.flags, lent, label }
    }

    /// The label as C takes it, which would end at a zero byte.
    fn label(&self) -> Result<Option<CString>, Error> {
        const LABEL: u64 = 218;
        let zero = |_| Error::Handle { number: LABEL, message: format!("{}: a zero byte", words(LABEL)) };
        self.label.map(CString::new).transpose().map_err(zero)
    }

    /// A table in memory, its mesh file and its seal.
    pub(crate) fn save(&self, table: &[u8], path: &Path) -> Result<(), Error> {
        linked();
        let (path, lent, mut fault) = (name(path)?, self.mesh.lists(), Fault::new());
        let settings = self.settings(&lent, null(), &None);
        let number = unsafe { icotable_table_save(&settings, table.as_ptr(), table.len(), path.as_ptr(), &mut fault) };
        accepted(number, &fault)
    }
}

#[derive(Clone, Copy)]
pub(crate) enum How {
    Begin,
    Resume,
    Open,
}

/// A build that C holds, over lists of meshes that it is lent.
#[derive(Debug)]
pub(crate) struct Build {
    raw: NonNull<RawBuild>,
    mesh: Arc<Mesh>,
}

// The handle goes with its owner, and calls that take it as const alter nothing (icotable_handles.h).
unsafe impl Send for Build {}
unsafe impl Sync for Build {}

impl Drop for Build {
    fn drop(&mut self) {
        unsafe { icotable_build_close(self.raw.as_ptr()) }
    }
}

impl Build {
    pub(crate) fn new(how: How, journal: &Path, plan: &Plan) -> Result<Build, Error> {
        linked();
        let (journal, label, lent, mut fault) = (name(journal)?, plan.label()?, plan.mesh.lists(), Fault::new());
        let opening: Opening = match how {
            How::Begin => icotable_build_begin,
            How::Resume => icotable_build_resume,
            How::Open => icotable_build_open,
        };
        let raw = unsafe { opening(&plan.settings(&lent, journal.as_ptr(), &label), &mut fault) };
        match NonNull::new(raw) {
            Some(raw) => Ok(Build { raw, mesh: plan.mesh.clone() }),
            None => Err(fault.error()),
        }
    }

    pub(crate) fn mesh(&self) -> &Arc<Mesh> {
        &self.mesh
    }

    fn answered(&self, number: u64) -> Result<(), Error> {
        match number {
            0 => Ok(()),
            _ => Err(Error::Handle { number, message: text(unsafe { icotable_build_said(self.raw.as_ptr()) }) }),
        }
    }

    pub(crate) fn set(&mut self, ri: u64, oi: u64, energies: &[f64]) -> Result<(), Error> {
        let number = unsafe { icotable_build_set(self.raw.as_ptr(), ri, oi, energies.as_ptr(), energies.len()) };
        self.answered(number)
    }

    pub(crate) fn settle(&mut self, ri: u64) -> Result<JournalSettled, Error> {
        let settled = unsafe { icotable_build_settle(self.raw.as_ptr(), ri) };
        self.answered(settled.number).map(|()| settled)
    }

    pub(crate) fn progress(&self) -> Progress {
        unsafe { icotable_build_progress(self.raw.as_ptr()) }
    }

    pub(crate) fn state(&self) -> &Journal {
        unsafe { &*icotable_build_state(self.raw.as_ptr()) }
    }

    /// Whether each slab was set, and whether each slice was settled.
    pub(crate) fn marks(&self) -> (&[u8], &[u8]) {
        let state = self.state();
        let (slabs, slices) = (state.slabs as usize, state.builder.grid.n_r as usize);
        unsafe { (std::slice::from_raw_parts(state.set, slabs), std::slice::from_raw_parts(state.settled, slices)) }
    }

    pub(crate) fn write(&mut self, path: &Path) -> Result<(), Error> {
        let path = name(path)?;
        let number = unsafe { icotable_build_write(self.raw.as_ptr(), path.as_ptr()) };
        self.answered(number)
    }

    pub(crate) fn write_tail(&mut self, path: &Path, terms: &Terms) -> Result<(), Error> {
        let path = name(path)?;
        let number = unsafe { icotable_build_write_tail(self.raw.as_ptr(), path.as_ptr(), terms) };
        self.answered(number)
    }
}

// ---- tables

/// A table that C holds: a file that it maps, or bytes that it is lent. Meshes are C's own, or lent as well.
pub(crate) struct Reader {
    raw: NonNull<RawReader>,
    _bytes: Vec<u8>,
    mesh: OnceLock<Arc<Mesh>>,
}

// Any number of threads use one reader at once (icotable_handles.h); it is closed with its last owner.
unsafe impl Send for Reader {}
unsafe impl Sync for Reader {}

impl Drop for Reader {
    fn drop(&mut self) {
        unsafe { icotable_reader_close(self.raw.as_ptr()) }
    }
}

impl std::fmt::Debug for Reader {
    fn fmt(&self, f: &mut std::fmt::Formatter<'_>) -> std::fmt::Result {
        write!(f, "{} bytes", self.file().len())
    }
}

impl Reader {
    fn of(raw: *mut RawReader, bytes: Vec<u8>, mesh: Option<Arc<Mesh>>, fault: &Fault) -> Result<Reader, Error> {
        let raw = NonNull::new(raw).ok_or_else(|| fault.error())?;
        Ok(Reader { raw, _bytes: bytes, mesh: mesh.map_or_else(OnceLock::new, OnceLock::from) })
    }

    /// By its name, with the meshes that C finds.
    pub(crate) fn open(path: &Path) -> Result<Reader, Error> {
        linked();
        let (path, mut fault) = (name(path)?, Fault::new());
        let raw = unsafe { icotable_reader_open(path.as_ptr(), null(), &mut fault) };
        Reader::of(raw, Vec::new(), None, &fault)
    }

    pub(crate) fn open_with(path: &Path, mesh: Arc<Mesh>) -> Result<Reader, Error> {
        linked();
        let (path, lent, mut fault) = (name(path)?, mesh.lists(), Fault::new());
        let raw = unsafe { icotable_reader_open_over(path.as_ptr(), &lent, &mut fault) };
        Reader::of(raw, Vec::new(), Some(mesh), &fault)
    }

    /// The bytes' place in memory stays where it is as long as the reader has them.
    pub(crate) fn over(bytes: Vec<u8>, mesh: Arc<Mesh>) -> Result<Reader, Error> {
        linked();
        let (lent, mut fault) = (mesh.lists(), Fault::new());
        let raw = unsafe { icotable_reader_over(bytes.as_ptr(), bytes.len(), &lent, &mut fault) };
        let plain = |error: Error| error.refusal().map_or(error, Error::Refused);
        Reader::of(raw, bytes, Some(mesh), &fault).map_err(plain)
    }

    /// Those that it was opened with; C's own are copied once they are asked for.
    pub(crate) fn mesh(&self) -> &Arc<Mesh> {
        self.mesh.get_or_init(|| Arc::new(Mesh::copied(unsafe { &*icotable_reader_meshes(self.raw.as_ptr()) })))
    }

    pub(crate) fn file(&self) -> &[u8] {
        let mut length = 0;
        let file = unsafe { icotable_reader_file(self.raw.as_ptr(), &mut length) };
        unsafe { std::slice::from_raw_parts(file, length) }
    }

    /// None where it is of the other kind.
    pub(crate) fn table(&self) -> Option<&Table> {
        unsafe { icotable_reader_table(self.raw.as_ptr()).as_ref() }
    }

    pub(crate) fn atom_table(&self) -> Option<&AtomTable> {
        unsafe { icotable_reader_atom_table(self.raw.as_ptr()).as_ref() }
    }

    pub(crate) fn energy(&self, r: f64, omega: f64, a: [f64; 3], b: [f64; 3]) -> Value {
        unsafe { icotable_reader_energy(self.raw.as_ptr(), r, omega, a[0], a[1], a[2], b[0], b[1], b[2]) }
    }

    pub(crate) fn boltzmann(&self, r: f64, omega: f64, a: [f64; 3], b: [f64; 3], beta: f64) -> Value {
        unsafe { icotable_reader_boltzmann(self.raw.as_ptr(), r, omega, a[0], a[1], a[2], b[0], b[1], b[2], beta) }
    }

    pub(crate) fn tail(&self, r: f64) -> Value {
        unsafe { icotable_reader_tail(self.raw.as_ptr(), r) }
    }

    pub(crate) fn span(&self, low: f64, high: f64, omega: f64) -> Spanned {
        unsafe { icotable_reader_span(self.raw.as_ptr(), low, high, omega) }
    }

    /// One of enum icotable_place.
    pub(crate) fn place(&self, r: f64) -> c_uint {
        unsafe { icotable_reader_place(self.raw.as_ptr(), r) }
    }

    pub(crate) fn atom_energy(&self, r: f64, d: [f64; 3]) -> Energy {
        unsafe { icotable_reader_atom_energy(self.raw.as_ptr(), r, d[0], d[1], d[2]) }
    }

    pub(crate) fn atom_boltzmann(&self, r: f64, d: [f64; 3], beta: f64) -> Energy {
        unsafe { icotable_reader_atom_boltzmann(self.raw.as_ptr(), r, d[0], d[1], d[2], beta) }
    }

    /// The numbers and the answers of poses: P is 8 and A 3, against an atom 4 and 1.
    pub(crate) fn energies<const P: usize, const A: usize>(&self, poses: &[[f64; P]], beta: Option<f64>, threads: u32) -> (Vec<u64>, Vec<[f64; A]>) {
        assert_eq!((P, A), if self.table().is_some() { (8, 3) } else { (4, 1) });
        let (mut numbers, mut answers) = (vec![0; poses.len()], vec![[0.0; A]; poses.len()]);
        let beta = beta.as_ref().map_or(null(), |beta| beta as *const f64);
        let (poses, count) = (poses.as_ptr().cast(), poses.len());
        let (to, energies) = (numbers.as_mut_ptr(), answers.as_mut_ptr().cast());
        unsafe { icotable_reader_energies(self.raw.as_ptr(), poses, count, beta, to, energies, threads) };
        (numbers, answers)
    }
}

// ---- seals and slab files

/// None where there is no seal.
pub(crate) fn read_seal(path: &Path) -> Result<Option<Seal>, Error> {
    const ABSENT: u64 = 251;
    linked();
    let (path, mut fault) = (name(path)?, Fault::new());
    let mut seal: Seal = unsafe { std::mem::zeroed() };
    match unsafe { icotable_seal_read(&mut seal, path.as_ptr(), &mut fault) } {
        ABSENT => Ok(None),
        number => accepted(number, &fault).map(|()| Some(seal)),
    }
}

impl Slab {
    pub(crate) fn new(plan: &Plan, level: u64, ri: u64, oi: u64) -> Slab {
        linked();
        let atom = c_int::from(plan.atom);
        let build = unsafe { icotable_build_hash(atom, plan.grid, plan.mesh.top(), &plan.mesh.lists()) };
        Slab { atom, build, level, ri, oi, identity: Identity::NONE, said: [0; 400] }
    }

    /// Of the build whose journal this is, by its head.
    pub(crate) fn of_journal(path: &Path, level: u64, ri: u64, oi: u64) -> Result<Slab, Error> {
        linked();
        let path = name(path)?;
        let mut journal: Box<Journal> = Box::new(unsafe { std::mem::zeroed() });
        match unsafe { icotable_journal_look(&mut *journal, path.as_ptr()) } {
            0 => Ok(unsafe { icotable_slab_of(&*journal, level, ri, oi) }),
            number => Err(Error::Handle { number, message: field(&journal.said) }),
        }
    }

    pub(crate) fn of_build(build: &Build, level: u64, ri: u64, oi: u64) -> Slab {
        unsafe { icotable_slab_of(build.state(), level, ri, oi) }
    }

    pub(crate) fn count(&self) -> usize {
        unsafe { icotable_slab_count(self) as usize }
    }

    pub(crate) fn file_name(&self) -> String {
        let mut name = [0; 80];
        unsafe { icotable_slab_name(self, name.as_mut_ptr()) };
        field(&name)
    }

    fn answered(&self, number: u64) -> Result<(), Error> {
        match number {
            0 => Ok(()),
            _ => Err(Error::Handle { number, message: field(&self.said) }),
        }
    }

    pub(crate) fn write(&mut self, folder: &Path, energies: &[f64]) -> Result<(), Error> {
        let folder = name(folder)?;
        let number = unsafe { icotable_slab_write(self, folder.as_ptr(), energies.as_ptr(), energies.len()) };
        self.answered(number)
    }

    pub(crate) fn read(&mut self, folder: &Path) -> Result<Vec<f64>, Error> {
        let (folder, mut energies) = (name(folder)?, vec![0.0; self.count()]);
        let number = unsafe { icotable_slab_read(self, folder.as_ptr(), energies.as_mut_ptr(), energies.len()) };
        self.answered(number).map(|()| energies)
    }
}

#[cfg(test)]
mod tests {
    use super::*;
    use std::process::Command;
    use std::ptr::addr_of;

    // What C is asked, and what it has to say.
    type Lines = Vec<(String, usize)>;

    macro_rules! places {
        ($lines:ident, $name:literal, $kind:ty: $($field:ident)*) => {{
            let held = std::mem::MaybeUninit::<$kind>::uninit();
            let at = held.as_ptr();
            $($lines.push((
                format!("offsetof(icotable_{}, {})", $name, stringify!($field)),
                unsafe { addr_of!((*at).$field) } as usize - at as usize,
            ));)*
        }};
    }

    fn size<T>(lines: &mut Lines, name: &str) {
        lines.push((format!("sizeof(icotable_{name})"), std::mem::size_of::<T>()));
    }

    fn places() -> Lines {
        let mut l = Lines::new();
        places!(l, "fault", Fault: number said);
        places!(l, "meshes", Meshes: top vertices angles neighbour_counts neighbours cell_vertices faces cell_offsets face_offsets);
        places!(l, "meshes", Meshes: vertices_count angles_count neighbour_counts_count neighbours_count);
        places!(l, "meshes", Meshes: cell_offsets_count cell_vertices_count face_offsets_count faces_count);
        places!(l, "build_settings", BuildSettings: atom grid top journal meshes flags lent label);
        places!(l, "progress", Progress: n_r n_omega top level slabs set settled length step ri oi level_lost);
        places!(l, "journal_settled", JournalSettled: number gradient comparisons);
        places!(l, "identity", Identity: id label);
        places!(l, "journal", Journal: atom guarded builder records bytes cut slabs set_count settled_count set settled);
        places!(l, "journal", Journal: said build meshes_hash version library identity);
        places!(l, "terms", Terms: coefficients kappas powers count prefactor);
        places!(l, "seal", Seal: sha256 table_length atom grid top levels meshes_hash own_meshes version journaled journal_sha256);
        places!(l, "seal", Seal: format guarded whole identity);
        places!(l, "slab", Slab: atom build level ri oi identity said);
        size::<Fault>(&mut l, "fault");
        size::<Meshes>(&mut l, "meshes");
        size::<BuildSettings>(&mut l, "build_settings");
        size::<Progress>(&mut l, "progress");
        size::<JournalSettled>(&mut l, "journal_settled");
        size::<Identity>(&mut l, "identity");
        size::<Terms>(&mut l, "terms");
        size::<Seal>(&mut l, "seal");
        size::<Slab>(&mut l, "slab");
        l
    }

    #[test]
    fn structs_are_those_of_the_compiler() {
        let top = concat!(env!("CARGO_MANIFEST_DIR"), "/../..");
        let place = std::env::temp_dir().join(format!("simgrale-places-{}", std::process::id()));
        let (source, lines) = (place.with_extension("c"), places());
        let print = |(asked, _): &(String, usize)| format!("printf(\"%zu\\n\", {asked});\n");
        let head = "#include \"icotable_handles.h\"\n#include \"icotable_slab.h\"\n#include <stdio.h>\nint main(void) {\n";
        let text: String = lines.iter().map(print).collect();
        std::fs::write(&source, format!("{head}{text}return 0;\n}}\n")).expect("the program");
        let mut compiler = Command::new(std::env::var("CC").unwrap_or("cc".into()));
        compiler.args([format!("-I{top}/include"), format!("-I{top}/hosts/c"), "-o".into()]).arg(&place).arg(&source);
        assert!(compiler.status().expect("a C compiler").success());
        let said = String::from_utf8(Command::new(&place).output().expect("the program").stdout).expect("numbers");
        let wanted: Vec<String> = lines.iter().map(|line| line.1.to_string()).collect();
        assert_eq!(said.lines().collect::<Vec<_>>(), wanted, "{lines:#?}");
        [place, source].iter().for_each(|name| std::fs::remove_file(name).expect("a file"));
    }
}
