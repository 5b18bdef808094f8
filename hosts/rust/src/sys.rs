// The static library libicotable.a as include/icotable.h declares it, and its calls over slices: the one place where a call leaves Rust. Nothing
// checks the declarations against the library but the tests that call each of them; the comparison and the benchmark use this file too.
#![allow(dead_code)]

/// The settings, and the bin counts that they give. [`settings`](crate::settings) makes one for a new table.
///
/// ```
/// use simgrale::{settings, Builder, Grid, Mesh};
///
/// let grid = Builder::new(settings(1.0, 25.0, 0.75, 0.5236, 0.5, 0.4), Mesh::icospheres(1)?)?.grid();
/// assert_eq!((grid.n_r, grid.n_omega), (32, 12));
/// // the same, but for two of the settings
/// let finer = Grid { dr: 0.25, threshold: 0.1, ..grid };
/// assert_eq!(Builder::new(finer, Mesh::icospheres(1)?)?.grid().n_r, 96);
/// # Ok::<(), simgrale::Error>(())
/// ```
#[repr(C)]
#[derive(Clone, Copy, Debug, Default, PartialEq)]
pub struct Grid {
    /// The distance of the first bin.
    pub rmin: f64,
    /// The distances end here; of a table that was read its own, rmin + n_r·dr.
    pub rmax: f64,
    /// From one distance to the next.
    pub dr: f64,
    /// From one dihedral angle to the next, in radians.
    pub omega_step: f64,
    /// Settling does not interpolate a slab whose gradient, per radian, is below this; 0 of a table that was read.
    pub threshold: f64,
    /// One over the unit of energies; 0 of a table that was read.
    pub beta: f64,
    /// Distance bins. A new table takes no notice of what is handed in.
    pub n_r: u64,
    /// Dihedral bins. A new table takes no notice of what is handed in.
    pub n_omega: u64,
}

#[repr(C)]
#[derive(Clone, Copy, Debug, Default, PartialEq)]
pub struct Builder {
    pub grid: Grid,
    pub top: u64,
    pub level: u64,
    pub packed: u64,
}

#[repr(C)]
#[derive(Clone, Copy, Debug, PartialEq)]
pub struct Built {
    pub number: u64,
    pub builder: Builder,
}

#[repr(C)]
#[derive(Clone, Copy, Debug, PartialEq)]
pub struct Settled {
    pub number: u64,
    pub gradient: f64,
    pub comparisons: u64,
    pub builder: Builder,
}

#[repr(C)]
#[derive(Clone, Copy, Debug, PartialEq)]
pub struct Written {
    pub number: u64,
    pub length: u64,
}

#[repr(C)]
#[derive(Clone, Copy, Debug, PartialEq)]
pub struct Repacked {
    pub number: u64,
    pub length: u64,
    pub moved: u64,
}

#[repr(C)]
#[derive(Clone, Copy, Debug, Default, PartialEq)]
pub struct Table {
    pub number: u64,
    pub grid: Grid,
    pub levels: u64,
    pub rows: u64,
    pub energies: u64,
    pub terms: u64,
    pub start: [u64; 6],
}

#[repr(C)]
#[derive(Clone, Copy, Debug, Default, PartialEq)]
pub struct Value {
    pub number: u64,
    pub energy: f64,
    pub distance_a: f64,
    pub distance_b: f64,
}

#[repr(C)]
#[derive(Clone, Copy, Debug, Default, PartialEq)]
pub struct Spanned {
    pub number: u64,
    pub first: u64,
    pub last: u64,
    pub smallest: f64,
    pub largest: f64,
    pub scalar_nans: u64,
}

/// The settings of a table of one molecule against an atom, and the bin count that they give: as [`Grid`], without a dihedral angle.
/// [`atom_settings`](crate::atom_settings) makes one, with an example.
#[repr(C)]
#[derive(Clone, Copy, Debug, Default, PartialEq)]
pub struct AtomGrid {
    /// The distance of the first bin.
    pub rmin: f64,
    /// The distances end here; of a table that was read its own, rmin + n_r·dr.
    pub rmax: f64,
    /// From one distance to the next.
    pub dr: f64,
    /// Settling does not interpolate a slab whose gradient, per radian, is below this; 0 of a table that was read.
    pub threshold: f64,
    /// One over the unit of energies; 0 of a table that was read.
    pub beta: f64,
    /// Distance bins. A new table takes no notice of what is handed in.
    pub n_r: u64,
}

#[repr(C)]
#[derive(Clone, Copy, Debug, Default, PartialEq)]
pub struct AtomBuilder {
    pub grid: AtomGrid,
    pub top: u64,
    pub level: u64,
}

#[repr(C)]
#[derive(Clone, Copy, Debug, PartialEq)]
pub struct AtomBuilt {
    pub number: u64,
    pub builder: AtomBuilder,
}

#[repr(C)]
#[derive(Clone, Copy, Debug, PartialEq)]
pub struct AtomSettled {
    pub number: u64,
    pub gradient: f64,
    pub comparisons: u64,
    pub builder: AtomBuilder,
}

#[repr(C)]
#[derive(Clone, Copy, Debug, Default, PartialEq)]
pub struct AtomTable {
    pub number: u64,
    pub grid: AtomGrid,
    pub levels: u64,
    pub rows: u64,
    pub energies: u64,
    pub start: [u64; 5],
}

#[repr(C)]
#[derive(Clone, Copy, Debug, Default, PartialEq)]
pub struct Energy {
    pub number: u64,
    pub energy: f64,
}

#[repr(C)]
#[derive(Clone, Copy, Debug, Default, PartialEq)]
pub struct Size {
    pub number: u64,
    pub store: u64,
    pub file: u64,
    pub cell_offsets: [u64; 16],
    pub cell_vertices: [u64; 16],
    pub face_offsets: [u64; 16],
    pub faces: [u64; 16],
    pub comparisons: [u64; 16],
}

#[repr(C)]
#[derive(Clone, Copy, Debug, Default, PartialEq)]
pub struct Found {
    pub number: u64,
    pub vertex: u64,
    pub distance: f64,
    pub face: [u64; 3],
    pub weights: [f64; 3],
}

#[rustfmt::skip]
extern "C" {
    fn icotable_fresh(
        grid: Grid, top: u64, store: *mut f64, a: usize, words: *mut u64, b: usize,
        vertices: *const f64, c: usize, counts: *const u8, d: usize, neighbours: *const u16, e: usize, angles: *const f64, f: usize,
    ) -> Built;
    fn icotable_set(
        builder: Builder, store: *mut f64, a: usize, words: *mut u64, b: usize,
        ri: u64, oi: u64, energies: *const f64, c: usize,
    ) -> Built;
    fn icotable_settle(
        builder: Builder, store: *const f64, a: usize, words: *mut u64, b: usize,
        vertices: *const f64, c: usize, counts: *const u8, d: usize, neighbours: *const u16, e: usize, angles: *const f64, f: usize, ri: u64,
    ) -> Settled;
    fn icotable_write(
        builder: Builder, store: *const f64, a: usize, words: *const u64, b: usize,
        vertices: *const f64, c: usize, counts: *const u8, d: usize, neighbours: *const u16, e: usize, angles: *const f64, f: usize,
        output: *mut u8, g: usize,
    ) -> Written;
    fn icotable_write_tail(
        builder: Builder, store: *const f64, a: usize, words: *const u64, b: usize,
        vertices: *const f64, c: usize, counts: *const u8, d: usize, neighbours: *const u16, e: usize, angles: *const f64, f: usize,
        coefficients: *const f64, g: usize, kappas: *const f64, h: usize, powers: *const u32, i: usize, prefactor: *const f64, j: usize,
        output: *mut u8, k: usize,
    ) -> Written;
    fn icotable_rows_to_words(
        rows: u64, kinds: *const u8, a: usize, levels: *const u8, b: usize, values: *const u32, c: usize, words: *mut u64, d: usize,
    ) -> u64;
    fn icotable_words_to_rows(
        rows: u64, words: *const u64, a: usize, kinds: *mut u8, b: usize, levels: *mut u8, c: usize, values: *mut u32, d: usize,
    ) -> u64;
    fn icotable_read(file: *const u8, a: usize) -> Table;
    fn icotable_view(file: *const u8, a: usize) -> Table;
    fn icotable_repack(file: *const u8, a: usize, output: *mut u8, b: usize) -> Repacked;
    fn icotable_tail(table: *const Table, file: *const u8, a: usize, r: f64) -> Value;
    fn icotable_span(table: *const Table, file: *const u8, a: usize, low: f64, high: f64, omega: f64) -> Spanned;
    fn icotable_locator(
        level: u64, vertices: *const f64, a: usize, counts: *const u8, b: usize, neighbours: *const u16, c: usize, angles: *const f64, d: usize,
        cell_offsets: *mut u32, e: usize, cell_vertices: *mut u16, f: usize, face_offsets: *mut u32, g: usize, faces: *mut u16, h: usize,
    ) -> u64;
    fn icotable_reading(
        table: *const Table, file: *const u8, a: usize, vertices: *const f64, b: usize, cell_offsets: *const u32, c: usize, cell_vertices: *const u16, d: usize,
        face_offsets: *const u32, e: usize, faces: *const u16, f: usize, r: f64, omega: f64, ax: f64, ay: f64, az: f64, bx: f64, by: f64, bz: f64,
    ) -> Value;
    fn icotable_boltzmann(
        table: *const Table, file: *const u8, a: usize, vertices: *const f64, b: usize, cell_offsets: *const u32, c: usize, cell_vertices: *const u16, d: usize,
        face_offsets: *const u32, e: usize, faces: *const u16, f: usize, r: f64, omega: f64, ax: f64, ay: f64, az: f64, bx: f64, by: f64, bz: f64, beta: f64,
    ) -> Value;
    fn icotable_readings(
        table: *const Table, file: *const u8, a: usize, vertices: *const f64, b: usize, cell_offsets: *const u32, c: usize, cell_vertices: *const u16, d: usize,
        face_offsets: *const u32, e: usize, faces: *const u16, f: usize, poses: *const f64, g: usize, beta: *const f64, h: usize,
        numbers: *mut u64, i: usize, answers: *mut f64, j: usize,
    ) -> u64;
    fn icotable_atom_fresh(
        grid: AtomGrid, top: u64, store: *mut f64, a: usize, kinds: *mut u8, b: usize, levels: *mut u8, c: usize, values: *mut u32, d: usize,
        vertices: *const f64, e: usize, counts: *const u8, f: usize, neighbours: *const u16, g: usize, angles: *const f64, h: usize,
    ) -> AtomBuilt;
    fn icotable_atom_set(
        builder: AtomBuilder, store: *mut f64, a: usize, kinds: *mut u8, b: usize, levels: *mut u8, c: usize, values: *mut u32, d: usize,
        ri: u64, energies: *const f64, e: usize,
    ) -> AtomBuilt;
    fn icotable_atom_settle(
        builder: AtomBuilder, store: *const f64, a: usize, kinds: *mut u8, b: usize, levels: *mut u8, c: usize, values: *mut u32, d: usize,
        vertices: *const f64, e: usize, counts: *const u8, f: usize, neighbours: *const u16, g: usize, angles: *const f64, h: usize, ri: u64,
    ) -> AtomSettled;
    fn icotable_atom_write(
        builder: AtomBuilder, store: *const f64, a: usize, kinds: *const u8, b: usize, levels: *const u8, c: usize, values: *const u32, d: usize,
        vertices: *const f64, e: usize, counts: *const u8, f: usize, neighbours: *const u16, g: usize, angles: *const f64, h: usize,
        output: *mut u8, i: usize,
    ) -> Written;
    fn icotable_atom_read(file: *const u8, a: usize) -> AtomTable;
    fn icotable_atom_reading(
        table: *const AtomTable, file: *const u8, a: usize, vertices: *const f64, b: usize, cell_offsets: *const u32, c: usize, cell_vertices: *const u16, d: usize,
        face_offsets: *const u32, e: usize, faces: *const u16, f: usize, r: f64, x: f64, y: f64, z: f64,
    ) -> Energy;
    fn icotable_atom_boltzmann(
        table: *const AtomTable, file: *const u8, a: usize, vertices: *const f64, b: usize, cell_offsets: *const u32, c: usize, cell_vertices: *const u16, d: usize,
        face_offsets: *const u32, e: usize, faces: *const u16, f: usize, r: f64, x: f64, y: f64, z: f64, beta: f64,
    ) -> Energy;
    fn icotable_sizing(grid: Grid, top: u64, counts: *const u8, a: usize, neighbours: *const u16, b: usize, terms: u64) -> Size;
    fn icotable_atom_sizing(grid: AtomGrid, top: u64, counts: *const u8, a: usize, neighbours: *const u16, b: usize) -> Size;
    fn icotable_search(
        level: u64, vertices: *const f64, a: usize, counts: *const u8, b: usize, neighbours: *const u16, c: usize, x: f64, y: f64, z: f64,
    ) -> Found;
    fn icotable_vertices(level: u64) -> u64;
    fn icotable_cells(level: u64) -> u64;
    fn icotable_root(x: f64) -> f64;
    fn icotable_exp(y: f64) -> f64;
    fn icotable_ln(x: f64) -> f64;
    fn icotable_power(r: f64, n: u32) -> f64;
    fn icotable_mul_add(a: f64, b: f64, c: f64) -> f64;
    fn icotable_narrow(x: f64) -> f32;
    fn icotable_narrow_case(x: f64) -> u64;
}

// The lists that are lent to a builder: a row is a word.
pub struct Lists<'a> {
    pub store: &'a mut [f64],
    pub words: &'a mut [u64],
}

impl Lists<'_> {
    pub fn held(&self) -> Held<'_> {
        Held { store: self.store, words: self.words }
    }
}

// The same, lent to be read alone.
#[derive(Clone, Copy)]
pub struct Held<'a> {
    pub store: &'a [f64],
    pub words: &'a [u64],
}

// Those of a builder against an atom: a row is an entry of each of three lists.
pub struct AtomLists<'a> {
    pub store: &'a mut [f64],
    pub kinds: &'a mut [u8],
    pub levels: &'a mut [u8],
    pub values: &'a mut [u32],
}

impl AtomLists<'_> {
    pub fn held(&self) -> AtomHeld<'_> {
        AtomHeld { store: self.store, kinds: self.kinds, levels: self.levels, values: self.values }
    }
}

#[derive(Clone, Copy)]
pub struct AtomHeld<'a> {
    pub store: &'a [f64],
    pub kinds: &'a [u8],
    pub levels: &'a [u8],
    pub values: &'a [u32],
}

// The meshes of the levels from 0 to the top, one after another; for the locator call one level's.
#[derive(Clone, Copy)]
pub struct Meshes<'a> {
    pub vertices: &'a [f64],
    pub counts: &'a [u8],
    pub neighbours: &'a [u16],
    pub angles: &'a [f64],
}

// The lists of one level's locator.
pub struct Locator<'a> {
    pub cell_offsets: &'a mut [u32],
    pub cell_vertices: &'a mut [u16],
    pub face_offsets: &'a mut [u32],
    pub faces: &'a mut [u16],
}

// What a reading is lent beside its table: the file, and the meshes and locators of every level from 0 on.
#[derive(Clone, Copy)]
pub struct Lent<'a> {
    pub file: &'a [u8],
    pub vertices: &'a [f64],
    pub cell_offsets: &'a [u32],
    pub cell_vertices: &'a [u16],
    pub face_offsets: &'a [u32],
    pub faces: &'a [u16],
}

#[repr(C)]
#[derive(Clone, Copy, Debug)]
pub struct Query {
    pub r: f64,
    pub omega: f64,
    pub a: [f64; 3],
    pub b: [f64; 3],
}

// The arguments that calls have in common: the named lists that are lent to a builder; the meshes; a written table; what a reading is lent beside its table. Others stand before them and behind them.
#[rustfmt::skip]
macro_rules! with_lists {
    ($call:ident, ($($before:expr),*), $l:ident [$($list:ident)*], ($($behind:expr),*)) => {
        unsafe { $call($($before,)* $($l.$list.as_mut_ptr(), $l.$list.len(),)* $($behind),*) }
    };
    ($call:ident, ($($before:expr),*), $l:ident $lists:tt, $m:expr, ($($behind:expr),*)) => {
        with_lists!($call, ($($before),*), $l $lists, (
            $m.vertices.as_ptr(), $m.vertices.len(), $m.counts.as_ptr(), $m.counts.len(), $m.neighbours.as_ptr(), $m.neighbours.len(), $m.angles.as_ptr(), $m.angles.len()
            $(, $behind)*
        ))
    };
}

#[rustfmt::skip]
macro_rules! with_held {
    ($call:ident, $b:expr, $l:ident [$($list:ident)*], $m:expr, ($($before:expr),*), $output:expr) => {
        unsafe {
            $call(
                $b, $($l.$list.as_ptr(), $l.$list.len(),)* $m.vertices.as_ptr(), $m.vertices.len(), $m.counts.as_ptr(), $m.counts.len(),
                $m.neighbours.as_ptr(), $m.neighbours.len(), $m.angles.as_ptr(), $m.angles.len(), $($before,)* $output.as_mut_ptr(), $output.len(),
            )
        }
    };
}

#[rustfmt::skip]
macro_rules! with_lent {
    ($call:ident, $table:expr, $l:expr, $($behind:expr),*) => {
        unsafe {
            $call(
                $table, $l.file.as_ptr(), $l.file.len(), $l.vertices.as_ptr(), $l.vertices.len(), $l.cell_offsets.as_ptr(), $l.cell_offsets.len(),
                $l.cell_vertices.as_ptr(), $l.cell_vertices.len(), $l.face_offsets.as_ptr(), $l.face_offsets.len(), $l.faces.as_ptr(), $l.faces.len(),
                $($behind),*
            )
        }
    };
}

pub fn fresh(grid: Grid, top: u64, l: &mut Lists, m: Meshes) -> Built {
    with_lists!(icotable_fresh, (grid, top), l [store words], m, ())
}

pub fn set(b: Builder, l: &mut Lists, ri: u64, oi: u64, energies: &[f64]) -> Built {
    with_lists!(icotable_set, (b), l [store words], (ri, oi, energies.as_ptr(), energies.len()))
}

pub fn settle(b: Builder, l: &mut Lists, m: Meshes, ri: u64) -> Settled {
    with_lists!(icotable_settle, (b), l [store words], m, (ri))
}

pub fn write(b: Builder, l: Held, m: Meshes, output: &mut [u8]) -> Written {
    with_held!(icotable_write, b, l [store words], m, (), output)
}

// A long-range tail, as it is handed over.
#[derive(Clone, Copy)]
pub struct Tail<'a> {
    pub coefficients: &'a [f64],
    pub kappas: &'a [f64],
    pub powers: &'a [u32],
    pub prefactor: &'a [f64],
}

#[rustfmt::skip]
pub fn write_tail(b: Builder, l: Held, m: Meshes, t: Tail, output: &mut [u8]) -> Written {
    with_held!(
        icotable_write_tail, b, l [store words], m,
        (
            t.coefficients.as_ptr(), t.coefficients.len(), t.kappas.as_ptr(), t.kappas.len(), t.powers.as_ptr(), t.powers.len(),
            t.prefactor.as_ptr(), t.prefactor.len()
        ),
        output
    )
}

#[rustfmt::skip]
pub fn rows_to_words(rows: u64, kinds: &[u8], levels: &[u8], values: &[u32], words: &mut [u64]) -> u64 {
    unsafe {
        icotable_rows_to_words(
            rows, kinds.as_ptr(), kinds.len(), levels.as_ptr(), levels.len(), values.as_ptr(), values.len(), words.as_mut_ptr(), words.len(),
        )
    }
}

#[rustfmt::skip]
pub fn words_to_rows(rows: u64, words: &[u64], kinds: &mut [u8], levels: &mut [u8], values: &mut [u32]) -> u64 {
    unsafe {
        icotable_words_to_rows(
            rows, words.as_ptr(), words.len(), kinds.as_mut_ptr(), kinds.len(), levels.as_mut_ptr(), levels.len(), values.as_mut_ptr(), values.len(),
        )
    }
}

pub fn tail(table: &Table, file: &[u8], r: f64) -> Value {
    unsafe { icotable_tail(table, file.as_ptr(), file.len(), r) }
}

pub fn span(table: &Table, file: &[u8], low: f64, high: f64, omega: f64) -> Spanned {
    unsafe { icotable_span(table, file.as_ptr(), file.len(), low, high, omega) }
}

pub fn read(file: &[u8]) -> Table {
    unsafe { icotable_read(file.as_ptr(), file.len()) }
}

pub fn view(file: &[u8]) -> Table {
    unsafe { icotable_view(file.as_ptr(), file.len()) }
}

pub fn repack(file: &[u8], output: &mut [u8]) -> Repacked {
    unsafe { icotable_repack(file.as_ptr(), file.len(), output.as_mut_ptr(), output.len()) }
}

#[rustfmt::skip]
pub fn locator(level: u64, m: Meshes, l: &mut Locator) -> u64 {
    unsafe {
        icotable_locator(
            level, m.vertices.as_ptr(), m.vertices.len(), m.counts.as_ptr(), m.counts.len(), m.neighbours.as_ptr(), m.neighbours.len(),
            m.angles.as_ptr(), m.angles.len(), l.cell_offsets.as_mut_ptr(), l.cell_offsets.len(), l.cell_vertices.as_mut_ptr(), l.cell_vertices.len(),
            l.face_offsets.as_mut_ptr(), l.face_offsets.len(), l.faces.as_mut_ptr(), l.faces.len(),
        )
    }
}

pub fn reading(table: &Table, l: Lent, q: &Query) -> Value {
    let (a, b) = (q.a, q.b);
    with_lent!(icotable_reading, table, l, q.r, q.omega, a[0], a[1], a[2], b[0], b[1], b[2])
}

pub fn boltzmann(table: &Table, l: Lent, q: &Query, beta: f64) -> Value {
    let (a, b) = (q.a, q.b);
    with_lent!(icotable_boltzmann, table, l, q.r, q.omega, a[0], a[1], a[2], b[0], b[1], b[2], beta)
}

// As many poses as the shortest of the three lists has.
#[rustfmt::skip]
pub fn readings(table: &Table, l: Lent, poses: &[[f64; 8]], beta: &[f64], numbers: &mut [u64], answers: &mut [[f64; 3]]) -> u64 {
    with_lent!(
        icotable_readings, table, l, poses.as_ptr().cast(), 8 * poses.len(), beta.as_ptr(), beta.len(), numbers.as_mut_ptr(), numbers.len(),
        answers.as_mut_ptr().cast(), 3 * answers.len()
    )
}

pub fn atom_fresh(grid: AtomGrid, top: u64, l: &mut AtomLists, m: Meshes) -> AtomBuilt {
    with_lists!(icotable_atom_fresh, (grid, top), l [store kinds levels values], m, ())
}

pub fn atom_set(b: AtomBuilder, l: &mut AtomLists, ri: u64, energies: &[f64]) -> AtomBuilt {
    with_lists!(icotable_atom_set, (b), l [store kinds levels values], (ri, energies.as_ptr(), energies.len()))
}

pub fn atom_settle(b: AtomBuilder, l: &mut AtomLists, m: Meshes, ri: u64) -> AtomSettled {
    with_lists!(icotable_atom_settle, (b), l [store kinds levels values], m, (ri))
}

pub fn atom_write(b: AtomBuilder, l: AtomHeld, m: Meshes, output: &mut [u8]) -> Written {
    with_held!(icotable_atom_write, b, l [store kinds levels values], m, (), output)
}

pub fn atom_read(file: &[u8]) -> AtomTable {
    unsafe { icotable_atom_read(file.as_ptr(), file.len()) }
}

pub fn atom_reading(table: &AtomTable, l: Lent, r: f64, d: [f64; 3]) -> Energy {
    with_lent!(icotable_atom_reading, table, l, r, d[0], d[1], d[2])
}

pub fn atom_boltzmann(table: &AtomTable, l: Lent, r: f64, d: [f64; 3], beta: f64) -> Energy {
    with_lent!(icotable_atom_boltzmann, table, l, r, d[0], d[1], d[2], beta)
}

// Of the meshes the neighbour lists alone are looked at.
pub fn sizing(grid: Grid, top: u64, counts: &[u8], neighbours: &[u16], terms: u64) -> Size {
    unsafe { icotable_sizing(grid, top, counts.as_ptr(), counts.len(), neighbours.as_ptr(), neighbours.len(), terms) }
}

pub fn atom_sizing(grid: AtomGrid, top: u64, counts: &[u8], neighbours: &[u16]) -> Size {
    unsafe { icotable_atom_sizing(grid, top, counts.as_ptr(), counts.len(), neighbours.as_ptr(), neighbours.len()) }
}

pub fn search(level: u64, vertices: &[f64], counts: &[u8], neighbours: &[u16], d: [f64; 3]) -> Found {
    unsafe {
        icotable_search(
            level,
            vertices.as_ptr(),
            vertices.len(),
            counts.as_ptr(),
            counts.len(),
            neighbours.as_ptr(),
            neighbours.len(),
            d[0],
            d[1],
            d[2],
        )
    }
}

pub fn vertices(level: u64) -> u64 {
    unsafe { icotable_vertices(level) }
}

pub fn cells(level: u64) -> u64 {
    unsafe { icotable_cells(level) }
}

pub fn root(x: f64) -> f64 {
    unsafe { icotable_root(x) }
}

pub fn exp(y: f64) -> f64 {
    unsafe { icotable_exp(y) }
}

pub fn ln(x: f64) -> f64 {
    unsafe { icotable_ln(x) }
}

pub fn power(r: f64, n: u32) -> f64 {
    unsafe { icotable_power(r, n) }
}

pub fn mul_add(a: f64, b: f64, c: f64) -> f64 {
    unsafe { icotable_mul_add(a, b, c) }
}

pub fn narrow(x: f64) -> f32 {
    unsafe { icotable_narrow(x) }
}

pub fn narrow_case(x: f64) -> u64 {
    unsafe { icotable_narrow_case(x) }
}
