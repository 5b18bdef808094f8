// The twenty-two places where the Rust and documents 01 and 02 are known to part (docs/DIFFERENCES.md), each on its smallest input: the Rust is run as it stands, a panic being caught, and so is the static
// library; what each does is compared with what is expected of it, and a line printed. Built with overflow checks, as a debug build of the Rust has them. Status 1 where anything is otherwise.
#[allow(dead_code, clippy::all)]
mod atom_builder {
    include!(concat!(env!("COMPARE"), "/atom_builder.rs"));
}
#[allow(dead_code, clippy::all)]
mod average {
    include!(concat!(env!("COMPARE"), "/average.rs"));
}
#[allow(dead_code, clippy::all)]
mod builder {
    include!(concat!(env!("COMPARE"), "/builder.rs"));
}
#[allow(dead_code, clippy::all)]
mod oracle {
    include!(concat!(env!("COMPARE"), "/oracle.rs"));
}
#[allow(dead_code, clippy::all)]
mod rust {
    include!(concat!(env!("COMPARE"), "/lookup.rs"));
}
#[allow(dead_code, clippy::all)]
mod tail_native {
    include!(concat!(env!("COMPARE"), "/tail_native.rs"));
}
#[allow(dead_code, clippy::all)]
mod unwrapped {
    include!(concat!(env!("COMPARE"), "/unwrapped.rs"));
}
#[allow(dead_code)]
mod caller;
#[allow(dead_code)]
mod host;
#[allow(dead_code)]
#[path = "../../hosts/rust/src/sys.rs"]
mod icotable;
#[allow(dead_code)]
mod library;
#[allow(dead_code)]
mod lines;
#[allow(dead_code)]
mod lists;
#[allow(dead_code)]
mod meshes;
mod pack;
#[allow(dead_code)]
mod reader;
#[allow(dead_code)]
mod reading;
#[allow(dead_code)]
mod refusals;
mod report;
#[allow(dead_code)]
mod search;
#[allow(dead_code, unused_imports)]
#[path = "pair.rs"]
mod shape;
#[allow(dead_code)]
mod worlds;

use builder::AdaptiveBuilder;
use host::{builder_levels, table_levels, Host, Tabled};
use icotable::Query;
use meshes::{icosphere, Mesh};
use oracle::{FaceGrid, Vector3};
use refusals::Settings;
use rust::SlabResolution;
use std::panic::{catch_unwind, AssertUnwindSafe};

const X: [f64; 3] = [1.0, 0.0, 0.0];
const PLAIN: Settings = Settings { rmin: 0.0, rmax: 1.0, dr: 1.0, omega_step: 6.0, threshold: 0.1, beta: 1.0 };

// What was found, and what was expected.
struct Found {
    rows: usize,
    wrong: usize,
}

impl Found {
    fn tell(&mut self, row: &str, input: &str, rust: [String; 2], here: [String; 2]) {
        self.rows += 1;
        let held = rust[0] == rust[1] && here[0] == here[1];
        println!("{row}: {input}\n    Rust: {}\n    here: {}", rust[0], here[0]);
        if !held {
            self.wrong += 1;
            println!("    DIFFERENCE: expected of the Rust: {}; expected here: {}", rust[1], here[1]);
        }
    }
}

// What a panic says.
fn panic_of<T>(run: impl FnOnce() -> T) -> String {
    match catch_unwind(AssertUnwindSafe(run)) {
        Ok(_) => "no panic".into(),
        Err(e) => {
            let text = e.downcast_ref::<String>().cloned().or(e.downcast_ref::<&str>().map(|s| s.to_string()));
            format!("panic: {}", text.unwrap_or_default())
        }
    }
}

fn rust_builder(s: Settings, meshes: &[Mesh]) -> AdaptiveBuilder {
    AdaptiveBuilder::with_subdivision(builder_levels(meshes), s.rmin, s.rmax, s.dr, s.omega_step, meshes.len() - 1, s.threshold, s.beta)
}

fn refused(number: u64) -> String {
    if number == 0 {
        return "accepted".into();
    }
    format!("refused with {number}")
}

// ---- the builder

fn r1(found: &mut Found) {
    let meshes = [icosphere(0), icosphere(1)];
    let s = Settings { omega_step: 3.0, ..PLAIN };
    let mut first = vec![0.0; 1764];
    first[100] = 0.05;
    let after = vec![3.0; 144];
    let q = Query { r: 0.0, omega: 3.0, a: X, b: X };
    let mut rust = rust_builder(s, &meshes);
    rust.set_slab(0, 0, &first);
    rust.finish_r_slice(0);
    let gradient = rust.finish_r_slice(0);
    rust.set_slab(0, 1, &after);
    let table = worlds::table_of(s, table_levels(&meshes), &rust);
    let row = table.slab_res[0].clone();
    let energy = table.lookup(q.r, q.omega, &Vector3::from(q.a), &Vector3::from(q.b));
    let energies = table.slab_offsets[1];
    let mut host = Host::new(&meshes);
    assert_eq!(host.fresh(s), 0);
    assert_eq!((host.set(0, 0, &first), host.settle(0).0), (0, 0));
    let second = host.settle(0).0;
    assert_eq!(host.set(0, 1, &after), 0);
    let tabled = Tabled::of(host.write(), &meshes);
    let here = tabled.reading(&q);
    found.tell(
        "R1",
        "top level 1, two dihedral bins, threshold 0.1, every angle 1: 1,764 zeros but 0.05 at place 100 set and settled, then settled again; then 3 set in the other slab and read",
        [
            format!("{:016X}, {row:?}, the next slab from {energies} on, read as {energy}", gradient.to_bits()),
            "3FA8F874F58D95A0, Mesh { level: 0, interpolate: false }, the next slab from 144 on, read as 0".into(),
        ],
        [format!("{}; the reading {}, {}", refused(second), refused(here.number), here.energy), "refused with 11; the reading accepted, 3".into()],
    );
}

fn r2(found: &mut Found) {
    let meshes = [icosphere(0)];
    let s = Settings { rmax: 2.0, ..PLAIN };
    let mut rust = rust_builder(s, &meshes);
    rust.set_slab(0, 1, &[1.0; 144]);
    let held: Vec<bool> = rust.slab_data.iter().map(|d| d.is_some()).collect();
    let mut host = Host::new(&meshes);
    assert_eq!(host.fresh(s), 0);
    let here = host.set(0, 1, &[1.0; 144]);
    found.tell("R2", "two distance bins, one dihedral bin: set of bins 0 and 1", [format!("slabs with energies: {held:?}"), "slabs with energies: [false, true]".into()], [refused(here), refused(8)]);
}

fn r7(found: &mut Found) {
    let meshes = [icosphere(0)];
    let s = Settings { rmin: 9007199254740991.0, rmax: 9007199254740994.0, dr: 2.0, ..PLAIN };
    let table = worlds::table_of(s, table_levels(&meshes), &rust_builder(s, &meshes));
    let here = Host::new(&meshes).fresh(s);
    found.tell(
        "R7",
        "rmin 9007199254740991, rmax 9007199254740994, dr 2",
        [format!("{} bins, and its own check: {:?}", table.n_r, table.check_grid()), "2 bins, and its own check: Err(\"radial bin count disagrees with range\")".into()],
        [refused(here), refused(4)],
    );
}

fn r8(found: &mut Found) {
    let meshes = [icosphere(0)];
    let s = Settings { rmax: 0.4, ..PLAIN };
    let table = worlds::table_of(s, table_levels(&meshes), &rust_builder(s, &meshes));
    let panic = panic_of(|| table.lookup(0.0, 0.0, &Vector3::from(X), &Vector3::from(X)));
    let here = Host::new(&meshes).fresh(s);
    found.tell(
        "R8",
        "rmin 0, rmax 0.4, dr 1",
        [format!("{} bins; lookup at rmin: {panic}", table.n_r), "0 bins; lookup at rmin: panic: index out of bounds: the len is 0 but the index is 0".into()],
        [refused(here), refused(3)],
    );
}

fn r9(found: &mut Found) {
    let meshes = [icosphere(0)];
    let mut energies = vec![0.0; 144];
    energies[7] = f64::NAN;
    let mut rust = rust_builder(PLAIN, &meshes);
    rust.set_slab(0, 0, &energies);
    rust.finish_r_slice(0);
    let mut host = Host::new(&meshes);
    assert_eq!(host.fresh(PLAIN), 0);
    found.tell("R9", "one NaN among 144 zeros, set and settled", [format!("{:?}", rust.slab_res[0]), "Scalar(NaN)".into()], [refused(host.set(0, 0, &energies)), refused(10)]);
}

// The table would take 17 GB, so the sizes alone: the Rust's offset is a u32 to which n * n is added for each slab, and question 5 is put before any list is looked at.
fn r12(found: &mut Found) {
    let per = 2562u32 * 2562;
    let over = (0..655).try_fold(0u32, |offset, _| offset.checked_add(per));
    let fresh = |slabs: f64| {
        let grid = library::builder_of(&refusals::Held { settings: Settings { rmax: slabs, ..PLAIN }, n_r: 0, n_omega: 0, top: 15, level: 15, packed: 0 }).grid;
        let mut none = icotable::Lists { store: &mut [], words: &mut [] };
        icotable::fresh(grid, 15, &mut none, icotable::Meshes { vertices: &[], counts: &[], neighbours: &[], angles: &[] }).number
    };
    found.tell(
        "R12",
        "top level 15 and 655 slabs, by the sizes alone; 654 with no list lent",
        [format!("offset after 655 slabs as a u32: {over:?}"), "offset after 655 slabs as a u32: None".into()],
        [format!("{}; {}", refused(fresh(655.0)), refused(fresh(654.0))), "refused with 5; refused with 6".into()],
    );
}

fn r14(found: &mut Found) {
    let meshes = [icosphere(0)];
    let energies = [-0.0f64; 144];
    let mean = energies.iter().sum::<f64>() / energies.len() as f64;
    let mut host = Host::new(&meshes);
    assert_eq!(host.fresh(PLAIN), 0);
    assert_eq!((host.set(0, 0, &energies), host.settle(0).0), (0, 0));
    found.tell(
        "R14",
        "144 energies of -0.0, settled (no difference with this toolchain: its `sum` starts at -0.0 too)",
        [format!("mean as an f32: {:08X}", (mean as f32).to_bits()), "mean as an f32: 80000000".into()],
        [format!("Scalar {:08X}", host.lists.values[0]), "Scalar 80000000".into()],
    );
}

fn r15(found: &mut Found) {
    let meshes = [icosphere(0)];
    let odd = [
        Settings { threshold: -1.0, ..PLAIN },
        Settings { threshold: f64::NAN, ..PLAIN },
        Settings { beta: 0.0, ..PLAIN },
        Settings { beta: -1.0, ..PLAIN },
    ];
    let panics: Vec<String> = odd.iter().map(|s| panic_of(|| rust_builder(*s, &meshes))).collect();
    let here: Vec<u64> = odd.iter().map(|s| Host::new(&meshes).fresh(*s)).collect();
    let many: Vec<Mesh> = (0..17).map(icosphere).collect();
    let level = rust_builder(PLAIN, &many).current_level;
    let deep = Host::new(&many).fresh(PLAIN);
    found.tell(
        "R15",
        "threshold -1 and NaN, beta 0 and -1, top level 16",
        [format!("{panics:?}; level {level}"), "[\"no panic\", \"no panic\", \"no panic\", \"no panic\"]; level 16".into()],
        [format!("refused with {here:?}; {}", refused(deep)), "refused with [1, 1, 1, 1]; refused with 2".into()],
    );
}

// A table of one molecule against an atom.
fn r17(found: &mut Found) {
    let meshes = [icosphere(0), icosphere(1)];
    let mut energies = vec![0.0; 42];
    energies[10] = 0.05;
    let level = |l: builder::MeshLevel| atom_builder::MeshLevel { n_div: l.n_div, n_vertices: l.n_vertices, angles: l.angles, neighbors: l.neighbors };
    let levels = builder_levels(&meshes).into_iter().map(level).collect();
    let mut rust = atom_builder::Adaptive3DBuilder::with_subdivision(levels, 0.0, 1.0, 1.0, 1, 0.1, 1.0);
    rust.set_slab(0, &energies);
    let gradient = rust.finish_r_slice(0).to_bits();
    let panic = panic_of(|| rust.finish_r_slice(0));
    let refusals::Lists { mut store, vertices, counts, neighbours, angles, .. } = Host::new(&meshes).lists;
    let (mut kinds, mut levels, mut values) = ([0], [0], [0]);
    let mut l = icotable::AtomLists { store: &mut store, kinds: &mut kinds, levels: &mut levels, values: &mut values };
    let m = icotable::Meshes { vertices: &vertices, counts: &counts, neighbours: &neighbours, angles: &angles };
    let grid = icotable::AtomGrid { rmin: 0.0, rmax: 1.0, dr: 1.0, threshold: 0.1, beta: 1.0, n_r: 0 };
    let fresh = icotable::atom_fresh(grid, 1, &mut l, m);
    let set = icotable::atom_set(fresh.builder, &mut l, 0, &energies);
    let first = icotable::atom_settle(set.builder, &mut l, m, 0);
    assert_eq!((fresh.number, set.number, first.number, first.builder.level), (0, 0, 0, 0));
    let second = icotable::atom_settle(first.builder, &mut l, m, 0);
    found.tell(
        "R17",
        "an atom, top level 1, one distance bin, threshold 0.1, every angle 1: 42 zeros but 0.05 at place 10 set and settled, then settled again",
        [format!("{gradient:016X}, then {panic}"), "3FA8F874F58D95A0, then panic: index out of bounds: the len is 12 but the index is 12".into()],
        [format!("{:016X}, then {}", first.gradient.to_bits(), refused(second.number)), "3FA8F874F58D95A0, then refused with 11".into()],
    );
}

// ---- the reading

// Two distance bins and two dihedral bins: scalars 1.5, 2.5, and Mesh rows of level 0, interpolated and nearest.
fn scalars(meshes: &[Mesh]) -> (rust::Table6DAdaptive<f32>, Tabled) {
    let s = Settings { rmax: 2.0, omega_step: 3.0, ..PLAIN };
    let mut b = rust::AdaptiveBuilder::with_subdivision(table_levels(meshes), s.rmin, s.rmax, s.dr, s.omega_step, 0, s.threshold, s.beta);
    let mesh = |interpolate| SlabResolution::Mesh { level: 0, interpolate };
    b.slab_res = vec![SlabResolution::Scalar(1.5), SlabResolution::Scalar(2.5), mesh(true), mesh(false)];
    let energies: Vec<f64> = (0..144).map(|i| i as f64 + 1.0).collect();
    b.slab_data = vec![None, None, Some(energies.clone()), Some(energies)];
    let table = b.build();
    let tabled = Tabled::of(pack::packed(&table).0, meshes);
    (table, tabled)
}

fn readings(found: &mut Found) {
    let (table, tabled) = scalars(&[icosphere(0)]);
    let at = |r: f64, omega: f64, a: [f64; 3]| {
        let q = Query { r, omega, a, b: X };
        let energy = table.lookup(r, omega, &Vector3::from(a), &Vector3::from(X));
        (energy.to_string(), refused(tabled.reading(&q).number))
    };
    let mut one = |row: &str, input: &str, (energy, here): (String, String), wanted: &str| {
        found.tell(row, input, [energy, wanted.into()], [here, refused(18)]);
    };
    one("R3", "r is a NaN; the row of bin 0 is Scalar 1.5", at(f64::NAN, 0.0, X), "1.5");
    one("R4", "omega is infinite; the row of bin 0 is Scalar 1.5", at(0.0, f64::INFINITY, X), "1.5");
    one("R5", "a direction of length 0, a row that is interpolated", at(1.0, 0.0, [0.0; 3]), "0");
    one("R5", "the direction (1e-200, 0, 0), whose length rounds to 0", at(1.0, 0.0, [1e-200, 0.0, 0.0]), "0");
    let far = at(1.0, 0.0, [1e200, 0.0, 0.0]);
    let number = far.0.parse::<f64>().is_ok_and(|x| x.is_finite());
    one("R6", "the direction (1e200, 0, 0), whose length is infinite", (format!("a number: {number}"), far.1), "a number: true");
    let grid = &table.levels[0].grid;
    let cell = grid.cell_index(&Vector3::from([0.0; 3]).normalize());
    assert_eq!(cell, 5 * grid.grid_size * grid.grid_size);
}

fn r10(found: &mut Found) {
    let meshes = [icosphere(0).over("all vertices 0", |_| [0.0; 3])];
    let (table, tabled) = scalars(&meshes);
    let panic = panic_of(|| table.lookup(1.0, 0.0, &Vector3::from(X), &Vector3::from(X)));
    let here = tabled.reading(&Query { r: 1.0, omega: 0.0, a: X, b: X });
    found.tell("R10", "a mesh whose vertices are all 0", [panic, "panic: grid cell must not be empty".into()], [refused(here.number), refused(20)]);
}

// The substitution named wrapping is not made here.
fn r11(found: &mut Found) {
    let mut mesh = icosphere(0);
    mesh.vertices[4] = [1e-300, 1e300, -1e300];
    let panic = panic_of(|| unwrapped::FaceGrid::new(&mesh.vertices, &mesh.neighbours));
    let release = FaceGrid::new(&mesh.vertices, &mesh.neighbours);
    let mut made = library::locator_lists(0, 0, || 7);
    let entries = library::locator(&mesh, &release, &mut made);
    found.tell(
        "R11",
        "a vertex at (1e-300, 1e300, -1e300)",
        [panic, "panic: attempt to add with overflow".into()],
        [format!("accepted, and {} entries are those of the Rust in a release build", entries), format!("accepted, and {} entries are those of the Rust in a release build", 25 + 27 * 12 + 13 + 45 * 12)],
    );
}

fn r13(found: &mut Found) {
    let bits = |x: f64| format!("{:016X}", x.to_bits());
    let y = std::hint::black_box(-1.75f64);
    found.tell("R13", "E(-1.75), in the Rust the exponential of its C library", [bits(y.exp()), "3FC63E397E022073".into()], [bits(icotable::exp(y)), "3FC63E397E022072".into()]);
}

// The nearest of the directions (1, 0, 0) is given a NaN for its x; on x86 a difference keeps the NaN's sign.
fn r16(found: &mut Found) {
    let meshes = [icosphere(0)];
    let (mut table, mut tabled) = scalars(&meshes);
    let (x, omega) = (Vector3::from(X), 3.0);
    let v = table.levels[0].grid.find_nearest_vertex(&x);
    let mut answers = Vec::new();
    for bits in [0x7ff8 << 48, 0xfff8 << 48] {
        table.levels[0].grid.vertices[v][0] = f64::from_bits(bits);
        tabled.lists.vertices[3 * v] = f64::from_bits(bits);
        let theirs = table.levels[0].grid.find_nearest_vertex(&x);
        let here = tabled.reading(&Query { r: 1.0, omega, a: X, b: X });
        // energy 1 + 12 i + j of vertices i and j
        answers.push((theirs == v, here.number == 0 && here.energy == 1.0 + 13.0 * v as f64));
    }
    let [positive, negative] = [answers[0], answers[1]];
    found.tell(
        "R16",
        "the vertex nearest to (1, 0, 0) has a NaN for its x, of either sign",
        [format!("taken with a positive one: {}, with a negative one: {}", positive.0, negative.0), "taken with a positive one: false, with a negative one: true".into()],
        [format!("taken with a positive one: {}, with a negative one: {}", positive.1, negative.1), "taken with a positive one: false, with a negative one: false".into()],
    );
}

// A tail of one term: the Rust's metadata with it, and what a write with it is answered here, with its file.
fn one_term(coefficient: f64, power: u32, prefactor: &[f64]) -> (tail_native::TableMetadata, (u64, Vec<u8>)) {
    let term = tail_native::TailCorrectionTerm { coefficient, kappa: 0.0, power };
    let rust = tail_native::TableMetadata { tail_terms: vec![term], electric_prefactor: prefactor.first().copied(), ..Default::default() };
    let mut host = Host::new(&[icosphere(0)]);
    assert_eq!(host.fresh(PLAIN), 0);
    let tail = icotable::Tail { coefficients: &[coefficient], kappas: &[0.0], powers: &[power], prefactor };
    (rust, host.write_tail(tail))
}

// Nothing is put in the place of `exp`, `powi` and `sum` here.
fn tails(found: &mut Found) {
    let bits = |x: f64| format!("{:016X}", x.to_bits());
    let r = std::hint::black_box(1.002f64);
    let row = "1.002 to the 6, in the Rust its library's powi";
    found.tell("R18", row, [bits(r.powi(6)), "3FF03165FE9D0EEC".into()], [bits(icotable::power(r, 6)), "3FF03165FE9D0EED".into()]);
    let (rust, here) = one_term(1.0, u32::MAX, &[1.0]);
    let row = "a tail's term with the power 4294967295, read at 2";
    found.tell("R19", row, [rust.tail_energy(2.0).to_string(), "2".into()], [refused(here.0), refused(23)]);
    let (rust, here) = one_term(1.0, 1, &[]);
    let row = "a tail's term without a prefactor, read at 2";
    let theirs = format!("{}, and validate refuses it: {}", rust.tail_energy(2.0), rust.validate().is_err());
    found.tell("R20", row, [theirs, "0, and validate refuses it: true".into()], [refused(here.0), refused(22)]);
    let (rust, here) = one_term(f64::INFINITY, 1, &[1.0]);
    let row = "a tail's term with an infinite coefficient, read at 2";
    found.tell("R21", row, [rust.tail_energy(2.0).to_string(), "inf".into()], [refused(here.0), refused(23)]);
    let (rust, here) = one_term(1.0, 1, &[1.0]);
    let table = icotable::read(&here.1);
    let row = "a tail whose r is a NaN";
    found.tell("R22", row, [rust.tail_energy(f64::NAN).to_string(), "NaN".into()], [refused(icotable::tail(&table, &here.1, f64::NAN).number), refused(18)]);
}

fn main() {
    std::panic::set_hook(Box::new(|_| ()));
    let mut found = Found { rows: 0, wrong: 0 };
    let all: [fn(&mut Found); 15] = [r1, r2, readings, r7, r8, r9, r10, r11, r12, r13, r14, r15, r16, r17, tails];
    for one in all {
        if let Err(e) = catch_unwind(AssertUnwindSafe(|| one(&mut found))) {
            println!("DIFFERENCE: a step before it failed: {:?}", e.downcast_ref::<String>());
            found.wrong += 1;
        }
    }
    println!("expected: {} inputs of 22 rows, {} differences from what is expected", found.rows, found.wrong);
    assert_eq!(found.rows, 23);
    std::process::exit((found.wrong > 0) as i32);
}
