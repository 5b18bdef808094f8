//! The wrapper's tables of one molecule against an atom, used as a host does.
use simgrale::{
    atom_settings, atom_sizing, settings, vertex_count, AtomBuilder, AtomGrid, AtomTable, Builder, Error, Kind, Mesh, Refusal, Settled, Table,
};
use std::sync::Arc;

fn mesh(top: u64) -> Arc<Mesh> {
    Arc::new(Mesh::icospheres(top).expect("icospheres keep the mesh rule"))
}

fn small() -> AtomGrid {
    atom_settings(0.0, 3.0, 1.0, 0.1, 1.0)
}

fn builder(top: u64) -> AtomBuilder {
    AtomBuilder::new(small(), mesh(top)).expect("fresh")
}

// Zeros but for one of 0.05: a slab of these is smooth enough for the level to drop, and not for a Scalar.
fn smooth(level: u64) -> Vec<f64> {
    let mut energies = vec![0.0; vertex_count(level).unwrap()];
    energies[7] = 0.05;
    energies
}

#[test]
fn settings_are_refused_with_their_number() {
    let new = |g: AtomGrid| AtomBuilder::new(g, mesh(0)).err();
    let refused = |refusal| Some(Error::Refused(refusal));
    assert_eq!(new(AtomGrid { dr: 0.0, ..small() }), refused(Refusal::Settings));
    assert_eq!(new(AtomGrid { threshold: f64::NAN, ..small() }), refused(Refusal::Settings));
    assert_eq!(new(AtomGrid { rmax: 0.4, ..small() }), refused(Refusal::BinCount));
    assert_eq!(new(AtomGrid { rmax: 65536.0, ..small() }), refused(Refusal::BinCount));
    assert_eq!(new(AtomGrid { rmax: 1.79e308, dr: 1.1e308, ..small() }), refused(Refusal::OwnCount));
    assert_eq!(new(AtomGrid { rmax: 65535.0, ..small() }), None);
}

#[test]
fn a_refused_call_alters_nothing() {
    let mut b = builder(1);
    b.set(0, &smooth(1)).unwrap();
    let before = b.clone();
    assert_eq!(b.set(3, &smooth(1)), Err(Refusal::Bin));
    assert_eq!(b.set(0, &smooth(0)), Err(Refusal::EnergyCount));
    let mut strange = smooth(1);
    strange[7] = f64::NAN;
    assert_eq!(b.set(0, &strange), Err(Refusal::NanEnergy));
    assert_eq!(b.settle(3), Err(Refusal::Bin));
    assert!(b == before);
}

#[test]
fn a_slab_is_not_settled_again_once_its_level_has_gone() {
    let mut b = builder(1);
    b.set(0, &smooth(1)).unwrap();
    let settled = b.settle(0).unwrap();
    assert!(settled.gradient > 0.0);
    assert_eq!(settled.comparisons, 240);
    assert_eq!(b.level(), 0);
    let file = b.write().unwrap();
    assert_eq!(b.settle(0), Err(Refusal::OtherLevel));
    assert_eq!(b.write().unwrap(), file);
}

#[test]
fn the_level_drops_by_the_slabs_own_gradient() {
    let mut b = builder(2);
    b.set(0, &vec![20.0; vertex_count(2).unwrap()]).unwrap();
    // no energies, and repulsive ones: no gradient, no drop
    let none = Ok(Settled { gradient: 0.0, comparisons: 0 });
    assert_eq!((b.settle(1), b.settle(0), b.level()), (none, none, 2));
    // nearly flat: a Scalar, whose gradient is answered, and the level drops beside the Repulsive row
    let mut flat = vec![0.5; vertex_count(2).unwrap()];
    flat[3] = 0.501;
    b.set(1, &flat).unwrap();
    let settled = b.settle(1).unwrap();
    assert!(settled.gradient > 0.0);
    assert_eq!(settled.comparisons, 540);
    assert_eq!(b.level(), 1);
    // steep: no drop
    let steep: Vec<f64> = (0..vertex_count(1).unwrap()).map(|i| (i % 2) as f64).collect();
    b.set(2, &steep).unwrap();
    assert!(b.settle(2).unwrap().gradient > 0.1);
    assert_eq!(b.level(), 1);
    let t = AtomTable::read(b.write().unwrap(), b.mesh().clone()).unwrap();
    let kinds = [0, 1, 2].map(|ri| t.row(ri).unwrap().kind);
    assert_eq!(kinds, [Kind::Repulsive, kinds[1], Kind::Mesh { level: 1, interpolate: true }]);
    assert!(matches!(kinds[1], Kind::Scalar(x) if (x - 0.5).abs() < 1e-3));
    let x = [1.0, 0.0, 0.0];
    assert_eq!((t.lookup(0.0, x), t.lookup(3.5, x)), (Ok(f64::INFINITY), Ok(0.0)));
}

#[test]
fn a_table_gives_its_energies_back() {
    let mut b = builder(0);
    let energies: Vec<f64> = (0..12).map(|i| (100 + i) as f64).collect();
    b.set(1, &energies).unwrap();
    let file = b.write().unwrap();
    assert_eq!(file.len(), 40 + 4 + 3 * 10 + 12 * 4);
    let t = AtomTable::read(file.clone(), b.mesh().clone()).unwrap();
    assert_eq!((t.levels(), t.grid().n_r, t.grid().rmax, t.file()), (1, 3, 3.0, &file[..]));
    let row = t.row(1).unwrap();
    assert_eq!(row.kind, Kind::Mesh { level: 0, interpolate: true });
    assert!(row.energies.iter().zip(&energies).all(|(&x, &y)| x as f64 == y));
    assert_eq!((t.row(0).unwrap().kind, t.row(3)), (Kind::Scalar(0.0), None));
    for (i, &d) in b.directions().iter().enumerate() {
        let [plain, weighted] = [t.lookup(1.0, d), t.lookup_boltzmann(1.0, d, 0.001)].map(Result::unwrap);
        assert!((plain - energies[i]).abs() < 1e-6 && (weighted - energies[i]).abs() < 1e-6, "{plain}, {weighted} at {i}");
    }
    assert_eq!(t.lookup(1.0, [0.0; 3]), Err(Refusal::Query));
    assert_eq!(t.lookup(f64::NAN, [1.0, 0.0, 0.0]), Err(Refusal::Query));
}

#[test]
fn a_reading_is_weighted_by_temperature() {
    let mut b = builder(0);
    b.set(1, &(0..12).map(f64::from).collect::<Vec<_>>()).unwrap();
    let t = AtomTable::read(b.write().unwrap(), b.mesh().clone()).unwrap();
    // between vertices it is below the plain reading, and the more so the colder it is
    let x = [1.0, 2.0, 3.0];
    let plain = t.lookup(1.0, x).unwrap();
    let [warm, cold] = [0.01, 1.0].map(|beta| t.lookup_boltzmann(1.0, x, beta).unwrap());
    assert!(cold < warm && warm < plain, "{cold}, {warm}, {plain}");
    assert_eq!((t.lookup_boltzmann(0.0, x, 1.0), t.lookup_boltzmann(3.5, x, 1.0)), (Ok(0.0), Ok(0.0)));
    for beta in [0.0, -1.0, f64::INFINITY, f64::NAN] {
        assert_eq!(t.lookup_boltzmann(1.0, x, beta), Err(Refusal::ReadingBeta));
        assert_eq!(t.lookup_boltzmann(3.5, x, beta), Err(Refusal::ReadingBeta));
        assert_eq!(t.lookup_boltzmann(1.0, [0.0; 3], beta), Err(Refusal::Query));
    }
}

#[test]
fn damaged_files_are_refused() {
    let mut b = builder(0);
    b.set(0, &smooth(0)).unwrap();
    let file = b.write().unwrap();
    let refusal = |file: Vec<u8>| AtomTable::read(file, b.mesh().clone()).err();
    let refused = |refusal| Some(Error::Refused(refusal));
    assert_eq!(refusal(file.clone()), None);
    assert_eq!(refusal(Vec::new()), refused(Refusal::Sections));
    assert_eq!(refusal(file[..file.len() - 1].to_vec()), refused(Refusal::Sections));
    let with = |at: usize, byte: u8| {
        let mut copy = file.clone();
        copy[at] = byte;
        refusal(copy)
    };
    assert_eq!(with(24, 4), refused(Refusal::FileGrid));
    assert_eq!(with(40, 4), refused(Refusal::Row));
    assert_eq!(with(42, 1), refused(Refusal::Tiling));
}

#[test]
fn a_file_of_the_other_kind_is_refused() {
    let mesh = mesh(0);
    let pair = Builder::new(settings(0.0, 2.0, 1.0, 3.0, 0.1, 1.0), mesh.clone()).unwrap().write().unwrap();
    let atom = builder(0).write().unwrap();
    for (error, other) in [(AtomTable::read(pair, mesh.clone()).unwrap_err(), "Table"), (Table::read(atom, mesh).unwrap_err(), "AtomTable")] {
        assert_eq!(error.number(), Some(262));
        assert!(error.to_string().ends_with(&format!("bytes in memory is for {other}")), "{error}");
    }
}

#[test]
fn a_build_is_sized_before_it_is_made() {
    let size = atom_sizing(small(), &mesh(2)).expect("sizing");
    let mut b = builder(2);
    assert_eq!((size.slabs, size.store), (b.grid().n_r, b.grid().n_r * 92));
    assert_eq!(size.levels.iter().map(|l| l.comparisons).collect::<Vec<u64>>(), [60, 240, 540]);
    for ri in 0..size.slabs {
        b.set(ri, &[1.0; 92]).expect("set");
    }
    assert_eq!(b.write().expect("write").len() as u64, size.file);
}
