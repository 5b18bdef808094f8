//! Tables of both kinds: files that are opened and saved, levels that are asked for once, rows one after another, threads.
use simgrale::{atom_settings, settings, AtomBuilder, AtomTable, Builder, Error, Kind, Level, Mesh, Place, Refusal, Row, Seal, Table};
use std::io;
use std::path::PathBuf;
use std::sync::Arc;

fn mesh(top: u64) -> Arc<Mesh> {
    Arc::new(Mesh::icospheres(top).expect("icospheres keep the mesh rule"))
}

// A table of three distances and two dihedral angles over two levels: a wall, a slab that is read at the nearest vertices, one that is interpolated.
fn pair() -> Builder {
    let mut b = Builder::new(settings(1.0, 4.0, 1.0, 3.0, 0.5, 1.0), mesh(1)).expect("fresh");
    b.set(0, 0, &[100.0; 42 * 42]).expect("set");
    b.set(1, 1, &(0..42 * 42).map(|i| f64::from(i % 2) / 20.0).collect::<Vec<_>>()).expect("set");
    b.settle(0).expect("settle");
    b.settle(1).expect("settle");
    let pairs = b.directions().len().pow(2) as u32;
    b.set(2, 0, &(0..pairs).map(|i| f64::from(i % 13)).collect::<Vec<_>>()).expect("set");
    b
}

fn atom() -> AtomBuilder {
    let mut b = AtomBuilder::new(atom_settings(1.0, 4.0, 1.0, 0.5, 1.0), mesh(1)).expect("fresh");
    b.set(0, &[100.0; 42]).expect("set");
    b.settle(0).expect("settle");
    b.set(1, &(0..42).map(|i| f64::from(i % 13)).collect::<Vec<_>>()).expect("set");
    b
}

// A folder of the test's own, gone with it.
struct Folder(PathBuf);

impl Folder {
    fn new(name: &str) -> Folder {
        let path = std::env::temp_dir().join(format!("simgrale-{}-{name}", std::process::id()));
        std::fs::create_dir_all(&path).expect("a folder");
        Folder(path)
    }

    fn names(&self) -> Vec<String> {
        let name = |entry: io::Result<std::fs::DirEntry>| entry.expect("entry").file_name().into_string().expect("UTF-8");
        let mut names: Vec<String> = std::fs::read_dir(&self.0).expect("folder").map(name).collect();
        names.sort();
        names
    }
}

impl Drop for Folder {
    fn drop(&mut self) {
        let _ = std::fs::remove_dir_all(&self.0);
    }
}

fn number<T>(result: Result<T, Error>) -> Option<u64> {
    result.err().and_then(|error| error.number())
}

#[test]
fn a_table_is_opened() {
    let folder = Folder::new("opened");
    let [path, ion, none] = ["table", "ion", "none"].map(|name| folder.0.join(name));
    pair().save(&path).unwrap();
    atom().save(&ion).unwrap();
    assert_eq!(folder.names(), ["ion", "ion.meta", "table", "table.meta"]);
    let (t, a) = (Table::open(&path).unwrap(), AtomTable::open(&ion).unwrap());
    assert_eq!((t.file(), a.file()), (&pair().write().unwrap()[..], &atom().write().unwrap()[..]));
    assert_eq!((t.mesh(), a.mesh()), (&mesh(1), &mesh(1)));
    // each is no table of the other kind; a folder, and a name that is not there, are refused with their path
    assert_eq!((number(Table::open(&ion)), number(AtomTable::open(&path))), (Some(262), Some(262)));
    for path in [&none, &folder.0] {
        let error = Table::open(path).unwrap_err();
        assert!(error.number() == Some(266) && error.to_string().contains(path.to_str().unwrap()), "{error}");
        assert_eq!(number(AtomTable::open(path)), Some(266));
    }
    assert!(Table::open("a\0b").unwrap_err().to_string().contains("a zero byte in a file name"));
    drop(t); // which maps the file
    std::fs::write(&path, &pair().write().unwrap()[1..]).unwrap();
    assert_eq!(Table::open(&path).unwrap_err().refusal(), Some(Refusal::Sections));
}

// Seal and mesh file decide as they do in C and Python.
#[test]
fn a_table_is_opened_with_the_meshes_of_its_seal() {
    let folder = Folder::new("sealed");
    let [path, seal, beside] = ["table", "table.meta", "table.mesh"].map(|name| folder.0.join(name));
    let turned: Vec<Level> = (0..=1).map(|m| turned(mesh(1).level(m).unwrap())).collect();
    let turned = Arc::new(Mesh::new(&turned).unwrap());
    let mut b = Builder::new(settings(1.0, 4.0, 1.0, 3.0, 0.5, 1.0), turned.clone()).unwrap();
    b.set(0, 0, &(0..42 * 42).map(f64::from).collect::<Vec<_>>()).unwrap();
    b.save(&path).unwrap();
    assert_eq!((Table::open(&path).unwrap().mesh(), Mesh::load(&beside).unwrap()), (&turned, (*turned).clone()));
    assert!(!Seal::read(&path).unwrap().unwrap().own_meshes);
    assert_eq!(number(Table::open_with(&path, mesh(1))), Some(269));
    std::fs::remove_file(&seal).unwrap();
    assert_eq!(number(Table::open(&path)), Some(270));
    assert_eq!(Table::open_with(&path, turned.clone()).unwrap().mesh(), &turned);
    // a table is saved over another: its seal is the new one's, and a mesh file that is no longer named does no harm
    pair().save(&path).unwrap();
    assert_eq!(Table::open(&path).unwrap().mesh(), &mesh(1));
    std::fs::write(&path, atom().write().unwrap()).unwrap();
    assert_eq!(number(AtomTable::open(&path)), Some(271));
    std::fs::write(&path, b.write().unwrap()).unwrap();
    assert_eq!(number(Table::open(&path)), Some(255));
}

// The axes turned round: other vertices under the same numbers, which keep the mesh rule.
fn turned(mut level: Level) -> Level {
    level.vertices.iter_mut().for_each(|v| v.rotate_left(1));
    level
}

#[test]
fn a_mesh_with_too_few_levels_is_refused_when_a_table_is_opened() {
    let (file, ion) = (pair().write().unwrap(), atom().write().unwrap());
    assert_eq!([number(Table::read(file.clone(), mesh(0))), number(Table::view(file.clone(), mesh(0)))], [Some(268); 2]);
    let error = AtomTable::read(ion.clone(), mesh(0)).unwrap_err();
    let said = "refused with 268: the meshes do not have all levels of the table: what is lent has levels 0 to 0, of 0 to 1";
    assert_eq!(error.to_string(), said);
    let folder = Folder::new("levels");
    let path = folder.0.join("table");
    pair().save(&path).unwrap();
    assert_eq!(number(Table::open_with(&path, mesh(0))), Some(268));
    // a damaged file is told before; more levels than needed do no harm, and every reading is answered
    assert_eq!(Table::read(file[1..].to_vec(), mesh(0)).err(), Some(Error::Refused(Refusal::Sections)));
    assert!(Table::open_with(&path, mesh(2)).is_ok());
    let (t, a) = (Table::read(file, mesh(2)).unwrap(), AtomTable::read(ion, mesh(2)).unwrap());
    let d = [0.3, 0.5, -0.7];
    for i in 0..40 {
        let (r, omega) = (f64::from(i) / 8.0, f64::from(i));
        assert!(t.lookup(r, omega, d, [1.0, 0.0, 0.2]).is_ok() && a.lookup(r, d).is_ok());
    }
}

#[test]
fn rows_come_one_after_another() {
    let t = Table::read(pair().write().unwrap(), mesh(1)).unwrap();
    let rows: Vec<(u64, u64, Row)> = t.rows().collect();
    assert_eq!(rows.iter().map(|r| (r.0, r.1)).collect::<Vec<_>>(), [(0, 0), (0, 1), (1, 0), (1, 1), (2, 0), (2, 1)]);
    assert!(rows.iter().all(|(ri, oi, row)| t.row(*ri, *oi).as_ref() == Some(row)));
    let nearest = Kind::Mesh { level: 1, interpolate: false };
    assert_eq!((rows[0].2.kind, rows[1].2.kind, rows[3].2.kind), (Kind::Repulsive, Kind::Scalar(0.0), nearest));
    assert_eq!((rows[4].2.energies[12], rows[4].2.energies.len()), (12.0, pair().directions().len().pow(2)));
    assert_eq!((t.rows().len(), t.rows().next_back(), t.rows().nth(6)), (6, rows.last().cloned(), None));

    let a = AtomTable::read(atom().write().unwrap(), mesh(1)).unwrap();
    let rows: Vec<(u64, Row)> = a.rows().collect();
    assert_eq!((a.rows().len(), rows.iter().map(|r| r.0).collect::<Vec<_>>()), (3, vec![0, 1, 2]));
    assert!(rows.iter().all(|(ri, row)| a.row(*ri).as_ref() == Some(row)));
    assert_eq!((rows[0].1.kind, rows[1].1.energies[12]), (Kind::Repulsive, 12.0));
}

// Nothing but the table and its seal are left, whatever happens.
#[test]
fn a_table_is_saved_whole() {
    let folder = Folder::new("saved");
    let path = folder.0.join("table");
    for _ in 0..2 {
        pair().save(&path).unwrap();
        assert_eq!((std::fs::read(&path).unwrap(), folder.names()), (pair().write().unwrap(), vec!["table".to_string(), "table.meta".to_string()]));
    }
    // what is no file stays
    let [inner, link, socket] = ["inner", "link", "socket"].map(|name| folder.0.join(name));
    std::fs::create_dir(&inner).unwrap();
    std::os::unix::fs::symlink(&path, &link).unwrap();
    let _listener = std::os::unix::net::UnixListener::bind(&socket).unwrap();
    for (taken, why) in [(&inner, "Is a directory"), (&link, "File exists"), (&socket, "File exists")] {
        let said = atom().save(taken).unwrap_err().to_string();
        assert!(said.starts_with("refused with 267: ") && said.ends_with(&format!("{}: {why}", taken.display())), "{said}");
    }
    assert!(std::fs::symlink_metadata(&link).unwrap().is_symlink() && std::fs::read(&path).unwrap() == pair().write().unwrap());
    assert_eq!(number(pair().save(folder.0.join("none/table"))), Some(267));
    assert_eq!((number(pair().save("")), folder.names().join(" ")), (Some(267), "inner link socket table table.meta".into()));
}

// Threads of the library's, with refused poses among them.
#[test]
fn threads_of_many_readings_answer_alike() {
    let (t, a) = (Table::read(pair().write().unwrap(), mesh(1)).unwrap(), AtomTable::read(atom().write().unwrap(), mesh(1)).unwrap());
    let pose = |i: u32| [f64::from(i % 37) / 8.0, f64::from(i), f64::from(i % 5), f64::from(i % 3), f64::from(i % 2), 0.3, 0.1, f64::from(i)];
    let poses: Vec<[f64; 8]> = (0..2000).map(pose).collect();
    let directions: Vec<[f64; 4]> = poses.iter().map(|p| [p[0], p[2], p[3], p[4]]).collect();
    for beta in [None, Some(2.0)] {
        let (one, many) = (t.readings(&poses, beta), t.readings_with_threads(&poses, beta, 7));
        assert!(one == many && one.iter().any(Result::is_err) && one.iter().any(|e| matches!(e, Ok(r) if r.energy != 0.0)));
        let single = |p: &[f64; 4]| match beta {
            None => a.lookup(p[0], [p[1], p[2], p[3]]),
            Some(beta) => a.lookup_boltzmann(p[0], [p[1], p[2], p[3]], beta),
        };
        assert_eq!(a.lookups(&directions, beta, 3), directions.iter().map(single).collect::<Vec<_>>());
    }
}

// The same readings in every thread, also where the table went to another one.
#[test]
fn threads_read_alike() {
    let (t, a) = (Table::read(pair().write().unwrap(), mesh(1)).unwrap(), AtomTable::read(atom().write().unwrap(), mesh(1)).unwrap());
    let read = |t: &Table, a: &AtomTable| -> Vec<u64> {
        let one = |i: u32| {
            let (r, x) = (f64::from(i % 37) / 8.0, [1.0, f64::from(i), -0.5]);
            let pair = [t.lookup(r, f64::from(i), x, [0.3, 0.1, x[1]]), t.lookup_boltzmann(r, 0.0, x, x, 2.0)];
            pair.into_iter().chain([a.lookup(r, x), a.lookup_boltzmann(r, x, 2.0)]).map(|e| e.expect("a reading").to_bits()).collect::<Vec<_>>()
        };
        (0..1000).flat_map(one).collect()
    };
    let alone = read(&t, &a);
    std::thread::scope(|s| {
        for thread in (0..4).map(|_| s.spawn(|| read(&t, &a))).collect::<Vec<_>>() {
            assert!(thread.join().unwrap() == alone);
        }
    });
    assert!(std::thread::spawn(move || read(&t, &a)).join().unwrap() == alone);
}

#[test]
fn a_build_goes_on_in_another_thread() {
    let mut b = pair();
    let energies = vec![3.0; b.directions().len().pow(2)];
    let mut here = b.clone();
    here.set(2, 1, &energies).unwrap();
    let there = std::thread::spawn(move || b.set(2, 1, &energies).map(|()| b)).join().unwrap().unwrap();
    assert!(there == here && there.write().unwrap() == here.write().unwrap());
}

#[test]
fn a_distance_has_its_place() {
    let (pair, atom) = (pair(), atom());
    let table = Table::read(pair.write().expect("write"), mesh(1)).expect("read");
    let ions = AtomTable::read(atom.write().expect("write"), mesh(1)).expect("read");
    let (low, high) = (f64::from_bits(1f64.to_bits() - 1), f64::from_bits(4f64.to_bits() + 1));
    let wanted = [(-f64::INFINITY, Place::Nearer), (low, Place::Nearer), (1.0, Place::Inside), (4.0, Place::Inside), (high, Place::Beyond)];
    for (r, place) in wanted {
        assert_eq!((table.place(r), ions.place(r)), (Ok(place), Ok(place)), "{r}");
        // a span from r to r is refused outside the table
        assert_eq!(table.span(r, r, 0.0).err(), (place != Place::Inside).then_some(Refusal::Span), "{r}");
        let energy = table.lookup(r, 0.0, [0.0, 0.0, 1.0], [0.0, 0.0, 1.0]).expect("a reading");
        assert!(place == Place::Inside || energy == 0.0, "{r}");
    }
    assert_eq!((table.place(f64::NAN), ions.place(f64::NAN)), (Err(Refusal::Query), Err(Refusal::Query)));
}
