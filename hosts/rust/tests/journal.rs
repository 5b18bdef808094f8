//! Builders with a journal, used as a host does. tests/hosts/journal.c has the kills, the full disks and the damage; here is what the
//! wrapper itself decides.
use simgrale::{atom_settings, settings, AtomBuilder, Builder, Error, Grid, Guard, JournalOptions, JournalRefusal, Journaled, Mesh, Refusal};
use simgrale::{Seal, Slab, Step};
use std::path::{Path, PathBuf};
use std::sync::Arc;

fn mesh(top: u64) -> Arc<Mesh> {
    Arc::new(Mesh::icospheres(top).expect("icospheres keep the mesh rule"))
}

fn small() -> Grid {
    settings(0.0, 3.0, 1.0, 3.0, 0.1, 1.0)
}

// A name in a folder of the test's own.
struct Name(PathBuf);

impl Name {
    fn new(name: &str) -> Name {
        let path = std::env::temp_dir().join(format!("icotable-{}-{name}.journal", std::process::id()));
        let _ = std::fs::remove_file(&path);
        Name(path)
    }
}

impl AsRef<Path> for Name {
    fn as_ref(&self) -> &Path {
        &self.0
    }
}

impl Drop for Name {
    fn drop(&mut self) {
        let _ = (std::fs::remove_file(&self.0), std::fs::remove_file(self.0.with_extension("journal.meta")));
    }
}

// Of format version 1, whose bytes are the same each time.
fn first(guard: Guard) -> JournalOptions {
    JournalOptions::from(guard).version_1()
}

fn begin(name: &Name) -> Journaled<Builder> {
    Builder::with_journal(name, small(), mesh(0), first(Guard::On)).expect("begin")
}

fn resume(name: &Name) -> Result<Journaled<Builder>, Error> {
    Builder::resume(name, small(), mesh(0), first(Guard::On))
}

fn energies(ri: u64, oi: u64) -> Vec<f64> {
    (0..144).map(|i| ((i * 7 + ri * 3 + oi) % 11) as f64 / 4.0).collect()
}

// The next so many calls.
fn go_on(j: &mut Journaled<Builder>, calls: usize) {
    for _ in 0..calls {
        match j.next_step() {
            Step::Set { ri, oi } => j.set(ri, oi, &energies(ri, oi)).expect("set"),
            Step::Settle { ri } => j.settle(ri).map(|_| ()).expect("settle"),
            Step::Write => return,
        }
    }
}

fn refused<T>(result: Result<T, Error>) -> (u64, String) {
    let error = result.err().expect("refused");
    (error.number().expect("a number"), error.to_string())
}

#[test]
fn refusals_are_the_headers() {
    let header = include_str!("../../c/icotable_journal.h");
    let lines: Vec<&str> = header.lines().filter_map(|l| l.trim().strip_prefix("X(")).collect();
    assert_eq!(lines.len(), JournalRefusal::ALL.len());
    for (line, refusal) in lines.iter().zip(JournalRefusal::ALL) {
        let (number, rest) = line.split_once(", ").unwrap();
        let (name, rest) = rest.split_once(", \"").unwrap();
        let camel: String = name.split('_').map(|w| format!("{}{}", &w[..1], w[1..].to_lowercase())).collect();
        assert_eq!((refusal.number().to_string().as_str(), format!("{refusal:?}")), (number, camel));
        assert_eq!(refusal.words(), rest.split_once('"').unwrap().0);
    }
}

#[test]
fn a_resumed_build_ends_with_the_undisturbed_table() {
    let (whole, name) = (Name::new("whole"), Name::new("resumed"));
    let out = Name::new("resumed.table");
    let written = |j: &mut Journaled<Builder>| {
        j.write(&out).unwrap();
        std::fs::read(&out).unwrap()
    };
    let mut j = begin(&whole);
    go_on(&mut j, 100);
    let table = written(&mut j);
    let mut plain = Builder::new(small(), mesh(0)).unwrap();
    for ri in 0..3 {
        (0..2).for_each(|oi| plain.set(ri, oi, &energies(ri, oi)).unwrap());
        plain.settle(ri).unwrap();
    }
    assert!(plain.write().unwrap() == table);
    assert_eq!((j.grid(), j.level(), j.directions(), j.file_length()), (plain.grid(), plain.level(), plain.directions(), plain.file_length()));
    let bytes = std::fs::read(&whole).unwrap();
    for cut in (0..bytes.len()).step_by(41) {
        std::fs::write(&name, &bytes[..cut]).unwrap();
        let mut j = resume(&name).unwrap();
        assert!(j.bytes() <= 160.max(cut as u64));
        go_on(&mut j, 100);
        assert!(written(&mut j) == table, "cut at {cut}");
        assert!(std::fs::read(&name).unwrap() == bytes, "cut at {cut}");
    }
}

#[test]
fn damage_is_named_with_its_place() {
    let name = Name::new("damaged");
    go_on(&mut begin(&name), 4);
    let bytes = std::fs::read(&name).unwrap();
    for byte in (0..bytes.len()).step_by(29) {
        let mut damaged = bytes.clone();
        damaged[byte] ^= 0x40;
        std::fs::write(&name, &damaged).unwrap();
        let (number, said) = refused(resume(&name));
        let record = if byte < 160 { 0 } else { 1 + (byte - 160) / 1228 };
        assert_eq!(number, if byte < 8 { 204 } else { 206 }, "{byte}: {said}");
        assert!(!(84..=2616).contains(&byte) || said.contains(&format!("(record {record}, at byte ")), "{byte}: {said}");
        assert!(std::fs::read(&name).unwrap() == damaged);
    }
}

#[test]
fn one_at_a_time() {
    let name = Name::new("lock");
    let j = begin(&name);
    assert_eq!(refused(resume(&name)).0, 203);
    assert_eq!(refused(Builder::with_journal(&name, small(), mesh(0), Guard::On)).0, 201);
    drop(j);
    assert!(resume(&name).is_ok());
}

#[test]
fn the_guard_names_the_bins() {
    let name = Name::new("guard");
    let mut j = begin(&name);
    go_on(&mut j, 1);
    let (number, said) = refused(j.settle(0));
    assert!(number == 222 && said.contains("slab (0, 1), 1 of distance bin 0"), "{said}");
    let (number, said) = refused(j.set(2, 0, &energies(2, 0)));
    assert!(number == 223 && said.contains("distance bin 0 is nearer than 2 and not settled"), "{said}");
    let (number, said) = refused(j.write("none"));
    assert!(number == 224 && said.contains("slab (0, 1), 5 in all"), "{said}");
    go_on(&mut j, 2);
    let (number, said) = refused(j.set(0, 1, &energies(0, 1)));
    assert!(number == 221 && said.contains("distance bin 0 was settled; slab (0, 1)"), "{said}");
    go_on(&mut j, 5);
    let (number, said) = refused(j.write("none"));
    assert!(number == 225 && said.contains("distance bin 2, 1 in all"), "{said}");
    assert_eq!((j.is_set(2, 1), j.is_settled(2), j.is_set(3, 0)), (Some(true), Some(false), None));
    assert_eq!(j.records(), 9);
}

#[test]
fn without_the_guard_the_library_decides() {
    let name = Name::new("unguarded");
    let mut j = Builder::with_journal(&name, small(), mesh(0), first(Guard::Off)).unwrap();
    j.set(2, 0, &energies(2, 0)).unwrap();
    j.settle(2).unwrap();
    j.set(2, 0, &energies(2, 0)).unwrap();
    j.write(Name::new("unguarded.table")).unwrap();
    drop(j);
    let (number, said) = refused(resume(&name));
    assert!(number == 223 && said.contains("(record 1, at byte 160)"), "{said}");
    assert_eq!(Builder::resume(&name, small(), mesh(0), Guard::Off).unwrap().records(), 4);
}

#[test]
fn refused_calls_are_not_recorded() {
    let name = Name::new("refused");
    let mut j = begin(&name);
    let mut why = |oi, energies: &[f64]| j.set(0, oi, energies).unwrap_err().refusal();
    assert_eq!(why(0, &[1.0]), Some(Refusal::EnergyCount));
    assert_eq!(why(2, &energies(0, 0)), Some(Refusal::Bin));
    assert_eq!(why(0, &[f64::NAN; 144]), Some(Refusal::NanEnergy));
    assert!(refused(j.set(0, 2, &[])).1.ends_with("slab (0, 2)"));
    assert_eq!((j.records(), j.bytes()), (1, 160));
}

// Slices of one story: a wall whose weights are flat, or one that is Repulsive; then a well.
fn level_lost(name: &str, first: f64) -> Vec<bool> {
    let name = Name::new(name);
    let grid = settings(1.0, 3.0, 1.0, 6.3, 0.3, 1.0);
    let mut j = Builder::with_journal(&name, grid, mesh(1), Guard::On).expect("begin");
    let mut told = vec![j.level_lost()];
    for ri in 0..2 {
        let mut slab = vec![1e6; j.directions().len().pow(2)];
        slab[0] = first;
        if ri == 1 {
            slab.iter_mut().enumerate().for_each(|(i, e)| *e = 0.5 * (i % 7) as f64);
        }
        j.set(ri, 0, &slab).expect("set");
        j.settle(ri).expect("settle");
        told.push(j.level_lost());
    }
    told
}

#[test]
fn a_level_that_is_lost_inside_the_wall_is_told() {
    assert_eq!(level_lost("lost", 9.0), [false, true, true]);
    assert_eq!(level_lost("sound", 1e6), [false, false, false]);
}

#[test]
fn another_build_is_told() {
    let name = Name::new("other");
    go_on(&mut begin(&name), 2);
    let (number, said) = refused(Builder::resume(&name, Grid { beta: 2.0, ..small() }, mesh(0), Guard::On));
    assert!(number == 208 && said.contains("beta 1, not 2"), "{said}");
    assert_eq!(refused(Builder::resume(&name, small(), mesh(1), Guard::On)).0, 209);
    let mut level = mesh(0).level(0).unwrap();
    level.neighbours[3][1].1 += 0.25;
    assert_eq!(refused(Builder::resume(&name, small(), Arc::new(Mesh::new(&[level]).unwrap()), Guard::On)).0, 210);
    let atom = atom_settings(0.0, 3.0, 1.0, 0.1, 1.0);
    assert_eq!(refused(AtomBuilder::resume(&name, atom, mesh(0), Guard::On)).0, 207);
    assert_eq!(refused(AtomBuilder::resume("/dev/null", atom, mesh(0), Guard::On)).0, 204);
    assert_eq!(refused(AtomBuilder::resume(Name::new("none"), atom, mesh(0), Guard::On)).0, 202);
}

#[test]
fn builds_with_equal_settings_are_told_apart() {
    let (one, other, table) = (Name::new("one"), Name::new("other_label"), Name::new("labelled.table"));
    let folder = std::env::temp_dir().join(format!("simgrale-told-apart-{}", std::process::id()));
    std::fs::create_dir_all(&folder).unwrap();
    let begin = |name: &Name, label: &str| Builder::with_journal(name, small(), mesh(0), JournalOptions::new().label(label)).unwrap();
    let mut j = begin(&one, "water and ethanol");
    let id = j.id().expect("an id");
    assert_eq!((id.len(), j.label().as_str()), (32, "water and ethanol"));
    Slab::of_journal(&one, 0, 0, 0).unwrap().write(&folder, &energies(0, 0)).unwrap();
    assert_eq!(j.slab(0, 0).read(&folder).unwrap(), energies(0, 0));
    let (number, said) = refused(begin(&other, "two of water").slab(0, 0).read(&folder));
    assert!(number == 240 && said.contains("'water and ethanol'") && said.contains("'two of water'"), "{said}");
    let (number, said) = refused(Slab::new(small(), &mesh(0), 0, 0, 0).read(&folder));
    assert!(number == 240, "{said}");
    go_on(&mut j, 100);
    j.write(&table).unwrap();
    let seal = Seal::read(&table).unwrap().unwrap();
    assert_eq!((seal.guarded, seal.whole, seal.id.as_ref(), seal.label.as_str()), (Some(true), Some(true), Some(&id), "water and ethanol"));
    drop(j);
    let resumed = |label: &str| Builder::resume(&one, small(), mesh(0), JournalOptions::new().label(label));
    assert_eq!(resumed("water and ethanol").unwrap().id(), Some(id));
    let (number, said) = refused(resumed("two of water"));
    assert!(number == 219 && said.contains("label 'water and ethanol', not 'two of water'"), "{said}");
    for label in ["a\nb", "a\0b", &"x".repeat(4097)] {
        assert_eq!(refused(resumed(label)).0, 218);
    }
    assert_eq!(refused(Slab::of_journal(Name::new("none"), 0, 0, 0)).0, 202);
    std::fs::remove_dir_all(folder).unwrap();
}
