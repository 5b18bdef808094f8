//! The random lists of calls of tests/hosts/lists.c, made in Rust: answers, messages, journals and tables are those of hosts/cases/lists.txt, which
//! the C helpers of 0.22.0 gave.
use simgrale::{atom_settings, settings, AtomBuilder, AtomGrid, AtomTable, Builder, Error, Grid, Guard, JournalOptions, Journaled, Level, Mesh};
use simgrale::{Settled, Step, Table, Tail, Term};
use std::path::Path;
use std::sync::Arc;

const JOURNAL: &str = "list.journal";
const TABLE: &str = "list.icotable";
const HEIGHTS: [f64; 6] = [1e4, 3.0, 0.05, 3.0, 0.05, 1e-3];

// splitmix64
fn mixed(z: u64) -> u64 {
    let z = (z ^ z >> 30).wrapping_mul(0xBF58476D1CE4E5B9);
    let z = (z ^ z >> 27).wrapping_mul(0x94D049BB133111EB);
    z ^ z >> 31
}

// zlib's crc32, an entry for each byte.
struct Sums([u32; 256]);

impl Sums {
    fn new() -> Sums {
        let bit = |c: u32, _| if c & 1 == 1 { 0xEDB88320 ^ (c >> 1) } else { c >> 1 };
        let mut table = [0; 256];
        table.iter_mut().zip(0..).for_each(|(entry, i)| *entry = (0..8).fold(i, bit));
        Sums(table)
    }

    fn of(&self, sum: u32, bytes: &[u8]) -> u32 {
        !bytes.iter().fold(!sum, |c, b| self.0[((c ^ u32::from(*b)) & 255) as usize] ^ c >> 8)
    }
}

enum Build {
    Pair(Journaled<Builder>),
    Atom(Journaled<AtomBuilder>),
}

// One of the two, whatever its kind.
macro_rules! either {
    ($build:expr, $j:ident => $call:expr) => {
        match $build {
            Build::Pair($j) => $call,
            Build::Atom($j) => $call,
        }
    };
}

#[derive(Clone, Copy)]
enum How {
    Begin,
    Resume,
    Open,
}

struct List<'a> {
    sums: &'a Sums,
    atom: bool,
    pair_grid: Grid,
    atom_grid: AtomGrid,
    mesh: Arc<Mesh>,
    guard: Guard,
    build: Option<Build>,
    distances: u64,
    state: u64,
    answers: u32,
}

impl<'a> List<'a> {
    fn drawn(k: u64, sums: &'a Sums, meshes: &[[Arc<Mesh>; 2]; 2]) -> List<'a> {
        let (pair_grid, atom_grid) = (settings(0.0, 0.0, 1.0, 0.0, 0.0, 1.0), atom_settings(0.0, 0.0, 1.0, 0.0, 1.0));
        let mesh = meshes[0][0].clone();
        let state = mixed(k + 1);
        let mut l = List { sums, atom: false, pair_grid, atom_grid, mesh, guard: Guard::On, build: None, distances: 0, state, answers: 0 };
        l.atom = l.below(3) == 0;
        let top = usize::from(l.below(6) == 0);
        l.distances = 1 + l.below(4);
        let step = [6.5, 3.0, 2.0][l.below(3) as usize];
        let threshold = [0.1, 0.5, 2.0][l.below(3) as usize];
        l.pair_grid = settings(0.0, l.distances as f64, 1.0, step, threshold, 1.0);
        l.atom_grid = atom_settings(0.0, l.distances as f64, 1.0, threshold, 1.0);
        l.guard = if l.below(4) == 0 { Guard::Off } else { Guard::On };
        l.mesh = meshes[usize::from(l.below(8) == 0)][top].clone();
        l
    }

    fn below(&mut self, n: u64) -> u64 {
        self.state = self.state.wrapping_add(0x9E3779B97F4A7C15);
        mixed(self.state) % n
    }

    fn build(&mut self) -> &mut Build {
        self.build.as_mut().expect("a build")
    }

    // ---- answers

    fn fold(&mut self, number: u64) {
        self.answers = self.sums.of(self.answers, &number.to_le_bytes());
    }

    fn told<T>(&mut self, answer: Result<T, Error>) -> Option<T> {
        let error = match answer {
            Ok(value) => {
                self.fold(0);
                return Some(value);
            }
            Err(error) => error,
        };
        let Error::Handle { number, message } = error else { panic!("{error}") };
        self.fold(number);
        self.answers = self.sums.of(self.answers, message.as_bytes());
        None
    }

    fn fold_progress(&mut self) {
        let all = either!(self.build(), j => {
            let (step, ri, oi) = match j.next_step() {
                Step::Set { ri, oi } => (0, ri, oi),
                Step::Settle { ri } => (1, ri, 0),
                Step::Write => (2, u64::MAX, 0),
            };
            [j.level(), j.file_length(), step, ri, oi, j.records(), j.bytes(), j.cut()]
        });
        // what C says of the next slice once all are settled
        let ri = if all[3] == u64::MAX { self.distances } else { all[3] };
        all.iter().enumerate().for_each(|(i, n)| self.fold(if i == 3 { ri } else { *n }));
    }

    // ---- calls

    // The stored journals are of format version 1.
    fn opened(&mut self, how: How, guard: Guard, beta: f64) {
        let options = JournalOptions::from(guard).version_1();
        let (mesh, pair, atom) = (self.mesh.clone(), Grid { beta, ..self.pair_grid }, AtomGrid { beta, ..self.atom_grid });
        let made = match (self.atom, how) {
            (false, How::Begin) => Builder::with_journal(JOURNAL, pair, mesh, options).map(Build::Pair),
            (false, How::Resume) => Builder::resume(JOURNAL, pair, mesh, options).map(Build::Pair),
            (false, How::Open) => Builder::open_journal(JOURNAL, pair, mesh, options).map(Build::Pair),
            (true, How::Begin) => AtomBuilder::with_journal(JOURNAL, atom, mesh, options).map(Build::Atom),
            (true, How::Resume) => AtomBuilder::resume(JOURNAL, atom, mesh, options).map(Build::Atom),
            (true, How::Open) => AtomBuilder::open_journal(JOURNAL, atom, mesh, options).map(Build::Atom),
        };
        if let Some(build) = self.told(made) {
            self.build = Some(build);
            self.guard = guard;
        }
    }

    fn set(&mut self, ri: u64, oi: u64, salt: u64, fewer: usize, nan: bool) {
        let n = either!(self.build(), j => j.directions().len());
        let count = if self.atom { n } else { n * n };
        let share = |i: u64| (mixed((ri << 48) + (oi << 40) + (salt << 32) + i) % 1000) as f64 / 1000.0;
        let base = if ri == 0 { 1000.0 } else { 0.0 };
        let mut energies: Vec<f64> = (0..count as u64).map(|i| base + HEIGHTS[ri as usize % 6] * share(i)).collect();
        if nan {
            energies[count / 2] = f64::NAN;
        }
        let given = &energies[..count - fewer];
        let answer = match self.build() {
            Build::Pair(j) => j.set(ri, oi, given),
            Build::Atom(_) if oi > 0 => Err(atom_bin(ri, oi)),
            Build::Atom(j) => j.set(ri, given),
        };
        self.told(answer);
    }

    fn settle(&mut self, ri: u64) {
        let answer = either!(self.build(), j => j.settle(ri));
        let settled = self.told(answer).unwrap_or(Settled { gradient: 0.0, comparisons: 0 });
        self.fold(settled.gradient.to_bits());
        self.fold(settled.comparisons);
    }

    fn write(&mut self) {
        let answer = either!(self.build(), j => j.write(TABLE));
        self.told(answer);
    }

    fn write_tail(&mut self) {
        let (coefficient, kappa, power) = (self.below(7) as f64 - 3.0, self.below(3) as f64 / 8.0, self.below(8) as u32);
        let mut terms = vec![Term { coefficient: -1.5, kappa: 0.0, power: 6 }, Term { coefficient, kappa, power }];
        terms.truncate(1 + self.below(2) as usize);
        if self.below(8) == 0 {
            terms[0].coefficient = f64::NAN;
        }
        let answer = match self.build() {
            Build::Pair(j) => j.write_tail(TABLE, &Tail { terms, prefactor: Some(17.5) }),
            Build::Atom(j) => j.write(TABLE),
        };
        self.told(answer);
    }

    fn go_on(&mut self) {
        match either!(self.build(), j => j.next_step()) {
            Step::Set { ri, oi } => self.set(ri, oi, 0, 0, false),
            Step::Settle { ri } => self.settle(ri),
            Step::Write => self.write(),
        }
    }

    // The journal as a crash or a bad disk leaves it.
    fn hurt(&mut self, how: u64, kept: &[u8]) {
        let by = 1 + self.below(80) as usize;
        let mut bytes = kept.to_vec();
        match how {
            2 => bytes.truncate(kept.len().saturating_sub(by)),
            3 => bytes.extend(vec![b'x'; by]),
            4 => bytes[self.below(kept.len() as u64) as usize] ^= 1 << (by % 8),
            _ => return,
        }
        std::fs::write(JOURNAL, bytes).expect("the journal");
    }

    fn reopen(&mut self) {
        let how = self.below(7);
        self.build = None;
        let kept = std::fs::read(JOURNAL).expect("the journal");
        self.hurt(how, &kept);
        let other = if self.guard == Guard::On { Guard::Off } else { Guard::On };
        self.opened(How::Resume, if how == 6 { other } else { self.guard }, if how == 5 { 2.0 } else { 1.0 });
        if self.build.is_none() {
            std::fs::write(JOURNAL, kept).expect("the journal");
            self.opened(How::Resume, self.guard, 1.0);
        }
    }

    fn call(&mut self) {
        let (drawn, ri, oi) = (self.below(100), self.below(self.distances + 1), self.below(4));
        match drawn {
            0..=59 => self.go_on(),
            60..=66 => {
                let salt = 1 + self.below(3);
                self.set(ri, oi, salt, 0, false)
            }
            67..=72 => self.set(ri, oi, 0, usize::from(drawn < 70), drawn >= 70),
            73..=77 => self.settle(ri),
            78..=80 => self.write(),
            81..=84 => self.write_tail(),
            85..=96 => self.reopen(),
            _ => self.opened([How::Begin, How::Resume, How::Open][drawn as usize - 97], self.guard, 1.0),
        }
        self.fold_progress();
    }

    // ---- the table

    fn read_pose(&mut self, table: &Table) {
        let (r, omega, d) = self.pose();
        let v = table.reading(r, omega, [d[0], d[1], d[2]], [d[3], d[4], d[5]]);
        self.fold(v.as_ref().err().map_or(0, |refusal| refusal.number()));
        let v = v.map_or([0.0; 3], |v| [v.energy, v.distance_a, v.distance_b]);
        v.iter().for_each(|x| self.fold(x.to_bits()));
    }

    fn read_atom_pose(&mut self, table: &AtomTable) {
        let (r, _, d) = self.pose();
        let energy = table.lookup(r, [d[0], d[1], d[2]]);
        self.fold(energy.as_ref().err().map_or(0, |refusal| refusal.number()));
        self.fold(energy.unwrap_or(0.0).to_bits());
    }

    fn pose(&mut self) -> (f64, f64, [f64; 6]) {
        let (r, omega) = (self.below(8 * self.distances + 8) as f64 / 8.0, self.below(100) as f64 / 16.0);
        (r, omega, [0; 6].map(|_| self.below(9) as f64 - 4.0))
    }

    fn read(&mut self) {
        if self.atom {
            if let Some(table) = self.told(AtomTable::open(TABLE)) {
                (0..6).for_each(|_| self.read_atom_pose(&table));
            }
        } else if let Some(table) = self.told(Table::open(TABLE)) {
            (0..6).for_each(|_| self.read_pose(&table));
        }
    }

    fn line(mut self) -> String {
        ["", ".mesh", ".meta"].iter().for_each(|end| drop(std::fs::remove_file(format!("{TABLE}{end}"))));
        let _ = std::fs::remove_file(JOURNAL);
        self.opened(How::Open, self.guard, 1.0);
        let calls = 4 + self.below(29);
        (0..calls).for_each(|_| self.call());
        self.build = None;
        self.read();
        let sum = |sum, name: &str| self.sums.of(sum, &std::fs::read(name).unwrap_or_default());
        let table = sum(sum(0, TABLE), &format!("{TABLE}.mesh"));
        format!("{:08X} {:08X} {table:08X}", self.answers, sum(0, JOURNAL))
    }
}

// Against an atom there is no dihedral bin to hand over; what C answers to one.
fn atom_bin(ri: u64, oi: u64) -> Error {
    Error::Handle { number: 8, message: format!("a bin number is not below its count: slab ({ri}, {oi})") }
}

// The library's own meshes with the axes turned round.
fn turned(own: &Mesh) -> Mesh {
    let turn = |mut level: Level| {
        level.vertices.iter_mut().for_each(|v| v.rotate_left(1));
        level
    };
    let levels: Vec<Level> = (0..=own.top()).filter_map(|m| own.level(m)).map(turn).collect();
    Mesh::new(&levels).expect("they keep the mesh rule")
}

#[test]
fn lists_of_calls_are_answered_as_by_the_c_helpers_of_0_22_0() {
    let stored = concat!(env!("CARGO_MANIFEST_DIR"), "/../cases/lists.txt");
    let stored = std::fs::read_to_string(stored).expect("the stored answers");
    let base = if Path::new("/dev/shm").is_dir() { "/dev/shm".into() } else { std::env::temp_dir() };
    let folder = base.join(format!("simgrale-lists-{}", std::process::id()));
    std::fs::create_dir_all(&folder).and_then(|()| std::env::set_current_dir(&folder)).expect("a folder");
    let own = [0, 1].map(|top| Mesh::icospheres(top).expect("icospheres"));
    let turned = [turned(&own[0]), turned(&own[1])];
    let meshes = [own.map(Arc::new), turned.map(Arc::new)];
    let (sums, mut lists) = (Sums::new(), 0);
    for wanted in stored.lines().filter(|line| !line.starts_with('#')) {
        assert_eq!(List::drawn(lists, &sums, &meshes).line(), wanted, "list {lists}");
        lists += 1;
    }
    std::fs::remove_dir_all(folder).expect("the folder");
    println!("lists: {lists} lists of calls in Rust");
    assert_eq!(lists, 4000);
}
