//! The table of cases that the suites of C, Rust and Python share: hosts/cases/cases.txt, which says what its lines mean.
use simgrale::{atom_settings, settings, AtomBuilder, AtomTable, Builder, Error, Guard, JournalOptions, Journaled, Mesh, Seal, Step};
use simgrale::{Table, Tail, Term};
use std::os::unix::process::ExitStatusExt;
use std::path::{Path, PathBuf};
use std::process::Command;
use std::sync::Arc;

const CASES: &str = concat!(env!("CARGO_MANIFEST_DIR"), "/../cases");
const HEIGHTS: [f64; 4] = [1e4, 3.0, 0.05, 3.0];
const SIGKILL: i32 = 9;

enum Build {
    Pair(Journaled<Builder>),
    Atom(Journaled<AtomBuilder>),
}

enum Opened {
    Pair(Table),
    Atom(AtomTable),
}

// One case, in a folder.
struct Run {
    folder: PathBuf,
    build: Option<Build>,
    table: Option<Opened>,
}

// splitmix64
fn mixed(z: u64) -> u64 {
    let z = (z ^ z >> 30).wrapping_mul(0xBF58476D1CE4E5B9);
    let z = (z ^ z >> 27).wrapping_mul(0x94D049BB133111EB);
    z ^ z >> 31
}

// zlib's.
fn crc32(bytes: &[u8]) -> u32 {
    let bit = |c: u32, _| if c & 1 == 1 { 0xEDB88320 ^ (c >> 1) } else { c >> 1 };
    !bytes.iter().fold(!0, |c, b| (0..8).fold(c ^ u32::from(*b), bit))
}

fn energies(count: usize, ri: u64, oi: u64) -> Vec<f64> {
    let drawn = |i: u64| (mixed((ri << 48).wrapping_add(oi << 40).wrapping_add(i)) % 1000) as f64 / 1000.0;
    let base = if ri == 0 { 1000.0 } else { 0.0 };
    (0..count as u64).map(|i| base + HEIGHTS[ri as usize % 4] * drawn(i)).collect()
}

fn mesh(name: &str) -> Arc<Mesh> {
    let made = match name {
        "own" => Mesh::icospheres(1).map_err(Error::from),
        "small" => Mesh::icospheres(0).map_err(Error::from),
        _ => Mesh::load(format!("{CASES}/{name}.mesh")),
    };
    Arc::new(made.expect("meshes"))
}

// Journals are of format version 1 but where an option says otherwise.
fn options(words: &[&str]) -> JournalOptions {
    let guarded = JournalOptions::from(if words.contains(&"unguarded") { Guard::Off } else { Guard::On });
    match words.iter().find_map(|word| word.strip_prefix("label=")) {
        Some(label) => guarded.label(label),
        None if words.contains(&"badlabel") => guarded.label("a\nb"),
        None if words.contains(&"v2") => guarded,
        None => guarded.version_1(),
    }
}

impl Build {
    // HOW KIND JOURNAL OPTION..
    fn new(folder: &Path, how: &str, words: &[&str]) -> Result<Build, Error> {
        let (path, has) = (folder.join(words[1]), |option| words[2..].contains(&option));
        let beta = if has("beta2") { 2.0 } else { 1.0 };
        let mesh = mesh(if has("foreign") {
            "foreign"
        } else if has("top0") {
            "small"
        } else {
            "own"
        });
        let options = options(&words[2..]);
        if words[0] == "atom" {
            let grid = atom_settings(0.0, 4.0, 1.0, 0.5, beta);
            return Ok(Build::Atom(match how {
                "begin" => AtomBuilder::with_journal(path, grid, mesh, options)?,
                "resume" => AtomBuilder::resume(path, grid, mesh, options)?,
                _ => AtomBuilder::open_journal(path, grid, mesh, options)?,
            }));
        }
        let grid = settings(0.0, 3.0, 1.0, 3.0, 0.5, beta);
        Ok(Build::Pair(match how {
            "begin" => Builder::with_journal(path, grid, mesh, options)?,
            "resume" => Builder::resume(path, grid, mesh, options)?,
            _ => Builder::open_journal(path, grid, mesh, options)?,
        }))
    }

    fn set(&mut self, ri: u64, oi: u64) -> Result<(), Error> {
        match self {
            Build::Pair(j) => j.set(ri, oi, &energies(j.directions().len().pow(2), ri, oi)),
            Build::Atom(j) => j.set(ri, &energies(j.directions().len(), ri, oi)),
        }
    }

    fn settle(&mut self, ri: u64) -> Result<(), Error> {
        match self {
            Build::Pair(j) => j.settle(ri).map(drop),
            Build::Atom(j) => j.settle(ri).map(drop),
        }
    }

    fn go(&mut self, calls: u64) -> Result<(), Error> {
        for _ in 0..calls {
            let step = match self {
                Build::Pair(j) => j.next_step(),
                Build::Atom(j) => j.next_step(),
            };
            match step {
                Step::Set { ri, oi } => self.set(ri, oi)?,
                Step::Settle { ri } => self.settle(ri)?,
                Step::Write => break,
            }
        }
        Ok(())
    }

    fn write(&mut self, path: PathBuf) -> Result<(), Error> {
        match self {
            Build::Pair(j) => j.write(path),
            Build::Atom(j) => j.write(path),
        }
    }

    fn tail(&mut self, path: PathBuf) -> Result<(), Error> {
        let tail = Tail { terms: vec![Term { coefficient: -1.5, kappa: 0.25, power: 6 }], prefactor: Some(17.5) };
        match self {
            Build::Pair(j) => j.write_tail(path, &tail),
            // there is no such method
            Build::Atom(_) => Err(Error::Handle { number: 262, message: String::new() }),
        }
    }
}

impl Opened {
    // KIND TABLE [MESHES]
    fn new(folder: &Path, words: &[&str]) -> Result<Opened, Error> {
        let (path, by_hand) = (folder.join(words[1]), words.get(2).map(|name| mesh(name)));
        Ok(match (words[0], by_hand) {
            ("atom", None) => Opened::Atom(AtomTable::open(path)?),
            ("atom", Some(mesh)) => Opened::Atom(AtomTable::open_with(path, mesh)?),
            (_, None) => Opened::Pair(Table::open(path)?),
            (_, Some(mesh)) => Opened::Pair(Table::open_with(path, mesh)?),
        })
    }

    fn energy(&self, i: u32) -> f64 {
        let of = |n: u32, less: f64| f64::from(i % n) - less;
        let (r, omega, a, b) = (f64::from(i) / 8.0, f64::from(i) / 4.0, [of(5, 2.0), of(3, 1.0), 1.0], [1.0, of(4, 2.0), of(7, 3.0)]);
        match self {
            Opened::Pair(t) => t.lookup(r, omega, a, b),
            Opened::Atom(t) => t.lookup(r, a),
        }
        .expect("an energy")
    }
}

impl Run {
    fn at(&self, name: &str) -> PathBuf {
        self.folder.join(name)
    }

    fn alter(&self, name: &str, alter: impl FnOnce(&mut Vec<u8>)) -> Result<(), Error> {
        let mut bytes = std::fs::read(self.at(name))?;
        alter(&mut bytes);
        Ok(std::fs::write(self.at(name), bytes)?)
    }

    // This program again, as the child below.
    fn kill(&self, words: &[&str]) -> Result<bool, Error> {
        let mut child = Command::new(std::env::current_exe()?);
        child.args(["--exact", "child", "--ignored"]).env("CASES_FOLDER", &self.folder).env("CASES_WORDS", words.join(" "));
        Ok(child.output()?.status.signal() == Some(SIGKILL))
    }

    // A step that asks: whether it is so.
    fn is_so(&self, words: &[&str]) -> Result<bool, Error> {
        let sum = |bytes: &[u8], wanted: &str| format!("{:08X}", crc32(bytes)) == wanted;
        Ok(match words[0] {
            "kill" => self.kill(&words[1..])?,
            "there" => self.at(words[1]).exists(),
            "gone" => !self.at(words[1]).exists(),
            "sum" => sum(&std::fs::read(self.at(words[1]))?, words[2]),
            "sealed" => {
                let seal = Seal::read(self.at(words[1]))?.expect("a seal");
                let word = |known: Option<bool>| known.map_or("unknown", |yes| if yes { "yes" } else { "no" });
                let label = if words[4] == "-" { "" } else { words[4] };
                (word(seal.guarded), word(seal.whole), seal.label.as_str()) == (words[2], words[3], label)
            }
            "energies" => {
                let table = self.table.as_ref().expect("a table");
                sum(&(0..32).flat_map(|i| table.energy(i).to_le_bytes()).collect::<Vec<u8>>(), words[1])
            }
            verb => panic!("{verb} is no verb"),
        })
    }

    fn file(&self, words: &[&str]) -> Option<Result<(), Error>> {
        let number = || words[2].parse::<usize>().expect("a number");
        Some(match words[0] {
            "copy" => std::fs::copy(self.at(words[1]), self.at(words[2])).map(drop).map_err(Error::from),
            "cut" => self.alter(words[1], |bytes| bytes.truncate(number())),
            "append" => self.alter(words[1], |bytes| bytes.extend(vec![b'x'; number()])),
            "flip" => self.alter(words[1], |bytes| bytes[number()] ^= 64),
            "remove" => std::fs::remove_file(self.at(words[1])).map_err(Error::from),
            "link" => std::os::unix::fs::symlink(words[1], self.at(words[2])).map_err(Error::from),
            "folder" => std::fs::create_dir(self.at(words[1])).map_err(Error::from),
            _ => return None,
        })
    }

    fn build(&mut self) -> &mut Build {
        self.build.as_mut().expect("a build")
    }

    fn call(&mut self, words: &[&str]) -> Option<Result<(), Error>> {
        let (folder, rest) = (self.folder.clone(), &words[1..]);
        let number = |i: usize| rest[i].parse::<u64>().expect("a number");
        Some(match words[0] {
            "begin" | "resume" | "open" => {
                self.build = None;
                Build::new(&folder, words[0], rest).map(|build| self.build = Some(build))
            }
            "read" => {
                self.table = None;
                Opened::new(&folder, rest).map(|table| self.table = Some(table))
            }
            "also" => Build::new(&folder, rest[0], &rest[1..]).map(drop),
            "set" => self.build().set(number(0), number(1)),
            "settle" => self.build().settle(number(0)),
            "go" => self.build().go(number(0)),
            "write" => self.build().write(folder.join(rest[0])),
            "tail" => self.build().tail(folder.join(rest[0])),
            "close" => {
                self.build = None;
                Ok(())
            }
            _ => return None,
        })
    }

    // The number that a step is answered with.
    fn step(&mut self, words: &[&str]) -> u64 {
        let answered = self.call(words).or_else(|| self.file(words));
        match answered {
            Some(Ok(())) => 0,
            Some(Err(error)) => error.number().unwrap_or_else(|| panic!("{error}")),
            None => u64::from(!self.is_so(words).expect("a file")),
        }
    }
}

fn place() -> PathBuf {
    let memory = PathBuf::from("/dev/shm");
    let base = if memory.is_dir() { memory } else { std::env::temp_dir() };
    base.join(format!("simgrale-cases-{}", std::process::id()))
}

#[test]
fn every_case_is_answered_as_the_table_says() {
    let text = std::fs::read_to_string(format!("{CASES}/cases.txt")).expect("the table of cases");
    let (place, mut cases, mut run) = (place(), Vec::new(), None);
    for line in text.lines().filter(|line| !line.is_empty() && !line.starts_with('#')) {
        if let Some(name) = line.strip_prefix("case ") {
            let folder = place.join(name);
            std::fs::create_dir_all(&folder).expect("a folder");
            cases.push(name);
            run = Some(Run { folder, build: None, table: None });
            continue;
        }
        let (words, wanted) = line.split_once(" = ").unwrap_or((line, "0"));
        let number = run.as_mut().expect("a case").step(&words.split(' ').collect::<Vec<_>>());
        assert_eq!(number.to_string(), wanted, "{}: {line}", cases.last().expect("a case"));
    }
    std::fs::remove_dir_all(place).expect("the folder");
    println!("cases: {} cases in Rust", cases.len());
    assert!(cases.len() > 40);
}

// CALLS KIND JOURNAL OPTION..: opens a build, makes so many calls and is killed.
#[test]
#[ignore = "the program that a case kills"]
fn child() {
    let (folder, words) = (std::env::var("CASES_FOLDER").expect("a folder"), std::env::var("CASES_WORDS").expect("words"));
    let words: Vec<&str> = words.split(' ').collect();
    let mut build = Build::new(Path::new(&folder), "open", &words[1..]).expect("a build");
    build.go(words[0].parse().expect("a number")).expect("calls");
    Command::new("kill").args(["-9", &std::process::id().to_string()]).status().expect("kill");
}
