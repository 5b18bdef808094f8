// Compares the static library libicotable.a with the Rust over whole tables: tables SEED short|long; built with --cfg atom it is the program `atoms`, of tables of one molecule against an atom. Lists of calls of fresh, set and settle, refused ones among them, on meshes of many
// kinds; after each list write, read, damaged copies of the file, and readings; then rounds of readings over damaged lists and tables made by a host. Every answer and every entry of
// every lent list is compared: with the Rust where document 01 admits a call, with independent readings of 01's text (refusals.rs, plain.rs, reading.rs) where not.
#[allow(dead_code, clippy::all)]
mod average {
    include!(concat!(env!("COMPARE"), "/average.rs"));
}
#[allow(dead_code, clippy::all)]
mod builder {
    #[cfg(not(atom))]
    include!(concat!(env!("COMPARE"), "/builder.rs"));
    #[cfg(atom)]
    include!(concat!(env!("COMPARE"), "/atom_builder.rs"));
}
#[allow(dead_code, clippy::all)]
mod oracle {
    include!(concat!(env!("COMPARE"), "/oracle.rs"));
}
#[allow(dead_code, clippy::all)]
mod rust {
    #[cfg(not(atom))]
    include!(concat!(env!("COMPARE"), "/lookup.rs"));
    #[cfg(atom)]
    include!(concat!(env!("COMPARE"), "/atom_lookup.rs"));
}
mod arguments;
mod bounds;
#[allow(dead_code)]
mod caller;
#[path = "../../hosts/rust/src/sys.rs"]
mod icotable;
mod library;
#[allow(dead_code)]
mod lines;
#[allow(dead_code)]
mod lists;
mod meshes;
mod pack;
#[allow(dead_code)]
mod plain;
mod queries;
mod reader;
mod reading;
mod refusals;
mod report;
#[allow(dead_code)]
mod samples;
mod search;
#[allow(dead_code)]
#[cfg_attr(atom, path = "atom.rs")]
#[cfg_attr(not(atom), path = "pair.rs")]
mod shape;
mod weighted;
mod worlds;

use arguments::arguments;
use bounds::{drawn, CASES};
use caller::Caller;
use icotable::Query;
use library::{builder_of, file_words, lending, same_reading, same_table, same_weighted, Library, Readings};
use lines::bits;
use lists::{needed_lengths, wrong, wrong_mesh, WRONG, WRONG_MESH};
use meshes::Random;
use pack::packed;
use queries::{asked, query, query_at};
use reader::{same_as_rust, weighted_as_rust, Reader};
use refusals::{Held, Lists};
use report::differ;
use shape::{per, OtherTable, RustTable, Table, HEADS};
use std::collections::BTreeMap;
use worlds::World;

// What was compared, by its words.
#[derive(Default)]
struct Tally(BTreeMap<String, u64>);

impl Tally {
    fn add(&mut self, words: &str, n: u64) {
        *self.0.entry(words.to_string()).or_default() += n;
    }
}

// ---- files

// An accepted write of what these lists hold: the wanted bytes, and what is beyond them stays.
fn written(held: &Held, lists: &Lists, file: &[u8], random: &mut Random) {
    let before: Vec<u8> = (0..file.len() + random.below(20)).map(|_| random.bits() as u8).collect();
    let (mut output, mut lent) = (before.clone(), lists.clone());
    report::input();
    let a = lending(&mut lent, &lists.lengths(), |l, m| shape::write(builder_of(held), l.held(), m, &mut output));
    if (a.number, a.length) != (0, file.len() as u64) {
        differ("write", format!("{held:?}"), format!("{}, {} bytes", a.number, a.length), format!("0, {} bytes", file.len()));
    }
    let wanted = file.iter().chain(&before[file.len()..]);
    if let Some((at, (byte, want))) = output.iter().zip(wanted).enumerate().find(|(_, (byte, want))| byte != want) {
        differ("write", format!("{held:?}, byte {at} of {}", file.len()), format!("{byte:02X}"), format!("{want:02X}"));
    }
    if !library::same_lists(&lent, lists) {
        differ("write", format!("{held:?}"), "other entries in a lent list".into(), "lists as they were".into());
    }
}

// Lists altered by hand so that an energy of each Mesh row and the scalar of each Scalar row are NaNs of any sign and pattern: each is written as 7FC00000.
fn written_nans(caller: &Caller, file: &[u8], t: &Table, random: &mut Random) -> u64 {
    let (mut lists, mut wanted) = (caller.lists.clone(), file.to_vec());
    let mut nans = 0;
    for s in 0..t.rows as usize {
        let row = t.start[3] as usize + 10 * s;
        let offset = u32::from_le_bytes(file[row + 2..row + 6].try_into().unwrap()) as usize;
        let at = match lists.kinds[s] {
            0 => {
                lists.values[s] = (0xff80_0001 | random.bits() as u32) & !((random.bits() as u32) << 31);
                row + 6
            }
            1 => continue,
            _ => {
                let i = random.below(per(lists.levels[s] as u64));
                let sign = random.bits() << 63;
                lists.store[s * per(caller.held.top) + i] = f64::from_bits(0x7ff0_0000_0000_0001 | random.bits() >> 12 | sign);
                t.start[4] as usize + 4 * (offset + i)
            }
        };
        wanted[at..at + 4].copy_from_slice(&0x7fc0_0000u32.to_le_bytes());
        nans += 1;
    }
    written(&caller.held, &lists, &wanted, random);
    nans
}

// A write with something wrong about it: the number, and no byte altered.
fn refused_write(caller: &Caller, random: &mut Random, tally: &mut Tally) {
    let mut lists = caller.lists.clone();
    let mut lent = lists.lengths();
    let mut held = caller.held;
    let mut room = refusals::file_length(&held, &lists) + random.below(3);
    for _ in 0..1 + random.below(2) {
        let s = random.below((caller.held.n_r * caller.held.n_omega) as usize);
        let k = random.below(8);
        match random.below(6) {
            0 => held = wrong(caller.held, random.below(WRONG), random),
            1 => lent[k] = needed_lengths(&caller.held)[k] - random.below(2),
            2 => {
                let (list, at, n) = wrong_mesh(caller, random.below(WRONG_MESH), random);
                lists.put(list, at, n);
            }
            3 if shape::PAIR && random.below(2) == 0 => lists.kinds[s] |= 0x100 << random.below(16),
            3 => lists.kinds[s] = [4, 255][random.below(2)],
            4 if lists.kinds[s] >= 2 => lists.levels[s] = [held.top as u8 + 1, 255][random.below(2)],
            _ => room = [0, room.saturating_sub(3)][random.below(2)],
        }
    }
    let number = refusals::write(&held, &lent, &lists, room);
    if number == 0 {
        return;
    }
    let before: Vec<u8> = (0..room).map(|_| random.bits() as u8).collect();
    let (mut output, was) = (before.clone(), lists.clone());
    report::input();
    let a = lending(&mut lists, &lent, |l, m| shape::write(builder_of(&held), l.held(), m, &mut output));
    if (a.number, a.length) != (number, 0) || output != before || !library::same_lists(&lists, &was) {
        differ("write", format!("{held:?}, lent {lent:?}, output {room}"), format!("{}, {} bytes", a.number, a.length), format!("{number}, nothing altered"));
    }
    tally.add(&format!("write, refused with {number}"), 1);
    if refusals::rest(&held, &lists) {
        tally.add(&format!("write, refused with {number}, a word having a rest"), 1);
    }
}

// What read returns for a file that it accepts.
fn accepted(file: &[u8]) -> Table {
    let word = |at: usize| u32::from_le_bytes(file[at..at + 4].try_into().unwrap()) as u64;
    let float = |at: usize| f64::from_le_bytes(file[at..at + 8].try_into().unwrap());
    let counts = 8 + 8 * HEADS[0];
    let third = counts + 4 * HEADS[1] + 4;
    let levels = word(third - 4);
    let fourth = third as u64 + 4 * levels + 4;
    let rows = word(fourth as usize - 4);
    let start = [4, counts as u64, third as u64, fourth, fourth + 10 * rows + 4];
    let (rmin, dr, n_r) = (float(4), float(12), word(counts));
    let rmax = (n_r as f64).mul_add(dr, rmin);
    // of an atom's file neither is taken
    let grid = shape::grid([rmin, rmax, dr, float(20), 0.0, 0.0], [n_r, word(counts + 4)]);
    shape::table(grid, [levels, rows, word(start[4] as usize - 4)], start, file)
}

// A copy of a file with a few things altered.
fn damaged(file: &[u8], t: &Table, random: &mut Random) -> Vec<u8> {
    let mut copy = file.to_vec();
    let rows = t.start[3] as usize;
    for _ in 0..1 + random.below(2) {
        let last = copy.len().max(1) - 1;
        let row = rows + 10 * random.below(t.rows as usize);
        let some = [0, 1, 2, 3, 127, 128, 192, 255, random.below(256) as u8][random.below(9)];
        let energy = t.start[4] as usize + 4 * random.below(t.energies.max(1) as usize);
        let at = match random.below(10) {
            0 => random.below(last.min(64) + 1),
            1 => row + random.below(10),
            2 => row + random.below(2),
            3 => energy + 3,
            4 => t.start[random.below(5)] as usize - 4 + random.below(4),
            5 => 4 + random.below(8 * HEADS[0]),
            6 => {
                copy.truncate(random.below(copy.len() + 1));
                continue;
            }
            7 => {
                copy.extend((0..1 + random.below(12)).map(|_| some));
                continue;
            }
            8 => {
                let at = random.below(last.min(rows + 60) + 1);
                copy.insert(at, some);
                continue;
            }
            _ => random.below(last + 1),
        };
        if at + 1 < copy.len() {
            // a NaN or an infinity where it is an energy's last byte
            (copy[at - (at > 0) as usize], copy[at]) = (copy[at - (at > 0) as usize] | if at == energy + 3 { 0x80 } else { 0 }, some);
        }
    }
    copy
}

// "An accepted file also passes `check_grid` and `check_slabs`": the Rust's, over the file's table.
#[cfg(not(atom))]
fn checked(file: &[u8], t: &Table) {
    let part = |start: u64, width: u64, i: u64| &file[(start + width * i) as usize..][..width as usize];
    let word = |bytes: &[u8]| u32::from_le_bytes(bytes.try_into().unwrap());
    let rows: Vec<&[u8]> = (0..t.rows).map(|s| part(t.start[3], 10, s)).collect();
    let row = |bytes: &&[u8]| match bytes[0] {
        0 => rust::SlabResolution::Scalar(f32::from_bits(word(&bytes[6..]))),
        1 => rust::SlabResolution::Repulsive,
        kind => rust::SlabResolution::Mesh { level: bytes[1], interpolate: kind == 3 },
    };
    let level = |m: u64| rust::MeshLevel { n_vertices: word(part(t.start[2], 4, m)) as usize, grid: oracle::FaceGrid::new(&[], &[]) };
    let table = rust::Table6DAdaptive {
        rmin: t.grid.rmin,
        rmax: t.grid.rmax,
        dr: t.grid.dr,
        n_r: t.grid.n_r as usize,
        omega_step: t.grid.omega_step,
        n_omega: t.grid.n_omega as usize,
        levels: (0..t.levels).map(level).collect(),
        slab_res: rows.iter().map(row).collect(),
        slab_offsets: rows.iter().map(|bytes| word(&bytes[2..6])).collect(),
        data: vec![0f32; t.energies as usize],
        metadata: None,
    };
    if let Err(words) = table.check_grid().and(table.check_slabs()) {
        differ("read", file_words(file), "accepted".into(), format!("the Rust's check: {words}"));
    }
}

// A file of the one kind is refused by the other's reader.
fn read_as_other(file: &[u8]) {
    report::input();
    let (got, wanted) = (shape::other_read(file), OtherTable { number: 13, ..OtherTable::default() });
    if got != wanted {
        differ("read, as a file of the other kind", file_words(file), format!("{got:?}"), format!("{wanted:?}"));
    }
}

fn reads(file: &[u8], t: &Table, random: &mut Random, tally: &mut Tally) {
    same_table(file, t);
    #[cfg(not(atom))]
    checked(file, t);
    tally.add("read, files as written", 1);
    read_as_other(file);
    tally.add("read, as files of the other kind, answered 13", 1);
    for _ in 0..20 {
        let copy = damaged(file, t, random);
        let number = plain::read(&copy);
        if number == 0 {
            let t = accepted(&copy);
            same_table(&copy, &t);
            #[cfg(not(atom))]
            checked(&copy, &t);
        } else {
            same_table(&copy, &Table { number, ..Table::default() });
        }
        #[cfg(not(atom))]
        viewed(&copy, tally);
        tally.add(&format!("read, damaged copies answered {number}"), 1);
    }
}

// The viewer's answer: the number of `plain`, and where it accepts, read's answer.
#[cfg(not(atom))]
fn viewed(file: &[u8], tally: &mut Tally) {
    report::input();
    let (got, number) = (icotable::view(file), plain::view(file));
    let wanted = if number == 0 { shape::read(file) } else { Table { number, ..Table::default() } };
    if library::table_words(&got) != library::table_words(&wanted) || number == 0 && plain::read(file) != 0 {
        differ("view", file_words(file), format!("{got:?}"), format!("{wanted:?}"));
    }
    tally.add(&format!("view, answered {number}"), 1);
}

// Files by hand around both bounds: of 1 to 17 levels, or of around 4,096 rows in one to three dihedral bins, all rows Scalar; as they are, and with a byte altered or missing.
#[cfg(not(atom))]
fn views(many: usize, random: &mut Random, tally: &mut Tally) {
    for _ in 0..many {
        let (levels, n_omega) = (1 + random.below(17) as u32, 1 + random.below(3) as u32);
        let n_r = if random.below(20) == 0 { 4090 / n_omega + random.below(12) as u32 } else { 1 + random.below(3) as u32 };
        let step = [6.0f64, 3.0, 2.0][n_omega as usize - 1];
        let mut words = vec![3];
        [0.5, 0.25, step].iter().for_each(|x: &f64| words.extend([x.to_bits() as u32, (x.to_bits() >> 32) as u32]));
        words.extend([2, n_r, n_omega, levels]);
        words.extend((1..=levels).map(|m| 10 * m * m + 2));
        words.push(n_r * n_omega);
        let mut file: Vec<u8> = words.iter().flat_map(|n: &u32| n.to_le_bytes()).collect();
        (0..n_r * n_omega).for_each(|_| file.extend([0, 0, 255, 255, 255, 255, 0, 0, 128, 63]));
        file.extend([0; 4]);
        viewed(&file, tally);
        let near = 120 + 40 * random.below(3);
        let at = random.below(file.len().min(near));
        file[at] ^= 1 << random.below(8);
        viewed(&file, tally);
        viewed(&file[..file.len() - 1], tally);
    }
}

// ---- readings

fn readings(world: &World, t: &Table, table: &RustTable, file: &[u8], many: usize, random: &mut Random, tally: &mut Tally) {
    let ends = [&world.meshes[0], world.meshes.last().unwrap()];
    let lent = icotable::Lent { file, ..world.lists.lent(&world.lists.lengths()) };
    let mut found = [0; 21];
    // at both ends of the distances and one float beside them, then anywhere
    let distances = [t.grid.rmin, t.grid.rmax].into_iter().flat_map(|r| [r.next_down(), r, r.next_up()]);
    let mut queries: Vec<Query> = distances.map(|r| Query { r, ..query(t, ends, random) }).collect();
    for _ in 0..many {
        queries.push(if random.below(3) == 0 { query(t, ends, random) } else { query_at(t, random.below(t.rows as usize) as u64, ends, random) });
    }
    for q in queries {
        let a = reading::reading(t, lent, &q);
        if a.number == 0 {
            same_as_rust(table, t, &q, &a);
        }
        same_reading(t, lent, &q, &a);
        found[a.number as usize] += 1;
        let beta = reader::beta(random);
        let w = reading::weighted(t, lent, &q, beta);
        if w.number == 0 {
            weighted_as_rust(table, t, &q, beta, &w);
        }
        same_weighted(t, lent, &q, beta, &w);
        tally.add("weighted reading, as written", 1);
    }
    for (number, &n) in found.iter().enumerate().filter(|f| *f.1 > 0) {
        tally.add(&format!("reading, as written, answered {number}"), n);
    }
}

// What a list of calls leaves: its file, and readings of it.
fn table(caller: &Caller, world: &mut World, many: usize, random: &mut Random, tally: &mut Tally) {
    let table = world.built(caller);
    let (file, t) = packed(&table);
    written(&caller.held, &caller.lists, &file, random);
    tally.add("write, accepted", 1);
    tally.add("bytes written", file.len() as u64);
    tally.add("write, NaNs put into lists by hand", written_nans(caller, &file, &t, random));
    for _ in 0..3 {
        refused_write(caller, random, tally);
    }
    reads(&file, &t, random, tally);
    readings(world, &t, &table, &file, many, random, tally);
    world.take_back(table);
}

// Lists of calls on one set of meshes.
fn lists(mut world: World, count: u64, many: usize, random: &mut Random, tally: &mut Tally) {
    tally.add("locator, lists", 4 * world.meshes.len() as u64);
    tally.add("locator, entries", world.entries);
    let mut library = Library::new();
    let mut caller = Caller::new(world.canaries(random), &mut library);
    caller.rests = shape::PAIR;
    world.lend(&mut caller, random);
    for _ in 0..count {
        drawn(&mut caller, random, world.top as u64);
        table(&caller, &mut world, many, random, tally);
    }
    for (words, n) in std::mem::take(&mut caller.cases) {
        tally.add(&words, n as u64);
    }
    tally.add("lists of calls", count);
    tally.add(&format!("lists of calls, top level {}", world.top), count);
    tally.add("calls of fresh, set and settle", library.calls);
    tally.add("calls of fresh, set and settle, refused", library.refused);
    tally.add("entries of lent lists", library.entries);
}

// Rows to words and back, by the places of document 02; a rest is refused, and a list that is too short before it.
fn moves(random: &mut Random) {
    let rows = random.below(8);
    let kinds: Vec<u8> = (0..rows).map(|_| random.bits() as u8).collect();
    let levels: Vec<u8> = (0..rows).map(|_| random.bits() as u8).collect();
    let values: Vec<u32> = (0..rows).map(|_| random.bits() as u32).collect();
    let beyond = random.bits();
    let mut words = vec![beyond; rows + 1];
    assert_eq!(icotable::rows_to_words(rows as u64, &kinds, &levels, &values, &mut words), 0);
    let bytes = |i: usize| [values[i].to_le_bytes().to_vec(), vec![levels[i], kinds[i], 0, 0]].concat();
    let wanted: Vec<u64> = (0..rows).map(|i| u64::from_le_bytes(bytes(i).try_into().unwrap())).chain([beyond]).collect();
    assert_eq!(words, wanted);
    let (mut a, mut b, mut c) = (vec![7; rows], vec![7; rows], vec![7; rows]);
    assert_eq!(icotable::words_to_rows(rows as u64, &words, &mut a, &mut b, &mut c), 0);
    assert_eq!((&a, &b, &c), (&kinds, &levels, &values));
    if rows > 0 {
        words[random.below(rows)] |= 1 << (48 + random.below(16));
        assert_eq!(icotable::words_to_rows(rows as u64, &words, &mut a, &mut b, &mut c[1..]), 6);
        assert_eq!(icotable::words_to_rows(rows as u64, &words, &mut a, &mut b, &mut c), 15);
        assert_eq!((&a, &b, &c), (&kinds, &levels, &values));
    }
}

// The functions that no table needs, by answers worked out elsewhere: the two sizes by document 01's words, the five numbers by the machine's.
fn signatures(random: &mut Random) {
    for level in (0..20).chain([u64::MAX, 1 << 32]) {
        let n = 10 * (level as u128 + 1) * (level as u128 + 1) + 2;
        let g = (((n as f64 / 6.0).sqrt() * 1.2).ceil() as u128).max(2);
        let wanted = if level > 15 { (0, 0) } else { (n as u64, (6 * g * g + 1) as u64) };
        assert_eq!((icotable::vertices(level), icotable::cells(level)), wanted);
    }
    for _ in 0..1000 {
        let [a, b, c] = samples::cancelling(random);
        assert_eq!(bits(icotable::root(a)), bits(a.sqrt()));
        assert_eq!(bits(icotable::exp(a)), bits(average::exponential(a)));
        assert_eq!(bits(icotable::ln(a)), bits(average::logarithm(a)));
        assert_eq!(bits(icotable::mul_add(a, b, c)), bits(a.mul_add(b, c)));
        assert_eq!(bits(icotable::narrow(a) as f64), bits(a as f32 as f64));
    }
    (0..1000).for_each(|_| moves(random));
    println!("signatures: vertices, cells, root, exp, ln, mul_add, narrow, rows_to_words and words_to_rows answer as they should");
}

// Cases of weighted readings that every run has.
const WEIGHTED: [&str; 8] = [
    "0: Scalar",
    "0: Repulsive",
    "0: nearest",
    "0: below rmin",
    "0: weighted, infinite",
    "0: weighted, the least infinite",
    "0: weighted, a NaN",
    "21: beta",
];

// Cases that have to have occurred.
fn needed() -> Vec<String> {
    let mut words = Vec::new();
    for (what, numbers) in [("fresh", vec![0, 1, 2, 3, 4, 6, 7]), ("set", vec![0, 1, 2, 3, 4, 6, 8, 9, 10]), ("settle", vec![0, 1, 2, 3, 4, 6, 7, 8, 11, 15])] {
        words.extend(numbers.iter().map(|n| format!("{what} {n}")));
    }
    words.extend([1, 2, 3, 4, 6, 7, 12, 15].map(|n| format!("write, refused with {n}")));
    words.extend([0, 13, 14, 15, 16, 17].map(|n| format!("read, damaged copies answered {n}")));
    words.extend([0, 18, 20].map(|n| format!("reading, as written, answered {n}")));
    words.extend(reader::DAMAGED.iter().map(|case| format!("by hand: {case}, damaged or by a host")));
    words.extend(WEIGHTED.map(|case| format!("weighted reading, answered {case}")));
    if shape::PAIR {
        words.extend([0, 13, 14, 15, 16, 17, 24].map(|n| format!("view, answered {n}")));
    }
    words.extend(CASES.iter().chain(shape::NEEDED).map(|&case| case.to_string()));
    words
}

fn main() {
    let (mut random, length) = arguments();
    // lists of calls at low levels; levels from 6 on, and lists at each; rounds of readings; tables of weighted readings
    let (high, each, rounds, tables) = length.choose((6..=8, 4, 20, 60), (6..=15, 12, 100, 6000));
    // readings after a list
    let many = 100;
    let mut tally = Tally::default();
    if shape::PAIR {
        signatures(&mut random);
    }
    let [short, long] = shape::LISTS;
    let mut left = length.choose(short, long);
    while left > 0 {
        let count = left.min(1 + random.below(25) as u64);
        lists(World::low(&mut random), count, many, &mut random, &mut tally);
        left -= count;
    }
    for top in high {
        (0..each).for_each(|_| lists(World::new(top, &mut random), 1, many, &mut random, &mut tally));
    }
    #[cfg(not(atom))]
    views(length.choose(2000, 100_000), &mut random, &mut tally);
    let random_beta = Random::of(random.bits());
    let mut sink = Readings { answered: 0, refused: 0, files: 0, random: random_beta, weighted: 0 };
    for _ in 0..rounds {
        let mut reader = Reader::new(&mut sink);
        asked(&mut reader, &mut random, 20, usize::MAX);
        reader.cases.iter().for_each(|(words, &n)| tally.add(&format!("by hand: {words}"), n as u64));
    }
    tally.add("reading, of tables made by hand, damaged or by a host, answered 0", sink.answered);
    tally.add("reading, of tables made by hand, damaged or by a host, refused", sink.refused);
    tally.add("read, files packed by the Rust", sink.files);
    let readings: u64 = tally.0.iter().filter(|t| t.0.starts_with("reading")).map(|t| t.1).sum();
    tally.add("all readings", readings);
    tally.add("weighted reading, of tables made by hand, damaged or by a host", sink.weighted);
    for _ in 0..tables {
        weighted::weighted(1000, &mut random, &mut |words, n| tally.add(words, n));
    }
    let weighted: u64 = tally.0.iter().filter(|t| t.0.starts_with("weighted")).map(|t| t.1).sum();
    tally.add("all weighted readings", weighted);
    for (words, n) in &tally.0 {
        println!("{n:12} {words}");
    }
    for words in needed() {
        assert!(tally.0.contains_key(&words), "nothing was compared of this case: {words}");
    }
    println!("{}: 0 differences", shape::NAME);
}
