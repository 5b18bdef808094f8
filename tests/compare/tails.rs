// Compares long-range tails of the static library libicotable.a with the Rust: tails SEED short|long. The power by itself; then, after lists of calls, writes with terms, accepted and refused, the
// files that they leave, cut, lengthened and damaged, and readings of their tails: the Rust's `tail_energy` with document 02's power and E. Readings of damaged files and of tables that a host made are compared with
// an independent reading of document 02's text (tail.rs). Ends at the first difference, with its input.
#[allow(dead_code, clippy::all)]
mod average {
    include!(concat!(env!("COMPARE"), "/average.rs"));
}
#[allow(dead_code, clippy::all)]
mod builder {
    include!(concat!(env!("COMPARE"), "/builder.rs"));
}
#[allow(dead_code, clippy::all)]
mod oracle {
    include!(concat!(env!("COMPARE"), "/oracle.rs"));
}
#[allow(dead_code, clippy::all)]
mod rust {
    include!(concat!(env!("COMPARE"), "/lookup.rs"));
}
#[allow(dead_code, clippy::all)]
mod rust_tail {
    include!(concat!(env!("COMPARE"), "/tail.rs"));
}
mod arguments;
#[allow(dead_code)]
mod bounds;
#[allow(dead_code)]
mod caller;
#[path = "../../hosts/rust/src/sys.rs"]
mod icotable;
#[allow(dead_code)]
mod library;
#[allow(dead_code)]
mod lines;
#[allow(dead_code)]
mod lists;
#[allow(dead_code)]
mod meshes;
mod pack;
#[allow(dead_code)]
mod plain;
#[allow(dead_code)]
mod queries;
#[allow(dead_code)]
mod reader;
#[allow(dead_code)]
mod reading;
#[allow(dead_code)]
mod refusals;
mod report;
#[allow(dead_code)]
mod samples;
#[allow(dead_code)]
mod search;
#[allow(dead_code, unused_imports)]
#[path = "pair.rs"]
mod shape;
mod tail;
#[allow(dead_code)]
mod worlds;

use arguments::arguments;
use caller::Caller;
use icotable::{AtomTable, Lent, Table, Written};
use library::{builder_of, file_words, lending, same_lists, same_table, Library};
use lines::bits;
use lists::{needed_lengths, wrong, wrong_mesh, WRONG, WRONG_MESH};
use meshes::Random;
use pack::packed;
use queries::query;
use refusals::Lists;
use report::differ;
use rust_tail::TableMetadata;
use samples::{base_and_exponent, sample};
use std::collections::BTreeMap;
use tail::{distance, question, raised, Tail};
use worlds::World;

// What was compared, by its words.
#[derive(Default)]
struct Tally(BTreeMap<String, u64>);

impl Tally {
    fn add(&mut self, words: &str, n: u64) {
        *self.0.entry(words.to_string()).or_default() += n;
    }
}

// ---- the power

fn same_power(r: f64, n: u32) {
    report::input();
    let (ours, wanted) = (icotable::power(r, n), raised(r, n));
    if bits(ours) != bits(wanted) || bits(rust_tail::raised(r, n)) != bits(wanted) {
        differ("power", format!("{r:e} ({:016X}) to the {n}", r.to_bits()), format!("{ours:e}"), format!("{wanted:e}"));
    }
}

// Powers of small whole numbers and of 2 are exact as long as they fit, so that what is compared is a power at all.
fn exact_powers() -> u64 {
    let mut all = 0;
    for base in 2..=17u64 {
        for n in (0..64).take_while(|&n| base.checked_pow(n).is_some_and(|p| p < 1 << 53)) {
            assert_eq!(icotable::power(base as f64, n), base.pow(n) as f64);
            all += 1;
        }
    }
    for n in 0..1024u32 {
        assert_eq!(icotable::power(2.0, n).to_bits(), (n as u64 + 1023) << 52);
        all += 1;
    }
    all
}

fn powers(count: u64, random: &mut Random, tally: &mut Tally) {
    tally.add("powers that are exact", exact_powers());
    for _ in 0..count {
        let (r, n) = base_and_exponent(random);
        same_power(r, n);
    }
    tally.add("powers", count);
}

// ---- write

fn written(caller: &Caller, t: &Tail, output: &mut [u8], lent: &[usize; 8], lists: &mut Lists, held: &refusals::Held) -> Written {
    report::input();
    let was = lists.clone();
    let a = lending(lists, lent, |l, m| icotable::write_tail(builder_of(held), l.held(), m, t.lent(), output));
    if !same_lists(lists, &was) {
        differ("write_tail", format!("{:?}, {t:?}", caller.held), "other entries in a lent list".into(), "lists as they were".into());
    }
    a
}

// An accepted write: the file of the Rust's table, the sixth section behind it, and what is beyond them stays.
fn accepted_write(caller: &Caller, t: &Tail, plain: &[u8], random: &mut Random) -> Vec<u8> {
    let file: Vec<u8> = plain.iter().copied().chain(t.bytes()).collect();
    let before: Vec<u8> = (0..file.len() + random.below(20)).map(|_| random.bits() as u8).collect();
    let (mut output, mut lists) = (before.clone(), caller.lists.clone());
    let lent = lists.lengths();
    let a = written(caller, t, &mut output, &lent, &mut lists, &caller.held);
    let wanted = [&file[..], &before[file.len()..]].concat();
    if (a.number, a.length) != (0, file.len() as u64) || output != wanted {
        let at = output.iter().zip(&wanted).position(|(x, y)| x != y);
        differ("write_tail", format!("{:?}, {t:?}", caller.held), format!("{a:?}, first other byte {at:?}"), format!("0, {} bytes", file.len()));
    }
    file
}

// Without terms the file is that of `icotable_write`, whatever else is handed over.
fn without_terms(caller: &Caller, plain: &[u8], random: &mut Random) {
    let t = Tail::none(random);
    let file = accepted_write(caller, &t, plain, random);
    let (mut output, mut lists) = (vec![0; file.len()], caller.lists.clone());
    let lent = lists.lengths();
    let a = lending(&mut lists, &lent, |l, m| icotable::write(builder_of(&caller.held), l.held(), m, &mut output));
    if (a.number, a.length as usize) != (0, file.len()) || output != file {
        differ("write_tail without terms", format!("{:?}, {t:?}", caller.held), format!("{a:?}"), "the bytes of write".into());
    }
}

// A write with a few things wrong about it: the number, and no byte altered.
fn refused_write(caller: &Caller, random: &mut Random, tally: &mut Tally) {
    let mut t = Tail::drawn(random.below(5), random);
    let mut lists = caller.lists.clone();
    let mut lent = lists.lengths();
    let mut held = caller.held;
    let sixth = t.bytes().len();
    let mut room = refusals::file_length(&held, &lists) + sixth + random.below(3);
    for _ in 0..1 + random.below(3) {
        let s = random.below((caller.held.n_r * caller.held.n_omega) as usize);
        let k = random.below(8);
        match random.below(12) {
            0 => held = wrong(caller.held, random.below(WRONG), random),
            1 => lent[k] = needed_lengths(&caller.held)[k] - random.below(2),
            2 => {
                let (list, at, n) = wrong_mesh(caller, random.below(WRONG_MESH), random);
                lists.put(list, at, n);
            }
            3 => lists.kinds[s] = [4, 255, lists.kinds[s] | 0x100 << random.below(16)][random.below(3)],
            4 | 5 => room = [0, room.saturating_sub(3), room.saturating_sub(sixth)][random.below(3)],
            _ => t.spoilt(random),
        }
    }
    let number = question(&held, &lent, &lists, &t, room);
    if number == 0 {
        return;
    }
    let before: Vec<u8> = (0..room).map(|_| random.bits() as u8).collect();
    let mut output = before.clone();
    let a = written(caller, &t, &mut output, &lent, &mut lists, &held);
    if (a.number, a.length) != (number, 0) || output != before {
        differ("write_tail", format!("{held:?}, {t:?}, lent {lent:?}, output {room}"), format!("{a:?}"), format!("{number}, nothing altered"));
    }
    tally.add(&format!("write_tail, refused with {number}"), 1);
    if refusals::rest(&held, &lists) {
        tally.add(&format!("write_tail, refused with {number}, a word having a rest"), 1);
    }
}

// The Rust's own check of the prefactor says no where 22 does, of terms with which nothing else is wrong.
fn as_validate(caller: &Caller, random: &mut Random) {
    let mut t = Tail::drawn(random.below(3), random);
    t.prefactor.truncate(random.below(2));
    let room = refusals::file_length(&caller.held, &caller.lists) + 12 + 20 * t.len();
    let mut lists = caller.lists.clone();
    let lent = lists.lengths();
    let a = written(caller, &t, &mut vec![0; room], &lent, &mut lists, &caller.held);
    let wanted = if t.metadata().validate().is_err() { 22 } else { 0 };
    if a.number != wanted {
        differ("write_tail and the Rust's validate", format!("{t:?}"), format!("{}", a.number), format!("{wanted}"));
    }
}

// More terms than a u32 counts: lists that are there and are never touched. 23 is put before any of them is looked at, and 22 before it.
fn too_many(caller: &Caller, tally: &mut Tally) {
    const MANY: usize = 1 << 32;
    extern "C" {
        fn mmap(at: *mut u8, length: usize, protection: i32, flags: i32, file: i32, offset: i64) -> *mut u8;
    }
    // read only; private, of no file, nothing set aside for it
    let at = unsafe { mmap(std::ptr::null_mut(), 8 * MANY, 1, 0x2 | 0x20 | 0x4000, -1, 0) };
    if at as isize == -1 {
        println!("tails: NOT RUN: 2^32 terms: this machine maps no list of them");
        return;
    }
    let floats = unsafe { std::slice::from_raw_parts(at as *const f64, MANY) };
    let powers = unsafe { std::slice::from_raw_parts(at as *const u32, MANY) };
    for (prefactor, kappas, wanted) in [(&[1.0][..], MANY, 23), (&[], MANY, 22), (&[1.0], MANY - 1, 6)] {
        let mut lists = caller.lists.clone();
        let lent = lists.lengths();
        let t = icotable::Tail { coefficients: floats, kappas: &floats[..kappas], powers, prefactor };
        let a = lending(&mut lists, &lent, |l, m| icotable::write_tail(builder_of(&caller.held), l.held(), m, t, &mut []));
        if a.number != wanted {
            differ("write_tail", format!("2^32 terms, {kappas} kappas, prefactor {prefactor:?}"), format!("{}", a.number), format!("{wanted}"));
        }
        tally.add(&format!("write_tail of 2^32 terms, refused with {wanted}"), 1);
    }
}

// ---- read

fn reads(file: &[u8], tally: &mut Tally) {
    let number = plain::read(file);
    let wanted = if number == 0 { accepted(file) } else { Table { number, ..Table::default() } };
    same_table(file, &wanted);
    tally.add(&format!("read, answered {number}, {} terms", if wanted.terms > 0 { "with" } else { "no" }), 1);
}

// What read returns for a file that it accepts.
fn accepted(file: &[u8]) -> Table {
    let word = |at: usize| u32::from_le_bytes(file[at..at + 4].try_into().unwrap()) as u64;
    let float = |at: usize| f64::from_le_bytes(file[at..at + 8].try_into().unwrap());
    let rows_start = 48 + 4 * word(40);
    let energies_start = rows_start + 10 * word(rows_start as usize - 4) + 4;
    let (rmin, dr, n_r) = (float(4), float(12), word(32));
    let grid = shape::grid([rmin, (n_r as f64).mul_add(dr, rmin), dr, float(20), 0.0, 0.0], [n_r, word(36)]);
    let counts = [word(40), word(rows_start as usize - 4), word(energies_start as usize - 4)];
    shape::table(grid, counts, [4, 32, 44, rows_start, energies_start], file)
}

// Cut and lengthened at every byte from before the end of section 5 on; then single numbers of the sixth section altered.
fn ends(file: &[u8], sixth: usize, t: &Tail, random: &mut Random, tally: &mut Tally) {
    for length in sixth.saturating_sub(6)..file.len() {
        reads(&file[..length], tally);
    }
    for more in 1..45 {
        let byte = [0, 1, 255, random.below(256) as u8][random.below(4)];
        reads(&[file, &vec![byte; more]].concat(), tally);
    }
    for count in [0, 1, t.len() as u32 + 1, (t.len() as u32).wrapping_sub(1), u32::MAX] {
        let mut copy = file.to_vec();
        copy.resize(copy.len().max(sixth + 4), 0);
        copy[sixth..sixth + 4].copy_from_slice(&count.to_le_bytes());
        reads(&copy, tally);
        // as long as this count says, where that is not long
        copy.resize(sixth + 12 + 20 * (count % 16) as usize, 0);
        reads(&copy, tally);
    }
    // with terms: a value that is not finite, a power, any byte
    for _ in 0..if file.len() > sixth { 12 } else { 0 } {
        reads(&damaged(file, sixth, random), tally);
    }
}

// A copy of a file with one number or byte of its sixth section altered.
fn damaged(file: &[u8], sixth: usize, random: &mut Random) -> Vec<u8> {
    let mut copy = file.to_vec();
    let terms = (file.len() - sixth - 12) / 20;
    let term = sixth + 4 + 20 * random.below(terms);
    let odd = [f64::NAN, f64::INFINITY, f64::NEG_INFINITY, f64::from_bits(0xfff0_0000_0000_0001), f64::MAX][random.below(5)];
    match random.below(5) {
        0 => copy[term..term + 8].copy_from_slice(&odd.to_le_bytes()),
        1 => copy[term + 8..term + 16].copy_from_slice(&odd.to_le_bytes()),
        2 => copy[term + 16..term + 20].copy_from_slice(&[1 << 31, u32::MAX, (1 << 31) - 1, random.bits() as u32][random.below(4)].to_le_bytes()),
        3 => copy[file.len() - 8..].copy_from_slice(&odd.to_le_bytes()),
        _ => copy[sixth + random.below(file.len() - sixth)] = random.bits() as u8,
    }
    copy
}

// A file against an atom has no sixth section: what would be one is refused.
fn atoms(t: &Tail, tally: &mut Tally) {
    let mut file = Vec::new();
    for part in [&2u32.to_le_bytes()[..], &0f64.to_le_bytes(), &1f64.to_le_bytes(), &1u32.to_le_bytes(), &1u32.to_le_bytes()] {
        file.extend(part);
    }
    file.extend([1u32, 12, 1].iter().flat_map(|n| n.to_le_bytes()));
    file.extend([0, 0, 255, 255, 255, 255, 0, 0, 0, 0, 0, 0, 0, 0]);
    assert_eq!(icotable::atom_read(&file).number, 0);
    file.extend(t.bytes());
    let got = icotable::atom_read(&file);
    if t.len() > 0 && got != (AtomTable { number: 13, ..AtomTable::default() }) {
        differ("atom_read", file_words(&file), format!("{got:?}"), "13".into());
    }
    tally.add("atom_read, a sixth section, answered 13", (t.len() > 0) as u64);
}

// ---- readings

fn same_tail(t: &Table, file: &[u8], r: f64, wanted: (u64, f64), whose: &str) {
    report::input();
    let got = icotable::tail(t, file, r);
    if (got.number, bits(got.energy), bits(got.distance_a), bits(got.distance_b)) != (wanted.0, bits(wanted.1), 0, 0) {
        let sixth = file.get(t.start[5] as usize..).unwrap_or(&[]);
        let input = format!("r {r:e} ({:016X}), {} terms from byte {} on of {}: {:02X?}", r.to_bits(), t.terms, t.start[5], file.len(), &sixth[..sixth.len().min(120)]);
        differ(&format!("the tail, {whose}"), input, format!("{got:?}"), format!("{wanted:?}"));
    }
}

// Of a file as it was written: the Rust's, and document 02's text says the same.
fn sound(t: &Table, file: &[u8], rust: &TableMetadata, r: f64, tally: &mut Tally) {
    let text = tail::reading(t.terms, t.start[5], file, r);
    if text.0 == 0 && bits(text.1) != bits(rust.tail_energy(r)) {
        differ("the Rust's tail_energy and document 02's text", format!("{rust:?} at {r:e}"), format!("{:e}", text.1), format!("{:e}", rust.tail_energy(r)));
    }
    same_tail(t, file, r, text, "as the Rust");
    let kind = match text.1 {
        _ if text.0 != 0 => "",
        _ if t.terms == 0 => ", no terms",
        x if x.is_nan() => ", a NaN",
        x if x.is_infinite() => ", infinite",
        x if x == 0.0 && x.is_sign_negative() => ", -0",
        x if x == 0.0 => ", 0",
        x if x.is_subnormal() => ", subnormal",
        _ => ", a number",
    };
    tally.add(&format!("tail, as the Rust, answered {}{kind}", text.0), 1);
    tally.add("tails, as the Rust", 1);
}

// Of a file that was damaged after it was read.
fn of_damaged(t: &Table, file: &[u8], random: &mut Random, tally: &mut Tally) {
    let sixth = t.start[5] as usize - 4;
    let mut copy = damaged(file, sixth, random);
    if random.below(4) == 0 {
        copy.truncate(sixth + random.below(file.len() - sixth + 1));
    }
    let r = distance(t.grid.rmin, t.grid.rmax, random);
    let text = tail::reading(t.terms, t.start[5], &copy, r);
    same_tail(t, &copy, r, text, "of a damaged file");
    tally.add(&format!("tail, of a damaged file, answered {}", text.0), 1);
}

// Of a table that a host made: any count and any start, and nothing else of the table is looked at.
fn of_host(t: &Table, file: &[u8], random: &mut Random, tally: &mut Tally) {
    let n = file.len() as u64;
    let wide = |random: &mut Random| [0, 1, 2, n, n - 8, n - 28, (1 << 32) - 1, 1 << 63, u64::MAX, u64::MAX / 20, u64::MAX / 20 + 1, random.bits() >> random.below(64)][random.below(12)];
    let mut h = *t;
    match random.below(4) {
        0 => h.terms = wide(random),
        1 => h.start[5] = wide(random),
        2 => (h.terms, h.start[5]) = (wide(random), wide(random)),
        _ => {
            // as far as the file goes, or one byte or one term farther
            h.start[5] = random.below(file.len()) as u64;
            h.terms = (n - h.start[5]).saturating_sub(8) / 20 + random.below(2) as u64;
        }
    }
    // where 2^64 is taken off, the product would come to what the file has
    if random.below(8) == 0 {
        h.start[5] = n.wrapping_sub(8).wrapping_sub(h.terms.wrapping_mul(20));
    }
    (h.number, h.levels, h.rows, h.energies, h.grid.rmax) = (random.bits(), random.bits(), random.bits(), random.bits(), sample(random));
    let r = distance(t.grid.rmin, t.grid.rmax, random);
    let text = tail::reading(h.terms, h.start[5], file, r);
    same_tail(&h, file, r, text, "of a host's table");
    tally.add(&format!("tail, of a host's table, answered {}{}", text.0, if h.terms == 0 { ", no terms" } else { "" }), 1);
}

// Readings of the energies are the same with the sixth section and without it; beyond rmax they stay 0.
fn same_readings(world: &World, plain: &[u8], file: &[u8], random: &mut Random, tally: &mut Tally) {
    let (p, f) = (icotable::read(plain), icotable::read(file));
    let ends = [&world.meshes[0], world.meshes.last().unwrap()];
    let lent = |file| Lent { file, ..world.lists.lent(&world.lists.lengths()) };
    for _ in 0..8 {
        let mut q = query(&p, ends, random);
        if random.below(4) == 0 {
            q.r = p.grid.rmax.next_up();
        }
        let beta = reader::beta(random);
        let both = [(&p, plain), (&f, file)].map(|(t, file)| {
            let (a, b) = (icotable::reading(t, lent(file), &q), icotable::boltzmann(t, lent(file), &q, beta));
            [a.number, bits(a.energy), bits(a.distance_a), bits(a.distance_b), b.number, bits(b.energy)]
        });
        if both[0] != both[1] || q.r > p.grid.rmax && both[1][1] != 0 {
            differ("readings with and without terms", format!("{q:?}"), format!("{:X?}", both[1]), format!("{:X?}", both[0]));
        }
    }
    tally.add("readings with and without terms", 16);
}

// ---- sizing

// "its longest file grows by their section and the prefactor"; a file that was written is no longer.
fn sized(caller: &Caller, written: usize, terms: usize, random: &mut Random, tally: &mut Tally) {
    let l = &caller.lists;
    let ask = |grid, terms| icotable::sizing(grid, caller.held.top, &l.counts, &l.neighbours, terms);
    let grid = builder_of(&caller.held).grid;
    let none = ask(grid, 0);
    let k = terms as u64 + random.below(3) as u64;
    for terms in [k, u32::MAX as u64, random.bits() >> 32] {
        let with = ask(grid, terms);
        let wanted = icotable::Size { file: none.file + if terms > 0 { 12 + 20 * terms } else { 0 }, ..none };
        if with != wanted || none.number != 0 || terms == k && (written as u64) > with.file {
            differ("sizing", format!("{terms} terms, a file of {written} bytes"), format!("{with:?}"), format!("{wanted:?}"));
        }
    }
    // beyond a u32 count: 23, put last
    let bad = icotable::Grid { dr: f64::NAN, ..grid };
    let many = [1 << 32, u64::MAX, 1 << 63][random.below(3)];
    for (grid, counts, number) in [(grid, l.counts.len(), 23), (bad, l.counts.len(), 1), (grid, 0, 6)] {
        let got = icotable::sizing(grid, caller.held.top, &l.counts[..counts], &l.neighbours, many);
        if got != (icotable::Size { number, ..icotable::Size::default() }) {
            differ("sizing", format!("{many} terms"), format!("{got:?}"), format!("{number}"));
        }
    }
    tally.add("sizings with a number of terms", 7);
}

// Every slab set at the top level, nothing settled: the longest file, with so many terms, is reached.
fn reached(caller: &mut Caller, random: &mut Random, tally: &mut Tally) {
    let (s, top) = (caller.held.settings, caller.held.top);
    let all = caller.lists.lengths();
    assert_eq!(caller.fresh(s, top, [0, 0], all), 0);
    for slab in 0..caller.held.n_r * caller.held.n_omega {
        let n = caller.held.n_omega;
        let r = lists::rule(caller, random, true);
        assert_eq!(caller.set(slab / n, slab % n, r, all), 0);
    }
    let t = Tail::drawn(random.below(4), random);
    let size = icotable::sizing(builder_of(&caller.held).grid, top, &caller.lists.counts, &caller.lists.neighbours, t.len() as u64);
    let mut lists = caller.lists.clone();
    let a = written(caller, &t, &mut vec![0; size.file as usize], &all, &mut lists, &caller.held);
    if (size.number, a.number, a.length) != (0, 0, size.file) {
        differ("the longest file", format!("{:?}, {} terms", caller.held, t.len()), format!("{a:?}"), format!("{} bytes", size.file));
    }
    tally.add("longest files, reached", 1);
}

// ---- the run

// One list of calls, its file with several tails, and readings of them.
fn after_a_list(caller: &Caller, world: &mut World, many: u64, random: &mut Random, tally: &mut Tally) {
    let table = world.built(caller);
    let (plain, _) = packed(&table);
    world.take_back(table);
    without_terms(caller, &plain, random);
    as_validate(caller, random);
    for _ in 0..6 {
        refused_write(caller, random, tally);
    }
    let count = [0, 1, 1, 2, 3, 4, 8, random.below(40)][random.below(8)];
    let t = Tail::drawn(count, random);
    let file = accepted_write(caller, &t, &plain, random);
    tally.add("write_tail, accepted", 2);
    let table = icotable::read(&file);
    same_table(&file, &accepted(&file));
    ends(&file, plain.len(), &t, random, tally);
    atoms(&t, tally);
    same_readings(world, &plain, &file, random, tally);
    sized(caller, file.len(), t.len(), random, tally);
    let rust = t.metadata();
    for _ in 0..many {
        let r = distance(table.grid.rmin, table.grid.rmax, random);
        sound(&table, &file, &rust, r, tally);
    }
    for _ in 0..many / 4 {
        if t.len() > 0 {
            of_damaged(&table, &file, random, tally);
        }
        of_host(&table, &file, random, tally);
    }
}

fn lists(world: &mut World, count: u64, many: u64, random: &mut Random, tally: &mut Tally) {
    let mut library = Library::new();
    let mut caller = Caller::new(world.canaries(random), &mut library);
    caller.rests = true;
    world.lend(&mut caller, random);
    for i in 0..count {
        bounds::drawn(&mut caller, random, world.top as u64);
        after_a_list(&caller, world, many, random, tally);
        if i == 0 && tally.0.get("write_tail of 2^32 terms, refused with 23").is_none() {
            too_many(&caller, tally);
        }
    }
    reached(&mut caller, random, tally);
}

// Cases that have to have occurred.
fn needed() -> Vec<String> {
    let mut words = Vec::new();
    words.extend([1, 2, 3, 4, 5, 6, 7, 12, 15, 22, 23].map(|n| format!("write_tail, refused with {n}")));
    words.push("write_tail, refused with 15, a word having a rest".to_string());
    words.extend(["0, with", "0, no", "13, no", "23, no"].map(|case| format!("read, answered {case} terms")));
    words.extend(["18", "0, no terms", "0, a NaN", "0, infinite", "0, -0", "0, 0", "0, subnormal", "0, a number"].map(|case| format!("tail, as the Rust, answered {case}")));
    words.extend([0, 18, 19].map(|n| format!("tail, of a damaged file, answered {n}")));
    words.extend(["0", "0, no terms", "18", "19"].map(|case| format!("tail, of a host's table, answered {case}")));
    words
}

fn main() {
    let (mut random, length) = arguments();
    // powers; sets of meshes; lists of calls on each; readings after a list
    let (count, worlds, each, many) = length.choose((200_000, 40, 10, 200), (20_000_000, 400, 20, 400));
    let mut tally = Tally::default();
    powers(count, &mut random, &mut tally);
    for _ in 0..worlds {
        let top = random.below(2);
        lists(&mut World::new(top, &mut random), each, many, &mut random, &mut tally);
    }
    for (words, n) in &tally.0 {
        println!("{n:12} {words}");
    }
    for words in needed() {
        assert!(tally.0.contains_key(&words), "nothing was compared of this case: {words}");
    }
    println!("tails: 0 differences");
}
