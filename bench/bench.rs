// The benchmark beside the Rust: rows of the table that bench/run prints, and two tables of how cost grows. Built with --cfg atom it has the rows of one molecule against an atom.
#![cfg_attr(atom, allow(dead_code))]
#[allow(dead_code, clippy::all)]
mod average {
    include!(concat!(env!("COMPARE"), "/average.rs"));
}
#[allow(dead_code, clippy::all)]
mod builder {
    #[cfg(not(atom))]
    include!(concat!(env!("COMPARE"), "/builder.rs"));
    #[cfg(atom)]
    include!(concat!(env!("COMPARE"), "/atom_builder.rs"));
}
#[allow(dead_code, clippy::all)]
mod oracle {
    include!(concat!(env!("COMPARE"), "/oracle.rs"));
}
#[allow(dead_code, clippy::all)]
mod rust {
    #[cfg(not(atom))]
    include!(concat!(env!("COMPARE"), "/lookup.rs"));
    #[cfg(atom)]
    include!(concat!(env!("COMPARE"), "/atom_lookup.rs"));
}
// The Rust's table with the machine's `exp` and `ln` in its weighted readings.
#[allow(dead_code, clippy::all)]
mod native {
    use crate::oracle;
    #[cfg(not(atom))]
    mod average {
        include!(concat!(env!("COMPARE"), "/native.rs"));
    }
    pub mod rust {
        #[cfg(not(atom))]
        include!(concat!(env!("COMPARE"), "/lookup.rs"));
        #[cfg(atom)]
        include!(concat!(env!("COMPARE"), "/atom_native.rs"));
    }
}
#[path = "../tests/compare/caller.rs"]
#[allow(dead_code)]
mod caller;
#[path = "../hosts/rust/src/sys.rs"]
#[allow(dead_code)]
mod icotable;
#[path = "../tests/compare/library.rs"]
#[allow(dead_code)]
mod library;
#[path = "../tests/compare/lines.rs"]
#[allow(dead_code)]
mod lines;
#[path = "../tests/compare/meshes.rs"]
#[allow(dead_code)]
mod meshes;
#[path = "../tests/compare/ours.rs"]
#[allow(dead_code)]
mod ours;
#[path = "../tests/compare/pack.rs"]
mod pack;
#[path = "../tests/compare/plain.rs"]
mod plain;
#[path = "../tests/compare/reader.rs"]
#[allow(dead_code)]
mod reader;
#[path = "../tests/compare/reading.rs"]
#[allow(dead_code)]
mod reading;
#[path = "../tests/compare/refusals.rs"]
#[allow(dead_code)]
mod refusals;
#[path = "../tests/compare/report.rs"]
mod report;
#[path = "../tests/compare/search.rs"]
#[allow(dead_code)]
mod search;
#[allow(dead_code, unused_imports)]
#[cfg_attr(atom, path = "../tests/compare/atom.rs")]
#[cfg_attr(not(atom), path = "../tests/compare/pair.rs")]
mod shape;
#[cfg(landed)]
#[path = "../target/bench/landed/mod.rs"]
#[allow(dead_code)]
mod landed;
#[cfg(not(landed))]
use new as landed;
#[cfg(not(atom))]
mod batches;
mod builds;
mod new;
mod readings;
mod searches;
#[cfg(not(atom))]
mod tails;
mod timing;
mod weighted;

use meshes::{vertex_count, Random};
use readings::{Caller, Rows};
use std::sync::atomic::Ordering::Relaxed;
use timing::{figure, row, used, with_ratio, Bar, LANDED};

fn size(megabytes: f64) -> String {
    match megabytes {
        m if m < 1e-3 => format!("{:.0} B", 1e6 * m),
        m if m < 1.0 => format!("{:.0} kB", 1e3 * m),
        m => format!("{m:.0} MB"),
    }
}

// Bars are those of document 01 where no later one was set.
fn search_rows(random: &mut Random) {
    for level in [0, 1, 3, 5, 9, 15] {
        let [nearest, located, built] = searches::measure(level, random);
        if level == 3 || level == 15 {
            row(&format!("find_nearest_vertex, level {level}"), "ns a direction", nearest, Bar::Times(3.0));
            row(&format!("locate, level {level}"), "ns a direction", located, Bar::Times(3.0));
        }
        row(&format!("locator, level {level}"), "ns a vertex", built, Bar::Times(2.0));
    }
}

fn build_rows(random: &mut Random) {
    for (level, n_omega, rounds) in [(0, 1, 400), (1, 1, 400), (3, 1, 101), (3, 8, 41), (5, 4, 21), (9, 1, 11)] {
        let [set, settle] = builds::slice(level, n_omega, rounds, random);
        let slabs = if n_omega == 1 { "one slab".into() } else { format!("{n_omega} slabs") };
        // in the cache: what one slab or a few small ones take
        row(&format!("set, level {level}, {slabs}"), "ns an energy", set, if level < 5 { Bar::Times(1.8) } else { Bar::Times(3.0) });
        if n_omega > 1 || level < 2 {
            row(&format!("settle, level {level}, {slabs}"), "ns an energy", settle, Bar::Times(if level == 0 { 1.2 } else { 0.8 }));
        }
    }
    for (top, n_r, rounds) in [(3, 1, 101), (5, 20, 11)] {
        let ([write, read], megabytes) = builds::file(top, n_r, 8, rounds, random);
        row(&format!("write, {} (beside a plain writer)", size(megabytes)), "ns a byte", write, Bar::Goal(1.5));
        row(&format!("read, {} (beside a plain checker)", size(megabytes)), "ns a byte", read, Bar::Times(0.7));
    }
}

fn reading_rows(random: &mut Random) {
    let mut rows = Vec::new();
    // rows alone: ten million of them make a hundred megabytes
    for (bins, queries, rounds) in [([1, 8], 4096, 400), ([400, 8], 400_000, 8), ([60_000, 170], 400_000, 8)] {
        rows.push(("Scalar".into(), Rows::Scalar, 0, bins, queries, rounds, 1.6));
    }
    for (what, kind) in [("nearest", Rows::Nearest), ("interpolated", Rows::Interpolated)] {
        for (level, bins, queries, rounds) in
            [(0, [1, 1], 4096, 200), (1, [1, 1], 4096, 200), (2, [1, 1], 4096, 200), (3, [1, 8], 4096, 200), (5, [1, 1], 4096, 200), (9, [1, 1], 40_000, 20), (3, [360, 8], 400_000, 8)]
        {
            rows.push((format!("{what}, level {level}"), kind, level, bins, queries, rounds, if level < 2 { 1.2 } else { 1.0 }));
        }
    }
    for (what, kind, level, bins, queries, rounds, bar) in rows {
        for (caller, from) in [(Caller::C, "C"), (Caller::Rust, "Rust")] {
            let (time, megabytes) = readings::measure(caller, kind, level, bins, queries, rounds, random);
            row(&format!("reading, {what}, {}, called from {from}", size(megabytes)), "ns", time, Bar::Times(bar));
        }
    }
    for (caller, from) in [(Caller::C, "C"), (Caller::Rust, "Rust")] {
        let (time, megabytes) = readings::weighted(caller, 3, [1, 8], 4096, 200, random);
        row(&format!("reading, weighted, level 3, {}, called from {from}", size(megabytes)), "ns", time, Bar::Times(1.5));
    }
}

#[cfg(not(atom))]
fn tail_rows(random: &mut Random) {
    for terms in [1, 3] {
        let time = tails::measure(terms, 4096, 200, random);
        row(&format!("tail, {terms} {}", if terms == 1 { "term" } else { "terms" }), "ns", time, Bar::Goal(1.5));
    }
}

// One molecule against an atom. Its bar is the landed library's time: before n energies are settled or written all meshes are asked about, which neither the Rust nor a plain writer does.
fn atom_rows(random: &mut Random) {
    for (level, slabs, rounds) in [(0, 400, 101), (3, 100, 101), (5, 100, 41), (9, 40, 41), (15, 20, 21)] {
        let [set, settle] = builds::slice(level, slabs, rounds, random);
        row(&format!("atom, set, level {level}"), "ns an energy", set, Bar::Landed);
        row(&format!("atom, settle, level {level}"), "ns an energy", settle, Bar::Landed);
    }
    for (top, n_r, rounds) in [(3, 48, 201), (5, 400, 101), (9, 4000, 11)] {
        let ([write, read], megabytes) = builds::file(top, n_r, 1, rounds, random);
        row(&format!("atom, write, {} (beside a plain writer)", size(megabytes)), "ns a byte", write, Bar::Landed);
        row(&format!("atom, read, {} (beside a plain checker)", size(megabytes)), "ns a byte", read, Bar::Landed);
    }
    let mut rows = vec![("Scalar".to_string(), Rows::Scalar, 0, 8, 4096, 400), ("Scalar".into(), Rows::Scalar, 0, 60_000, 400_000, 8)];
    for (what, kind) in [("nearest", Rows::Nearest), ("interpolated", Rows::Interpolated)] {
        for (level, n_r, queries, rounds) in [(0, 8, 4096, 200), (3, 48, 4096, 200), (5, 400, 40_000, 20), (9, 4000, 400_000, 8)] {
            rows.push((format!("{what}, level {level}"), kind, level, n_r, queries, rounds));
        }
    }
    for (what, kind, level, n_r, queries, rounds) in rows {
        for (caller, from) in [(Caller::C, "C"), (Caller::Rust, "Rust")] {
            let (time, megabytes) = readings::measure(caller, kind, level, [n_r, 1], queries, rounds, random);
            row(&format!("atom, reading, {what}, {}, called from {from}", size(megabytes)), "ns", time, Bar::Landed);
        }
    }
    for (caller, from) in [(Caller::C, "C"), (Caller::Rust, "Rust")] {
        let (time, megabytes) = readings::weighted(caller, 3, [48, 1], 4096, 200, random);
        row(&format!("atom, reading, weighted, level 3, {}, called from {from}", size(megabytes)), "ns", time, Bar::Landed);
    }
}

// Cost by level: a slab, a locator call, a reading of a table with one slab.
fn by_level(random: &mut Random) {
    println!("\n| level | vertices | energies of a slab | set, µs a slab | settle, µs a slab | locator, µs | find_nearest_vertex, ns | locate, ns | reading nearest, ns | interpolated, ns | file |");
    println!("|---|---|---|---|---|---|---|---|---|---|---|");
    for (level, rounds) in [(0, 200), (1, 200), (3, 41), (5, 21), (9, 7), (15, 3)] {
        let n = vertex_count(level);
        let [set, settle] = builds::slice(level, 1, rounds, random);
        let [nearest, located, built] = searches::measure(level, random);
        let (one, megabytes) = readings::measure(Caller::C, Rows::Nearest, level, [1, 1], 40_000, 20, random);
        let (nine, _) = readings::measure(Caller::C, Rows::Interpolated, level, [1, 1], 40_000, 20, random);
        let slab = (n * n) as f64 / 1e3;
        println!(
            "| {level} | {n} | {} | {} | {} | {} | {} | {} | {} | {} | {} |",
            n * n,
            with_ratio(set, slab),
            with_ratio(settle, slab),
            with_ratio(built, n as f64 / 1e3),
            with_ratio(nearest, 1.0),
            with_ratio(located, 1.0),
            with_ratio(one, 1.0),
            with_ratio(nine, 1.0),
            size(megabytes)
        );
    }
}

// A reading by the size of its table, at level 3.
fn by_size(random: &mut Random) {
    println!("\n| file | reading nearest, ns | interpolated, ns |");
    println!("|---|---|---|");
    for (n_r, queries, rounds) in [(1, 4096, 400), (4, 40_000, 40), (36, 200_000, 10), (360, 400_000, 6)] {
        let (one, megabytes) = readings::measure(Caller::C, Rows::Nearest, 3, [n_r, 8], queries, rounds, random);
        let (nine, _) = readings::measure(Caller::C, Rows::Interpolated, 3, [n_r, 8], queries, rounds, random);
        println!("| {} | {} | {} |", size(megabytes), with_ratio(one, 1.0), with_ratio(nine, 1.0));
    }
}

// Readings by a call for each and by one call for all, at level 3; in brackets the ratios to a call for each and to the Rust.
#[cfg(not(atom))]
fn by_call(random: &mut Random) {
    println!("\n| rows | file | a call for each, ns | one call for all, ns | the Rust, ns |");
    println!("|---|---|---|---|---|");
    for (n_r, queries, rounds) in [(1, 4096, 400), (36, 200_000, 10), (360, 400_000, 6)] {
        for (what, rows, beta) in [("Scalar", Rows::Scalar, None), ("nearest", Rows::Nearest, None), ("interpolated", Rows::Interpolated, None), ("weighted", Rows::Interpolated, Some(0.4))] {
            let ([one, many, rust], megabytes) = readings::batch(rows, beta, [n_r, 8], queries, rounds, random);
            println!("| {what} | {} | {} | {} ({}, {}) | {} |", size(megabytes), figure(one), figure(many), figure(many / one), figure(many / rust), figure(rust));
        }
    }
}

// Settle and write by their stages.
fn by_stage(random: &mut Random) {
    for level in [0, 5] {
        let [questions, exponentials, all] = builds::settle_stages(level, 41, random);
        println!("settle of a slab, level {level}: questions {} µs, with every exponential {} µs, with the gradient {} µs", figure(questions), figure(exponentials), figure(all));
    }
    let [rows, all] = builds::write_stages(5, 40, 21, random);
    println!("write of 40 slabs, level 5: questions and rows {} µs, with the energies {} µs", figure(rows), figure(all));
}

// One operation alone, for a profiler.
fn only(what: &str, random: &mut Random) {
    let reading = |rows: Rows, random: &mut Random| used(readings::measure(Caller::C, rows, 3, [1, 8], 4096, 1000, random));
    match what {
        "settle" => used(builds::slice(5, 4, 21, random)),
        "stages" => by_stage(random),
        "file" => used(builds::file(5, 20, 8, 21, random)),
        "scalar" => reading(Rows::Scalar, random),
        "nearest" => reading(Rows::Nearest, random),
        "interpolated" => reading(Rows::Interpolated, random),
        "weighted" => used(readings::weighted(Caller::C, 3, [1, 8], 4096, 1000, random)),
        #[cfg(not(atom))]
        "many" => by_call(random),
        _ => panic!("settle, stages, file, scalar, nearest, interpolated, weighted or many"),
    }
}

fn main() {
    let mut random = Random(0x2545f4914f6cdd1d);
    if let Some(what) = std::env::args().nth(1) {
        LANDED.store(false, Relaxed);
        return only(&what, &mut random);
    }
    if cfg!(atom) {
        return atom_rows(&mut random);
    }
    row("exp, apart, beside the Rust's E", "ns", builds::exp(&mut random), Bar::Landed);
    search_rows(&mut random);
    build_rows(&mut random);
    reading_rows(&mut random);
    #[cfg(not(atom))]
    tail_rows(&mut random);
    println!("\nHow cost grows with the level; in brackets the ratio to the Rust's.");
    by_level(&mut random);
    println!("\nHow a reading's cost grows with the table, Mesh rows at level 3; in brackets the ratio to the Rust's.");
    by_size(&mut random);
    #[cfg(not(atom))]
    {
        println!("\nMany readings: a call for each, and one call for all; in brackets the ratios to a call for each and to the Rust's time.");
        by_call(&mut random);
    }
    println!("\nWhere the time goes in settle and write:\n");
    by_stage(&mut random);
}
