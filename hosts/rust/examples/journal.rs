//! Begins or resumes a build of tests/hosts/journal.c with its journal: journal KIND FILE TABLE [RECORDS] stops after so many
//! records, and writes the table once all is done. Journal and table are the same as in C, byte for byte.
use simgrale::{atom_settings, settings, vertex_count, AtomBuilder, Builder, Guard, Mesh, Step};
use std::error::Error;
use std::process::ExitCode;

const HEIGHTS: [f64; 6] = [1e4, 3.0, 0.05, 3.0, 0.05, 1e-3];

// splitmix64
fn mixed(z: u64) -> u64 {
    let z = (z ^ z >> 30).wrapping_mul(0xBF58476D1CE4E5B9);
    let z = (z ^ z >> 27).wrapping_mul(0x94D049BB133111EB);
    z ^ z >> 31
}

fn energies(count: usize, ri: u64, oi: u64) -> Vec<f64> {
    let drawn = |i: u64| (mixed((ri << 48) + (oi << 40) + i) % 1000) as f64 / 1000.0;
    let base = if ri == 0 { 1000.0 } else { 0.0 };
    (0..count as u64).map(|i| base + HEIGHTS[ri as usize % 6] * drawn(i)).collect()
}

// Goes on to so many records; whether all is done, the table written.
fn pair(name: &str, table: &str, plan: (u64, f64, f64), most: u64) -> Result<(u64, bool), Box<dyn Error>> {
    let (top, distances, step) = plan;
    let grid = settings(0.0, distances, 1.0, step, 0.5, 1.0);
    let mut j = Builder::open_journal(name, grid, Mesh::icospheres(top)?, Guard::On)?;
    while j.records() < most {
        match j.next_step() {
            Step::Set { ri, oi } => {
                let n = vertex_count(j.level()).ok_or("no such level")?;
                j.set(ri, oi, &energies(n * n, ri, oi))?
            }
            Step::Settle { ri } => drop(j.settle(ri)?),
            Step::Write => return j.write(table).map(|()| (j.records(), true)).map_err(Box::from),
        }
    }
    Ok((j.records(), false))
}

fn atom(name: &str, table: &str, most: u64) -> Result<(u64, bool), Box<dyn Error>> {
    let grid = atom_settings(0.0, 6.0, 1.0, 0.5, 1.0);
    let mut j = AtomBuilder::open_journal(name, grid, Mesh::icospheres(2)?, Guard::On)?;
    while j.records() < most {
        match j.next_step() {
            Step::Set { ri, oi } => {
                let n = vertex_count(j.level()).ok_or("no such level")?;
                j.set(ri, &energies(n, ri, oi))?
            }
            Step::Settle { ri } => drop(j.settle(ri)?),
            Step::Write => return j.write(table).map(|()| (j.records(), true)).map_err(Box::from),
        }
    }
    Ok((j.records(), false))
}

fn run() -> Result<(), Box<dyn Error>> {
    let words: Vec<String> = std::env::args().skip(1).collect();
    let [kind, name, table, rest @ ..] = words.as_slice() else {
        return Err("usage: journal KIND FILE TABLE [RECORDS]".into());
    };
    let most = rest.first().map_or(Ok(u64::MAX), |word| word.parse())?;
    let (records, done) = match kind.as_str() {
        "atom" => atom(name, table, most)?,
        "small" => pair(name, table, (0, 3.0, 3.0), most)?,
        "pair" => pair(name, table, (1, 5.0, 2.0), most)?,
        _ => return Err("KIND is atom, small or pair".into()),
    };
    println!("{name}: {}; {records} records", if done { "done" } else { "stopped" });
    Ok(())
}

fn main() -> ExitCode {
    match run() {
        Ok(()) => ExitCode::SUCCESS,
        Err(error) => {
            eprintln!("{error}");
            ExitCode::FAILURE
        }
    }
}
