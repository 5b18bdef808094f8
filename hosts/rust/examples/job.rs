//! The program of docs/GUIDE.md's section on Rust: builds a table in the folder that it is started in, goes on where it was after a kill, and reads
//! the table. A test compares the lines with the page's, and tests/hosts/rust kills it.
use simgrale::{settings, Builder, Error, Guard, Journaled, Mesh, Step, Table};

// The host's own: the energies of a slab, of vertices a and b of the current level at a·n + b.
fn sample(build: &Journaled<Builder>, ri: u64, oi: u64) -> Vec<f64> {
    let (grid, directions) = (build.grid(), build.directions());
    let (r, omega) = (grid.rmin + ri as f64 * grid.dr, oi as f64 * grid.omega_step);
    let energy = |a: [f64; 3], b: [f64; 3]| (3.0 / r).powi(6) * (1.0 + a[2] * b[2] + 0.5 * omega.cos() * a[0] * b[1]);
    directions.iter().flat_map(|&a| directions.iter().map(move |&b| energy(a, b))).collect()
}

fn main() -> Result<(), Error> {
    let grid = settings(1.0, 25.0, 0.75, 0.5235987755982988, 0.5, 0.40339);
    let mut build = Builder::open_journal("build.journal", grid, Mesh::icospheres(2)?, Guard::On)?;
    loop {
        match build.next_step() {
            Step::Set { ri, oi } => build.set(ri, oi, &sample(&build, ri, oi))?,
            Step::Settle { ri } => drop(build.settle(ri)?),
            Step::Write => break build.write("table.icotable")?,
        }
    }
    let table = Table::open("table.icotable")?;
    println!("energy {}", table.lookup(2.5, 0.5, [0.0, 0.0, 1.0], [0.0, 1.0, 0.0])?);
    Ok(())
}
