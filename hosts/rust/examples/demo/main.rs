//! Builds the demonstration's tables, as hosts/c/demo.c does, and writes them: demo FILE [ION_FILE], of two molecules and of one
//! against an ion. The files are the same as those that are written there, byte for byte.
mod molecules;

use molecules::{first_pose, ion_energy, pair_energy, second_pose, Pose, BETA};
use simgrale::{atom_settings, settings, AtomBuilder, AtomTable, Builder, Mesh, Refusal, Table};
use std::error::Error;

fn slab(directions: &[[f64; 3]], r: f64, omega: f64) -> Vec<f64> {
    let first: Vec<Pose> = directions.iter().map(|&d| first_pose(d)).collect();
    let second: Vec<Pose> = directions.iter().map(|&d| second_pose(d, omega)).collect();
    first.iter().flat_map(|a| second.iter().map(move |b| pair_energy(a, b, r))).collect()
}

fn build(builder: &mut Builder) -> Result<(), Refusal> {
    let grid = builder.grid();
    for ri in 0..grid.n_r {
        let directions = builder.directions();
        for oi in 0..grid.n_omega {
            let energies = slab(&directions, grid.rmin + ri as f64 * grid.dr, oi as f64 * grid.omega_step);
            builder.set(ri, oi, &energies)?;
        }
        let gradient = builder.settle(ri)?.gradient;
        let done = 100 * (ri + 1) / grid.n_r;
        println!("slice {ri}: gradient {gradient:.4}, level {}; {done}% done, a file of {} bytes", builder.level(), builder.file_length());
    }
    Ok(())
}

fn build_ion(builder: &mut AtomBuilder) -> Result<(), Refusal> {
    let grid = builder.grid();
    for ri in 0..grid.n_r {
        let r = grid.rmin + ri as f64 * grid.dr;
        let energies: Vec<f64> = builder.directions().into_iter().map(|d| ion_energy(&first_pose(d), r)).collect();
        builder.set(ri, &energies)?;
        let gradient = builder.settle(ri)?.gradient;
        println!("distance {r}: gradient {gradient:.4}, level {}", builder.level());
    }
    Ok(())
}

fn ion(name: &str) -> Result<(), Box<dyn Error>> {
    let mut builder = AtomBuilder::new(atom_settings(1.0, 25.0, 0.5, 0.5, BETA), Mesh::icospheres(5)?)?;
    build_ion(&mut builder)?;
    builder.save(name)?;
    let table = AtomTable::open(name)?;
    let up = [0.0, 0.6, 0.8];
    let (plain, weighted) = (table.lookup(5.5, up)?, table.lookup_boltzmann(5.5, up, BETA)?);
    println!("{name}: {} bytes; at distance 5.5 the energy is {plain}, weighted by temperature {weighted}", table.file().len());
    Ok(())
}

fn main() -> Result<(), Box<dyn Error>> {
    let mut names = std::env::args().skip(1);
    let name = names.next().ok_or("usage: demo FILE [ION_FILE]")?;
    let mut builder = Builder::new(settings(1.0, 25.0, 0.75, 0.5235987755982988, 0.5, BETA), Mesh::icospheres(3)?)?;
    build(&mut builder)?;
    match builder.settle(3) {
        Err(refusal) => println!("a restarted job settles slice 3 again: {refusal}"),
        Ok(_) => return Err("a slice of another level was settled again".into()),
    }
    builder.save(&name)?;
    let table = Table::open(&name)?;
    println!("{name}: {} bytes; at distance 5.5 the energy is {}", table.file().len(), table.lookup(5.5, 0.5, [0.0, 0.0, 1.0], [0.0, 1.0, 0.0])?);
    names.next().map_or(Ok(()), |name| ion(&name))
}
