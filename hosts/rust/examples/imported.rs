//! Opens a table that `icotable import` left, which has a mesh file beside it and no seal: imported TABLE READINGS. Without its meshes it is
//! refused; with them its readings are compared with stored ones, as tests/hosts/imported.c does. A line of READINGS is a pose and an energy as the
//! bits of f64; the first line is a remark.
use simgrale::{AtomTable, Mesh, Refusal, Table};
use std::error::Error;

type Readings = Box<dyn Fn(&[f64]) -> Result<f64, Refusal>>;

// Of either kind: its readings, and how many numbers a pose has.
fn opened(path: &str, mesh: Mesh) -> Result<(Readings, usize), simgrale::Error> {
    if let Ok(table) = AtomTable::open_with(path, mesh.clone()) {
        return Ok((Box::new(move |q| table.lookup(q[0], [q[1], q[2], q[3]])), 4));
    }
    let table = Table::open_with(path, mesh)?;
    Ok((Box::new(move |q| table.lookup(q[0], q[1], [q[2], q[3], q[4]], [q[5], q[6], q[7]])), 8))
}

fn numbers(line: &str) -> Result<Vec<f64>, std::num::ParseIntError> {
    line.split(' ').map(|bits| u64::from_str_radix(bits, 16).map(f64::from_bits)).collect()
}

fn main() -> Result<(), Box<dyn Error>> {
    let words: Vec<String> = std::env::args().skip(1).collect();
    let [path, stored] = words.as_slice() else {
        return Err("usage: imported TABLE READINGS".into());
    };
    let refused = Table::open(path).err().ok_or("a table with a mesh file and no seal is opened without its meshes")?;
    println!("without its meshes: {refused}");
    let (reading, wide) = opened(path, Mesh::load(format!("{path}.mesh"))?)?;
    let (mut poses, mut agree) = (0, 0);
    for line in std::fs::read_to_string(stored)?.lines().skip(1) {
        let pose = numbers(line)?;
        let energy = reading(&pose[..wide])?;
        agree += u32::from(energy.to_bits() == pose[wide].to_bits() || (energy.is_nan() && pose[wide].is_nan()));
        poses += 1;
    }
    println!("with them: {agree} of {poses} readings are the Rust's");
    if agree == poses && poses > 0 {
        Ok(())
    } else {
        Err("a reading is another one".into())
    }
}
