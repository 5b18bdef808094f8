//! Writes the meshes of all levels, as tests/hosts/meshes.c does: meshes FILE. Both files are the same, byte for byte.
use simgrale::{Level, Mesh};
use std::error::Error;

// Vertices, counts, neighbours, then angles; a sixth place that is not used holds 0.
fn bytes(level: &Level) -> Vec<u8> {
    let mut bytes: Vec<u8> = level.vertices.iter().flatten().flat_map(|x| x.to_le_bytes()).collect();
    bytes.extend(level.neighbours.iter().map(|list| list.len() as u8));
    let places = || level.neighbours.iter().flat_map(|list| (0..6).map(|k| list.get(k).copied().unwrap_or((0, 0.0))));
    bytes.extend(places().flat_map(|(w, _)| w.to_le_bytes()));
    bytes.extend(places().flat_map(|(_, angle)| angle.to_le_bytes()));
    bytes
}

fn main() -> Result<(), Box<dyn Error>> {
    let name = std::env::args().nth(1).ok_or("usage: meshes FILE")?;
    let mesh = Mesh::icospheres(15)?;
    let all: Vec<u8> = (0..=15).filter_map(|m| mesh.level(m)).flat_map(|level| bytes(&level)).collect();
    std::fs::write(name, all)?;
    Ok(())
}
