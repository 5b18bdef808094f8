// The stored saves. What the Rust's builders leave is made by them; where fields are altered by hand it says so.
use crate::adaptive::{Adaptive3DBuilder, AdaptiveBuilder, SlabResolution, Table3DAdaptive, Table6DAdaptive};
use crate::flat::{save_bincode, PointGroup, Table3DFlat, Table6DFlat, TableMetadata, TailCorrectionTerm};
use crate::meshes::Random;
use crate::poses;
use crate::subdivision::Subdivision;
use std::f64::consts::TAU;
use std::fs;
use std::path::Path;

type Result<T> = anyhow::Result<T>;

// rmin and dr
const WIDE: (f64, f64) = (1.0, 0.5);

// A wall, then a well that turns flat with the distance; few bits, so that a save is small once it is packed.
fn energy(r: f64, omega: f64, a: [f64; 3], b: [f64; 3]) -> f64 {
    let turned = a[0] + 0.5 * b[1] + 0.3 * a[2] * b[2] + 0.2 * omega.cos() * a[1] * b[0];
    let depth = 12.0 * (-1.4 * r).exp();
    let wall = if r < 1.5 && omega < 1.0 { 40.0 } else { 0.0 };
    ((wall + depth * turned) * 128.0).round() / 128.0
}

fn set_pair(b: &mut AdaptiveBuilder, ri: usize) {
    let (r, vertices) = (b.r_value(ri), b.vertex_directions(b.current_level()).to_vec());
    for oi in 0..b.n_omega() {
        let omega = b.omega_value(oi);
        let all = vertices.iter().flat_map(|&v| vertices.iter().map(move |&w| energy(r, omega, v, w)));
        b.set_slab(ri, oi, &all.collect::<Vec<f64>>());
    }
}

fn pair(scheme: Subdivision, (rmin, dr): (f64, f64), omega_step: f64, top: usize) -> Table6DAdaptive<f32> {
    let mut b = AdaptiveBuilder::with_subdivision(scheme, rmin, 5.0, dr, omega_step, top, 0.25, 0.4);
    for ri in 0..b.n_r() {
        set_pair(&mut b, ri);
        b.finish_r_slice(ri);
    }
    b.build()
}

fn atom(top: usize) -> Table3DAdaptive<f32> {
    let mut b = Adaptive3DBuilder::new(1.0, 6.0, 0.5, top, 0.4, 0.4);
    for ri in 0..b.n_r() {
        let (r, vertices) = (b.r_value(ri), b.vertex_directions(b.current_level()).to_vec());
        let all: Vec<f64> = vertices.iter().map(|&v| energy(r, 0.0, v, [0.0, 1.0, 0.0])).collect();
        b.set_slab(ri, &all);
        b.finish_r_slice(ri);
    }
    b.build()
}

// The accident: twelve dihedral bins, a slice settled, which takes its level away, and settled again.
fn accident() -> Table6DAdaptive<f32> {
    let mut b = AdaptiveBuilder::new(3.0, 4.0, 1.0, TAU / 12.0, 1, 0.25, 0.4);
    set_pair(&mut b, 0);
    b.finish_r_slice(0);
    b.finish_r_slice(0);
    b.build()
}

fn metadata() -> TableMetadata {
    TableMetadata {
        tail_terms: vec![
            TailCorrectionTerm { coefficient: -2.5, kappa: 0.1, power: 1 },
            TailCorrectionTerm { coefficient: 0.75, kappa: 0.0, power: 6 },
        ],
        charges: Some([-1.0, 2.0]),
        dipole_moments: None,
        temperature: Some(298.15),
        electric_prefactor: Some(17.4),
        point_group: PointGroup::Exchange,
    }
}

// By hand: the rows of a built table in another order, two that share their energies, gaps, and a NaN of another pattern
// in a row and in a gap. check_slabs allows all of it.
fn loose_pair() -> Table6DAdaptive<f32> {
    let mut t = pair(Subdivision::Geodesic, WIDE, TAU / 2.0, 0);
    let mesh: Vec<usize> = (0..t.slab_res.len()).filter(|&i| t.slab_offsets[i] != u32::MAX).collect();
    let packed = std::mem::take(&mut t.data);
    t.data = vec![f32::from_bits(0x7FC0_0001); 3];
    for &i in mesh.iter().rev() {
        let from = t.slab_offsets[i] as usize;
        t.slab_offsets[i] = t.data.len() as u32;
        t.data.extend(&packed[from..from + 144]);
        t.data.push(i as f32);
    }
    t.slab_offsets[mesh[1]] = t.slab_offsets[mesh[0]];
    let scalar = t.slab_res.iter().position(|row| matches!(row, SlabResolution::Scalar(_))).unwrap();
    t.slab_res[scalar] = SlabResolution::Scalar(f32::from_bits(0xFFC0_0001));
    t
}

// By hand: the same of a table against an atom, with half of one row shared by the next.
fn loose_atom() -> Table3DAdaptive<f32> {
    let mut t = atom(0);
    let mesh: Vec<usize> = (0..t.slab_res.len()).filter(|&i| t.slab_offsets[i] != u32::MAX).collect();
    t.slab_offsets.swap(mesh[0], mesh[2]);
    t.slab_offsets[mesh[1]] += 6;
    t.data.extend([1.0, 2.0]);
    t
}

fn flat_pair() -> Table6DFlat<f32> {
    let mesh = crate::adaptive::MeshLevel::new(0);
    Table6DFlat::by_hand(mesh.vertices, mesh.neighbors)
}

fn flat_atom() -> Table3DFlat<f32> {
    let mesh = crate::adaptive::MeshLevel::new(0);
    Table3DFlat::by_hand(mesh.vertices, mesh.neighbors)
}

struct Writer<'a> {
    folder: &'a Path,
    random: Random,
}

impl Writer<'_> {
    // The Rust's own save, and its own lookups of what it loads again.
    fn pair(&mut self, name: &str, t: &Table6DAdaptive<f32>, poses: usize) -> Result<()> {
        let path = self.folder.join(name);
        t.save(&path)?;
        let loaded = Table6DAdaptive::<f32>::load(&path)?;
        let text = poses::of_pair(&loaded, poses, &mut self.random);
        self.readings(name, text)
    }

    fn atom(&mut self, name: &str, t: &Table3DAdaptive<f32>, poses: usize) -> Result<()> {
        let path = self.folder.join(name);
        t.save(&path)?;
        let loaded = Table3DAdaptive::<f32>::load(&path)?;
        let text = poses::of_atom(&loaded, poses, &mut self.random);
        self.readings(name, text)
    }

    fn readings(&self, name: &str, text: String) -> Result<()> {
        Ok(fs::write(self.folder.join(format!("{name}.readings")), text)?)
    }
}

pub fn write(folder: &Path) -> Result<()> {
    let mut w = Writer { folder, random: Random::of(35) };
    w.pair("small.bin", &pair(Subdivision::Geodesic, WIDE, TAU / 2.0, 0), 60)?;
    let mut levels = pair(Subdivision::Geodesic, (1.4, 0.6), TAU / 2.0, 2);
    levels.metadata = Some(metadata());
    w.pair("levels.bin.gz", &levels, 120)?;
    w.pair("accident.bin.gz", &accident(), 120)?;
    w.pair("loose.bin", &loose_pair(), 60)?;
    w.atom("atom.bin", &atom(2), 120)?;
    let mut with = atom(1);
    with.metadata = Some(metadata());
    w.atom("atom_tail.bin.gz", &with, 60)?;
    w.atom("loose_atom.bin", &loose_atom(), 60)?;
    // what is refused
    pair(Subdivision::Lattice, WIDE, TAU / 2.0, 0).save(folder.join("lattice.bin"))?;
    let mut terms = pair(Subdivision::Geodesic, WIDE, TAU, 0);
    terms.metadata = Some(TableMetadata { electric_prefactor: None, ..metadata() });
    terms.save(folder.join("no_prefactor.bin"))?;
    save_bincode(&flat_pair(), &folder.join("flat.bin"))?;
    save_bincode(&flat_atom(), &folder.join("flat_atom.bin"))
}
