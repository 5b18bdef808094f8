//! The wrapper, used as a host does.
use simgrale::{
    atom_settings, power, repack, rows_to_words, search, settings, sizing, sizing_with_terms, vertex_count, words_to_rows, AtomBuilder, AtomTable,
    Builder, Error, FloatEnvironment, Grid, Kind, Level, Mesh, Refusal, Repacked, RowLists, Span, Table, Tail, Term,
};
use std::sync::Arc;

fn mesh(top: u64) -> Arc<Mesh> {
    Arc::new(Mesh::icospheres(top).expect("icospheres keep the mesh rule"))
}

fn small() -> Grid {
    settings(0.0, 2.0, 1.0, 3.0, 0.1, 1.0)
}

fn builder(top: u64) -> Builder {
    Builder::new(small(), mesh(top)).expect("fresh")
}

// Zeros but for one of 0.05: a slice of these is smooth enough for the level to drop.
fn smooth(level: u64) -> Vec<f64> {
    let n = vertex_count(level).unwrap();
    let mut energies = vec![0.0; n * n];
    energies[100] = 0.05;
    energies
}

#[test]
fn refusals_are_the_headers() {
    let header = include_str!("../../../include/icotable.h");
    let mut found = 0;
    for line in header.lines().filter_map(|l| l.trim().strip_prefix("X(")) {
        let (number, rest) = line.split_once(", ").unwrap();
        let (name, rest) = rest.split_once(", \"").unwrap();
        let words = rest.split_once('"').unwrap().0;
        let refusal = Refusal::ALL[found];
        assert_eq!(refusal.number().to_string(), number);
        assert_eq!(refusal.words(), words);
        let camel: String = name.split('_').map(|w| format!("{}{}", &w[..1], w[1..].to_lowercase())).collect();
        assert_eq!(format!("{refusal:?}"), camel);
        found += 1;
    }
    assert_eq!(found, 26);
    assert_eq!(Refusal::ALL.len(), found);
}

#[test]
fn meshes_keep_the_rule_up_to_level_15() {
    let all = mesh(15);
    assert_eq!(all.directions(15).len(), 2562);
    assert_eq!(all.directions(16).len(), 0);
    assert_eq!(Mesh::icospheres(16), Err(Refusal::Level));
    assert_eq!(Mesh::new(&[]), Err(Refusal::ShortList));
    assert_eq!(Mesh::new(&[Level::default()]), Err(Refusal::ShortList));
    assert_eq!(all.level(15).unwrap().neighbours.len(), 2562);
    assert_eq!((all.level(16), all.level(u64::MAX)), (None, None));
}

// As docs/FORMAT.md says it.
fn checksum(bytes: impl IntoIterator<Item = u8>) -> u64 {
    bytes.into_iter().fold(0xCBF29CE484222325, |sum, byte| (sum ^ byte as u64).wrapping_mul(0x100000001B3))
}

#[test]
fn meshes_have_the_pages_checksums() {
    let page = include_str!("../../../docs/FORMAT.md");
    let all = mesh(15);
    for m in 0..=15 {
        let level = all.level(m).unwrap();
        let places = || level.neighbours.iter().flat_map(|list| (0..6).map(|k| list.get(k).copied().unwrap_or((0, 0.0))));
        let vertices = level.vertices.iter().flatten().flat_map(|x| x.to_le_bytes());
        let counts = level.neighbours.iter().map(|list| list.len() as u8);
        let first = checksum(vertices.chain(counts).chain(places().flat_map(|p| p.0.to_le_bytes())));
        let second = checksum(places().flat_map(|p| p.1.to_le_bytes()));
        let row = format!("| {m} | {} | {first:016X} | {second:016X} |\n", level.vertices.len());
        assert!(page.contains(&row), "docs/FORMAT.md has another row than this: {row}");
    }
}

// What is found in a thread of its own with these bits set in MXCSR, the register that x86-64 keeps the environment in.
fn found_with(bits: u32) -> (FloatEnvironment, Vec<Option<Error>>) {
    let file = builder(0).write().unwrap();
    let (mesh, atom) = (mesh(0), atom_settings(0.0, 2.0, 1.0, 0.1, 1.0));
    let atom_file = AtomBuilder::new(atom, mesh.clone()).unwrap().write().unwrap();
    let thread = std::thread::spawn(move || {
        let mut was = 0u32;
        unsafe { std::arch::asm!("stmxcsr [{}]", in(reg) &mut was) };
        let now = was | bits;
        unsafe { std::arch::asm!("ldmxcsr [{}]", in(reg) &now) };
        let found = FloatEnvironment::of_thread();
        let mut errors = vec![Builder::new(small(), mesh.clone()).err(), Table::read(file, mesh.clone()).err()];
        errors.extend([AtomBuilder::new(atom, mesh.clone()).err(), AtomTable::read(atom_file, mesh).err()]);
        unsafe { std::arch::asm!("ldmxcsr [{}]", in(reg) &was) };
        (found, errors)
    });
    thread.join().unwrap()
}

#[test]
fn another_float_environment_is_told() {
    const DOWN: u32 = 0x2000;
    const UP: u32 = 0x4000;
    const FLUSH_RESULTS: u32 = 0x8000;
    const FLUSH_OPERANDS: u32 = 0x40;
    assert_eq!(found_with(0), (FloatEnvironment::default(), vec![None; 4]));
    for (bits, flags) in [
        (DOWN, (true, false, false)),
        (UP, (true, false, false)),
        (DOWN | UP, (true, false, false)),
        (FLUSH_RESULTS, (false, true, false)),
        (FLUSH_OPERANDS, (false, false, true)),
        (UP | FLUSH_RESULTS | FLUSH_OPERANDS, (true, true, true)),
    ] {
        let (rounding, results_flushed, operands_flushed) = flags;
        let wanted = FloatEnvironment { rounding, results_flushed, operands_flushed };
        let (found, errors) = found_with(bits);
        let numbers: Vec<Option<u64>> = errors.iter().map(|error| error.as_ref().and_then(Error::number)).collect();
        assert_eq!((found, numbers), (wanted, [217, 264, 217, 264].map(Some).to_vec()), "with {bits:X}");
        assert!(errors.iter().flatten().all(|error| error.to_string().ends_with(&wanted.to_string())), "{errors:?}");
    }
}

#[test]
fn an_environments_words_are_the_helpers() {
    let helper = include_str!("../../c/environment.c");
    let words: Vec<&str> = helper.lines().filter_map(|l| l.strip_prefix("#define ")?.split('"').nth(1)).collect();
    let all = FloatEnvironment { rounding: true, results_flushed: true, operands_flushed: true };
    assert_eq!(all.to_string(), words.join("; "));
    assert_eq!(words.len(), 3);
    assert!(helper.contains(&format!("\"{}\"", FloatEnvironment::default())));
}

#[test]
fn settings_are_refused_with_their_number() {
    let new = |g: Grid, top| Builder::new(g, mesh(top)).err();
    let refused = |refusal| Some(Error::Refused(refusal));
    assert_eq!(new(Grid { dr: 0.0, ..small() }, 0), refused(Refusal::Settings));
    assert_eq!(new(Grid { rmax: 0.4, ..small() }, 0), refused(Refusal::BinCount));
    assert_eq!(new(Grid { rmax: 1.79e308, dr: 1.1e308, ..small() }, 0), refused(Refusal::OwnCount));
    assert_eq!(new(Grid { rmax: 655.0, omega_step: 6.0, ..small() }, 15), refused(Refusal::TooManyEnergies));
    assert_eq!(new(small(), 0), None);
}

#[test]
fn a_refused_call_alters_nothing() {
    let mut b = builder(1);
    b.set(0, 0, &smooth(1)).unwrap();
    let before = b.clone();
    assert_eq!(b.set(2, 0, &smooth(1)), Err(Refusal::Bin));
    assert_eq!(b.set(0, 0, &smooth(0)), Err(Refusal::EnergyCount));
    let mut strange = smooth(1);
    strange[7] = f64::NAN;
    assert_eq!(b.set(0, 0, &strange), Err(Refusal::NanEnergy));
    assert_eq!(b.settle(2), Err(Refusal::Bin));
    assert!(b == before);
}

#[test]
fn a_slice_is_not_settled_again_once_its_level_has_gone() {
    let mut b = builder(1);
    b.set(0, 0, &smooth(1)).unwrap();
    b.set(0, 1, &smooth(1)).unwrap();
    // two slabs of 42 vertices with 240 neighbours in all
    assert_eq!(b.settle(0).unwrap().comparisons, 2 * (2 * 42 * 240));
    assert_eq!(b.level(), 0);
    let file = b.write().unwrap();
    assert_eq!(b.settle(0), Err(Refusal::OtherLevel));
    assert_eq!(b.write().unwrap(), file);
}

#[test]
fn a_builders_rows_are_words() {
    let mut b = builder(1);
    assert_eq!(b.words(), [0; 4]);
    b.set(1, 0, &smooth(1)).unwrap();
    b.set(1, 1, &vec![10.0; 1764]).unwrap();
    let mesh = 3 << 40 | 1 << 32;
    assert_eq!(b.words(), [0, 0, mesh, mesh]);
    b.settle(1).unwrap();
    assert_eq!(b.words()[3], 1 << 40);
    let rows = words_to_rows(b.words()).unwrap();
    assert_eq!((rows.kinds.as_slice(), rows.levels[2], rows.values[3]), (&[0, 0, 2, 1][..], 1, 0));
    assert_eq!(rows_to_words(&rows).unwrap(), b.words());
}

#[test]
fn rows_move_to_words_and_back() {
    let numbers = |k: u32| [0u32, 1, 3, 127, 200, 255][k as usize % 6];
    let lists = RowLists {
        kinds: (0..216).map(numbers).map(|n| n as u8).collect(),
        levels: (0..216).map(|k| numbers(k / 6) as u8).collect(),
        values: (0..216).map(|k| numbers(k / 36) * 0x0101_0101).collect(),
    };
    let words = rows_to_words(&lists).unwrap();
    for (i, &word) in words.iter().enumerate() {
        let (kind, level, value) = (lists.kinds[i] as u64, lists.levels[i] as u64, lists.values[i] as u64);
        assert_eq!(word, value + level * (1 << 32) + kind * (1 << 40));
    }
    assert_eq!(words_to_rows(&words).unwrap(), lists);
    for bit in 48..64 {
        let mut rest = words.clone();
        rest[100] |= 1 << bit;
        assert_eq!(words_to_rows(&rest), Err(Refusal::Row));
    }
    for short in 0..3 {
        let mut lists = lists.clone();
        match short {
            0 => drop(lists.kinds.pop()),
            1 => drop(lists.levels.pop()),
            _ => drop(lists.values.pop()),
        }
        assert_eq!(rows_to_words(&lists), Err(Refusal::ShortList));
    }
    assert_eq!((rows_to_words(&RowLists::default()), words_to_rows(&[])), (Ok(Vec::new()), Ok(RowLists::default())));
}

#[test]
fn a_table_gives_its_energies_back() {
    let mut b = builder(0);
    let n = vertex_count(0).unwrap();
    let energies: Vec<f64> = (0..n * n).map(|i| (100 * (i / n) + i % n) as f64).collect();
    b.set(1, 0, &energies).unwrap();
    let t = Table::read(b.write().unwrap(), b.mesh().clone()).unwrap();
    assert_eq!((t.levels(), t.grid().n_r, t.grid().n_omega, t.grid().rmax), (1, 2, 2, 2.0));
    let row = t.row(1, 0).unwrap();
    assert_eq!(row.kind, Kind::Mesh { level: 0, interpolate: true });
    assert!(row.energies.iter().zip(&energies).all(|(&x, &y)| x as f64 == y));
    assert_eq!(t.row(0, 1).unwrap().kind, Kind::Scalar(0.0));
    assert_eq!(t.row(2, 0), None);
    for (i, &a) in b.directions().iter().enumerate() {
        for (j, &c) in b.directions().iter().enumerate() {
            let energy = t.lookup(1.0, 0.1, a, c).unwrap();
            assert!((energy - energies[i * n + j]).abs() < 1e-6, "{energy} at {i}, {j}");
        }
    }
    assert_eq!(t.lookup(2.5, 0.0, [1.0, 0.0, 0.0], [1.0, 0.0, 0.0]), Ok(0.0));
    assert_eq!(t.lookup(1.0, 0.0, [0.0; 3], [1.0, 0.0, 0.0]), Err(Refusal::Query));
}

#[test]
fn many_readings_are_the_single_ones() {
    let mut b = builder(0);
    let n = vertex_count(0).unwrap();
    b.set(1, 0, &(0..n * n).map(|i| i as f64).collect::<Vec<f64>>()).unwrap();
    let t = Table::read(b.write().unwrap(), b.mesh().clone()).unwrap();
    let pose = |i: usize| {
        let x = i as f64;
        [0.05 * x, x, 1.0, (0.3 * x).sin(), x.cos(), (0.7 * x).cos(), if i.is_multiple_of(5) { f64::NAN } else { 1.0 }, 0.2]
    };
    let poses: Vec<[f64; 8]> = (0..70).map(pose).collect();
    for beta in [None, Some(0.5), Some(0.0)] {
        let many = t.readings(&poses, beta);
        assert_eq!(many.len(), poses.len());
        for (answer, [r, omega, ax, ay, az, bx, by, bz]) in many.into_iter().zip(&poses) {
            let (first, second) = ([*ax, *ay, *az], [*bx, *by, *bz]);
            let single = match beta {
                None => t.reading(*r, *omega, first, second),
                Some(beta) => t.reading_boltzmann(*r, *omega, first, second, beta),
            };
            assert_eq!(answer, single);
        }
    }
    assert!(t.readings(&[], None).is_empty());
}

#[test]
fn a_reading_is_weighted_by_temperature() {
    let mut b = builder(0);
    let n = vertex_count(0).unwrap();
    let energies: Vec<f64> = (0..n * n).map(|i| (100 * (i / n) + i % n) as f64).collect();
    b.set(1, 0, &energies).unwrap();
    let t = Table::read(b.write().unwrap(), b.mesh().clone()).unwrap();
    for (i, &a) in b.directions().iter().enumerate() {
        for (j, &c) in b.directions().iter().enumerate() {
            let energy = t.lookup_boltzmann(1.0, 0.1, a, c, 0.001).unwrap();
            assert!((energy - energies[i * n + j]).abs() < 1e-6, "{energy} at {i}, {j}");
        }
    }
    // between vertices it is below the plain reading, and the more so the colder it is
    let (x, y) = ([1.0, 2.0, 3.0], [-3.0, 1.0, 2.0]);
    let plain = t.lookup(1.0, 0.0, x, y).unwrap();
    let [warm, cold] = [0.01, 1.0].map(|beta| t.lookup_boltzmann(1.0, 0.0, x, y, beta).unwrap());
    assert!(cold < warm && warm < plain, "{cold}, {warm}, {plain}");
    assert_eq!(t.lookup_boltzmann(0.0, 3.0, x, y, 1.0), Ok(0.0)); // a Scalar row
    assert_eq!(t.lookup_boltzmann(2.5, 0.0, x, y, 1.0), Ok(0.0)); // outside
    for beta in [0.0, -1.0, f64::INFINITY, f64::NAN] {
        assert_eq!(t.lookup_boltzmann(1.0, 0.0, x, y, beta), Err(Refusal::ReadingBeta));
        assert_eq!(t.lookup_boltzmann(2.5, 0.0, x, y, beta), Err(Refusal::ReadingBeta));
        assert_eq!(t.lookup_boltzmann(1.0, 0.0, x, [0.0; 3], beta), Err(Refusal::Query));
    }
}

#[test]
fn a_nearest_reading_shows_how_far_its_vertices_lie() {
    let mut b = builder(1);
    b.set(0, 0, &smooth(1)).unwrap();
    b.set(1, 0, &smooth(1)).unwrap();
    let mut file = b.write().unwrap();
    let row = 56; // the first of the rows: interpolated as it is set
    let (x, y) = ([1.0, 2.0, 3.0], [-3.0, 1.0, 0.25]);
    let read = |file: &[u8]| Table::read(file.to_vec(), b.mesh().clone()).unwrap();
    let shown = |t: &Table, r| t.reading(r, 0.0, x, y).map(|v| [v.distance_a, v.distance_b]);
    assert_eq!(file[row], 3);
    assert_eq!(shown(&read(&file), 0.0), Ok([0.0; 2]));
    file[row] = 2;
    let t = read(&file);
    assert_eq!(t.row(0, 0).unwrap().kind, Kind::Mesh { level: 1, interpolate: false });
    let far = |d: [f64; 3]| {
        let l = (d[0] * d[0] + d[1] * d[1] + d[2] * d[2]).sqrt();
        let to = |v: &[f64; 3]| (0..3).map(|k| (d[k] / l - v[k]).powi(2)).sum::<f64>();
        b.mesh().directions(1).map(|v| to(&v)).fold(f64::INFINITY, f64::min)
    };
    let got = t.reading(0.0, 0.0, x, y).unwrap();
    assert!((got.distance_a - far(x)).abs() < 1e-15 && (got.distance_b - far(y)).abs() < 1e-15, "{got:?}");
    assert!(got.distance_a > 0.001 && got.distance_b > 0.001 && got.distance_a != got.distance_b);
    assert_eq!(t.reading_boltzmann(0.0, 0.0, x, y, 1.0), Ok(got));
    assert_eq!(t.lookup(0.0, 0.0, x, y), Ok(got.energy));
    // another row, a Scalar one and a distance outside show none
    assert_eq!([1.0, 2.5].map(|r| shown(&t, r)), [Ok([0.0; 2]); 2]);
    assert_eq!(t.reading(0.0, 3.0, x, y).map(|v| [v.distance_a, v.distance_b]), Ok([0.0; 2]));
}

fn two_terms() -> Tail {
    let terms = vec![Term { coefficient: -1.5, kappa: 0.0, power: 6 }, Term { coefficient: 2.0, kappa: 0.25, power: 1 }];
    Tail { terms, prefactor: Some(4.0) }
}

#[test]
fn a_long_range_tail_is_written_and_read() {
    let mut b = builder(0);
    b.set(0, 0, &smooth(0)).unwrap();
    let (plain, tail) = (b.write().unwrap(), two_terms());
    let file = b.write_tail(&tail).unwrap();
    assert_eq!(file.len(), plain.len() + 12 + 2 * 20);
    assert_eq!(sizing_with_terms(small(), b.mesh(), 2).unwrap().file, sizing(small(), b.mesh()).unwrap().file + 52);
    let t = Table::read(file, b.mesh().clone()).unwrap();
    assert_eq!((t.tail(), t.terms()), (tail.clone(), tail.terms));
    // the table is as it was, and 0 beyond rmax; the tail stands for itself
    let (x, y) = ([1.0, 2.0, 3.0], [-3.0, 1.0, 0.25]);
    assert_eq!(t.lookup(5.0, 0.0, x, y), Ok(0.0));
    let wanted = |r: f64| 4.0 * (-1.5 / r.powi(6) + 2.0 * (-0.25 * r).exp() / r);
    for r in [0.5, 1.0, 2.0, 5.0, 20.0] {
        let energy = t.tail_energy(r).unwrap();
        assert!((energy - wanted(r)).abs() < 1e-12 * wanted(r).abs(), "{energy} at {r}");
    }
    assert_eq!(t.tail_energy(f64::NAN), Err(Refusal::Query));
    assert!(t.tail_energy(f64::INFINITY).unwrap().is_nan()); // a kappa of 0, times infinity
                                                             // without terms nothing is stored
    for prefactor in [None, Some(4.0), Some(f64::NAN)] {
        assert_eq!(b.write_tail(&Tail { terms: Vec::new(), prefactor }).unwrap(), plain);
    }
    let t = Table::read(plain, b.mesh().clone()).unwrap();
    assert_eq!((t.tail(), t.tail_energy(1.0)), (Tail::default(), Ok(0.0)));
}

#[test]
fn readings_of_a_span_lie_between_its_energies() {
    let mut b = builder(0);
    b.set(0, 0, &smooth(0)).unwrap();
    let mut file = b.write().unwrap();
    let read = |file: &[u8]| Table::read(file.to_vec(), b.mesh().clone()).unwrap();
    // the rows of two distances: a Mesh row and Scalar 0
    let (whole, largest) = (read(&file).span(0.0, 2.0, 0.0).unwrap(), f64::from(0.05f32));
    assert_eq!(whole, Span { first: 0, last: 1, smallest: 0.0, largest, scalar_nans: 0 });
    assert_eq!(read(&file).span(0.75, 2.0, 0.0).unwrap(), Span { first: 1, last: 1, smallest: 0.0, largest: 0.0, scalar_nans: 0 });
    assert_eq!(read(&file).span(0.0, 2.0, 3.0).unwrap(), Span { first: 0, last: 1, smallest: 0.0, largest: 0.0, scalar_nans: 0 });
    // read at the nearest vertices, every reading is between them
    assert_eq!(read(&file).row(0, 0).unwrap().kind, Kind::Mesh { level: 0, interpolate: true });
    let at = file.len() - 4 * 144 - 4 - 4 * 10;
    assert_eq!(file[at], 3);
    file[at] = 2;
    let t = read(&file);
    for i in 0..200 {
        let (k, r) = (f64::from(i), 2.0 * f64::from(i) / 200.0);
        let (x, y) = ([k.sin(), k.cos(), 0.3], [0.1, (3.0 * k).sin(), (2.0 * k).cos()]);
        for energy in [t.lookup(r, 0.0, x, y), t.lookup_boltzmann(r, 0.0, x, y, 2.0)] {
            assert!((whole.smallest..=whole.largest).contains(&energy.unwrap()));
        }
    }
    for (low, high) in [(1.0, 0.5), (-0.1, 1.0), (0.0, 2.1), (f64::NEG_INFINITY, 1.0)] {
        assert_eq!(t.span(low, high, 0.0), Err(Refusal::Span));
    }
    for (low, high, omega) in [(f64::NAN, 1.0, 0.0), (2.0, f64::NAN, 0.0), (2.0, 1.0, f64::INFINITY)] {
        assert_eq!(t.span(low, high, omega), Err(Refusal::Query));
    }
}

#[test]
fn a_long_range_tail_is_refused() {
    let b = builder(0);
    let with = |alter: &dyn Fn(&mut Tail)| {
        let mut tail = two_terms();
        alter(&mut tail);
        b.write_tail(&tail).err()
    };
    assert_eq!(with(&|_| ()), None);
    assert_eq!(with(&|t| t.prefactor = None), Some(Refusal::Prefactor));
    assert_eq!(with(&|t| t.prefactor = Some(f64::INFINITY)), Some(Refusal::Term));
    assert_eq!(with(&|t| t.terms[1].coefficient = f64::NAN), Some(Refusal::Term));
    assert_eq!(with(&|t| t.terms[0].kappa = f64::NEG_INFINITY), Some(Refusal::Term));
    assert_eq!(with(&|t| t.terms[0].power = 1 << 31), Some(Refusal::Term));
    assert_eq!(with(&|t| t.terms[0].power = (1 << 31) - 1), None);
    let file = b.write_tail(&two_terms()).unwrap();
    let refusal = |file: &[u8]| Table::read(file.to_vec(), b.mesh().clone()).err();
    assert_eq!(refusal(&file[..file.len() - 8]), Some(Error::Refused(Refusal::Sections)));
    let mut power = file.clone();
    power[file.len() - 9] = 0x80;
    assert_eq!(refusal(&power), Some(Error::Refused(Refusal::Term)));
    assert_eq!(sizing_with_terms(small(), b.mesh(), 1 << 32), Err(Refusal::Term));
}

#[test]
fn powers_are_by_halves() {
    assert_eq!(power(f64::NAN, 0), 1.0);
    for n in 1..40 {
        let half = power(1.1, n / 2);
        assert_eq!(power(1.1, n), if n % 2 == 1 { half * half * 1.1 } else { half * half });
    }
}

// At most 4 levels; the same table where both readers accept it.
#[test]
fn a_viewer_opens_small_tables() {
    let small = builder(3).write().unwrap();
    let viewed = Table::view(small.clone(), mesh(3)).expect("four levels");
    let read = Table::read(small.clone(), mesh(3)).expect("four levels");
    assert_eq!((viewed.levels(), viewed.file()), (4, read.file()));
    assert_eq!(viewed.grid(), read.grid());
    let large = builder(4).write().unwrap();
    assert!(Table::read(large.clone(), mesh(4)).is_ok());
    assert_eq!(Table::view(large, mesh(4)).unwrap_err(), Error::Refused(Refusal::ViewerBound));
    assert_eq!(Table::view(small[1..].to_vec(), mesh(3)).unwrap_err(), Error::Refused(Refusal::Sections));
}

// A gap in front, one at the end, and a part that two rows share; readings stay, and a packed file comes back as it is.
#[test]
fn loose_files_are_packed() {
    let mut b = builder(0);
    b.set(0, 0, &smooth(0)).unwrap();
    b.set(0, 1, &smooth(0)).unwrap();
    let file = b.write().unwrap();
    assert_eq!(repack(&file), Ok(Repacked { file: file.clone(), moved: 0 }));
    let put = |file: &mut Vec<u8>, at: usize, n: u32| file[at..at + 4].copy_from_slice(&n.to_le_bytes());
    let count = |file: &[u8], at: usize| u32::from_le_bytes(file[at..at + 4].try_into().unwrap());
    let rows = 48 + 4 * count(&file, 40) as usize;
    let energies = rows + 10 * count(&file, rows - 4) as usize + 4;
    let held = count(&file, energies - 4);
    let mut gap = file.clone();
    put(&mut gap, energies - 4, held + 3);
    gap.splice(energies..energies, [0; 8]);
    gap.extend([0; 4]);
    put(&mut gap, rows + 2, 2);
    put(&mut gap, rows + 12, 146);
    assert_eq!(Table::read(gap.clone(), b.mesh().clone()).unwrap_err(), Error::Refused(Refusal::Tiling));
    assert_eq!(repack(&gap), Ok(Repacked { file: file.clone(), moved: 2 }));
    put(&mut gap, rows + 12, 148);
    assert_eq!(repack(&gap), Err(Refusal::SlabPlace));
    let mut shared = file[..file.len() - 4 * 144].to_vec();
    put(&mut shared, energies - 4, held - 144);
    put(&mut shared, rows + 12, 0);
    let apart = repack(&shared).unwrap();
    assert_eq!((apart.file.len(), apart.moved), (file.len(), 1));
    let (old, new) = (Table::read(file, b.mesh().clone()).unwrap(), Table::read(apart.file, b.mesh().clone()).unwrap());
    let (omega, a) = (0.1, [0.3, -0.2, 0.9]);
    assert_eq!(old.lookup(0.5, omega, a, a).unwrap().to_bits(), new.lookup(0.5, omega, a, a).unwrap().to_bits());
}

#[test]
fn damaged_files_are_refused() {
    let mut b = builder(0);
    b.set(0, 0, &smooth(0)).unwrap();
    let file = b.write().unwrap();
    let refusal = |file: Vec<u8>| Table::read(file, b.mesh().clone()).err();
    let refused = |refusal| Some(Error::Refused(refusal));
    assert_eq!(refusal(file.clone()), None);
    assert_eq!(refusal(Vec::new()), refused(Refusal::Sections));
    assert_eq!(refusal(file[..file.len() - 1].to_vec()), refused(Refusal::Sections));
    let with = |at: usize, byte: u8| {
        let mut copy = file.clone();
        copy[at] = byte;
        refusal(copy)
    };
    assert_eq!(with(36, 3), refused(Refusal::FileGrid));
    assert_eq!(with(52, 4), refused(Refusal::Row));
    assert_eq!(with(54, 1), refused(Refusal::Tiling));
}

// What the builder says while it is built is the length of the file that it then writes.
#[test]
fn the_length_of_the_file_is_known_while_building() {
    let mut b = builder(1);
    let told = |b: &Builder| assert_eq!(b.file_length(), b.write().unwrap().len() as u64);
    assert_eq!(b.file_length(), 52 + 4 * 2 + 10 * 4);
    b.set(0, 0, &smooth(1)).unwrap();
    assert_eq!(b.file_length(), 100 + 4 * 1764);
    b.set(0, 0, &smooth(1)).unwrap();
    told(&b);
    assert_eq!(b.set(0, 2, &smooth(1)), Err(Refusal::Bin));
    told(&b);
    b.settle(0).unwrap();
    told(&b);
    assert_eq!(b.level(), 0);
    b.set(0, 0, &smooth(0)).unwrap();
    assert_eq!(b.file_length(), 100 + 4 * 144);
    b.set(1, 1, &vec![10.0; 144]).unwrap();
    assert_eq!(b.share(), (100 + 4 * 288) as f64 / (100 + 4 * 4 * 1764) as f64);
    b.settle(1).unwrap();
    told(&b);
    assert_eq!(b.file_length(), 100 + 4 * 144);
}

#[test]
fn a_build_is_sized_before_it_is_made() {
    for top in 0..=2 {
        let n = vertex_count(top).unwrap() as u64;
        let size = sizing(small(), &mesh(top)).expect("sizing");
        let mut b = builder(top);
        let slabs = b.grid().n_r * b.grid().n_omega;
        assert_eq!((size.slabs, size.store, size.levels.len() as u64), (slabs, slabs * n * n, top + 1));
        for ri in 0..b.grid().n_r {
            for oi in 0..b.grid().n_omega {
                b.set(ri, oi, &vec![1.0; (n * n) as usize]).expect("set");
            }
        }
        // an icosphere has 6n - 12 pairs of neighbours, each from both sides
        assert_eq!(size.levels[top as usize].comparisons, b.grid().n_omega * 2 * n * (6 * n - 12));
        assert_eq!((b.write().expect("write").len() as u64, b.share()), (size.file, 1.0));
    }
    assert_eq!(sizing(settings(0.0, 2.0, -1.0, 3.0, 0.1, 1.0), &mesh(1)), Err(Refusal::Settings));
}

#[test]
fn a_direction_is_found_without_a_locator() {
    let mesh = mesh(2);
    for level in 0..=2 {
        for (v, d) in mesh.directions(level).enumerate() {
            let found = mesh.search(level, d.map(|x| 3.0 * x)).expect("search");
            assert_eq!(found.vertex, v);
            assert!(found.distance < 1e-30 && found.face.contains(&v), "{found:?}");
            assert!((found.weights.iter().sum::<f64>() - 1.0).abs() < 1e-12, "{found:?}");
        }
        // a point of a face with most of one corner is found beside that corner, in that face
        let at = mesh.search(level, [0.3, 0.5, 0.7]).expect("search");
        let corners: Vec<[f64; 3]> = mesh.directions(level).collect();
        let mixed = |k: usize| 0.5 * corners[at.face[0]][k] + 0.3 * corners[at.face[1]][k] + 0.2 * corners[at.face[2]][k];
        let found = mesh.search(level, [mixed(0), mixed(1), mixed(2)]).expect("search");
        assert_eq!((found.vertex, found.face), (at.face[0], at.face));
        assert!(found.weights[0] > found.weights[1] && found.weights[1] > found.weights[2] && found.weights[2] > 0.0, "{found:?}");
    }
    assert_eq!(mesh.search(0, [0.0; 3]), Err(Refusal::Query));
    assert_eq!(mesh.search(3, [1.0; 3]), Err(Refusal::ShortList));
    assert_eq!(mesh.search(16, [1.0; 3]), Err(Refusal::Level));
    assert_eq!(search(0, &[0.0; 36], &[5; 12], &[0; 72], [1.0; 3]), Err(Refusal::Mesh));
}
