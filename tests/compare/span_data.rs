// Writes the spans that tests/replay has: tables with rows of all kinds, damaged ones and such as a host makes, with the answers of document 02's text (span.rs); the Rust has no spans. The first argument names
// the file, and what the replay prints where all agrees goes to the second.
#[allow(dead_code)]
#[path = "../../hosts/rust/src/sys.rs"]
mod icotable;
#[allow(dead_code)]
mod lines;
#[allow(dead_code)]
mod meshes;
#[allow(dead_code, clippy::all)]
mod oracle {
    include!(concat!(env!("COMPARE"), "/oracle.rs"));
}
#[allow(dead_code)]
mod span;
mod span_samples;

use icotable::Table;
use lines::bits;
use meshes::Random;
use span::spanned;
use span_samples::{altered, ends, table};
use std::fmt::Write;

const HEAD: &str = "\
# Spans of distances; numbers in hexadecimal, floats by their bits. A line that starts so is passed over. Every answer is document 02's: the Rust has no spans.
# 01 a span: the number answered, the first and the last bin, the smallest and the largest energy, the NaNs of Scalar rows; how much of the file is lent, the low and the high end, omega.
# 02 bytes of the file: 00, the first place, how many, the bytes without blanks.
# 03 the table that is held: rmin, rmax, dr, omega step, threshold, beta, both bin counts; 04 the counts of levels, rows and energies, and the starts of rows and energies.
";

// How many bytes the replay has room for; a table is drawn anew until its file fits.
const ROOM: usize = 3000;

// As many spans as there are of each kind.
#[derive(Default)]
struct Counts([u64; 5]);

const KINDS: [&str; 5] = ["accepted", "accepted, nothing but NaNs", "refused with 18", "refused with 26", "refused with 19"];

struct Data {
    out: String,
    file: Vec<u8>,
    counts: Counts,
}

impl Data {
    // The bytes that differ from those that the replay holds.
    fn put(&mut self, file: &[u8]) {
        self.file.resize(ROOM, 0);
        for (k, part) in file.chunks(60).enumerate() {
            let at = 60 * k;
            if self.file[at..at + part.len()] != *part {
                let bytes: String = part.iter().map(|b| format!("{b:02X}")).collect();
                writeln!(self.out, "02 00 {at:04X} {:02X} {bytes}", part.len()).unwrap();
                self.file[at..at + part.len()].copy_from_slice(part);
            }
        }
    }

    fn hold(&mut self, t: &Table) {
        let g = &t.grid;
        let floats = [g.rmin, g.rmax, g.dr, g.omega_step, g.threshold, g.beta].map(f64::to_bits);
        let line = |words: &[u64]| words.iter().map(|n| format!(" {n:016X}")).collect::<String>();
        writeln!(self.out, "03{}{}", line(&floats), line(&[g.n_r, g.n_omega])).unwrap();
        writeln!(self.out, "04{}", line(&[t.levels, t.rows, t.energies, t.start[3], t.start[4]])).unwrap();
    }

    fn span(&mut self, t: &Table, file: &[u8], ends: [f64; 3]) {
        let s = spanned(t, file, ends[0], ends[1], ends[2]);
        let kind = match s.number {
            0 => s.smallest.is_nan() as usize,
            18 => 2,
            26 => 3,
            _ => 4,
        };
        self.counts.0[kind] += 1;
        let [low, high, omega] = ends.map(f64::to_bits);
        let (smallest, largest) = (bits(s.smallest), bits(s.largest));
        writeln!(
            self.out,
            "01 {:02X} {:016X} {:016X} {smallest:016X} {largest:016X} {:016X} {:04X} {low:016X} {high:016X} {omega:016X}",
            s.number, s.first, s.last, s.scalar_nans, file.len()
        )
        .unwrap();
    }
}

fn main() {
    let paths: Vec<String> = std::env::args().skip(1).collect();
    let mut random = Random::of(14);
    let mut data = Data { out: HEAD.into(), file: Vec::new(), counts: Counts::default() };
    for _ in 0..60 {
        let (t, file) = loop {
            let drawn = table(&mut random);
            if drawn.1.len() <= ROOM {
                break drawn;
            }
        };
        data.put(&file);
        data.hold(&t);
        for _ in 0..12 {
            let ends = ends(&t, &mut random);
            data.span(&t, &file, ends);
        }
        for _ in 0..6 {
            let (t, file) = altered(&t, &file, &mut random);
            data.put(&file);
            data.hold(&t);
            let ends = ends(&t, &mut random);
            data.span(&t, &file, ends);
        }
    }
    let mut text = String::new();
    for (words, n) in KINDS.iter().zip(data.counts.0) {
        assert!(n > 0, "no span is {words}");
        writeln!(text, "{words}: {n} of {n} agree").unwrap();
    }
    std::fs::write(&paths[0], &data.out).unwrap();
    std::fs::write(&paths[1], text).unwrap();
    println!("{} letters", data.out.len());
}
