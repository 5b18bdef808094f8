// The rows of a table of two molecules as the library takes them: a word each. Pages in common have them as three numbers, a kind having the rest of its word above it; list_rows.rs has the rows of a
// table of one molecule against an atom, under the same names.
pub use super::icotable::Lists;

// What a kind can be: eight bits, and sixteen of the rest.
pub const KINDS: u32 = 0xff_ffff;

pub struct Rows {
    words: Vec<u64>,
}

impl Rows {
    pub fn of(kinds: &[u32], levels: &[u8], values: &[u32]) -> Rows {
        let word = |s: usize| (kinds[s] as u64) << 40 | (levels[s] as u64) << 32 | values[s] as u64;
        Rows { words: (0..kinds.len()).map(word).collect() }
    }

    // As many words are lent as the shortest of three lists would have entries.
    pub fn lent<'a>(&'a mut self, store: &'a mut [f64], lent: [usize; 3]) -> Lists<'a> {
        Lists { store, words: &mut self.words[..lent[0].min(lent[1]).min(lent[2])] }
    }

    pub fn numbers(&self) -> (Vec<u32>, Vec<u8>, Vec<u32>) {
        let words = || self.words.iter();
        (words().map(|w| (w >> 40) as u32).collect(), words().map(|w| (w >> 32) as u8).collect(), words().map(|&w| w as u32).collect())
    }
}
