// The rows of a table of one molecule against an atom as the library takes them: three lists. word_rows.rs has those of a table of two molecules, under the same names.
pub use super::icotable::AtomLists as Lists;

// What a kind can be.
pub const KINDS: u32 = 0xff;

pub struct Rows {
    kinds: Vec<u8>,
    levels: Vec<u8>,
    values: Vec<u32>,
}

impl Rows {
    pub fn of(kinds: &[u32], levels: &[u8], values: &[u32]) -> Rows {
        Rows { kinds: kinds.iter().map(|&k| k as u8).collect(), levels: levels.to_vec(), values: values.to_vec() }
    }

    pub fn lent<'a>(&'a mut self, store: &'a mut [f64], lent: [usize; 3]) -> Lists<'a> {
        Lists { store, kinds: &mut self.kinds[..lent[0]], levels: &mut self.levels[..lent[1]], values: &mut self.values[..lent[2]] }
    }

    pub fn numbers(&self) -> (Vec<u32>, Vec<u8>, Vec<u32>) {
        (self.kinds.iter().map(|&k| k as u32).collect(), self.levels.clone(), self.values.clone())
    }
}
