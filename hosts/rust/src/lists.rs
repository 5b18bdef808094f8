//! The lists that a table is built in.
use crate::sizing::Sizing;
use crate::sys;
use crate::words::RowLists;

// The store, and a word for each row.
#[derive(Clone, Debug, PartialEq)]
pub(crate) struct Lists {
    pub(crate) store: Vec<f64>,
    pub(crate) words: Vec<u64>,
}

impl Lists {
    // As long as a build needs them.
    pub(crate) fn of(size: &Sizing) -> Lists {
        Lists { store: vec![0.0; size.store as usize], words: vec![0; size.slabs as usize] }
    }

    pub(crate) fn lent(&mut self) -> sys::Lists<'_> {
        sys::Lists { store: &mut self.store, words: &mut self.words }
    }

    pub(crate) fn held(&self) -> sys::Held<'_> {
        sys::Held { store: &self.store, words: &self.words }
    }
}

// Against an atom: the store, and the three numbers of each row.
#[derive(Clone, Debug, PartialEq)]
pub(crate) struct AtomLists {
    pub(crate) store: Vec<f64>,
    rows: RowLists,
}

impl AtomLists {
    pub(crate) fn of(size: &Sizing) -> AtomLists {
        AtomLists { store: vec![0.0; size.store as usize], rows: RowLists::zeros(size.slabs as usize) }
    }

    pub(crate) fn lent(&mut self) -> sys::AtomLists<'_> {
        let RowLists { kinds, levels, values } = &mut self.rows;
        sys::AtomLists { store: &mut self.store, kinds, levels, values }
    }

    pub(crate) fn held(&self) -> sys::AtomHeld<'_> {
        let RowLists { kinds, levels, values } = &self.rows;
        sys::AtomHeld { store: &self.store, kinds, levels, values }
    }

    // The length of the file, by the levels of the rows: its five counts and first two sections, a level 4 bytes, a row 10, an energy 4.
    pub(crate) fn file_length(&self, head: usize, top: u64, per: impl Fn(u64) -> usize) -> usize {
        let rows = self.rows.kinds.iter().zip(&self.rows.levels);
        let energies: usize = rows.map(|(&kind, &level)| if kind < 2 { 0 } else { per(level as u64) }).sum();
        head + 4 * (top as usize + 1) + 10 * self.rows.kinds.len() + 4 * energies
    }
}
