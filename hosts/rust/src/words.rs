//! Rows as words, and as three lists of numbers.
use crate::refusal::{answer, Refusal};
use crate::sys;

/// Rows in three lists, an entry of each for a row: kind, level and value. The rows of a builder of two molecules are words instead,
/// value + level·2^32 + kind·2^40; [`rows_to_words`] and [`words_to_rows`] move them.
#[derive(Clone, Debug, Default, PartialEq, Eq)]
pub struct RowLists {
    /// 0 Scalar, 1 Repulsive, 2 Mesh read at the nearest vertices, 3 Mesh interpolated.
    pub kinds: Vec<u8>,
    /// A Mesh row's; 0 of any other.
    pub levels: Vec<u8>,
    /// The bits of a Scalar row's f32; 0 of any other.
    pub values: Vec<u32>,
}

impl RowLists {
    pub(crate) fn zeros(rows: usize) -> RowLists {
        RowLists { kinds: vec![0; rows], levels: vec![0; rows], values: vec![0; rows] }
    }
}

/// The word of each row, whatever its three numbers are. Refused with [`Refusal::ShortList`] where one list is shorter than another.
///
/// ```
/// use simgrale::{rows_to_words, words_to_rows, Refusal, RowLists};
///
/// // a Scalar of 1.0, a wall, and an interpolated row of level 2
/// let rows = RowLists { kinds: vec![0, 1, 3], levels: vec![0, 0, 2], values: vec![1f32.to_bits(), 0, 0] };
/// let words = rows_to_words(&rows)?;
/// assert_eq!(words, [0x3F80_0000, 1 << 40, (3 << 40) + (2 << 32)]);
/// assert_eq!(words_to_rows(&words)?, rows);
/// assert_eq!(words_to_rows(&[1 << 48]), Err(Refusal::Row));
/// # Ok::<(), simgrale::Error>(())
/// ```
pub fn rows_to_words(rows: &RowLists) -> Result<Vec<u64>, Refusal> {
    let RowLists { kinds, levels, values } = rows;
    let count = kinds.len().max(levels.len()).max(values.len());
    let mut words = vec![0; count];
    let number = sys::rows_to_words(count as u64, kinds, levels, values, &mut words);
    answer(number, words)
}

/// The three numbers of each word. Refused with [`Refusal::Row`] where a word has a bit from 48 on: that is no word of a row. An unknown
/// kind below 256 moves. [`rows_to_words`] has an example.
pub fn words_to_rows(words: &[u64]) -> Result<RowLists, Refusal> {
    let mut rows = RowLists::zeros(words.len());
    let number = sys::words_to_rows(words.len() as u64, words, &mut rows.kinds, &mut rows.levels, &mut rows.values);
    answer(number, rows)
}
