//! Why a journal, or a call that it should keep, was refused.
use crate::helpers;
use std::fmt;

macro_rules! refusals {
    ($($number:literal $name:ident $words:literal),* $(,)?) => {
        /// What a journal refuses with, as hosts/c/icotable_journal.h has it; a test compares the two. [`Error::journal`](crate::Error::journal)
        /// has it.
        ///
        /// ```
        /// use simgrale::{settings, Builder, Guard, JournalRefusal, Mesh};
        ///
        /// let grid = settings(1.0, 4.0, 1.0, 3.2, 0.5, 0.4);
        /// let error = Builder::resume("no/such/journal", grid, Mesh::icospheres(0)?, Guard::On).unwrap_err();
        /// assert_eq!(error.journal(), Some(JournalRefusal::Absent));
        /// assert_eq!((error.number(), JournalRefusal::Absent.number()), (Some(202), 202));
        /// assert!(error.to_string().contains(JournalRefusal::Absent.words()));
        /// assert_eq!(JournalRefusal::ALL[0].to_string(), "refused with 201: the file is there already: resume it, or begin another one");
        /// # Ok::<(), simgrale::Error>(())
        /// ```
        #[derive(Clone, Copy, Debug, PartialEq, Eq, Hash)]
        #[non_exhaustive]
        pub enum JournalRefusal {
            $(#[doc = $words] $name = $number,)*
        }

        impl JournalRefusal {
            /// Every one, in the order of its number.
            pub const ALL: &'static [JournalRefusal] = &[$(JournalRefusal::$name),*];

            pub(crate) fn of(number: u64) -> Option<JournalRefusal> {
                match number {
                    $($number => Some(JournalRefusal::$name),)*
                    _ => None,
                }
            }

            /// Its number, above those of the library.
            pub fn number(self) -> u64 {
                self as u64
            }

            /// What was refused, in C's words.
            pub fn words(self) -> &'static str {
                helpers::words(self.number())
            }
        }

        #[cfg(test)]
        const DOCUMENTED: &[&str] = &[$($words),*];
    };
}

refusals! {
    201 Exists "the file is there already: resume it, or begin another one",
    202 Absent "there is no such journal: begin it",
    203 InUse "the journal is in use by another process, or by another handle of this one",
    204 NotAJournal "the file is not a journal of this library, or its head is not whole",
    205 OtherVersion "the journal has a format version that is not known here",
    206 Damaged "a record of the journal is damaged",
    207 OtherKind "the journal is of the other kind of table: of two molecules, or against an atom",
    208 OtherSettings "the journal was begun with other settings",
    209 OtherTop "the journal was begun with another top level",
    210 OtherMeshes "the journal was begun over other meshes",
    211 OtherAnswer "a recorded call, played again, is answered otherwise than it was",
    212 NotWritten "the record of the call could not be written to disk: the call was taken back",
    213 Broken "an earlier record could not be brought to disk: close the journal and resume it",
    214 NotOpen "the journal is not open for calls",
    215 Trouble "the journal cannot be opened or read",
    216 NoRoom "there is not enough memory for the build",
    217 Environment "the floating-point environment is not the one that the library needs",
    218 Label "the label is not UTF-8 of at most 4,096 bytes without control characters",
    219 OtherIdentity "the journal is of another build with the same settings: its label or its id is another",
    220 OtherLibrary "the journal was kept by another version of the library, which answers a recorded call otherwise",
    221 SliceSettled "a slab of a slice that was settled is not set again",
    222 SlabMissing "a slice is not settled while a slab of it was not set",
    223 NearerUnsettled "a slice is not begun before every nearer one is settled",
    224 Holes "a table with slabs that were not set is not written",
    225 Unsettled "a table with a slice that was not settled is not written",
}

impl fmt::Display for JournalRefusal {
    fn fmt(&self, f: &mut fmt::Formatter<'_>) -> fmt::Result {
        write!(f, "refused with {}: {}", self.number(), self.words())
    }
}

impl std::error::Error for JournalRefusal {}

#[cfg(test)]
mod tests {
    use super::*;

    #[test]
    fn the_documented_words_are_those_of_c() {
        let words: Vec<&str> = JournalRefusal::ALL.iter().map(|refusal| refusal.words()).collect();
        assert_eq!(words, DOCUMENTED);
    }
}
