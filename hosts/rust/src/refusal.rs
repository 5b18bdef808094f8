// The numbers that a call can be refused with, as include/icotable.h has them; a test compares the two.

macro_rules! refusals {
    ($($number:literal $name:ident $words:literal),* $(,)?) => {
        /// Why the library refused a call: the first question that was answered no. A refused call alters nothing. docs/REFUSALS.md has an example of
        /// each.
        ///
        /// ```
        /// use simgrale::{settings, Builder, Mesh, Refusal};
        ///
        /// let mut builder = Builder::new(settings(1.0, 4.0, 1.0, 3.2, 0.5, 0.4), Mesh::icospheres(0)?)?;
        /// let refusal = builder.set(3, 0, &[0.0; 144]).unwrap_err();
        /// assert_eq!((refusal, refusal.number()), (Refusal::Bin, 8));
        /// assert_eq!(refusal.to_string(), format!("refused with 8: {}", refusal.words()));
        /// assert_eq!(Refusal::ALL[7], Refusal::Bin);
        /// # Ok::<(), simgrale::Error>(())
        /// ```
        #[derive(Clone, Copy, Debug, PartialEq, Eq, Hash)]
        #[non_exhaustive]
        pub enum Refusal {
            $(#[doc = $words] $name = $number,)*
        }

        impl Refusal {
            /// Every one, in the order of its number.
            pub const ALL: &'static [Refusal] = &[$(Refusal::$name),*];

            pub(crate) fn of(number: u64) -> Option<Refusal> {
                match number {
                    $($number => Some(Refusal::$name),)*
                    _ => None,
                }
            }

            /// Its number, as include/icotable.h has it.
            pub fn number(self) -> u64 {
                self as u64
            }

            /// What was answered no.
            pub fn words(self) -> &'static str {
                match self {
                    $(Refusal::$name => $words,)*
                }
            }
        }
    };
}

refusals! {
    1 Settings "rmin is not finite, rmax not above it, dr, omega_step or beta not finite and above 0, or threshold not finite or below 0",
    2 Level "the top level is above 15, or the current level above the top",
    3 BinCount "a bin count is not from 1 to 65535, or in a builder not the one that its settings give",
    4 OwnCount "the distance count does not come out the same with the table's own rmax",
    5 TooManyEnergies "slabs times n*n of the top level, n against an atom, is above 4294967295",
    6 ShortList "a list is shorter than needed",
    7 Mesh "a mesh does not keep the mesh rule: finite vertices; 5 or 6 distinct neighbours each, other vertices of the level that list it in turn; angles finite and not below 0",
    8 Bin "a bin number is not below its count",
    9 EnergyCount "there are not exactly n*n energies, n against an atom, with n of the current level",
    10 NanEnergy "an energy is a NaN",
    11 OtherLevel "a slab of the slice holds energies of another level than the current one",
    12 ShortOutput "the output is shorter than the file",
    13 Sections "the file's sections do not follow their counts, do not end with its last byte, or are not those of this kind of table",
    14 FileGrid "the file's grid, bin counts, level count, row count or vertex counts are not those of a table",
    15 Row "a row has an unknown kind (a word has one where its bits from 48 on are not 0), a Mesh row a level above the top; or, in a file, an unused field that is used, or a scalar NaN other than 0x7FC00000",
    16 Tiling "the rows' offsets do not tile the energies in row order",
    17 FileNan "an energy of the file is a NaN",
    18 Query "r or an end of a span is a NaN, omega not finite, or the length of a direction not finite or 0",
    19 NotLent "a bin count is 0, a row's kind is unknown or its level not held, or a row, energy, term, cell or mesh entry that the reading touches is not inside what was lent, an end offset is below its start, or a vertex number not below n",
    20 EmptyCell "the cell that a direction falls into lists no vertex",
    21 ReadingBeta "a reading's own beta is not finite and above 0",
    22 Prefactor "terms of a long-range tail are handed over without a prefactor",
    23 Term "a coefficient, a kappa or the prefactor of a long-range tail is not finite, a power is above 2147483647, or there are more than 4294967295 terms",
    24 ViewerBound "the file has more than 4 levels or 4096 rows, which the viewer does not open",
    25 SlabPlace "a Mesh row of a loosely packed file has energies that do not end inside section 5",
    26 Span "the low end of a span of distances is above its high end, or an end is below rmin or above the table's own rmax",
}

/// What an accepted call gives, or why it was refused.
pub(crate) fn answer<T>(number: u64, value: T) -> Result<T, Refusal> {
    match number {
        0 => Ok(value),
        n => Err(Refusal::of(n).unwrap_or_else(|| panic!("{n} is no number of the library"))),
    }
}

impl std::fmt::Display for Refusal {
    fn fmt(&self, f: &mut std::fmt::Formatter<'_>) -> std::fmt::Result {
        write!(f, "refused with {}: {}", self.number(), self.words())
    }
}

impl std::error::Error for Refusal {}
