//! The floating-point environment, as hosts/c/environment.c finds it by computing.
use crate::error::Error;
use crate::helpers;
use crate::journal_refusal::JournalRefusal;
use std::fmt;

/// What of a thread's floating-point environment is not as the library needs it. What is proved of the library holds where a
/// result is rounded to nearest, ties to even, and where no number is flushed to zero, as IEEE 754 has it and as a program
/// begins on Linux. A program that gcc links with -ffast-math begins otherwise, and `fesetround` alters the rounding.
///
/// ```
/// use simgrale::FloatEnvironment;
///
/// let found = FloatEnvironment::of_thread();
/// assert!(found.is_default(), "{found}");
/// assert_eq!(found.to_string(), "as the library needs it");
/// let flushing = FloatEnvironment { results_flushed: true, ..found };
/// assert!(!flushing.is_default() && flushing.to_string().contains("flushed to zero"));
/// ```
#[derive(Clone, Copy, Debug, Default, PartialEq, Eq, Hash)]
pub struct FloatEnvironment {
    /// A result is not rounded to nearest, ties to even.
    pub rounding: bool,
    /// A result below the normal numbers becomes 0.
    pub results_flushed: bool,
    /// An operand below the normal numbers counts as 0.
    pub operands_flushed: bool,
}

impl FloatEnvironment {
    /// That of the thread which asks.
    pub fn of_thread() -> FloatEnvironment {
        let found = helpers::float_environment();
        let has = |bit| found & bit != 0;
        FloatEnvironment { rounding: has(1), results_flushed: has(2), operands_flushed: has(4) }
    }

    /// Whether it is as the library needs it.
    pub fn is_default(self) -> bool {
        self == FloatEnvironment::default()
    }

    pub(crate) fn ask() -> Result<(), Error> {
        let (found, refusal) = (FloatEnvironment::of_thread(), JournalRefusal::Environment);
        if found.is_default() {
            return Ok(());
        }
        Err(Error::Handle { number: refusal.number(), message: format!("{}: {found}", refusal.words()) })
    }
}

impl fmt::Display for FloatEnvironment {
    fn fmt(&self, f: &mut fmt::Formatter<'_>) -> fmt::Result {
        let number = u32::from(self.rounding) + 2 * u32::from(self.results_flushed) + 4 * u32::from(self.operands_flushed);
        f.write_str(&helpers::float_environment_words(number))
    }
}
