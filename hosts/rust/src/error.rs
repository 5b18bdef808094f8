//! Why something was not had.
use crate::journal_refusal::JournalRefusal;
use crate::refusal::Refusal;
use std::sync::Arc;
use std::{fmt, io};

/// Why a builder, a table, a journal or a file was not had, or a call was refused. Calls that reach nothing but the library answer a
/// [`Refusal`], which `?` turns into this, as it does with an [`io::Error`].
///
/// Its text is one whole line: the number, its message and the place. C writes the message, so that it is the same in C, in Python and in Rust.
///
/// ```
/// use simgrale::{Error, JournalRefusal, Mesh, Refusal, Table};
///
/// let mesh = Mesh::icospheres(0)?;
/// let error = Table::read(b"a letter, not a table".to_vec(), mesh).unwrap_err();
/// assert_eq!((error.number(), error.refusal()), (Some(13), Some(Refusal::Sections)));
/// assert!(error.to_string().starts_with("refused with 13: the file's sections do not follow their counts"));
///
/// let error = Table::open("no/such/table").unwrap_err();
/// assert_eq!(error.to_string(), "refused with 266: the table cannot be opened or read: no/such/table: No such file or directory");
/// assert_eq!((error.number(), error.journal()), (Some(266), None::<JournalRefusal>));
/// # Ok::<(), Error>(())
/// ```
#[derive(Clone, Debug)]
#[non_exhaustive]
pub enum Error {
    /// The library refused the call, which altered nothing.
    Refused(Refusal),
    /// What keeps files refused: a table, a journal or its guard, a seal, a mesh file, a slab file; or the library did, which they called.
    Handle {
        /// The library's up to 26, a journal's from 201 on, a slab file's from 231, a mesh file's from 241, a seal's from 251, a handle's from 261.
        number: u64,
        /// The number's message, and the bins, the byte, the path or what the system said.
        message: String,
    },
    /// The system refused: what `?` makes of an [`io::Error`].
    Io(Arc<io::Error>),
}

impl Error {
    /// The number. The system's errors have none.
    pub fn number(&self) -> Option<u64> {
        match self {
            Error::Refused(refusal) => Some(refusal.number()),
            Error::Handle { number, .. } => Some(*number),
            Error::Io(_) => None,
        }
    }

    /// The library's refusal, if it is one.
    pub fn refusal(&self) -> Option<Refusal> {
        self.number().and_then(Refusal::of)
    }

    /// The journal's refusal, if it is one.
    pub fn journal(&self) -> Option<JournalRefusal> {
        self.number().and_then(JournalRefusal::of)
    }
}

impl From<Refusal> for Error {
    fn from(refusal: Refusal) -> Error {
        Error::Refused(refusal)
    }
}

impl From<io::Error> for Error {
    fn from(error: io::Error) -> Error {
        Error::Io(Arc::new(error))
    }
}

/// Two errors of the system are equal where their kinds and words are.
impl PartialEq for Error {
    fn eq(&self, other: &Error) -> bool {
        match (self, other) {
            (Error::Refused(a), Error::Refused(b)) => a == b,
            (Error::Handle { number, message }, Error::Handle { number: n, message: m }) => (number, message) == (n, m),
            (Error::Io(a), Error::Io(b)) => a.kind() == b.kind() && a.to_string() == b.to_string(),
            _ => false,
        }
    }
}

impl Eq for Error {}

impl fmt::Display for Error {
    fn fmt(&self, f: &mut fmt::Formatter<'_>) -> fmt::Result {
        match self {
            Error::Refused(refusal) => refusal.fmt(f),
            Error::Handle { number, message } => write!(f, "refused with {number}: {message}"),
            Error::Io(error) => error.fmt(f),
        }
    }
}

impl std::error::Error for Error {
    fn source(&self) -> Option<&(dyn std::error::Error + 'static)> {
        match self {
            Error::Refused(refusal) => Some(refusal),
            Error::Handle { .. } => None,
            Error::Io(error) => Some(error.as_ref()),
        }
    }
}
