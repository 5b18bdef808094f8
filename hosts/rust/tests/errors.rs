//! Errors as std has them: their words, numbers and sources, and when two are equal.
use simgrale::{Error, JournalRefusal, Mesh, Refusal};
use std::error::Error as _;
use std::io;

fn every_error() -> Vec<Error> {
    let told = |number, message: &str| Error::Handle { number, message: message.into() };
    vec![
        Error::Refused(Refusal::Bin),
        Error::Refused(Refusal::Row),
        told(8, "a bin number is not below its count: slab (9, 0)"),
        told(206, "a record of the journal is damaged: at byte 7"),
        told(206, "a record of the journal is damaged: at byte 8"),
        told(255, "the table is not the one that was sealed"),
        Error::from(io::Error::new(io::ErrorKind::Other, "the disk")),
        Error::from(io::Error::new(io::ErrorKind::Other, "a plug")),
        Error::from(io::Error::from(io::ErrorKind::NotFound)),
    ]
}

#[test]
fn errors_are_equal_to_themselves_alone() {
    let (all, again) = (every_error(), every_error());
    for (i, error) in all.iter().enumerate() {
        for (j, other) in again.iter().enumerate() {
            assert_eq!(error == other, i == j, "{error:?} and {other:?}");
        }
        assert_eq!(error, &error.clone());
    }
}

#[test]
fn errors_say_number_message_and_place() {
    let said: Vec<String> = every_error().iter().map(Error::to_string).collect();
    assert_eq!(said[0], "refused with 8: a bin number is not below its count");
    assert_eq!(said[2], "refused with 8: a bin number is not below its count: slab (9, 0)");
    assert_eq!(said[3], "refused with 206: a record of the journal is damaged: at byte 7");
    assert_eq!(said[6], "the disk");
    let numbers: Vec<Option<u64>> = every_error().iter().map(Error::number).collect();
    assert_eq!(numbers[..6], [8, 15, 8, 206, 206, 255].map(Some));
    assert_eq!(numbers[6..], [None; 3]);
    let kinds: Vec<_> = every_error().iter().map(|e| (e.refusal(), e.journal())).collect();
    assert_eq!((kinds[0], kinds[2]), ((Some(Refusal::Bin), None), (Some(Refusal::Bin), None)));
    assert_eq!((kinds[3], kinds[5], kinds[6]), ((None, Some(JournalRefusal::Damaged)), (None, None), (None, None)));
}

#[test]
fn errors_have_their_source() {
    let all = every_error();
    let of = |i: usize| all[i].source();
    assert_eq!(of(0).and_then(|e| e.downcast_ref()), Some(&Refusal::Bin));
    assert!(of(2).is_none() && of(3).is_none());
    let kinds = [6, 8].map(|i| of(i).and_then(|e| e.downcast_ref()).map(io::Error::kind));
    assert_eq!(kinds, [io::ErrorKind::Other, io::ErrorKind::NotFound].map(Some));
    // `?` takes what the library and the system refuse
    let mixed = |top, path| -> Result<u64, Error> { Ok(Mesh::icospheres(top)?.top() + std::fs::metadata(path)?.len()) };
    assert_eq!(mixed(0, "no/such/name"), Err(std::fs::metadata("no/such/name").unwrap_err().into()));
    assert_eq!(mixed(16, "."), Err(Error::Refused(Refusal::Level)));
    let boxed: Box<dyn std::error::Error + Send + Sync> = all[0].clone().into();
    assert_eq!(boxed.downcast_ref(), Some(&all[0]));
}
