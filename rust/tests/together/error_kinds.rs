//! Tests the kinds of errors by their numbers in the library.

use raft_recover::ErrorKind;

#[test]
fn each_number_has_its_kind() {
    let kinds = [
        ErrorKind::InvalidArgument,
        ErrorKind::Corruption,
        ErrorKind::Io,
        ErrorKind::Codec,
        ErrorKind::Message,
        ErrorKind::TryAgain,
        ErrorKind::EntryCompacted,
        ErrorKind::EntryNotFound,
        ErrorKind::Full,
        ErrorKind::Other,
        ErrorKind::Memory,
        ErrorKind::Failed,
    ];
    for (number, kind) in (1..).zip(kinds) {
        assert_eq!(ErrorKind::try_from(number), Ok(kind), "{number}");
    }
}
