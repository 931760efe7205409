//! Tests messages of a program's own, which are written and read again.

use crate::common::engines::new_engine;
use raft_recover::{ErrorKind, LogBatch, Message};
use std::error::Error as _;
use std::num::ParseIntError;

/// A number that is encoded in digits; some numbers can't be encoded.
#[derive(Clone, Copy, PartialEq, Eq, Debug)]
struct Number(u64);

/// A number that can't be encoded.
const REFUSED: Number = Number(13);

impl Message for Number {
    type Error = Box<dyn std::error::Error + Send + Sync>;

    /// Adds the digits to `bytes`. Errs, with them added, for the number that can't be encoded.
    fn encode(&self, bytes: &mut Vec<u8>) -> Result<(), Self::Error> {
        bytes.extend(self.0.to_string().bytes());
        match *self {
            REFUSED => Err("it is unlucky".into()),
            _ => Ok(()),
        }
    }

    /// Reads a number from its digits. Errs where they are none.
    fn decode(bytes: &[u8]) -> Result<Number, Self::Error> {
        Ok(Number(str::from_utf8(bytes)?.parse()?))
    }
}

/// A message whose encoding takes away the bytes before it.
struct Greedy;

impl Message for Greedy {
    type Error = &'static str;

    /// Takes all bytes away.
    fn encode(&self, bytes: &mut Vec<u8>) -> Result<(), Self::Error> {
        bytes.clear();
        Ok(())
    }

    /// Returns the message whatever the bytes are.
    fn decode(_: &[u8]) -> Result<Greedy, Self::Error> {
        Ok(Greedy)
    }
}

#[test]
fn messages_are_written_and_read_as_entries_and_values() {
    let engine = new_engine();
    let mut batch = LogBatch::new().unwrap();
    let numbers = [1, 22, 333].map(Number);
    batch.add_messages(7, 10, &numbers).unwrap();
    batch.add_messages(8, 1, &[Number(4)]).unwrap();
    batch.add_messages::<Number>(9, 1, &[]).unwrap();
    batch.put_message(7, b"a", &Number(5)).unwrap();
    batch.put_message(7, b"b", &Number(66)).unwrap();
    assert_eq!(batch.len(), 4);
    engine.write(&mut batch, true).unwrap();
    assert_eq!(engine.entry(7, 11).unwrap().unwrap(), b"22");
    assert_eq!(engine.entries_of::<Number>(7, ..).unwrap(), numbers);
    assert_eq!(
        engine.entries_of::<Number>(7, 11..12).unwrap(),
        [Number(22)]
    );
    assert_eq!(engine.entries_of::<Number>(9, ..).unwrap(), []);
    let bytes = |count| engine.entries(7, ..).unwrap().take(count).flatten().count() as u64;
    for (max_size, count) in [
        (0, 1),
        (bytes(1), 1),
        (bytes(2) - 1, 1),
        (bytes(2), 2),
        (u64::MAX, numbers.len()),
    ] {
        let some = engine.entries_of_up_to::<Number>(7, .., max_size).unwrap();
        assert_eq!(some, numbers[..count], "{max_size}");
    }
    assert_eq!(engine.entry_of(8, 1).unwrap(), Some(Number(4)));
    assert_eq!(engine.entry_of::<Number>(8, 2).unwrap(), None);
    assert_eq!(engine.get_message(7, b"b").unwrap(), Some(Number(66)));
    assert_eq!(engine.get_message::<Number>(7, b"c").unwrap(), None);
    let all = engine.scan_messages(7, ..).unwrap();
    assert_eq!(
        all,
        [(b"a".to_vec(), Number(5)), (b"b".to_vec(), Number(66))]
    );
    let some = engine.scan_messages::<Number>(7, &b"b"[..]..).unwrap();
    assert_eq!(some, all[1..]);
    let e = engine.entries_of::<Number>(7, 9..).unwrap_err();
    assert_eq!(e.kind, ErrorKind::EntryCompacted);
}

#[test]
fn byte_strings_and_strings_are_messages() {
    let engine = new_engine();
    let mut batch = LogBatch::new().unwrap();
    let words = ["one", "", "zwölf"].map(str::to_owned);
    batch.add_messages(7, 1, &words).unwrap();
    batch.add_messages(8, 1, &[vec![0xff, 0], vec![]]).unwrap();
    engine.write(&mut batch, false).unwrap();
    assert_eq!(engine.entries_of::<String>(7, ..).unwrap(), words);
    let bytes = engine.entries_of::<Vec<u8>>(8, ..).unwrap();
    assert_eq!(bytes, [vec![0xff, 0], vec![]]);
}

#[test]
fn a_message_that_cant_be_encoded_is_named_and_adds_nothing() {
    let engine = new_engine();
    let mut batch = LogBatch::new().unwrap();
    batch.add_messages(7, 1, &[Number(1)]).unwrap();
    let before = (batch.len(), batch.approximate_size());
    let refused = [
        batch.add_messages(7, 2, &[Number(2), REFUSED, Number(3)]),
        batch.put_message(7, b"\x01", &REFUSED),
        batch.add_messages(7, 2, &[Greedy, Greedy]),
    ];
    let [entry, value, greedy] = refused.map(Result::err);
    assert_eq!(greedy, None); // there was nothing to take away
    assert_eq!(batch.len(), 2);
    for (e, index, text) in [
        (
            entry,
            Some(3),
            "Message Error: region 7, entry 3: it is unlucky",
        ),
        (
            value,
            None,
            r"Message Error: region 7, key \x01: it is unlucky",
        ),
    ] {
        let e = e.unwrap();
        assert_eq!((e.region, e.index, e.io_kind()), (Some(7), index, None));
        assert_eq!((e.kind, &e.text[..]), (ErrorKind::Message, text));
        assert_eq!(e.source().unwrap().to_string(), "it is unlucky");
    }

    batch.clear().unwrap();
    batch.add_messages(7, 1, &[Number(1)]).unwrap();
    assert_eq!((batch.len(), batch.approximate_size()), before);
    let e = batch.add_messages(7, u64::MAX, &[Number(1)]).unwrap_err();
    assert_eq!(e.kind, ErrorKind::InvalidArgument);
    engine.write(&mut batch, false).unwrap();
    assert_eq!(engine.entries_of::<Number>(7, ..).unwrap(), [Number(1)]);
}

/// Messages of which one takes away the bytes before it.
enum Mixed {
    Bytes,
    Greedy,
}

impl Message for Mixed {
    type Error = &'static str;

    /// Adds a word to `bytes`, or takes their last two away.
    fn encode(&self, bytes: &mut Vec<u8>) -> Result<(), Self::Error> {
        match self {
            Mixed::Bytes => bytes.extend(b"bytes"),
            Mixed::Greedy => bytes.truncate(bytes.len().saturating_sub(2)),
        }
        Ok(())
    }

    /// Errs, as it is never called.
    fn decode(_: &[u8]) -> Result<Mixed, Self::Error> {
        Err("it is never read")
    }
}

#[test]
fn a_message_that_takes_away_what_stands_before_it_is_refused() {
    let mut batch = LogBatch::new().unwrap();
    let messages = [Mixed::Bytes, Mixed::Greedy, Mixed::Bytes];
    let e = batch.add_messages(7, 1, &messages).unwrap_err();
    assert_eq!(e.kind, ErrorKind::Message);
    assert!(
        e.text.starts_with("Message Error: region 7, entry 2: "),
        "{e}"
    );
    assert!(batch.is_empty());
    batch.add_messages(7, 1, &messages[..1]).unwrap();
    assert_eq!(batch.len(), 1);
}

#[test]
fn an_entry_or_value_that_is_no_message_is_refused_by_name() {
    let engine = new_engine();
    let mut batch = LogBatch::new().unwrap();
    batch.add_entries(7, 1, &["1", "two"]).unwrap();
    batch.put(7, b"key", b"three").unwrap();
    engine.write(&mut batch, false).unwrap();
    let entry = "Message Error: region 7, entry 2: invalid digit found in string";
    let key = "Message Error: region 7, key key: invalid digit found in string";
    for (e, text) in [
        (engine.entry_of::<Number>(7, 2).unwrap_err(), entry),
        (engine.entries_of::<Number>(7, ..).unwrap_err(), entry),
        (engine.get_message::<Number>(7, b"key").unwrap_err(), key),
        (engine.scan_messages::<Number>(7, ..).unwrap_err(), key),
    ] {
        let index = (text == entry).then_some(2);
        assert_eq!((e.region, e.index), (Some(7), index));
        assert_eq!((e.kind, &e.text[..]), (ErrorKind::Message, text));
        assert!(e.source().unwrap().is::<ParseIntError>());
    }
    assert_eq!(engine.entry_of(7, 1).unwrap(), Some(Number(1)));
}
