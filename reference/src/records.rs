//! The records of changes: their bytes, their readable form, and how they are decoded. Numbers stand
//! with the high byte first.

use std::fmt;

use crate::hex;
use crate::transparent::{MARK_LEN, Sealed};
use crate::tree::{KeyNumber, Node, Places};

/// The longest content of a place.
pub const LONGEST_CONTENT: usize = 4096;
/// The bytes of a key.
const KEY_LEN: usize = 32;

/// The first bytes of the three records.
pub const CONTENT: u8 = 67;
pub const KEY: u8 = 75;
pub const TAKEN_OUT: u8 = 69;

/// What a change writes down.
#[derive(Clone, Debug, PartialEq, Eq)]
pub enum Record {
    /// The content of a place, sealed under the key of its node.
    Content {
        node: Node,
        key: KeyNumber,
        sealed: Sealed,
    },
    /// The key of a node, sealed under the key of the node that it hangs on.
    Key {
        node: Node,
        key: KeyNumber,
        under: KeyNumber,
        sealed: Sealed,
    },
    /// That a place was taken out, and the number that the next key will have.
    TakenOut { node: Node, next: KeyNumber },
}

impl Record {
    pub fn encode(&self) -> Vec<u8> {
        match self {
            Record::Content { node, key, sealed } => {
                let len = u16::try_from(sealed.text.len()).expect("at most 4096 bytes");
                let mut bytes = head(CONTENT, &[node.0, key.0]);
                bytes.extend(len.to_be_bytes());
                bytes.extend(sealed.encode());
                bytes
            }
            Record::Key {
                node,
                key,
                under,
                sealed,
            } => {
                let mut bytes = head(KEY, &[node.0, key.0, under.0]);
                bytes.extend(sealed.encode());
                bytes
            }
            Record::TakenOut { node, next } => head(TAKEN_OUT, &[node.0, next.0]),
        }
    }
}

/// A first byte and numbers of 4 bytes each.
pub fn head(first: u8, numbers: &[u32]) -> Vec<u8> {
    let mut bytes = vec![first];
    for number in numbers {
        bytes.extend(number.to_be_bytes());
    }
    bytes
}

impl fmt::Display for Record {
    fn fmt(&self, f: &mut fmt::Formatter) -> fmt::Result {
        match self {
            Record::Content { node, key, sealed } => {
                let text = hex::encode(&sealed.text);
                write!(f, "content of node {node} under key {key}: {text}")
            }
            Record::Key {
                node, key, under, ..
            } => write!(f, "key {key} of node {node} under key {under}"),
            Record::TakenOut { node, next } => write!(f, "node {node} taken out, next key {next}"),
        }
    }
}

/// What stands at the front of some bytes.
#[derive(Clone, Debug, PartialEq, Eq)]
pub enum Decoded {
    /// A record, and so many bytes after it.
    Record {
        record: Record,
        rest: usize,
    },
    EndsTooEarly,
    AnotherForm,
}

impl fmt::Display for Decoded {
    fn fmt(&self, f: &mut fmt::Formatter) -> fmt::Result {
        match self {
            Decoded::Record { record, rest } => write!(f, "{record}; rest {rest}"),
            Decoded::EndsTooEarly => f.write_str("ends too early"),
            Decoded::AnotherForm => f.write_str("another form"),
        }
    }
}

/// Decodes the record at the front of the bytes, for a tree with so many places.
pub fn decode(places: Places, bytes: &[u8]) -> Decoded {
    let mut reader = Reader { rest: bytes };
    match read_record(places, &mut reader) {
        Ok(Some(record)) => Decoded::Record {
            record,
            rest: reader.rest.len(),
        },
        Ok(None) => Decoded::AnotherForm,
        Err(EndsTooEarly) => Decoded::EndsTooEarly,
    }
}

/// There are fewer bytes than were to be read.
struct EndsTooEarly;

/// A record, or none where the bytes have another form.
type Read = Result<Option<Record>, EndsTooEarly>;

/// By the first byte.
fn read_record(places: Places, reader: &mut Reader) -> Read {
    let [first] = reader.array()?;
    match first {
        CONTENT => read_content(places, reader),
        KEY => read_key(places, reader),
        TAKEN_OUT => read_taken_out(places, reader),
        _ => Ok(None),
    }
}

/// The fields before the sealed content are checked before its bytes are looked for.
fn read_content(places: Places, reader: &mut Reader) -> Read {
    let node = Node(reader.number()?);
    let key = KeyNumber(reader.number()?);
    let len = usize::from(u16::from_be_bytes(reader.array()?));
    let right = places.is_place(node)
        && (KeyNumber::FIRST..=KeyNumber::LAST).contains(&key)
        && (1..=LONGEST_CONTENT).contains(&len);
    if !right {
        return Ok(None);
    }
    let sealed = reader.sealed(len)?;
    Ok(Some(Record::Content { node, key, sealed }))
}

/// All of the bytes have to be there before the fields are checked.
fn read_key(places: Places, reader: &mut Reader) -> Read {
    let node = Node(reader.number()?);
    let key = KeyNumber(reader.number()?);
    let under = KeyNumber(reader.number()?);
    let sealed = reader.sealed(KEY_LEN)?;
    let right =
        places.hangs(node) && KeyNumber::FIRST <= key && key < under && under <= KeyNumber::LAST;
    Ok(right.then_some(Record::Key {
        node,
        key,
        under,
        sealed,
    }))
}

/// All of the bytes have to be there before the fields are checked.
fn read_taken_out(places: Places, reader: &mut Reader) -> Read {
    let node = Node(reader.number()?);
    let next = KeyNumber(reader.number()?);
    let right = places.is_place(node) && (KeyNumber::FIRST..=KeyNumber::LAST).contains(&next);
    Ok(right.then_some(Record::TakenOut { node, next }))
}

/// The bytes that are still to be read.
struct Reader<'a> {
    rest: &'a [u8],
}

impl<'a> Reader<'a> {
    fn bytes(&mut self, len: usize) -> Result<&'a [u8], EndsTooEarly> {
        let (bytes, rest) = self.rest.split_at_checked(len).ok_or(EndsTooEarly)?;
        self.rest = rest;
        Ok(bytes)
    }

    fn array<const N: usize>(&mut self) -> Result<[u8; N], EndsTooEarly> {
        let bytes = self.bytes(N)?;
        Ok(std::array::from_fn(|i| bytes[i]))
    }

    fn number(&mut self) -> Result<u32, EndsTooEarly> {
        Ok(u32::from_be_bytes(self.array()?))
    }

    /// A sealed text of so many bytes and its mark. The mark is not checked: that is for opening.
    fn sealed(&mut self, len: usize) -> Result<Sealed, EndsTooEarly> {
        Ok(Sealed {
            text: self.bytes(len)?.to_vec(),
            mark: self.array::<MARK_LEN>()?,
        })
    }
}

#[cfg(test)]
mod tests {
    use super::*;
    use crate::transparent;
    use crate::tree::KeyValue;

    const LAST: u32 = 4294967294;

    fn content(node: u32, key: u32, text: &[u8]) -> Record {
        Record::Content {
            node: Node(node),
            key: KeyNumber(key),
            sealed: transparent::seal(text, KeyValue(u64::from(key))),
        }
    }

    fn key(node: u32, key: u32, under: u32) -> Record {
        let text = transparent::key(KeyValue(u64::from(key))).0;
        Record::Key {
            node: Node(node),
            key: KeyNumber(key),
            under: KeyNumber(under),
            sealed: transparent::seal(&text, KeyValue(u64::from(under))),
        }
    }

    fn taken_out(node: u32, next: u32) -> Record {
        Record::TakenOut {
            node: Node(node),
            next: KeyNumber(next),
        }
    }

    /// The record is decoded, with every rest; cut off it ends too early.
    fn assert_record(places: Places, record: &Record) {
        let mut bytes = record.encode();
        for len in 0..bytes.len() {
            assert_eq!(decode(places, &bytes[..len]), Decoded::EndsTooEarly);
        }
        for rest in 0..4 {
            let expected = Decoded::Record {
                record: record.clone(),
                rest,
            };
            assert_eq!(decode(places, &bytes), expected);
            bytes.push(0);
        }
    }

    /// The record is another form; with fewer than `needed` bytes it ends too early.
    fn assert_another_form(places: Places, record: &Record, needed: usize) {
        let bytes = record.encode();
        for len in 0..needed {
            assert_eq!(decode(places, &bytes[..len]), Decoded::EndsTooEarly);
        }
        for len in needed..=bytes.len() {
            assert_eq!(decode(places, &bytes[..len]), Decoded::AnotherForm);
        }
    }

    #[test]
    fn bytes_and_readable_forms() {
        let record = content(0x0e0f, 0x0102, b"xy");
        assert_eq!(
            hex::encode(&record.encode()),
            "43 00000e0f 00000102 0002 7879 00000000000000000000000000000102".replace(' ', "")
        );
        assert_eq!(
            record.to_string(),
            "content of node 3599 under key 258: 7879"
        );
        let record = key(5, 0x0304, 0x0506);
        assert_eq!(
            hex::encode(&record.encode()),
            "4b 00000005 00000304 00000506 00000000000000000000000000000304 \
             00000000000000000000000000000000 00000000000000000000000000000506"
                .replace(' ', "")
        );
        assert_eq!(record.to_string(), "key 772 of node 5 under key 1286");
        let record = taken_out(4, 0x07080910);
        assert_eq!(hex::encode(&record.encode()), "450000000407080910");
        assert_eq!(record.to_string(), "node 4 taken out, next key 117967120");
    }

    #[test]
    fn keys() {
        for places in Places::ALL {
            let end = 2 * places.count();
            for node in 2..end {
                assert_record(places, &key(node, 1, 2));
            }
            for node in [0, 1, end, end + 1, u32::MAX] {
                assert_another_form(places, &key(node, 1, 2), 61);
            }
            for (number, under) in [(1, 2), (1, LAST), (LAST - 1, LAST)] {
                assert_record(places, &key(2, number, under));
            }
            for (number, under) in [
                (0, 0),
                (0, 1),
                (1, 0),
                (1, 1),
                (2, 1),
                (1, u32::MAX),
                (LAST, LAST),
                (LAST, u32::MAX),
            ] {
                assert_another_form(places, &key(2, number, under), 61);
            }
        }
    }

    #[test]
    fn contents() {
        for places in Places::ALL {
            let (first, end) = (places.count(), 2 * places.count());
            for node in [first, end - 1] {
                assert_record(places, &content(node, 1, b"x"));
            }
            for node in [0, 1, first - 1, end, u32::MAX] {
                assert_another_form(places, &content(node, 1, b"x"), 11);
            }
            assert_record(places, &content(first, LAST, b"xyz"));
            for number in [0, u32::MAX] {
                assert_another_form(places, &content(first, number, b"x"), 11);
            }
            assert_record(places, &content(first, 1, &[7; 4096]));
            assert_another_form(places, &content(first, 1, &[]), 11);
            assert_another_form(places, &content(first, 1, &[7; 4097]), 11);
        }
    }

    #[test]
    fn takings_out() {
        for places in Places::ALL {
            let (first, end) = (places.count(), 2 * places.count());
            for node in [first, end - 1] {
                assert_record(places, &taken_out(node, 1));
            }
            assert_record(places, &taken_out(first, LAST));
            for node in [0, 1, first - 1, end, u32::MAX] {
                assert_another_form(places, &taken_out(node, 1), 9);
            }
            for next in [0, u32::MAX] {
                assert_another_form(places, &taken_out(first, next), 9);
            }
        }
    }

    #[test]
    fn other_first_bytes() {
        for first in 0..=u8::MAX {
            let expected = match first {
                67 | 69 | 75 => Decoded::EndsTooEarly,
                _ => Decoded::AnotherForm,
            };
            assert_eq!(decode(Places::Four, &[first]), expected);
        }
    }
}
