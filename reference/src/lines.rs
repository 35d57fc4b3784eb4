//! The line language: one command a line, one answer a line.

use std::fmt;

use crate::aead::{self, DoesNotOpen};
use crate::chacha20::{self, Key, Nonce, TooLong};
use crate::change::{Change, Refused};
use crate::hex;
use crate::play::{ChipNumber, Outcome, Play, Stop, Unread, Verdict};
use crate::poly1305::{self, OneTimeKey, Tag};
use crate::records::{self, Decoded};
use crate::tree::Places;

/// A field of a command, under the name that a complaint gives it.
#[derive(Clone, Copy, Debug, PartialEq, Eq)]
pub enum Field {
    Key,
    Nonce,
    Marked,
    Content,
    Sealed,
    Counter,
    Once,
    Message,
    Places,
    Place,
    Bytes,
    Records,
}

impl fmt::Display for Field {
    fn fmt(&self, f: &mut fmt::Formatter) -> fmt::Result {
        f.write_str(match self {
            Field::Key => "KEY",
            Field::Nonce => "NONCE",
            Field::Marked => "MARKED",
            Field::Content => "CONTENT",
            Field::Sealed => "SEALED",
            Field::Counter => "COUNTER",
            Field::Once => "ONCE",
            Field::Message => "MESSAGE",
            Field::Places => "PLACES",
            Field::Place => "PLACE",
            Field::Bytes => "BYTES",
            Field::Records => "RECORDS",
        })
    }
}

/// Why a line is no command.
#[derive(Clone, Copy, Debug, PartialEq, Eq)]
enum Malformed {
    UnknownCommand,
    FieldCount { expected: usize },
    NotHex(Field),
    Length { field: Field, expected: usize },
    NotANumber(Field),
    NotPlaces(Field),
}

impl fmt::Display for Malformed {
    fn fmt(&self, f: &mut fmt::Formatter) -> fmt::Result {
        f.write_str("malformed: ")?;
        match self {
            Malformed::UnknownCommand => f.write_str("unknown command"),
            Malformed::FieldCount { expected } => write!(f, "expected {expected} fields"),
            Malformed::NotHex(field) => write!(f, "{field} is not hex"),
            Malformed::Length { field, expected } => write!(f, "{field} must be {expected} bytes"),
            Malformed::NotANumber(field) => {
                write!(f, "{field} must be a number up to {}", u32::MAX)
            }
            Malformed::NotPlaces(field) => write!(f, "{field} must be 2, 4 or 8"),
        }
    }
}

/// Why a command is not carried out.
#[derive(Clone, Copy, Debug, PartialEq, Eq)]
enum Refusal {
    DoesNotOpen,
    TooLong,
    NoTree,
    NoSuchPlaceOrContent,
    NothingThere,
}

impl fmt::Display for Refusal {
    fn fmt(&self, f: &mut fmt::Formatter) -> fmt::Result {
        f.write_str(match self {
            Refusal::DoesNotOpen => "refused 3: does not open",
            Refusal::TooLong => "refused: too long",
            Refusal::NoTree => "refused: no tree",
            Refusal::NoSuchPlaceOrContent => {
                "refused 1: no such place, or a content of 0 or more than 4096 bytes"
            }
            Refusal::NothingThere => "refused 2: nothing is there",
        })
    }
}

impl From<DoesNotOpen> for Refusal {
    fn from(DoesNotOpen: DoesNotOpen) -> Refusal {
        Refusal::DoesNotOpen
    }
}

impl From<TooLong> for Refusal {
    fn from(TooLong: TooLong) -> Refusal {
        Refusal::TooLong
    }
}

impl From<Refused> for Refusal {
    fn from(Refused: Refused) -> Refusal {
        Refusal::NoSuchPlaceOrContent
    }
}

impl From<Unread> for Refusal {
    fn from(unread: Unread) -> Refusal {
        match unread {
            Unread::NoSuchPlace => Refusal::NoSuchPlaceOrContent,
            Unread::NothingThere => Refusal::NothingThere,
        }
    }
}

/// A line that is well formed.
enum Command {
    Seal {
        key: Key,
        nonce: Nonce,
        marked: Vec<u8>,
        content: Vec<u8>,
    },
    Open {
        key: Key,
        nonce: Nonce,
        marked: Vec<u8>,
        sealed: Vec<u8>,
    },
    Block {
        key: Key,
        counter: u32,
        nonce: Nonce,
    },
    Stream {
        key: Key,
        counter: u32,
        nonce: Nonce,
        content: Vec<u8>,
    },
    Once {
        key: Key,
        nonce: Nonce,
    },
    Mark {
        once: OneTimeKey,
        message: Vec<u8>,
    },
    Tree {
        places: Places,
    },
    Put {
        place: u32,
        content: Vec<u8>,
    },
    Out {
        place: u32,
    },
    Bytes,
    Decode {
        places: Places,
        bytes: Vec<u8>,
    },
    Read {
        place: u32,
    },
    Look,
    Stop {
        stop: Stop,
    },
    Verdicts,
}

impl Command {
    /// Checks the command's word, then the number of fields, then each field from the left.
    fn parse(word: &[u8], rest: &[&[u8]]) -> Result<Command, Malformed> {
        match word {
            b"seal" => {
                let [key, nonce, marked, content] = fields(rest)?;
                Ok(Command::Seal {
                    key: Key(fixed(Field::Key, key)?),
                    nonce: Nonce(fixed(Field::Nonce, nonce)?),
                    marked: bytes(Field::Marked, marked)?,
                    content: bytes(Field::Content, content)?,
                })
            }
            b"open" => {
                let [key, nonce, marked, sealed] = fields(rest)?;
                Ok(Command::Open {
                    key: Key(fixed(Field::Key, key)?),
                    nonce: Nonce(fixed(Field::Nonce, nonce)?),
                    marked: bytes(Field::Marked, marked)?,
                    sealed: bytes(Field::Sealed, sealed)?,
                })
            }
            b"block" => {
                let [key, counter, nonce] = fields(rest)?;
                Ok(Command::Block {
                    key: Key(fixed(Field::Key, key)?),
                    counter: number(Field::Counter, counter)?,
                    nonce: Nonce(fixed(Field::Nonce, nonce)?),
                })
            }
            b"stream" => {
                let [key, counter, nonce, content] = fields(rest)?;
                Ok(Command::Stream {
                    key: Key(fixed(Field::Key, key)?),
                    counter: number(Field::Counter, counter)?,
                    nonce: Nonce(fixed(Field::Nonce, nonce)?),
                    content: bytes(Field::Content, content)?,
                })
            }
            b"once" => {
                let [key, nonce] = fields(rest)?;
                Ok(Command::Once {
                    key: Key(fixed(Field::Key, key)?),
                    nonce: Nonce(fixed(Field::Nonce, nonce)?),
                })
            }
            b"mark" => {
                let [once, message] = fields(rest)?;
                Ok(Command::Mark {
                    once: OneTimeKey(fixed(Field::Once, once)?),
                    message: bytes(Field::Message, message)?,
                })
            }
            b"tree" => {
                let [places] = fields(rest)?;
                Ok(Command::Tree {
                    places: count_of_places(Field::Places, places)?,
                })
            }
            b"put" => {
                let [place, content] = fields(rest)?;
                Ok(Command::Put {
                    place: number(Field::Place, place)?,
                    content: bytes(Field::Content, content)?,
                })
            }
            b"out" => {
                let [place] = fields(rest)?;
                Ok(Command::Out {
                    place: number(Field::Place, place)?,
                })
            }
            b"bytes" => {
                let [] = fields(rest)?;
                Ok(Command::Bytes)
            }
            b"decode" => {
                let [places, record] = fields(rest)?;
                Ok(Command::Decode {
                    places: count_of_places(Field::Places, places)?,
                    bytes: bytes(Field::Bytes, record)?,
                })
            }
            b"read" => {
                let [place] = fields(rest)?;
                Ok(Command::Read {
                    place: number(Field::Place, place)?,
                })
            }
            b"look" => {
                let [] = fields(rest)?;
                Ok(Command::Look)
            }
            b"stop" => {
                let [records] = fields(rest)?;
                let stop = match records {
                    b"chip" => Stop::AfterChip,
                    _ => Stop::AfterRecords(number(Field::Records, records)?),
                };
                Ok(Command::Stop { stop })
            }
            b"verdicts" => {
                let [] = fields(rest)?;
                Ok(Command::Verdicts)
            }
            _ => Err(Malformed::UnknownCommand),
        }
    }
}

/// The fields, if there are as many as the command has.
fn fields<'a, const N: usize>(words: &[&'a [u8]]) -> Result<[&'a [u8]; N], Malformed> {
    words
        .try_into()
        .map_err(|_| Malformed::FieldCount { expected: N })
}

/// A byte string of any length.
fn bytes(field: Field, word: &[u8]) -> Result<Vec<u8>, Malformed> {
    hex::decode(word).ok_or(Malformed::NotHex(field))
}

/// A byte string of one length.
fn fixed<const N: usize>(field: Field, word: &[u8]) -> Result<[u8; N], Malformed> {
    let bytes = bytes(field, word)?;
    bytes
        .try_into()
        .map_err(|_| Malformed::Length { field, expected: N })
}

/// Decimal digits, however many, that make a number of at most 32 bits.
fn number(field: Field, word: &[u8]) -> Result<u32, Malformed> {
    let mut number: u32 = 0;
    for letter in word {
        if !letter.is_ascii_digit() {
            return Err(Malformed::NotANumber(field));
        }
        number = number
            .checked_mul(10)
            .and_then(|tens| tens.checked_add(u32::from(letter - b'0')))
            .ok_or(Malformed::NotANumber(field))?;
    }
    Ok(number)
}

/// A number as above that is 2, 4 or 8.
fn count_of_places(field: Field, word: &[u8]) -> Result<Places, Malformed> {
    let count = number(field, word).ok();
    count
        .and_then(Places::from_count)
        .ok_or(Malformed::NotPlaces(field))
}

/// The words of a line without its line feed: what stands between spaces and tabs. A carriage return
/// at the line's end counts as one of those.
fn words(line: &[u8]) -> Vec<&[u8]> {
    let line = line.strip_suffix(b"\r").unwrap_or(line);
    let between = line.split(|byte| matches!(byte, b' ' | b'\t'));
    between.filter(|word| !word.is_empty()).collect()
}

/// What a command that was carried out has to say.
enum Answer {
    Done,
    Bytes(Vec<u8>),
    Changed(Change),
    Decoded(Decoded),
    Looked(ChipNumber),
    StopIsSet,
    Stopped(ChipNumber),
    Verdicts(Vec<Verdict>),
}

impl fmt::Display for Answer {
    fn fmt(&self, f: &mut fmt::Formatter) -> fmt::Result {
        match self {
            Answer::Done => f.write_str("ok"),
            Answer::Bytes(bytes) => f.write_str(&hex::encode(bytes)),
            Answer::Changed(change) => change.fmt(f),
            Answer::Decoded(decoded) => decoded.fmt(f),
            Answer::Looked(root) => write!(f, "looked: root {root}"),
            Answer::StopIsSet => f.write_str("stop at the next change"),
            Answer::Stopped(root) => write!(f, "stopped: root {root}"),
            Answer::Verdicts(verdicts) => f.write_str(&told(verdicts)),
        }
    }
}

/// The verdict on each put, counted from 1.
fn told(verdicts: &[Verdict]) -> String {
    if verdicts.is_empty() {
        return "no puts".to_string();
    }
    let one = |(put, verdict)| format!("put {put} {verdict}");
    let told: Vec<String> = (1..).zip(verdicts).map(one).collect();
    told.join("; ")
}

/// What lasts from line to line.
#[derive(Default)]
pub struct Session {
    /// The small store; none before the first `tree`.
    play: Option<Play>,
    /// The bytes of the last change's records; empty where there was no change since the last `tree`.
    last_change: Vec<u8>,
}

impl Session {
    /// The answer to a line without its line feed; none to a blank line or a comment.
    pub fn answer(&mut self, line: &[u8]) -> Option<String> {
        let words = words(line);
        let (first, rest) = words.split_first()?;
        if first.starts_with(b"#") {
            return None;
        }
        Some(match Command::parse(first, rest) {
            Ok(command) => match self.run(&command) {
                Ok(answer) => answer.to_string(),
                Err(refusal) => refusal.to_string(),
            },
            Err(malformed) => malformed.to_string(),
        })
    }

    /// Carries a command out.
    fn run(&mut self, command: &Command) -> Result<Answer, Refusal> {
        match command {
            Command::Seal {
                key,
                nonce,
                marked,
                content,
            } => Ok(Answer::Bytes(aead::seal(key, nonce, marked, content)?)),
            Command::Open {
                key,
                nonce,
                marked,
                sealed,
            } => Ok(Answer::Bytes(aead::open(key, nonce, marked, sealed)?)),
            Command::Block {
                key,
                counter,
                nonce,
            } => {
                let block = chacha20::block(key, *counter, nonce);
                Ok(Answer::Bytes(block.to_vec()))
            }
            Command::Stream {
                key,
                counter,
                nonce,
                content,
            } => {
                let encrypted = chacha20::encrypt(key, *counter, nonce, content)?;
                Ok(Answer::Bytes(encrypted))
            }
            Command::Once { key, nonce } => {
                let OneTimeKey(once) = aead::one_time_key(key, nonce);
                Ok(Answer::Bytes(once.to_vec()))
            }
            Command::Mark { once, message } => {
                let Tag(tag) = poly1305::tag(once, message);
                Ok(Answer::Bytes(tag.to_vec()))
            }
            Command::Tree { places } => Ok(self.begin_tree(*places)),
            Command::Put { place, content } => self.change(|play| play.put(*place, content)),
            Command::Out { place } => self.change(|play| play.take_out(*place)),
            Command::Bytes => Ok(Answer::Bytes(self.last_change.clone())),
            Command::Decode { places, bytes } => {
                Ok(Answer::Decoded(records::decode(*places, bytes)))
            }
            Command::Read { place } => {
                let content = self.play()?.read(*place)?;
                Ok(Answer::Bytes(content.to_vec()))
            }
            Command::Look => Ok(Answer::Looked(self.play()?.look())),
            Command::Stop { stop } => {
                self.play()?.stop_next(*stop);
                Ok(Answer::StopIsSet)
            }
            Command::Verdicts => Ok(Answer::Verdicts(self.play()?.verdicts())),
        }
    }

    /// The small store, if there is one.
    fn play(&mut self) -> Result<&mut Play, Refusal> {
        self.play.as_mut().ok_or(Refusal::NoTree)
    }

    fn begin_tree(&mut self, places: Places) -> Answer {
        self.play = Some(Play::new(places));
        self.last_change.clear();
        Answer::Done
    }

    /// Changes the store, if there is one. A change that is refused, or cut off before the chip got its
    /// new key, is none: the last one stays the last.
    fn change(
        &mut self,
        change: impl FnOnce(&mut Play) -> Result<Outcome, Refused>,
    ) -> Result<Answer, Refusal> {
        let play = self.play()?;
        let outcome = change(play)?;
        let root = play.chip_number();
        match outcome {
            Outcome::Done(change) => {
                self.last_change = change.encode();
                Ok(Answer::Changed(change))
            }
            Outcome::DoneAndStopped(change) => {
                self.last_change = change.encode();
                Ok(Answer::Stopped(root))
            }
            Outcome::Undone => Ok(Answer::Stopped(root)),
        }
    }
}

#[cfg(test)]
mod tests {
    use super::*;

    /// The answer to a line that nothing came before.
    fn answer(line: &[u8]) -> Option<String> {
        Session::default().answer(line)
    }

    fn assert_answer(line: &str, expected: &str) {
        assert_eq!(answer(line.as_bytes()).as_deref(), Some(expected));
    }

    /// The answers to lines that come one after another.
    fn assert_answers(lines: &[(&str, &str)]) {
        let mut session = Session::default();
        for (line, expected) in lines {
            let answer = session.answer(line.as_bytes());
            assert_eq!(answer.as_deref(), Some(*expected), "{line}");
        }
    }

    const KEY: &str = "0000000000000000000000000000000000000000000000000000000000000000";
    const NONCE: &str = "000000000000000000000000";
    /// The one-time key of appendix A.4, test vector 1.
    const ONCE: &str = "76b8e0ada0f13d90405d6ae55386bd28bdd219b8a08ded1aa836efcc8b770dc7";

    #[test]
    fn passed_over() {
        for line in ["", " ", "\t \t", "\r", "# once", "  #", "#"] {
            assert_eq!(answer(line.as_bytes()), None);
        }
    }

    #[test]
    fn blanks_between_words() {
        assert_answer(&format!("once {KEY} {NONCE}"), ONCE);
        assert_answer(&format!("\t once \t {KEY}  {NONCE} \t\r"), ONCE);
    }

    #[test]
    fn commands_and_numbers_of_fields() {
        assert_answer("SEAL", "malformed: unknown command");
        assert_answer("seal", "malformed: expected 4 fields");
        assert_answer("open - - - - -", "malformed: expected 4 fields");
        assert_answer("block -", "malformed: expected 3 fields");
        assert_answer("stream - - -", "malformed: expected 4 fields");
        assert_answer("once", "malformed: expected 2 fields");
        assert_answer("mark - - -", "malformed: expected 2 fields");
        assert_answer("tree", "malformed: expected 1 fields");
        assert_answer("put 0", "malformed: expected 2 fields");
        assert_answer("out 0 -", "malformed: expected 1 fields");
        assert_answer("bytes -", "malformed: expected 0 fields");
        assert_answer("decode 2", "malformed: expected 2 fields");
        assert_eq!(
            answer(b"\xff\xfe").as_deref(),
            Some("malformed: unknown command")
        );
    }

    #[test]
    fn the_first_bad_field() {
        assert_answer("once 0 zz", "malformed: KEY is not hex");
        assert_answer("once - zz", "malformed: KEY must be 32 bytes");
        assert_answer(&format!("once {KEY} zz"), "malformed: NONCE is not hex");
        assert_answer(
            &format!("once {KEY} 00"),
            "malformed: NONCE must be 12 bytes",
        );
        assert_answer(
            &format!("mark {NONCE} z"),
            "malformed: ONCE must be 32 bytes",
        );
        assert_answer(&format!("mark {KEY} z"), "malformed: MESSAGE is not hex");
        assert_answer(
            &format!("seal {KEY} {NONCE} 0 0"),
            "malformed: MARKED is not hex",
        );
        assert_answer(
            &format!("seal {KEY} {NONCE} 00 0"),
            "malformed: CONTENT is not hex",
        );
        assert_answer(
            &format!("open {KEY} {NONCE} 00 0"),
            "malformed: SEALED is not hex",
        );
    }

    #[test]
    fn counters() {
        for bad in [
            "4294967296",
            "-",
            "-1",
            "+1",
            "1.0",
            "0x1",
            "99999999999999999999999",
        ] {
            assert_answer(
                &format!("block {KEY} {bad} 0"),
                "malformed: COUNTER must be a number up to 4294967295",
            );
        }
        assert_answer(&format!("stream {KEY} 4294967295 {NONCE} -"), "-");
        assert_answer(&format!("stream {KEY} 00000000000000000007 {NONCE} -"), "-");
    }

    #[test]
    fn refusals() {
        let two_blocks = "00".repeat(65);
        assert_answer(
            &format!("stream {KEY} 4294967295 {NONCE} {two_blocks}"),
            "refused: too long",
        );
        assert_answer(
            &format!("open {KEY} {NONCE} - -"),
            "refused 3: does not open",
        );
        let wrong = "00".repeat(16);
        assert_answer(
            &format!("open {KEY} {NONCE} - {wrong}"),
            "refused 3: does not open",
        );
    }

    #[test]
    fn numbers_of_places() {
        for good in ["2", "4", "8", "02", "0000000000000000000000008"] {
            assert_answer(&format!("tree {good}"), "ok");
            assert_answer(&format!("decode {good} -"), "ends too early");
        }
        for bad in [
            "0",
            "1",
            "3",
            "16",
            "22",
            "4294967296",
            "4294967298",
            "-",
            "+2",
            "2.0",
            "two",
        ] {
            for line in [format!("tree {bad}"), format!("decode {bad} zz")] {
                assert_answer(&line, "malformed: PLACES must be 2, 4 or 8");
            }
        }
        assert_answer("decode 2 0", "malformed: BYTES is not hex");
    }

    #[test]
    fn numbers_of_a_place() {
        for bad in ["4294967296", "-", "-1", "+1", "0x1", "zz"] {
            for line in [format!("put {bad} zz"), format!("out {bad}")] {
                assert_answer(&line, "malformed: PLACE must be a number up to 4294967295");
            }
        }
        assert_answer("put 4294967295 0", "malformed: CONTENT is not hex");
        assert_answer("put 4294967295 -", "refused: no tree");
        assert_answer("out 0004294967295", "refused: no tree");
    }

    #[test]
    fn changes_from_line_to_line() {
        assert_answers(&[
            ("bytes", "-"),
            ("put 0 78", "refused: no tree"),
            ("tree 4", "ok"),
            ("bytes", "-"),
            (
                "put 0 78",
                "content of node 4 under key 1: 78; key 1 of node 4 under key 2; \
                 key 2 of node 2 under key 3; root 3",
            ),
            (
                "put 1 79",
                "content of node 5 under key 4: 79; key 4 of node 5 under key 5; \
                 key 1 of node 4 under key 5; key 5 of node 2 under key 6; root 6",
            ),
            (
                "out 0",
                "node 4 taken out, next key 7; key 4 of node 5 under key 7; \
                 key 7 of node 2 under key 8; root 8",
            ),
            ("tree 3", "malformed: PLACES must be 2, 4 or 8"),
            (
                "out 0",
                "node 4 taken out, next key 9; key 4 of node 5 under key 9; \
                 key 9 of node 2 under key 10; root 10",
            ),
            ("tree 2", "ok"),
            ("out 1", "node 3 taken out, next key 1; root 1"),
        ]);
    }

    #[test]
    fn bytes_are_those_of_the_last_change() {
        const REFUSED: &str = "refused 1: no such place, or a content of 0 or more than 4096 bytes";
        let too_long = format!("put 0 {}", "00".repeat(4097));
        assert_answers(&[
            ("tree 2", "ok"),
            ("put 2 78", REFUSED),
            ("bytes", "-"),
            ("out 0", "node 2 taken out, next key 1; root 1"),
            ("bytes", "450000000200000001"),
            ("bytes", "450000000200000001"),
            ("put 0 -", REFUSED),
            (&too_long, REFUSED),
            ("out 2", REFUSED),
            ("decode 2 45", "ends too early"),
            ("bytes 0", "malformed: expected 0 fields"),
            ("bytes", "450000000200000001"),
            ("tree 2", "ok"),
            ("bytes", "-"),
        ]);
    }

    #[test]
    fn decoded_records() {
        assert_answer(
            "decode 4 430000000400000001000178000102030405060708090a0b0c0d0e0fff",
            "content of node 4 under key 1: 78; rest 1",
        );
        assert_answer(
            "decode 4 450000000700000009",
            "node 7 taken out, next key 9; rest 0",
        );
        assert_answer("decode 2 450000000700000009", "another form");
        assert_answer("decode 4 4500000007000000", "ends too early");
        assert_answer("decode 4 00", "another form");
    }

    /// The table of plays, whose answers were written by hand.
    #[test]
    fn plays() {
        let lines = include_str!("../../tests/plays.lines");
        let expected = include_str!("../../tests/plays.expected");
        let mut session = Session::default();
        let mut expected = expected.lines();
        for line in lines.lines() {
            if let Some(answer) = session.answer(line.as_bytes()) {
                assert_eq!(Some(answer.as_str()), expected.next(), "{line}");
            }
        }
        assert_eq!(expected.next(), None);
    }
}
