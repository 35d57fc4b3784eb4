//! Lines to answer: the same for the same seed, mostly seals and opens, with the lengths and values at
//! which an implementation is likely to go wrong.

use crate::aead;
use crate::chacha20::{BLOCK_LEN, Key, Nonce};
use crate::hex;
use crate::lines::Field;
use crate::poly1305::TAG_LEN;
use crate::random::Random;
use crate::spelling::{self, BAD_NUMBERS, next_number};

/// The longest content.
const LONGEST: usize = 4200;
/// The longest marked bytes; `mark` lines have messages of every length up to this one.
const LONGEST_MARKED: usize = 80;

/// What a line is.
#[derive(Clone, Copy, Debug, PartialEq, Eq)]
enum Kind {
    Seal,
    Open,
    Block,
    Stream,
    Once,
    Mark,
    Malformed,
    PassedOver,
}

impl Kind {
    /// The kind of a line by its place: of each hundred lines so many of each kind, well mixed.
    fn of_line(index: usize) -> Kind {
        match (index * 37) % 100 {
            0..40 => Kind::Seal,
            40..80 => Kind::Open,
            80..84 => Kind::Block,
            84..90 => Kind::Stream,
            90..92 => Kind::Once,
            92..98 => Kind::Mark,
            98 => Kind::Malformed,
            _ => Kind::PassedOver,
        }
    }
}

/// How an `open` line is made wrong.
#[derive(Clone, Copy, Debug, PartialEq, Eq)]
enum Spoil {
    MarkBit,
    ContentBit,
    KeyBit,
    NonceBit,
    MarkedBit,
    MarkedLonger,
    CutLastByte,
    TooShort,
}

impl Spoil {
    const ALL: [Spoil; 8] = [
        Spoil::MarkBit,
        Spoil::ContentBit,
        Spoil::KeyBit,
        Spoil::NonceBit,
        Spoil::MarkedBit,
        Spoil::MarkedLonger,
        Spoil::CutLastByte,
        Spoil::TooShort,
    ];
}

/// The parts of an `open` line.
struct Sealed {
    key: Key,
    nonce: Nonce,
    marked: Vec<u8>,
    sealed: Vec<u8>,
}

impl Sealed {
    /// Makes the line wrong. Where there is no content or are no marked bytes to change a bit of, the
    /// mark is changed or a byte is added instead.
    fn spoil(&mut self, spoil: Spoil, random: &mut Random) {
        let content_len = self.sealed.len() - TAG_LEN;
        match spoil {
            Spoil::ContentBit if content_len > 0 => {
                random.flip_bit(&mut self.sealed[..content_len])
            }
            Spoil::MarkBit | Spoil::ContentBit => random.flip_bit(&mut self.sealed[content_len..]),
            Spoil::KeyBit => random.flip_bit(&mut self.key.0),
            Spoil::NonceBit => random.flip_bit(&mut self.nonce.0),
            Spoil::MarkedBit if !self.marked.is_empty() => random.flip_bit(&mut self.marked),
            // Half of the time the byte is zero, as the filling of the marked bytes is.
            Spoil::MarkedBit | Spoil::MarkedLonger if random.once_in(2) => self.marked.push(0),
            Spoil::MarkedBit | Spoil::MarkedLonger => self.marked.push(random.byte()),
            Spoil::CutLastByte => self.sealed.truncate(self.sealed.len() - 1),
            Spoil::TooShort => self.sealed.truncate(random.below(TAG_LEN)),
        }
    }

    fn words(&self) -> Vec<String> {
        vec![
            "open".to_string(),
            hex::encode(&self.key.0),
            hex::encode(&self.nonce.0),
            hex::encode(&self.marked),
            hex::encode(&self.sealed),
        ]
    }
}

/// A command's word and its fields.
struct Shape {
    command: &'static str,
    fields: &'static [Field],
}

const SHAPES: [Shape; 6] = [
    Shape {
        command: "seal",
        fields: &[Field::Key, Field::Nonce, Field::Marked, Field::Content],
    },
    Shape {
        command: "open",
        fields: &[Field::Key, Field::Nonce, Field::Marked, Field::Sealed],
    },
    Shape {
        command: "block",
        fields: &[Field::Key, Field::Counter, Field::Nonce],
    },
    Shape {
        command: "stream",
        fields: &[Field::Key, Field::Counter, Field::Nonce, Field::Content],
    },
    Shape {
        command: "once",
        fields: &[Field::Key, Field::Nonce],
    },
    Shape {
        command: "mark",
        fields: &[Field::Once, Field::Message],
    },
];

/// The length that a field must have.
fn fixed_length(field: Field) -> Option<usize> {
    match field {
        Field::Key | Field::Once => Some(32),
        Field::Nonce => Some(12),
        Field::Marked | Field::Content | Field::Sealed | Field::Message | Field::Bytes => None,
        Field::Counter | Field::Places | Field::Place | Field::Records => None,
    }
}

/// First words that are no command; the last two are not UTF-8.
const UNKNOWN: [&[u8]; 12] = [
    b"SEAL",
    b"Open",
    b"sea",
    b"seals",
    b"opened",
    b"-",
    b"0",
    b"seal,",
    b"once#",
    b"marking",
    b"\xff\xfe",
    b"seal\xc3",
];

/// What is wrong with a malformed line.
#[derive(Clone, Copy, Debug, PartialEq, Eq)]
enum Fault {
    UnknownCommand,
    SeveralFields,
    FieldMissing {
        shape: usize,
    },
    NoFields {
        shape: usize,
    },
    FieldTooMany {
        shape: usize,
    },
    NotHexDigit {
        shape: usize,
        field: usize,
    },
    OddLength {
        shape: usize,
        field: usize,
    },
    Empty {
        shape: usize,
        field: usize,
    },
    Shorter {
        shape: usize,
        field: usize,
    },
    Longer {
        shape: usize,
        field: usize,
    },
    BadCounter {
        shape: usize,
        field: usize,
        counter: usize,
    },
}

impl Fault {
    /// Every kind of fault, at every field where it can be; with one line in a hundred malformed, ten
    /// thousand lines have them all.
    fn all() -> Vec<Fault> {
        let mut faults = vec![Fault::UnknownCommand; 4];
        faults.push(Fault::SeveralFields);
        for (shape, Shape { fields, .. }) in SHAPES.iter().enumerate() {
            faults.push(Fault::FieldMissing { shape });
            faults.push(Fault::NoFields { shape });
            faults.push(Fault::FieldTooMany { shape });
            for (field, name) in fields.iter().enumerate() {
                faults.extend(Fault::of_field(shape, field, *name));
            }
        }
        faults
    }

    fn of_field(shape: usize, field: usize, name: Field) -> Vec<Fault> {
        if name == Field::Counter {
            // `block` and `stream` stand beside each other, and share the counters between them.
            let counters = (shape % 2..BAD_NUMBERS.len()).step_by(2);
            return counters
                .map(|counter| Fault::BadCounter {
                    shape,
                    field,
                    counter,
                })
                .collect();
        }
        let mut faults = vec![
            Fault::NotHexDigit { shape, field },
            Fault::OddLength { shape, field },
        ];
        if fixed_length(name).is_some() {
            faults.push(Fault::Empty { shape, field });
            faults.push(Fault::Shorter { shape, field });
            faults.push(Fault::Longer { shape, field });
        }
        faults
    }
}

/// How often each kind of line has been made.
#[derive(Default)]
struct Made {
    seals: usize,
    opens: usize,
    streams: usize,
    marks: usize,
    malformed: usize,
    passed_over: usize,
}

/// The lines, without their line feeds.
pub struct Generator {
    random: Random,
    lines: usize,
    made: Made,
    edges: Vec<usize>,
    faults: Vec<Fault>,
}

impl Generator {
    pub fn new(seed: u64) -> Generator {
        Generator {
            random: Random::new(seed),
            lines: 0,
            made: Made::default(),
            edges: edge_lengths(),
            faults: Fault::all(),
        }
    }

    /// Every fourth line has a length at an edge.
    fn seal_line(&mut self) -> Vec<u8> {
        let number = next_number(&mut self.made.seals);
        let len = match number % 4 {
            0 => self.edge(number / 4),
            _ => self.length(),
        };
        let key = key_like::<32>(&mut self.random);
        let nonce = key_like::<12>(&mut self.random);
        let marked = self.random.bytes(number % (LONGEST_MARKED + 1));
        let content = self.content(len);
        self.join(&[
            "seal".to_string(),
            hex::encode(&key),
            hex::encode(&nonce),
            hex::encode(&marked),
            hex::encode(&content),
        ])
    }

    /// The lines with an even number open, the others do not. Half of each have a length at an edge.
    fn open_line(&mut self) -> Vec<u8> {
        let number = next_number(&mut self.made.opens);
        let len = match number % 4 {
            0 | 1 => self.edge(number / 4),
            _ => self.length(),
        };
        let key = Key(key_like(&mut self.random));
        let nonce = Nonce(key_like(&mut self.random));
        let marked_len = self.random.below(LONGEST_MARKED + 1);
        let marked = self.random.bytes(marked_len);
        let content = self.content(len);
        let sealed = aead::seal(&key, &nonce, &marked, &content).expect("a short content");
        let mut parts = Sealed {
            key,
            nonce,
            marked,
            sealed,
        };
        if number % 2 == 1 {
            let spoil = self.random.pick(&Spoil::ALL);
            parts.spoil(spoil, &mut self.random);
        }
        self.join(&parts.words())
    }

    fn block_line(&mut self) -> Vec<u8> {
        let words = [
            "block".to_string(),
            hex::encode(&key_like::<32>(&mut self.random)),
            self.counter().to_string(),
            hex::encode(&key_like::<12>(&mut self.random)),
        ];
        self.join(&words)
    }

    /// Half of the lines are so near to the last counter that they just fit or just do not; of the
    /// others half have a length around a multiple of a block.
    fn stream_line(&mut self) -> Vec<u8> {
        let number = next_number(&mut self.made.streams);
        let around = |blocks: usize, off: usize| (BLOCK_LEN * blocks + off).saturating_sub(1);
        let (counter, len) = match number % 4 {
            0 | 1 => {
                let blocks_left = 1 + self.random.below(5);
                let counter = u32::MAX - (blocks_left as u32 - 1);
                let blocks = (blocks_left + self.random.below(3)).saturating_sub(1);
                (counter, around(blocks, self.random.below(3)))
            }
            2 => (
                self.counter(),
                around(self.random.below(12), self.random.below(3)),
            ),
            _ => (self.counter(), self.length()),
        };
        let words = [
            "stream".to_string(),
            hex::encode(&key_like::<32>(&mut self.random)),
            counter.to_string(),
            hex::encode(&key_like::<12>(&mut self.random)),
            hex::encode(&self.content(len)),
        ];
        self.join(&words)
    }

    fn once_line(&mut self) -> Vec<u8> {
        let words = [
            "once".to_string(),
            hex::encode(&key_like::<32>(&mut self.random)),
            hex::encode(&key_like::<12>(&mut self.random)),
        ];
        self.join(&words)
    }

    /// Of each four lines one comes near to the modulus, one has a longer message, and two have every
    /// short length of message in turn.
    fn mark_line(&mut self) -> Vec<u8> {
        let number = next_number(&mut self.made.marks);
        let (r, message) = match number % 4 {
            0 => near_modulus(&mut self.random),
            1 => {
                let len = self.random.below(1000);
                (self.first_half(), self.random_or_even(len))
            }
            _ => {
                let len = (number / 2) % (LONGEST_MARKED + 1);
                (self.first_half(), self.random_or_even(len))
            }
        };
        let s: [u8; 16] = match self.random.below(3) {
            0 => [0x00; 16],
            1 => [0xff; 16],
            _ => self.random.array(),
        };
        let once = [r, s].concat();
        self.join(&[
            "mark".to_string(),
            hex::encode(&once),
            hex::encode(&message),
        ])
    }

    /// The first half of a one-time key: random, or all ones, of which clamping leaves the largest
    /// number there is.
    fn first_half(&mut self) -> [u8; 16] {
        match self.random.below(3) {
            0 => [0xff; 16],
            _ => key_like(&mut self.random),
        }
    }

    /// The faults in turn.
    fn malformed_line(&mut self) -> Vec<u8> {
        let number = next_number(&mut self.made.malformed);
        let fault = self.faults[number % self.faults.len()];
        let words = match fault {
            Fault::UnknownCommand => return self.unknown_line(),
            Fault::SeveralFields => {
                let shape = self.random.below(SHAPES.len());
                let mut words = self.right_words(shape);
                spelling::spoil_fields(&mut words, &mut self.random);
                words
            }
            Fault::FieldMissing { shape } => {
                let mut words = self.right_words(shape);
                words.pop();
                words
            }
            Fault::NoFields { shape } => vec![SHAPES[shape].command.to_string()],
            Fault::FieldTooMany { shape } => {
                let mut words = self.right_words(shape);
                words.push(spelling::extra_field(&mut self.random));
                words
            }
            Fault::NotHexDigit { shape, field } => {
                self.with_field(shape, field, spelling::with_wrong_digit)
            }
            Fault::OddLength { shape, field } => {
                self.with_field(shape, field, spelling::with_odd_length)
            }
            Fault::Empty { shape, field } => self.with_field(shape, field, |_, _| "-".to_string()),
            Fault::Shorter { shape, field } => {
                self.with_field(shape, field, |word, _| word[2..].to_string())
            }
            Fault::Longer { shape, field } => {
                self.with_field(shape, field, |word, _| format!("{word}00"))
            }
            Fault::BadCounter {
                shape,
                field,
                counter,
            } => self.with_field(shape, field, |_, _| BAD_NUMBERS[counter].to_string()),
        };
        self.join(&words)
    }

    /// An unknown command before the fields of a known one.
    fn unknown_line(&mut self) -> Vec<u8> {
        let shape = self.random.below(SHAPES.len());
        let command = self.random.pick(&UNKNOWN);
        spelling::line_with_command(command, &self.right_words(shape))
    }

    /// The words of a command, with one field changed.
    fn with_field(
        &mut self,
        shape: usize,
        field: usize,
        change: impl Fn(&str, &mut Random) -> String,
    ) -> Vec<String> {
        let mut words = self.right_words(shape);
        let place = field + 1;
        words[place] = change(&words[place], &mut self.random);
        words
    }

    /// The words of a command whose fields are all well formed.
    fn right_words(&mut self, shape: usize) -> Vec<String> {
        let Shape { command, fields } = &SHAPES[shape];
        let mut words = vec![command.to_string()];
        for field in fields.iter() {
            words.push(match (field, fixed_length(*field)) {
                (Field::Counter, _) => self.counter().to_string(),
                (_, Some(len)) => hex::encode(&self.random.bytes(len)),
                (_, None) => {
                    let len = self.random.below(40);
                    hex::encode(&self.random.bytes(len))
                }
            });
        }
        words
    }

    fn passed_over_line(&mut self) -> Vec<u8> {
        spelling::passed_over(next_number(&mut self.made.passed_over))
    }

    /// Mostly a short length, now and then one up to the longest.
    fn length(&mut self) -> usize {
        match self.random.below(16) {
            0 => self.random.below(LONGEST + 1),
            1..=3 => self.random.below(600),
            _ => self.random.below(130),
        }
    }

    /// The edge lengths in turn.
    fn edge(&self, number: usize) -> usize {
        self.edges[number % self.edges.len()]
    }

    fn counter(&mut self) -> u32 {
        match self.random.below(8) {
            0 => 0,
            1 => 1,
            2 => u32::MAX - 100,
            _ => self.random.word(),
        }
    }

    /// A content: random, or now and then the same byte throughout.
    fn content(&mut self, len: usize) -> Vec<u8> {
        match self.random.below(12) {
            0 => vec![0x00; len],
            1 => vec![0xff; len],
            _ => self.random.bytes(len),
        }
    }

    /// A message: random, all ones or all zero, each as often.
    fn random_or_even(&mut self, len: usize) -> Vec<u8> {
        match self.random.below(3) {
            0 => vec![0x00; len],
            1 => vec![0xff; len],
            _ => self.random.bytes(len),
        }
    }

    fn join(&mut self, words: &[String]) -> Vec<u8> {
        spelling::line(words, &mut self.random)
    }
}

impl Iterator for Generator {
    type Item = Vec<u8>;

    fn next(&mut self) -> Option<Vec<u8>> {
        let index = next_number(&mut self.lines);
        Some(match Kind::of_line(index) {
            Kind::Seal => self.seal_line(),
            Kind::Open => self.open_line(),
            Kind::Block => self.block_line(),
            Kind::Stream => self.stream_line(),
            Kind::Once => self.once_line(),
            Kind::Mark => self.mark_line(),
            Kind::Malformed => self.malformed_line(),
            Kind::PassedOver => self.passed_over_line(),
        })
    }
}

/// Mostly random bytes, sometimes all zero or all ones.
fn key_like<const N: usize>(random: &mut Random) -> [u8; N] {
    match random.below(16) {
        0 => [0x00; N],
        1 => [0xff; N],
        _ => random.array(),
    }
}

/// One less, as many and one more than each multiple of 16, up to the longest. Among them are those
/// around each multiple of 64.
fn edge_lengths() -> Vec<usize> {
    let near = |length: &usize| matches!(length % 16, 15 | 0 | 1);
    (0..=LONGEST).filter(near).collect()
}

/// A first half of a one-time key, and a message whose sum before the last reduction is within a few
/// of the modulus 2^130 - 5. A block of all ones counts 2^129 - 1, so two of them times 1, or one of
/// them times 2, make 2^130 - 2.
fn near_modulus(random: &mut Random) -> ([u8; 16], Vec<u8>) {
    let mut last = [0xff; 16];
    last[0] -= random.below(9) as u8;
    let mut r = [0; 16];
    if random.once_in(2) {
        r[0] = 1;
        (r, [[0xff; 16], last].concat())
    } else {
        r[0] = 2;
        (r, last.to_vec())
    }
}

#[cfg(test)]
mod tests {
    use super::*;
    use crate::lines::Session;
    use std::collections::{BTreeMap, BTreeSet};

    const COUNT: usize = 10_000;

    fn lines_of(seed: u64) -> Vec<Vec<u8>> {
        Generator::new(seed).take(COUNT).collect()
    }

    /// The words of a line, where it is text.
    fn words(line: &[u8]) -> Vec<String> {
        let text = std::str::from_utf8(line).unwrap_or("");
        text.split_whitespace().map(str::to_string).collect()
    }

    fn byte_len(word: &str) -> usize {
        hex::decode(word.as_bytes()).map_or(usize::MAX, |bytes| bytes.len())
    }

    #[test]
    fn the_seed_decides() {
        assert_eq!(lines_of(1), lines_of(1));
        assert_ne!(lines_of(1), lines_of(2));
    }

    #[test]
    fn edges_are_all_there() {
        let edges = edge_lengths();
        for k in 1..=LONGEST / 64 {
            for length in [64 * k - 1, 64 * k, 64 * k + 1] {
                assert!(edges.contains(&length));
            }
        }
        let mut seals = BTreeSet::new();
        let mut right_opens = BTreeSet::new();
        for line in lines_of(7) {
            let words = words(&line);
            match words.first().map(String::as_str) {
                Some("seal") if words.len() == 5 => {
                    seals.insert(byte_len(&words[4]));
                }
                Some("open") if words.len() == 5 => {
                    let answer = Session::default().answer(&line).expect("an answer");
                    if hex::decode(answer.as_bytes()).is_some() {
                        right_opens.insert(byte_len(&answer));
                    }
                }
                _ => {}
            }
        }
        for length in edges {
            assert!(seals.contains(&length), "seal of {length} bytes");
            assert!(right_opens.contains(&length), "open of {length} bytes");
        }
    }

    #[test]
    fn the_mix() {
        let lines = lines_of(3);
        let size: usize = lines.iter().map(|line| line.len() + 1).sum();
        assert!(size < 40_000_000, "{size} bytes");
        let mut answers: BTreeMap<String, usize> = BTreeMap::new();
        let mut opened = 0;
        for line in &lines {
            let answer = match Session::default().answer(line) {
                None => "none".to_string(),
                Some(answer) if hex::decode(answer.as_bytes()).is_some() => "bytes".to_string(),
                Some(answer) => answer,
            };
            if answer == "bytes" && words(line)[0] == "open" {
                opened += 1;
            }
            *answers.entry(answer).or_default() += 1;
        }
        assert_eq!(opened, 2000);
        assert_eq!(answers["refused 3: does not open"], 2000);
        assert_eq!(answers["none"], 100);
        assert!(answers["refused: too long"] > 50);
        let malformed = answers
            .iter()
            .filter(|(answer, _)| answer.starts_with("malformed"));
        assert_eq!(
            malformed.clone().map(|(_, times)| times).sum::<usize>(),
            100
        );
        // Unknown command; 2, 3 or 4 fields; seven byte strings not hex; three of another length; the
        // counter.
        assert_eq!(malformed.count(), 1 + 3 + 7 + 3 + 1);
    }

    #[test]
    fn every_length_of_message() {
        let mut lengths = BTreeSet::new();
        for line in lines_of(5) {
            let words = words(&line);
            if words.len() == 3 && words[0] == "mark" {
                lengths.insert(byte_len(&words[2]));
            }
        }
        assert!((0..=LONGEST_MARKED).all(|length| lengths.contains(&length)));
    }

    #[test]
    fn every_fault_is_malformed() {
        let mut generator = Generator::new(11);
        assert!(generator.faults.len() <= COUNT / 100);
        for _ in 0..20 * generator.faults.len() {
            let line = generator.malformed_line();
            let answer = Session::default().answer(&line).expect("an answer");
            assert!(answer.starts_with("malformed: "), "{answer}");
        }
    }
}
