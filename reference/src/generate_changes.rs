//! Lines to answer about trees of keys: the same for the same seed, changes of trees of every size, the
//! bytes of the changes, and records to decode, right ones and others.

use std::collections::VecDeque;

use crate::change::{self, Change, Refused};
use crate::hex;
use crate::random::Random;
use crate::records::{self, LONGEST_CONTENT, Record};
use crate::spelling::{self, BAD_NUMBERS, next_number};
use crate::transparent::MARK_LEN;
use crate::tree::{Places, Tree};

/// So many lines come before the first `tree`.
const BEFORE_TREES: usize = 12;
/// The longest content that is not at an edge.
const SHORT_CONTENT: usize = 40;
/// So many records of one kind are kept to take from.
const KEPT: usize = 100;
/// The highest number that a key may have.
const LAST_KEY: u32 = u32::MAX - 1;

/// What a line is.
#[derive(Clone, Copy, Debug, PartialEq, Eq)]
enum Kind {
    Tree,
    Put,
    Out,
    Bytes,
    Decode,
    Malformed,
    PassedOver,
}

/// The kinds of records.
#[derive(Clone, Copy, Debug, PartialEq, Eq)]
enum RecordKind {
    Content,
    Key,
    TakenOut,
}

impl RecordKind {
    const ALL: [RecordKind; 3] = [RecordKind::Content, RecordKind::Key, RecordKind::TakenOut];

    fn of(record: &Record) -> RecordKind {
        match record {
            Record::Content { .. } => RecordKind::Content,
            Record::Key { .. } => RecordKind::Key,
            Record::TakenOut { .. } => RecordKind::TakenOut,
        }
    }
}

/// A right record, and the number of places of its tree.
#[derive(Clone, Debug)]
struct Sample {
    places: Places,
    bytes: Vec<u8>,
}

/// The latest records that changes wrote.
#[derive(Default)]
struct Samples {
    contents: VecDeque<Sample>,
    keys: VecDeque<Sample>,
    taken_out: VecDeque<Sample>,
}

impl Samples {
    /// Those of a put and of a taking out, so that there are some of each kind.
    fn new() -> Samples {
        let mut samples = Samples::default();
        let mut tree = Tree::new(Places::Four);
        for change in [
            change::put(&mut tree, 0, b"x"),
            change::take_out(&mut tree, 0),
        ] {
            samples.keep(tree.places(), &change.expect("a right change"));
        }
        samples
    }

    fn of_kind(&mut self, kind: RecordKind) -> &mut VecDeque<Sample> {
        match kind {
            RecordKind::Content => &mut self.contents,
            RecordKind::Key => &mut self.keys,
            RecordKind::TakenOut => &mut self.taken_out,
        }
    }

    fn keep(&mut self, places: Places, change: &Change) {
        for record in &change.records {
            let samples = self.of_kind(RecordKind::of(record));
            if samples.len() == KEPT {
                samples.pop_front();
            }
            samples.push_back(Sample {
                places,
                bytes: record.encode(),
            });
        }
    }

    fn pick(&mut self, kind: RecordKind, random: &mut Random) -> Sample {
        let samples = self.of_kind(kind);
        samples[random.below(samples.len())].clone()
    }
}

/// A record whose fields may be out of their ranges.
#[derive(Clone, Copy, Debug, PartialEq, Eq)]
enum Raw {
    /// With so many bytes after the length.
    Content {
        node: u32,
        key: u32,
        len: u16,
        after: usize,
    },
    Key {
        node: u32,
        key: u32,
        under: u32,
    },
    TakenOut {
        node: u32,
        next: u32,
    },
}

impl Raw {
    /// With all of the bytes that the length says.
    fn content(node: u32, key: u32, len: u16) -> Raw {
        let after = usize::from(len) + MARK_LEN;
        Raw::Content {
            node,
            key,
            len,
            after,
        }
    }

    /// The sealed bytes are random.
    fn encode(self, random: &mut Random) -> Vec<u8> {
        match self {
            Raw::Content {
                node,
                key,
                len,
                after,
            } => {
                let mut bytes = records::head(records::CONTENT, &[node, key]);
                bytes.extend(len.to_be_bytes());
                bytes.extend(random.bytes(after));
                bytes
            }
            Raw::Key { node, key, under } => {
                let mut bytes = records::head(records::KEY, &[node, key, under]);
                bytes.extend(random.bytes(32 + MARK_LEN));
                bytes
            }
            Raw::TakenOut { node, next } => records::head(records::TAKEN_OUT, &[node, next]),
        }
    }
}

/// The nodes at the edges of what a tree has: 0, the root, 2, the first and the last of a place, those
/// just outside, and two that only the high bytes tell from one of a place.
fn edge_nodes(places: Places) -> [u32; 9] {
    let first = places.count();
    [
        0,
        1,
        2,
        first - 1,
        first,
        2 * first - 1,
        2 * first,
        first << 8,
        first << 24,
    ]
}

const EDGE_NUMBERS: [u32; 4] = [0, 1, LAST_KEY, u32::MAX];

const EDGE_LENGTHS: [u16; 7] = [0, 1, 256, 4095, 4096, 4097, u16::MAX];

/// A key's number and that of the key it is sealed under.
const EDGE_PAIRS: [(u32, u32); 13] = [
    (0, 0),
    (0, 1),
    (1, 0),
    (1, 1),
    (1, 2),
    (2, 1),
    (255, 256),
    (256, 255),
    (1, LAST_KEY),
    (1, u32::MAX),
    (LAST_KEY - 1, LAST_KEY),
    (LAST_KEY, LAST_KEY),
    (LAST_KEY, u32::MAX),
];

/// Every field at every edge, with the other fields right.
fn edge_records(places: Places) -> Vec<Raw> {
    let place = places.count();
    let mut raws = Vec::new();
    for node in edge_nodes(places) {
        raws.push(Raw::content(node, 1, 1));
        raws.push(Raw::Key {
            node,
            key: 1,
            under: 2,
        });
        raws.push(Raw::TakenOut { node, next: 1 });
    }
    for number in EDGE_NUMBERS {
        raws.push(Raw::content(place, number, 1));
        raws.push(Raw::TakenOut {
            node: place,
            next: number,
        });
    }
    for (key, under) in EDGE_PAIRS {
        raws.push(Raw::Key {
            node: place,
            key,
            under,
        });
    }
    for len in EDGE_LENGTHS {
        let all = usize::from(len).min(LONGEST_CONTENT + 1) + MARK_LEN;
        for after in [0, all - 1, all] {
            raws.push(Raw::Content {
                node: place,
                key: 1,
                len,
                after,
            });
        }
    }
    raws
}

/// The commands about trees.
#[derive(Clone, Copy, Debug, PartialEq, Eq)]
enum Command {
    Tree,
    Put,
    Out,
    Bytes,
    Decode,
}

impl Command {
    const ALL: [Command; 5] = [
        Command::Tree,
        Command::Put,
        Command::Out,
        Command::Bytes,
        Command::Decode,
    ];

    fn word(self) -> &'static str {
        match self {
            Command::Tree => "tree",
            Command::Put => "put",
            Command::Out => "out",
            Command::Bytes => "bytes",
            Command::Decode => "decode",
        }
    }

    fn has_fields(self) -> bool {
        self != Command::Bytes
    }

    /// Whether there is a second field; it is hex.
    fn has_hex(self) -> bool {
        matches!(self, Command::Put | Command::Decode)
    }
}

/// First words that are no command; the last is not UTF-8.
const UNKNOWN: [&[u8]; 10] = [
    b"Tree", b"PUT", b"puts", b"pu", b"outs", b"byte", b"bytes,", b"decoded", b"take", b"out\xff",
];

/// Numbers of places that no tree has, and words that are no number.
const BAD_PLACES: [&str; 16] = [
    "0",
    "1",
    "3",
    "5",
    "6",
    "7",
    "9",
    "16",
    "24",
    "28",
    "4294967298",
    "18446744073709551620",
    "-",
    "+8",
    "2.0",
    "4x",
];

/// What is wrong with a malformed line.
#[derive(Clone, Copy, Debug, PartialEq, Eq)]
enum Fault {
    UnknownCommand,
    FieldMissing(Command),
    NoFields(Command),
    FieldTooMany(Command),
    BadNumber(Command),
    WrongDigit(Command),
    OddLength(Command),
    SeveralFields(Command),
}

impl Fault {
    /// Every kind of fault of every command; with one line in a hundred malformed, four thousand lines
    /// have them all.
    fn all() -> Vec<Fault> {
        let mut faults = vec![Fault::UnknownCommand; 2];
        for command in Command::ALL {
            faults.push(Fault::FieldTooMany(command));
            if command.has_fields() {
                faults.push(Fault::FieldMissing(command));
                faults.extend([Fault::BadNumber(command); 3]);
            }
            if command.has_hex() {
                faults.push(Fault::NoFields(command));
                faults.push(Fault::WrongDigit(command));
                faults.push(Fault::OddLength(command));
                faults.push(Fault::SeveralFields(command));
            }
        }
        faults
    }
}

/// How often each kind of line has been made.
#[derive(Default)]
struct Made {
    decodes: usize,
    cuts: usize,
    edges: usize,
    malformed: usize,
    bad_places: usize,
    bad_numbers: usize,
    passed_over: usize,
}

/// The lines, without their line feeds.
pub struct Generator {
    random: Random,
    lines: usize,
    made: Made,
    /// The tree as the lines so far have left it.
    tree: Option<Tree>,
    samples: Samples,
    /// The bytes of the change that was just made are asked for next.
    bytes_next: bool,
    edges: Vec<(Places, Raw)>,
    faults: Vec<Fault>,
}

impl Generator {
    pub fn new(seed: u64) -> Generator {
        let edges_of = |places| {
            edge_records(places)
                .into_iter()
                .map(move |raw| (places, raw))
        };
        Generator {
            random: Random::new(seed),
            lines: 0,
            made: Made::default(),
            tree: None,
            samples: Samples::new(),
            bytes_next: false,
            edges: Places::ALL.into_iter().flat_map(edges_of).collect(),
            faults: Fault::all(),
        }
    }

    /// One line in a hundred is malformed and one is passed over. Half of the changes are followed by
    /// `bytes`.
    fn kind(&mut self, index: usize) -> Kind {
        match (index, index % 100) {
            (BEFORE_TREES, _) => Kind::Tree,
            (_, 30) => Kind::Malformed,
            (_, 80) => Kind::PassedOver,
            _ if std::mem::take(&mut self.bytes_next) => Kind::Bytes,
            _ => match self.random.below(100) {
                0 if index > BEFORE_TREES => Kind::Tree,
                0..32 => Kind::Put,
                32..52 => Kind::Out,
                52..57 => Kind::Bytes,
                _ => Kind::Decode,
            },
        }
    }

    fn tree_line(&mut self) -> Vec<u8> {
        let places = self.random.pick(&Places::ALL);
        self.tree = Some(Tree::new(places));
        let words = [
            Command::Tree.word().to_string(),
            self.digits(places.count()),
        ];
        self.join(&words)
    }

    fn put_line(&mut self) -> Vec<u8> {
        let place = self.place();
        let content = self.content();
        self.change(|tree| change::put(tree, place, &content));
        let words = [
            Command::Put.word().to_string(),
            self.digits(place),
            hex::encode(&content),
        ];
        self.join(&words)
    }

    fn out_line(&mut self) -> Vec<u8> {
        let place = self.place();
        self.change(|tree| change::take_out(tree, place));
        let words = [Command::Out.word().to_string(), self.digits(place)];
        self.join(&words)
    }

    /// Changes the tree as the line will, and keeps the records.
    fn change(&mut self, change: impl FnOnce(&mut Tree) -> Result<Change, Refused>) {
        if let Some(tree) = &mut self.tree
            && let Ok(change) = change(tree)
        {
            self.samples.keep(tree.places(), &change);
        }
        self.bytes_next = self.random.once_in(2);
    }

    fn bytes_line(&mut self) -> Vec<u8> {
        self.join(&[Command::Bytes.word().to_string()])
    }

    /// Of each ten lines three have right records, two cut ones, one has a bit changed, three have
    /// fields at their edges, and one has random bytes.
    fn decode_line(&mut self) -> Vec<u8> {
        let number = next_number(&mut self.made.decodes);
        let Sample { places, bytes } = match number % 10 {
            0..3 => self.right_record(),
            3..5 => self.cut_record(),
            5 => self.changed_record(),
            6..8 => self.edge_record(),
            8 => self.mixed_record(),
            _ => self.random_bytes(),
        };
        let words = [
            Command::Decode.word().to_string(),
            self.digits(places.count()),
            hex::encode(&bytes),
        ];
        self.join(&words)
    }

    /// A record that a change wrote, with a rest of 0 to 3 bytes; now and then decoded for a tree of any
    /// size.
    fn right_record(&mut self) -> Sample {
        let mut sample = self.sample();
        self.add_rest(&mut sample.bytes);
        if self.random.once_in(6) {
            sample.places = self.random.pick(&Places::ALL);
        }
        sample
    }

    /// The kinds of records in turn, cut off at every length in turn; now and then just the last byte
    /// is missing.
    fn cut_record(&mut self) -> Sample {
        if self.random.once_in(8) {
            let mut sample = self.sample();
            sample.bytes.pop();
            return sample;
        }
        let number = next_number(&mut self.made.cuts);
        let kind = RecordKind::ALL[number % RecordKind::ALL.len()];
        let mut sample = self.samples.pick(kind, &mut self.random);
        let turn = number / RecordKind::ALL.len();
        sample.bytes.truncate(turn % sample.bytes.len());
        sample
    }

    /// One bit changed, half of the time in the first bytes, which are not sealed.
    fn changed_record(&mut self) -> Sample {
        let mut sample = self.sample();
        let len = match self.random.below(2) {
            0 => sample.bytes.len().min(13),
            _ => sample.bytes.len(),
        };
        self.random.flip_bit(&mut sample.bytes[..len]);
        sample
    }

    /// The edges in turn.
    fn edge_record(&mut self) -> Sample {
        let number = next_number(&mut self.made.edges);
        let (places, raw) = self.edges[number % self.edges.len()];
        self.encoded(places, raw)
    }

    /// Several fields at their edges, or random.
    fn mixed_record(&mut self) -> Sample {
        let places = self.random.pick(&Places::ALL);
        let node = match self.random.below(3) {
            0 => places.count() + self.random.below(places.count() as usize) as u32,
            _ => self.random.pick(&edge_nodes(places)),
        };
        let number = match self.random.below(3) {
            0 => self.random.word(),
            _ => self.random.pick(&EDGE_NUMBERS),
        };
        let raw = match self.random.pick(&RecordKind::ALL) {
            RecordKind::Content => {
                let len = self.random.pick(&[0, 1, 2, 40, 4096, 4097]);
                Raw::content(node, number, len)
            }
            RecordKind::Key => {
                let under = self.random.pick(&[
                    number,
                    number.wrapping_add(1),
                    number.wrapping_sub(1),
                    LAST_KEY,
                    u32::MAX,
                ]);
                Raw::Key {
                    node,
                    key: number,
                    under,
                }
            }
            RecordKind::TakenOut => Raw::TakenOut { node, next: number },
        };
        self.encoded(places, raw)
    }

    /// Mostly with a first byte that a record has, or one close to it or that looks like it in hex.
    fn random_bytes(&mut self) -> Sample {
        const FIRST: [u8; 3] = [records::CONTENT, records::KEY, records::TAKEN_OUT];
        const CLOSE: [u8; 11] = [66, 68, 70, 74, 76, 0x67, 0x69, 0x75, 0x63, 0, 255];
        let len = self.random.below(80);
        let mut bytes = self.random.bytes(len);
        if let Some(first) = bytes.first_mut() {
            match self.random.below(4) {
                0 | 1 => *first = self.random.pick(&FIRST),
                2 => *first = self.random.pick(&CLOSE),
                _ => {}
            }
        }
        Sample {
            places: self.random.pick(&Places::ALL),
            bytes,
        }
    }

    fn sample(&mut self) -> Sample {
        let kind = self.random.pick(&RecordKind::ALL);
        self.samples.pick(kind, &mut self.random)
    }

    fn encoded(&mut self, places: Places, raw: Raw) -> Sample {
        let mut bytes = raw.encode(&mut self.random);
        if !matches!(raw, Raw::Content { .. }) {
            self.add_rest(&mut bytes);
        }
        Sample { places, bytes }
    }

    fn add_rest(&mut self, bytes: &mut Vec<u8>) {
        let len = self.random.below(4);
        bytes.extend(self.random.bytes(len));
    }

    /// The faults in turn.
    fn malformed_line(&mut self) -> Vec<u8> {
        let number = next_number(&mut self.made.malformed);
        let words = match self.faults[number % self.faults.len()] {
            Fault::UnknownCommand => return self.unknown_line(),
            Fault::FieldMissing(command) => {
                let mut words = self.right_words(command);
                words.pop();
                words
            }
            Fault::NoFields(command) => vec![command.word().to_string()],
            Fault::FieldTooMany(command) => {
                let mut words = self.right_words(command);
                words.push(spelling::extra_field(&mut self.random));
                words
            }
            Fault::BadNumber(command) => {
                let mut words = self.right_words(command);
                words[1] = self.bad_number(command).to_string();
                words
            }
            Fault::WrongDigit(command) => {
                let mut words = self.right_words(command);
                words[2] = spelling::with_wrong_digit(&words[2], &mut self.random);
                words
            }
            Fault::OddLength(command) => {
                let mut words = self.right_words(command);
                words[2] = spelling::with_odd_length(&words[2], &mut self.random);
                words
            }
            Fault::SeveralFields(command) => {
                let mut words = self.right_words(command);
                spelling::spoil_fields(&mut words, &mut self.random);
                words
            }
        };
        self.join(&words)
    }

    /// An unknown command before the fields of a known one.
    fn unknown_line(&mut self) -> Vec<u8> {
        let command = self.random.pick(&Command::ALL);
        let unknown = self.random.pick(&UNKNOWN);
        spelling::line_with_command(unknown, &self.right_words(command))
    }

    /// A first field that is none, in turn.
    fn bad_number(&mut self, command: Command) -> &'static str {
        match command {
            Command::Tree | Command::Decode => {
                BAD_PLACES[next_number(&mut self.made.bad_places) % BAD_PLACES.len()]
            }
            Command::Put | Command::Out | Command::Bytes => {
                BAD_NUMBERS[next_number(&mut self.made.bad_numbers) % BAD_NUMBERS.len()]
            }
        }
    }

    /// The words of a command whose fields are all well formed.
    fn right_words(&mut self, command: Command) -> Vec<String> {
        let mut words = vec![command.word().to_string()];
        match command {
            Command::Tree => {
                let places = self.random.pick(&Places::ALL);
                words.push(self.digits(places.count()));
            }
            Command::Put => {
                let place = self.place();
                let content = self.content();
                words.push(self.digits(place));
                words.push(hex::encode(&content));
            }
            Command::Out => {
                let place = self.place();
                words.push(self.digits(place));
            }
            Command::Bytes => {}
            Command::Decode => {
                let Sample { places, bytes } = self.sample();
                words.push(self.digits(places.count()));
                words.push(hex::encode(&bytes));
            }
        }
        words
    }

    /// Mostly a place that there is; now and then one just past the last, one whose node a sum of 32
    /// bits would bring back to a small one, or a random one.
    fn place(&mut self) -> u32 {
        let count = self.tree.as_ref().map_or(8, |tree| tree.places().count());
        let any = self.random.below(count as usize) as u32;
        match self.random.below(20) {
            0 => count + self.random.below(2) as u32,
            1 => count + any,
            2 => u32::MAX - any,
            3 => self.random.word(),
            _ => any,
        }
    }

    /// Mostly a short content, now and then one at an edge.
    fn content(&mut self) -> Vec<u8> {
        let len = match self.random.below(24) {
            0 => 0,
            1 => LONGEST_CONTENT,
            2 => LONGEST_CONTENT + 1,
            _ => 1 + self.random.below(SHORT_CONTENT),
        };
        self.random.bytes(len)
    }

    /// The number in decimal, now and then with zeros before it.
    fn digits(&mut self, number: u32) -> String {
        match self.random.below(12) {
            0 => format!("0{number}"),
            1 => format!("{number:032}"),
            _ => number.to_string(),
        }
    }

    fn join(&mut self, words: &[String]) -> Vec<u8> {
        spelling::line(words, &mut self.random)
    }
}

impl Iterator for Generator {
    type Item = Vec<u8>;

    fn next(&mut self) -> Option<Vec<u8>> {
        let index = next_number(&mut self.lines);
        Some(match self.kind(index) {
            Kind::Tree => self.tree_line(),
            Kind::Put => self.put_line(),
            Kind::Out => self.out_line(),
            Kind::Bytes => self.bytes_line(),
            Kind::Decode => self.decode_line(),
            Kind::Malformed => self.malformed_line(),
            Kind::PassedOver => spelling::passed_over(next_number(&mut self.made.passed_over)),
        })
    }
}

#[cfg(test)]
mod tests {
    use super::*;
    use crate::lines::Session;
    use std::collections::BTreeSet;

    /// Those of `tests/compare.sh`.
    const SEED: u64 = 8439;
    const COUNT: usize = 4_000;

    /// The words of a line, and its answer.
    struct Answered {
        words: Vec<String>,
        answer: Option<String>,
    }

    impl Answered {
        /// The fields of a command, where that is what the line is and it is answered as such.
        fn fields(&self, command: &str) -> Option<(&[String], &str)> {
            let answer = self.answer.as_deref()?;
            let (first, fields) = self.words.split_first()?;
            (first == command && !answer.starts_with("malformed")).then_some((fields, answer))
        }
    }

    fn answered() -> Vec<Answered> {
        let mut session = Session::default();
        let lines = Generator::new(SEED).take(COUNT);
        lines
            .map(|line| Answered {
                words: String::from_utf8_lossy(&line)
                    .split_whitespace()
                    .map(str::to_string)
                    .collect(),
                answer: session.answer(&line),
            })
            .collect()
    }

    fn number(word: &str) -> u32 {
        word.parse().expect("a number")
    }

    fn bytes(word: &str) -> Vec<u8> {
        hex::decode(word.as_bytes()).expect("hex")
    }

    #[test]
    fn the_seed_decides() {
        let lines_of = |seed| Generator::new(seed).take(COUNT).collect::<Vec<_>>();
        assert_eq!(lines_of(1), lines_of(1));
        assert_ne!(lines_of(1), lines_of(2));
        let size: usize = lines_of(1).iter().map(Vec::len).sum();
        assert!(size < 4_000_000, "{size} bytes");
    }

    #[test]
    fn every_fault_is_malformed() {
        let mut generator = Generator::new(11);
        assert!(generator.faults.len() <= COUNT / 100);
        for _ in 0..20 * generator.faults.len() {
            let line = generator.malformed_line();
            let answer = Session::default().answer(&line).expect("an answer");
            assert!(answer.starts_with("malformed: "), "{answer}");
        }
    }

    #[test]
    fn the_mix() {
        let mut answers: Vec<String> = Vec::new();
        let mut passed_over = 0;
        for Answered { answer, .. } in answered() {
            match answer {
                Some(answer) => answers.push(answer),
                None => passed_over += 1,
            }
        }
        let count = |start: &str| {
            let with_start = answers.iter().filter(|answer| answer.starts_with(start));
            with_start.count()
        };
        assert_eq!(passed_over, COUNT / 100);
        assert_eq!(count("malformed: "), COUNT / 100);
        for message in [
            "unknown command",
            "expected 0 fields",
            "expected 1 fields",
            "expected 2 fields",
            "PLACES must be 2, 4 or 8",
            "PLACE must be a number up to 4294967295",
            "CONTENT is not hex",
            "BYTES is not hex",
        ] {
            assert!(count(&format!("malformed: {message}")) > 0, "{message}");
        }
        assert!(count("refused: no tree") > 2);
        assert!(count("refused 1: ") > 100);
        assert!(count("ok") > 20);
        assert!(count("ends too early") > 100);
        assert!(count("another form") > 100);
        assert!(count("node ") > 300);
        assert!(count("content ") > 500);
        assert!(count("-") > 5);
    }

    /// Every place of every size of tree is filled, and taken out both full and empty; contents have
    /// every short length and those at the edges; numbers need more than one byte.
    #[test]
    fn changes_of_every_kind() {
        let mut puts = BTreeSet::new();
        let mut outs = BTreeSet::new();
        let mut lengths = BTreeSet::new();
        let mut highest_root = 0;
        let mut bytes_of_changes = 0;
        let mut full: BTreeSet<u32> = BTreeSet::new();
        let mut size = 0;
        let mut after_change = false;
        for line in answered() {
            if let Some((fields, _)) = line.fields("tree") {
                size = number(&fields[0]);
                full.clear();
            }
            if line.fields("bytes").is_some() && after_change {
                bytes_of_changes += 1;
            }
            after_change = false;
            if let Some((fields, _)) = line.fields("put") {
                lengths.insert(bytes(&fields[1]).len());
            }
            let root = line.answer.as_deref().and_then(|answer| {
                let (_, root) = answer.rsplit_once("; root ")?;
                Some(number(root))
            });
            let Some(root) = root else {
                continue;
            };
            after_change = true;
            highest_root = highest_root.max(root);
            let place = number(&line.words[1]);
            if line.words[0] == "put" {
                puts.insert((size, place));
                full.insert(place);
            } else {
                outs.insert((size, place, full.remove(&place)));
            }
        }
        assert_eq!(puts.len(), 2 + 4 + 8);
        assert_eq!(outs.len(), 2 * (2 + 4 + 8));
        assert!((0..=SHORT_CONTENT).all(|len| lengths.contains(&len)));
        assert!(lengths.contains(&4096) && lengths.contains(&4097));
        assert!(highest_root > 256, "{highest_root}");
        assert!(bytes_of_changes > 500, "{bytes_of_changes}");
    }

    /// Records of each kind are decoded for each size of tree with each rest, have another form, and
    /// are cut off at every length.
    #[test]
    fn decodes_of_every_kind() {
        let mut decoded = BTreeSet::new();
        let mut other = BTreeSet::new();
        let mut cut = BTreeSet::new();
        for line in answered() {
            let Some((fields, answer)) = line.fields("decode") else {
                continue;
            };
            let places = number(&fields[0]);
            let bytes = bytes(&fields[1]);
            let first = bytes.first().copied().unwrap_or(0);
            if let Some((_, rest)) = answer.rsplit_once("; rest ") {
                decoded.insert((places, first, number(rest)));
            } else if answer == "another form" {
                other.insert((places, first));
            } else {
                cut.insert((first, bytes.len()));
            }
        }
        for places in [2, 4, 8] {
            for first in [67, 69, 75] {
                for rest in 0..4 {
                    assert!(decoded.contains(&(places, first, rest)));
                }
                assert!(other.contains(&(places, first)));
            }
        }
        assert!(cut.contains(&(0, 0)));
        for (first, needed) in [(67, 28), (69, 9), (75, 61)] {
            for len in 1..needed {
                assert!(cut.contains(&(first, len)), "{first} cut to {len} bytes");
            }
        }
        assert!(cut.contains(&(67, 27 + 4096 - 1)));
    }

    #[test]
    fn every_edge_is_there() {
        let mut generator = Generator::new(SEED);
        generator.by_ref().take(COUNT).for_each(drop);
        assert!(generator.made.edges >= generator.edges.len());
    }
}
