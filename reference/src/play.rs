//! A play on a small store: puts and takings out, power cuts, and looks into the chip. What can be opened
//! at the end is found by opening: with the chip's keys at all looks, and all that was ever written.

use std::collections::{BTreeMap, BTreeSet};
use std::fmt;

use crate::change::{self, Change, Refused};
use crate::records::Record;
use crate::tree::{KeyValue, Node, Places, Tree};

/// When the power is cut during a change.
#[derive(Clone, Copy, Debug, PartialEq, Eq)]
pub enum Stop {
    /// After so many of its records, or all where it has fewer; before the chip gets its new key.
    AfterRecords(u32),
    /// Right after the chip got its new key.
    AfterChip,
}

/// The number of the root's key in the chip: 0 at first.
#[derive(Clone, Copy, Debug, PartialEq, Eq)]
pub struct ChipNumber(u32);

impl fmt::Display for ChipNumber {
    fn fmt(&self, f: &mut fmt::Formatter) -> fmt::Result {
        self.0.fmt(f)
    }
}

/// What became of a change that was not refused.
#[derive(Clone, Debug, PartialEq, Eq)]
pub enum Outcome {
    Done(Change),
    /// The power was cut before the chip got its new key: the store is as before.
    Undone,
    /// The power was cut after that: the store is as after the change.
    DoneAndStopped(Change),
}

/// Why a place is not read.
#[derive(Clone, Copy, Debug, PartialEq, Eq)]
pub enum Unread {
    NoSuchPlace,
    NothingThere,
}

/// Whether what was put in can be opened.
#[derive(Clone, Copy, Debug, PartialEq, Eq)]
pub enum Verdict {
    Open,
    Shut,
}

impl fmt::Display for Verdict {
    fn fmt(&self, f: &mut fmt::Formatter) -> fmt::Result {
        f.write_str(match self {
            Verdict::Open => "open",
            Verdict::Shut => "shut",
        })
    }
}

/// A put, whatever became of it.
struct Put {
    content: Vec<u8>,
    /// The key that its content is sealed under.
    key: KeyValue,
}

pub struct Play {
    /// The tree to whose root the chip's key belongs.
    tree: Tree,
    puts: Vec<Put>,
    /// Which put stands in each place, by its index.
    standing: BTreeMap<u32, usize>,
    /// All that was ever written, by changes that were cut off too.
    medium: Vec<Record>,
    /// The chip's keys at the looks.
    looks: Vec<KeyValue>,
    /// What is to come of the next change.
    stop: Option<Stop>,
}

impl Play {
    pub fn new(places: Places) -> Play {
        Play {
            tree: Tree::new(places),
            puts: Vec::new(),
            standing: BTreeMap::new(),
            medium: Vec::new(),
            looks: Vec::new(),
            stop: None,
        }
    }

    pub fn put(&mut self, place: u32, content: &[u8]) -> Result<Outcome, Refused> {
        let before = self.tree.clone();
        let change = change::put(&mut self.tree, place, content)?;
        let Record::Content { sealed, .. } = &change.records[0] else {
            unreachable!("a put begins with the content");
        };
        let index = self.puts.len();
        self.puts.push(Put {
            content: content.to_vec(),
            key: sealed.under(),
        });
        let outcome = self.carry_out(before, change);
        if outcome != Outcome::Undone {
            self.standing.insert(place, index);
        }
        Ok(outcome)
    }

    pub fn take_out(&mut self, place: u32) -> Result<Outcome, Refused> {
        let before = self.tree.clone();
        let change = change::take_out(&mut self.tree, place)?;
        let outcome = self.carry_out(before, change);
        if outcome != Outcome::Undone {
            self.standing.remove(&place);
        }
        Ok(outcome)
    }

    /// The records go to the medium, as far as the power lasts, and then the chip gets its new key.
    fn carry_out(&mut self, before: Tree, change: Change) -> Outcome {
        match self.stop.take() {
            None => {
                self.medium.extend_from_slice(&change.records);
                Outcome::Done(change)
            }
            Some(Stop::AfterChip) => {
                self.medium.extend_from_slice(&change.records);
                Outcome::DoneAndStopped(change)
            }
            Some(Stop::AfterRecords(count)) => {
                let written = change.records.into_iter().take(count as usize);
                self.medium.extend(written);
                self.tree.fall_back(before);
                Outcome::Undone
            }
        }
    }

    /// What stands in a place.
    pub fn read(&self, place: u32) -> Result<&[u8], Unread> {
        if self.tree.places().node_of(place).is_none() {
            return Err(Unread::NoSuchPlace);
        }
        let put = self.standing.get(&place).ok_or(Unread::NothingThere)?;
        Ok(&self.puts[*put].content)
    }

    pub fn chip_number(&self) -> ChipNumber {
        let root = self.tree.key(Node::ROOT);
        ChipNumber(root.map_or(0, |key| key.number.0))
    }

    /// Somebody reads the chip.
    pub fn look(&mut self) -> ChipNumber {
        let root = self.tree.key(Node::ROOT);
        self.looks.push(root.map_or(KeyValue(0), |key| key.value));
        self.chip_number()
    }

    /// The power will be cut during the next change that is not refused.
    pub fn stop_next(&mut self, stop: Stop) {
        self.stop = Some(stop);
    }

    /// The verdict on each put, in their order.
    pub fn verdicts(&self) -> Vec<Verdict> {
        let keys = self.keys_reached();
        let opened: BTreeSet<KeyValue> = self
            .medium
            .iter()
            .filter_map(|record| match record {
                Record::Content { sealed, .. } => Some(sealed.under()),
                Record::Key { .. } | Record::TakenOut { .. } => None,
            })
            .filter(|key| keys.contains(key))
            .collect();
        let verdict = |put: &Put| match opened.contains(&put.key) {
            true => Verdict::Open,
            false => Verdict::Shut,
        };
        self.puts.iter().map(verdict).collect()
    }

    /// The chip's keys at the looks, the keys that those open, and so on.
    fn keys_reached(&self) -> BTreeSet<KeyValue> {
        let mut keys: BTreeSet<KeyValue> = self.looks.iter().copied().collect();
        loop {
            let before = keys.len();
            for record in &self.medium {
                if let Record::Key { sealed, .. } = record
                    && keys.contains(&sealed.under())
                {
                    keys.extend(sealed.sealed_key());
                }
            }
            if keys.len() == before {
                return keys;
            }
        }
    }
}

#[cfg(test)]
mod tests {
    use super::*;
    use crate::random::Random;

    const X: &[u8] = b"x";
    const Y: &[u8] = b"y";

    fn four_places() -> Play {
        Play::new(Places::Four)
    }

    fn put(play: &mut Play, place: u32, content: &[u8]) {
        play.put(place, content).expect("a put");
    }

    /// A: put x in place 0.
    fn a() -> Play {
        let mut play = four_places();
        put(&mut play, 0, X);
        play
    }

    /// B: then put y in place 1.
    fn b() -> Play {
        let mut play = a();
        put(&mut play, 1, Y);
        play
    }

    #[test]
    fn a_look_after_each_put() {
        let mut play = a();
        assert_eq!(play.verdicts(), [Verdict::Shut]);
        assert_eq!(play.look(), ChipNumber(3));
        assert_eq!(play.verdicts(), [Verdict::Open]);
        let mut play = b();
        assert_eq!(play.look(), ChipNumber(6));
        assert_eq!(play.verdicts(), [Verdict::Open, Verdict::Open]);
    }

    #[test]
    fn a_look_after_the_first_put_only() {
        let mut play = a();
        play.look();
        put(&mut play, 1, Y);
        assert_eq!(play.verdicts(), [Verdict::Open, Verdict::Shut]);
    }

    #[test]
    fn taken_out_before_the_look() {
        let mut play = b();
        play.take_out(0).expect("a taking out");
        assert_eq!(play.look(), ChipNumber(8));
        assert_eq!(play.verdicts(), [Verdict::Shut, Verdict::Open]);
    }

    #[test]
    fn cut_off_before_the_chip() {
        for records in 0..6 {
            let mut play = a();
            play.stop_next(Stop::AfterRecords(records));
            assert_eq!(play.put(1, Y), Ok(Outcome::Undone));
            assert_eq!(play.read(1), Err(Unread::NothingThere));
            assert_eq!(play.look(), ChipNumber(3));
            assert_eq!(play.verdicts(), [Verdict::Open, Verdict::Shut]);
            put(&mut play, 1, Y);
            assert_eq!(play.look(), ChipNumber(6));
            let verdicts = [Verdict::Open, Verdict::Shut, Verdict::Open];
            assert_eq!(play.verdicts(), verdicts);
        }
    }

    #[test]
    fn cut_off_after_the_chip() {
        let mut play = a();
        play.stop_next(Stop::AfterChip);
        let outcome = play.put(1, Y).expect("a put");
        assert!(matches!(outcome, Outcome::DoneAndStopped(_)));
        assert_eq!(play.read(1), Ok(Y));
        assert_eq!(play.look(), ChipNumber(6));
        assert_eq!(play.verdicts(), [Verdict::Open, Verdict::Open]);
    }

    #[test]
    fn a_refused_change_does_not_use_the_stop_up() {
        let mut play = a();
        play.stop_next(Stop::AfterRecords(0));
        assert_eq!(play.put(4, Y), Err(Refused));
        assert_eq!(play.take_out(4), Err(Refused));
        assert_eq!(play.put(0, &[]), Err(Refused));
        assert_eq!(play.take_out(0), Ok(Outcome::Undone));
        assert!(matches!(play.take_out(0), Ok(Outcome::Done(_))));
    }

    #[test]
    fn reading() {
        let mut play = a();
        assert_eq!(play.read(0), Ok(X));
        assert_eq!(play.read(3), Err(Unread::NothingThere));
        assert_eq!(play.read(4), Err(Unread::NoSuchPlace));
        play.take_out(0).expect("a taking out");
        assert_eq!(play.read(0), Err(Unread::NothingThere));
    }

    /// THE RULE: just those puts are open that stood in their place at one of the looks.
    #[test]
    fn open_is_what_stood_at_a_look() {
        let mut random = Random::new(3);
        for _ in 0..2_000 {
            let mut play = Play::new(random.pick(&Places::ALL));
            let mut seen: BTreeSet<usize> = BTreeSet::new();
            for _ in 0..random.below(30) {
                let place = random.below(play.tree.places().count() as usize) as u32;
                match random.below(10) {
                    0..4 => drop(play.put(place, X).expect("a put")),
                    4..6 => drop(play.take_out(place).expect("a taking out")),
                    6 => play.stop_next(Stop::AfterChip),
                    7 => play.stop_next(Stop::AfterRecords(random.below(9) as u32)),
                    _ => {
                        play.look();
                        seen.extend(play.standing.values());
                    }
                }
            }
            let by_rule = |put| match seen.contains(&put) {
                true => Verdict::Open,
                false => Verdict::Shut,
            };
            let expected: Vec<Verdict> = (0..play.puts.len()).map(by_rule).collect();
            assert_eq!(play.verdicts(), expected);
        }
    }
}
