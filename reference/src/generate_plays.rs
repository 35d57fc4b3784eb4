//! Scripts to answer: plays on small stores, the same for the same seed. Every change is cut off at every
//! position, and there are looks, readings and verdicts between the changes.

use std::collections::VecDeque;

use crate::hex;
use crate::random::Random;
use crate::spelling::{self, BAD_NUMBERS, next_number};
use crate::tree::Places;

/// So many lines come before the first `tree`.
const BEFORE_TREES: usize = 8;
/// A play has at most so many lines between its `tree` and its last `verdicts`.
const LONGEST_PLAY: usize = 24;
/// The most records that a change has: of a tree of eight places one, and two on each of three levels.
const MOST_RECORDS: usize = 7;

/// When a stop cuts the next change off: after each number of records, after all of them, and after the
/// chip.
fn stops() -> Vec<String> {
    let mut stops: Vec<String> = (0..=MOST_RECORDS + 1).map(|n| n.to_string()).collect();
    stops.push("4294967295".to_string());
    stops.push("chip".to_string());
    stops
}

/// Lines that are no command.
const MALFORMED: [&str; 16] = [
    "read",
    "read 0 1",
    "look 0",
    "look -",
    "stop",
    "stop 1 2",
    "stop chip chip",
    "stop chips",
    "stop Chip",
    "stop CHIP",
    "stop chi",
    "verdicts 1",
    "verdict",
    "looks",
    "reads 0",
    "stops 0",
];

/// The lines, without their line feeds.
pub struct Generator {
    random: Random,
    lines: usize,
    stops: Vec<String>,
    /// Each stop is set before puts and takings out in trees of every size, in turn.
    stops_made: usize,
    malformed_made: usize,
    passed_over_made: usize,
    places: Places,
    /// Lines that come next.
    next: VecDeque<Vec<u8>>,
}

impl Generator {
    pub fn new(seed: u64) -> Generator {
        Generator {
            random: Random::new(seed),
            lines: 0,
            stops: stops(),
            stops_made: 0,
            malformed_made: 0,
            passed_over_made: 0,
            places: Places::Eight,
            next: VecDeque::new(),
        }
    }

    /// A new store, some lines on it, and the verdicts at the end.
    fn begin_play(&mut self) {
        self.places = self.random.pick(&Places::ALL);
        let count = self.places.count().to_string();
        self.push(&["tree", &count]);
        for _ in 0..self.random.below(LONGEST_PLAY) {
            self.push_any();
        }
        self.push(&["verdicts"]);
    }

    fn push_any(&mut self) {
        match self.random.below(100) {
            0..30 => self.push_put(),
            30..45 => self.push_out(),
            45..62 => {
                self.push_stop();
                match self.random.below(3) {
                    0 => self.push_out(),
                    _ => self.push_put(),
                }
            }
            62..80 => self.push(&["look"]),
            80..90 => {
                let place = self.place();
                self.push(&["read", &place]);
            }
            90..94 => self.push(&["verdicts"]),
            94..97 => self.push(&["bytes"]),
            _ => self.push_stop(),
        }
    }

    fn push_put(&mut self) {
        let place = self.place();
        let len = match self.random.below(30) {
            0 => 0,
            1 => 4096,
            2 => 4097,
            _ => 1 + self.random.below(4),
        };
        let content = hex::encode(&self.random.bytes(len));
        self.push(&["put", &place, &content]);
        if self.random.once_in(4) {
            self.push(&["bytes"]);
        }
    }

    fn push_out(&mut self) {
        let place = self.place();
        self.push(&["out", &place]);
    }

    /// The stops in turn. Letters are spelled as they are.
    fn push_stop(&mut self) {
        let number = next_number(&mut self.stops_made);
        let stop = self.stops[number % self.stops.len()].clone();
        if stop == "chip" {
            self.next.push_back(b"stop chip".to_vec());
        } else {
            self.push(&["stop", &stop]);
        }
    }

    /// Mostly a place that there is.
    fn place(&mut self) -> String {
        let count = self.places.count() as usize;
        let place = match self.random.below(20) {
            0 => (count + self.random.below(2)) as u32,
            1 => self.random.word(),
            _ => self.random.below(count) as u32,
        };
        place.to_string()
    }

    fn push(&mut self, words: &[&str]) {
        let words: Vec<String> = words.iter().map(|word| word.to_string()).collect();
        let line = spelling::line(&words, &mut self.random);
        self.next.push_back(line);
    }

    /// The faults in turn, and words that are no number.
    fn malformed_line(&mut self) -> Vec<u8> {
        let number = next_number(&mut self.malformed_made);
        let turn = number / 2;
        match number % 2 {
            0 => MALFORMED[turn % MALFORMED.len()].as_bytes().to_vec(),
            _ => {
                let command = self.random.pick(&["read", "stop"]);
                let bad = BAD_NUMBERS[turn % BAD_NUMBERS.len()];
                format!("{command} {bad}").into_bytes()
            }
        }
    }
}

impl Iterator for Generator {
    type Item = Vec<u8>;

    /// One line in a hundred is malformed and one is passed over.
    fn next(&mut self) -> Option<Vec<u8>> {
        let index = next_number(&mut self.lines);
        match index % 100 {
            30 => return Some(self.malformed_line()),
            80 => {
                let number = next_number(&mut self.passed_over_made);
                return Some(spelling::passed_over(number));
            }
            _ => {}
        }
        while self.next.is_empty() {
            if index < BEFORE_TREES {
                self.push_any();
            } else {
                self.begin_play();
            }
        }
        self.next.pop_front()
    }
}

#[cfg(test)]
mod tests {
    use super::*;
    use crate::lines::Session;
    use std::collections::BTreeSet;

    /// Those of `tests/compare.sh`.
    const SEED: u64 = 8439;
    const COUNT: usize = 6_000;

    /// The words of each line, and its answer.
    fn answered() -> Vec<(Vec<String>, Option<String>)> {
        let mut session = Session::default();
        let lines = Generator::new(SEED).take(COUNT);
        lines
            .map(|line| {
                let text = String::from_utf8_lossy(&line);
                let words = text.split_whitespace().map(str::to_string);
                (words.collect(), session.answer(&line))
            })
            .collect()
    }

    #[test]
    fn the_seed_decides() {
        let lines_of = |seed| Generator::new(seed).take(COUNT).collect::<Vec<_>>();
        assert_eq!(lines_of(1), lines_of(1));
        assert_ne!(lines_of(1), lines_of(2));
    }

    #[test]
    fn the_mix() {
        let answers: Vec<String> = answered()
            .into_iter()
            .filter_map(|(_, answer)| answer)
            .collect();
        let count = |start: &str| {
            let with_start = answers.iter().filter(|answer| answer.starts_with(start));
            with_start.count()
        };
        assert_eq!(answers.len(), COUNT - COUNT / 100);
        assert_eq!(count("malformed: "), COUNT / 100);
        for message in [
            "unknown command",
            "expected 0 fields",
            "expected 1 fields",
            "PLACE must be a number up to 4294967295",
            "RECORDS must be a number up to 4294967295",
        ] {
            assert!(count(&format!("malformed: {message}")) > 0, "{message}");
        }
        assert!(count("refused: no tree") > 3);
        assert!(count("refused 1: ") > 100);
        assert!(count("refused 2: nothing is there") > 50);
        assert!(count("looked: root 0") > 5);
        assert!(count("looked: root ") > 300);
        assert!(count("stop at the next change") > 500);
        assert!(count("stopped: root 0") > 5);
        assert!(count("stopped: root ") > 300);
        assert!(count("no puts") > 5);
        assert!(count("put 1 open") > 50);
        assert!(count("put 1 shut") > 50);
        let both = |answer: &&String| answer.contains("open") && answer.contains("shut");
        assert!(answers.iter().filter(both).count() > 100);
    }

    /// In trees of every size puts and takings out are cut off at every position, and empty places are
    /// taken out.
    #[test]
    fn every_stop_before_every_change() {
        let mut size = String::new();
        let mut stop = String::new();
        let mut stopped = BTreeSet::new();
        let mut full = BTreeSet::new();
        let mut empty_outs = 0;
        for (words, answer) in answered() {
            let Some(answer) = answer else {
                continue;
            };
            match words[0].as_str() {
                "tree" if answer == "ok" => {
                    size.clone_from(&words[1]);
                    full.clear();
                }
                "stop" if answer.starts_with("stop at") => stop.clone_from(&words[1]),
                command @ ("put" | "out") => {
                    if answer.starts_with("stopped") {
                        stopped.insert((size.clone(), command.to_string(), stop.clone()));
                    }
                    let made = answer.contains("; root ") || stop == "chip";
                    if made && command == "put" {
                        full.insert(words[1].clone());
                    } else if made && !full.remove(&words[1]) {
                        empty_outs += 1;
                    }
                }
                _ => {}
            }
        }
        for size in ["2", "4", "8"] {
            for command in ["put", "out"] {
                for stop in stops() {
                    let here = (size.to_string(), command.to_string(), stop);
                    assert!(stopped.contains(&here), "{here:?}");
                }
            }
        }
        assert!(empty_outs > 100, "{empty_outs}");
    }
}
