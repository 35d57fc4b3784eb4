//! A second implementation of sealing with ChaCha20 and Poly1305, written from RFC 8439 alone, and of
//! a small tree of keys with the records of its changes. It is slow and plain, and there to compare a
//! fast one with.
//!
//! `reference lines` answers the lines of standard input; `reference generate SEED COUNT`,
//! `reference generate-changes SEED COUNT` and `reference generate-plays SEED COUNT` print lines to
//! answer, the second about trees of keys, the third about power cuts and looks into the chip.

mod aead;
mod chacha20;
mod change;
mod generate;
mod generate_changes;
mod generate_plays;
mod hex;
mod lines;
mod play;
mod poly1305;
mod random;
mod records;
mod spelling;
mod transparent;
mod tree;

use std::io::{self, BufRead, BufWriter, Write};
use std::process::ExitCode;

const USAGE: &str = "usage: reference lines | reference generate SEED COUNT | \
    reference generate-changes SEED COUNT | reference generate-plays SEED COUNT";

/// What the program was asked to do.
enum Task {
    Lines,
    Generate { seed: u64, count: usize },
    GenerateChanges { seed: u64, count: usize },
    GeneratePlays { seed: u64, count: usize },
}

impl Task {
    fn from_words(words: &[String]) -> Option<Task> {
        let words: Vec<&str> = words.iter().map(String::as_str).collect();
        match words[..] {
            ["lines"] => Some(Task::Lines),
            ["generate", seed, count] => Some(Task::Generate {
                seed: seed.parse().ok()?,
                count: count.parse().ok()?,
            }),
            ["generate-changes", seed, count] => Some(Task::GenerateChanges {
                seed: seed.parse().ok()?,
                count: count.parse().ok()?,
            }),
            ["generate-plays", seed, count] => Some(Task::GeneratePlays {
                seed: seed.parse().ok()?,
                count: count.parse().ok()?,
            }),
            _ => None,
        }
    }

    fn run(&self, input: impl BufRead, output: impl Write) -> io::Result<()> {
        match self {
            Task::Lines => answer_lines(input, output),
            Task::Generate { seed, count } => {
                print_lines(generate::Generator::new(*seed).take(*count), output)
            }
            Task::GenerateChanges { seed, count } => {
                print_lines(generate_changes::Generator::new(*seed).take(*count), output)
            }
            Task::GeneratePlays { seed, count } => {
                print_lines(generate_plays::Generator::new(*seed).take(*count), output)
            }
        }
    }
}

/// Answers each line that has an answer; the last line may lack its line feed.
fn answer_lines(input: impl BufRead, mut output: impl Write) -> io::Result<()> {
    let mut session = lines::Session::default();
    for line in input.split(b'\n') {
        if let Some(answer) = session.answer(&line?) {
            writeln!(output, "{answer}")?;
        }
    }
    output.flush()
}

fn print_lines(lines: impl Iterator<Item = Vec<u8>>, mut output: impl Write) -> io::Result<()> {
    for line in lines {
        output.write_all(&line)?;
        output.write_all(b"\n")?;
    }
    output.flush()
}

fn main() -> ExitCode {
    let words: Vec<String> = std::env::args().skip(1).collect();
    let Some(task) = Task::from_words(&words) else {
        eprintln!("{USAGE}");
        return ExitCode::from(2);
    };
    match task.run(io::stdin().lock(), BufWriter::new(io::stdout().lock())) {
        Ok(()) => ExitCode::SUCCESS,
        Err(error) => {
            eprintln!("reference: {error}");
            ExitCode::FAILURE
        }
    }
}
