//! How generated lines are spelled, and misspelled.

use crate::random::Random;

/// Blank lines and comments.
const PASSED_OVER: [&str; 8] = [
    "",
    " ",
    "\t",
    " \t  ",
    "\r",
    "# a comment",
    " \t# seal - - - -",
    "#seal",
];

/// Words that are no number up to 4294967295.
pub const BAD_NUMBERS: [&str; 10] = [
    "4294967296",
    "4294967300",
    "42949672950",
    "18446744073709551616",
    "99999999999999999999999999",
    "-",
    "-1",
    "+1",
    "12a",
    "0x10",
];

/// Words that are no hex.
const BAD_HEX: [&str; 5] = ["0", "0g", "-0", "--", "00zz"];

/// Adds one, and answers what it was before.
pub fn next_number(made: &mut usize) -> usize {
    let number = *made;
    *made += 1;
    number
}

/// Blank lines and comments in turn.
pub fn passed_over(number: usize) -> Vec<u8> {
    PASSED_OVER[number % PASSED_OVER.len()].as_bytes().to_vec()
}

/// The words with single spaces between them; one line in twenty is spelled in another way that means
/// the same.
pub fn line(words: &[String], random: &mut Random) -> Vec<u8> {
    if !random.once_in(20) {
        return words.join(" ").into_bytes();
    }
    let blank = random.pick(&["  ", "\t", " \t ", " "]);
    let before = random.pick(&["", " ", "\t"]);
    let after = random.pick(&["", " ", "\t", "\r", " \r"]);
    let upper = random.once_in(2);
    let (command, fields) = words.split_first().expect("a command");
    let mut line = format!("{before}{command}");
    for field in fields {
        line.push_str(blank);
        line.push_str(&if upper {
            field.to_ascii_uppercase()
        } else {
            field.clone()
        });
    }
    line.push_str(after);
    line.into_bytes()
}

/// The words with another first word, which may be no text.
pub fn line_with_command(command: &[u8], words: &[String]) -> Vec<u8> {
    let mut line = command.to_vec();
    for word in &words[1..] {
        line.push(b' ');
        line.extend(word.bytes());
    }
    line
}

/// Makes every field no hex.
pub fn spoil_fields(words: &mut [String], random: &mut Random) {
    for word in &mut words[1..] {
        *word = random.pick(&BAD_HEX).to_string();
    }
}

/// A field too many.
pub fn extra_field(random: &mut Random) -> String {
    random.pick(&["-", "00", "#", "zz"]).to_string()
}

/// Hex with one letter that is no digit.
pub fn with_wrong_digit(word: &str, random: &mut Random) -> String {
    let mut letters: Vec<char> = if word == "-" {
        vec!['0'; 2]
    } else {
        word.chars().collect()
    };
    let place = random.below(letters.len());
    letters[place] = random.pick(&['g', 'G', '/', ':', '@', '`', '-', 'x', 'é']);
    letters.into_iter().collect()
}

/// Hex with one digit more.
pub fn with_odd_length(word: &str, random: &mut Random) -> String {
    let digit = random.pick(&['0', '7', 'a', 'F']);
    if word == "-" {
        digit.to_string()
    } else {
        format!("{word}{digit}")
    }
}
