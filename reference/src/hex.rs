//! Byte strings as they stand in the lines: hex, and `-` for the empty string.

/// Reads hex of even length, in lower or upper case, or `-`.
pub fn decode(word: &[u8]) -> Option<Vec<u8>> {
    if word == b"-" {
        return Some(Vec::new());
    }
    if !word.len().is_multiple_of(2) {
        return None;
    }
    word.chunks_exact(2)
        .map(|pair| Some(16 * digit(pair[0])? + digit(pair[1])?))
        .collect()
}

fn digit(letter: u8) -> Option<u8> {
    match letter {
        b'0'..=b'9' => Some(letter - b'0'),
        b'a'..=b'f' => Some(letter - b'a' + 10),
        b'A'..=b'F' => Some(letter - b'A' + 10),
        _ => None,
    }
}

/// Writes lower-case hex, or `-`.
pub fn encode(bytes: &[u8]) -> String {
    const DIGITS: [char; 16] = [
        '0', '1', '2', '3', '4', '5', '6', '7', '8', '9', 'a', 'b', 'c', 'd', 'e', 'f',
    ];
    if bytes.is_empty() {
        return "-".to_string();
    }
    let halves = bytes.iter().flat_map(|byte| [byte / 16, byte % 16]);
    halves.map(|half| DIGITS[usize::from(half)]).collect()
}

/// A test's value of known length.
#[cfg(test)]
pub fn array<const N: usize>(word: &str) -> [u8; N] {
    decode(word.as_bytes())
        .expect("hex")
        .try_into()
        .expect("the length")
}

#[cfg(test)]
mod tests {
    use super::*;

    #[test]
    fn reads_and_writes() {
        assert_eq!(decode(b"-"), Some(vec![]));
        assert_eq!(decode(b"00fFAb"), Some(vec![0x00, 0xff, 0xab]));
        assert_eq!(encode(&[0x00, 0xff, 0xab]), "00ffab");
        assert_eq!(encode(&[]), "-");
        for bad in [&b"0"[..], b"0g", b"-0", b"--", b"0x", b"\xc3\xa4"] {
            assert_eq!(decode(bad), None);
        }
    }
}
