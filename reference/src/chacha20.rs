//! ChaCha20: RFC 8439, sections 2.1 to 2.4, written after the pseudo code there.

/// The bytes of one block of key stream.
pub const BLOCK_LEN: usize = 64;

/// A key of 256 bits.
#[derive(Clone, Copy, Debug, PartialEq, Eq)]
pub struct Key(pub [u8; 32]);

/// A nonce of 96 bits.
#[derive(Clone, Copy, Debug, PartialEq, Eq)]
pub struct Nonce(pub [u8; 12]);

/// The content needs a block whose number does not fit in 32 bits.
#[derive(Clone, Copy, Debug, PartialEq, Eq)]
pub struct TooLong;

/// "expand 32-byte k", read as four little-endian words.
const CONSTANTS: [u32; 4] = [0x61707865, 0x3320646e, 0x79622d32, 0x6b206574];

/// The sixteen words that the rounds work on (section 2.2).
#[derive(Clone, Copy, Debug, PartialEq, Eq)]
struct State([u32; 16]);

impl State {
    /// Four constants, eight words of key, the block's number, three words of nonce (section 2.3).
    fn new(key: &Key, counter: u32, nonce: &Nonce) -> State {
        let mut words = [0; 16];
        words[0..4].copy_from_slice(&CONSTANTS);
        words[4..12].copy_from_slice(&little_endian_words::<8>(&key.0));
        words[12] = counter;
        words[13..16].copy_from_slice(&little_endian_words::<3>(&nonce.0));
        State(words)
    }

    /// The quarter round (section 2.1) on the words at four places (section 2.2).
    fn quarter_round(&mut self, a: usize, b: usize, c: usize, d: usize) {
        let s = &mut self.0;
        s[a] = s[a].wrapping_add(s[b]);
        s[d] = (s[d] ^ s[a]).rotate_left(16);
        s[c] = s[c].wrapping_add(s[d]);
        s[b] = (s[b] ^ s[c]).rotate_left(12);
        s[a] = s[a].wrapping_add(s[b]);
        s[d] = (s[d] ^ s[a]).rotate_left(8);
        s[c] = s[c].wrapping_add(s[d]);
        s[b] = (s[b] ^ s[c]).rotate_left(7);
    }

    /// Two rounds: the four columns, then the four diagonals (section 2.3).
    fn inner_block(&mut self) {
        self.quarter_round(0, 4, 8, 12);
        self.quarter_round(1, 5, 9, 13);
        self.quarter_round(2, 6, 10, 14);
        self.quarter_round(3, 7, 11, 15);
        self.quarter_round(0, 5, 10, 15);
        self.quarter_round(1, 6, 11, 12);
        self.quarter_round(2, 7, 8, 13);
        self.quarter_round(3, 4, 9, 14);
    }

    /// Adds the words of another state, each modulo 2^32.
    fn add(&mut self, other: &State) {
        for (word, more) in self.0.iter_mut().zip(other.0) {
            *word = word.wrapping_add(more);
        }
    }

    /// The words in order, each as four bytes, the lowest first.
    fn serialize(&self) -> [u8; BLOCK_LEN] {
        let mut bytes = [0; BLOCK_LEN];
        for (place, word) in bytes.chunks_exact_mut(4).zip(self.0) {
            place.copy_from_slice(&word.to_le_bytes());
        }
        bytes
    }
}

/// The bytes four by four as numbers, the lowest byte first.
fn little_endian_words<const N: usize>(bytes: &[u8]) -> [u32; N] {
    std::array::from_fn(|i| {
        u32::from_le_bytes([
            bytes[4 * i],
            bytes[4 * i + 1],
            bytes[4 * i + 2],
            bytes[4 * i + 3],
        ])
    })
}

/// One block of key stream (section 2.3): twenty rounds, then the first state is added.
pub fn block(key: &Key, counter: u32, nonce: &Nonce) -> [u8; BLOCK_LEN] {
    let initial = State::new(key, counter, nonce);
    let mut working = initial;
    for _ in 0..10 {
        working.inner_block();
    }
    working.add(&initial);
    working.serialize()
}

/// Encrypts, and by the same steps decrypts (section 2.4): content xor key stream, the blocks
/// numbered upwards from `counter`. No number is used twice: a content that would pass the last
/// number is refused.
pub fn encrypt(key: &Key, counter: u32, nonce: &Nonce, content: &[u8]) -> Result<Vec<u8>, TooLong> {
    let mut encrypted = Vec::with_capacity(content.len());
    for (index, part) in content.chunks(BLOCK_LEN).enumerate() {
        let index = u32::try_from(index).map_err(|_| TooLong)?;
        let number = counter.checked_add(index).ok_or(TooLong)?;
        let key_stream = block(key, number, nonce);
        encrypted.extend(
            part.iter()
                .zip(key_stream)
                .map(|(byte, key_byte)| byte ^ key_byte),
        );
    }
    Ok(encrypted)
}

#[cfg(test)]
mod tests {
    use super::*;
    use crate::hex;

    fn counting_key() -> Key {
        Key(std::array::from_fn(|i| i as u8))
    }

    #[test]
    fn quarter_round_of_2_1_1() {
        let mut state = State([0; 16]);
        state.0[..4].copy_from_slice(&[0x11111111, 0x01020304, 0x9b8d6f43, 0x01234567]);
        state.quarter_round(0, 1, 2, 3);
        assert_eq!(
            state.0[..4],
            [0xea2a92f4, 0xcb1cf8ce, 0x4581472e, 0x5881c4bb]
        );
    }

    #[test]
    fn quarter_round_on_the_state_of_2_2_1() {
        let mut state = State([
            0x879531e0, 0xc5ecf37d, 0x516461b1, 0xc9a62f8a, 0x44c20ef3, 0x3390af7f, 0xd9fc690b,
            0x2a5f714c, 0x53372767, 0xb00a5631, 0x974c541a, 0x359e9963, 0x5c971061, 0x3d631689,
            0x2098d9d6, 0x91dbd320,
        ]);
        state.quarter_round(2, 7, 8, 13);
        let expected = State([
            0x879531e0, 0xc5ecf37d, 0xbdb886dc, 0xc9a62f8a, 0x44c20ef3, 0x3390af7f, 0xd9fc690b,
            0xcfacafd2, 0xe46bea80, 0xb00a5631, 0x974c541a, 0x359e9963, 0x5c971061, 0xccc07c79,
            0x2098d9d6, 0x91dbd320,
        ]);
        assert_eq!(state, expected);
    }

    #[test]
    fn block_of_2_3_2() {
        let nonce = Nonce(hex::array("000000090000004a00000000"));
        let expected: [u8; 64] = hex::array(
            "10f1e7e4d13b5915500fdd1fa32071c4c7d1f4c733c068030422aa9ac3d46c4e\
             d2826446079faa0914c2d705d98b02a2b5129cd1de164eb9cbd083e8a2503c4e",
        );
        assert_eq!(block(&counting_key(), 1, &nonce), expected);
    }

    #[test]
    fn stream_of_2_4_2() {
        let nonce = Nonce(hex::array("000000000000004a00000000"));
        let content = b"Ladies and Gentlemen of the class of '99: If I could offer you only one \
            tip for the future, sunscreen would be it.";
        let expected: [u8; 114] = hex::array(
            "6e2e359a2568f98041ba0728dd0d6981e97e7aec1d4360c20a27afccfd9fae0b\
             f91b65c5524733ab8f593dabcd62b3571639d624e65152ab8f530c359f0861d8\
             07ca0dbf500d6a6156a38e088a22b65e52bc514d16ccf806818ce91ab7793736\
             5af90bbf74a35be6b40b8eedf2785e42874d",
        );
        let encrypted = encrypt(&counting_key(), 1, &nonce, content);
        assert_eq!(encrypted, Ok(expected.to_vec()));
        assert_eq!(
            encrypt(&counting_key(), 1, &nonce, &expected),
            Ok(content.to_vec())
        );
    }

    #[test]
    fn the_counter_does_not_wrap() {
        let nonce = Nonce([0; 12]);
        let key = counting_key();
        assert_eq!(
            encrypt(&key, u32::MAX, &nonce, &[0; 64]).map(|bytes| bytes.len()),
            Ok(64)
        );
        assert_eq!(encrypt(&key, u32::MAX, &nonce, &[0; 65]), Err(TooLong));
        assert_eq!(
            encrypt(&key, u32::MAX - 1, &nonce, &[0; 128]).map(|bytes| bytes.len()),
            Ok(128)
        );
        assert_eq!(encrypt(&key, u32::MAX - 1, &nonce, &[0; 129]), Err(TooLong));
        assert_eq!(encrypt(&key, u32::MAX, &nonce, &[]), Ok(Vec::new()));
    }
}
