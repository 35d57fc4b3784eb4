//! Sealing and opening: RFC 8439, sections 2.6 to 2.8.

use crate::chacha20::{self, Key, Nonce, TooLong};
use crate::poly1305::{self, OneTimeKey, TAG_LEN, Tag};

/// The mark does not agree, or there are too few bytes to hold one.
#[derive(Clone, Copy, Debug, PartialEq, Eq)]
pub struct DoesNotOpen;

/// The one-time key of a nonce (section 2.6): the first half of the block with number 0.
pub fn one_time_key(key: &Key, nonce: &Nonce) -> OneTimeKey {
    let block = chacha20::block(key, 0, nonce);
    OneTimeKey(std::array::from_fn(|i| block[i]))
}

/// Seals (section 2.8): the content encrypted from block 1 on, followed by the mark over the marked
/// bytes and the encrypted content.
pub fn seal(key: &Key, nonce: &Nonce, marked: &[u8], content: &[u8]) -> Result<Vec<u8>, TooLong> {
    let mut sealed = chacha20::encrypt(key, 1, nonce, content)?;
    let Tag(mark) = mark(key, nonce, marked, &sealed);
    sealed.extend(mark);
    Ok(sealed)
}

/// Opens: the content, if the last 16 bytes are the mark of the marked bytes and of what is before
/// them. The marks are compared openly, byte by byte; this program keeps no secrets.
pub fn open(
    key: &Key,
    nonce: &Nonce,
    marked: &[u8],
    sealed: &[u8],
) -> Result<Vec<u8>, DoesNotOpen> {
    let encrypted_len = sealed.len().checked_sub(TAG_LEN).ok_or(DoesNotOpen)?;
    let (encrypted, claimed) = sealed.split_at(encrypted_len);
    let Tag(expected) = mark(key, nonce, marked, encrypted);
    if claimed != expected {
        return Err(DoesNotOpen);
    }
    chacha20::encrypt(key, 1, nonce, encrypted).map_err(|TooLong| DoesNotOpen)
}

/// The mark: the tag, under the nonce's one-time key, of what `mark_data` lays out.
fn mark(key: &Key, nonce: &Nonce, marked: &[u8], encrypted: &[u8]) -> Tag {
    poly1305::tag(&one_time_key(key, nonce), &mark_data(marked, encrypted))
}

/// The marked bytes and the encrypted content, each filled up with zeros to a multiple of 16, then
/// their two lengths, each as 8 bytes, the lowest first.
fn mark_data(marked: &[u8], encrypted: &[u8]) -> Vec<u8> {
    let mut data = Vec::new();
    for part in [marked, encrypted] {
        data.extend(part);
        data.extend(vec![0; part.len().next_multiple_of(16) - part.len()]);
    }
    for part in [marked, encrypted] {
        data.extend((part.len() as u64).to_le_bytes());
    }
    data
}

#[cfg(test)]
mod tests {
    use super::*;
    use crate::hex;

    const CONTENT: &[u8] = b"Ladies and Gentlemen of the class of '99: If I could offer you only \
        one tip for the future, sunscreen would be it.";
    const SEALED: &str = "d31a8d34648e60db7b86afbc53ef7ec2a4aded51296e08fea9e2b5a736ee62d6\
        3dbea45e8ca9671282fafb69da92728b1a71de0a9e060b2905d6a5b67ecd3b36\
        92ddbd7f2d778b8c9803aee328091b58fab324e4fad675945585808b4831d7bc\
        3ff4def08e4b7a9de576d26586cec64b6116\
        1ae10b594f09e26a7e902ecbd0600691";

    fn key() -> Key {
        Key(std::array::from_fn(|i| 0x80 + i as u8))
    }

    fn nonce() -> Nonce {
        Nonce(hex::array("070000004041424344454647"))
    }

    fn marked() -> [u8; 12] {
        hex::array("50515253c0c1c2c3c4c5c6c7")
    }

    #[test]
    fn one_time_key_of_2_6_2() {
        let nonce = Nonce(hex::array("000000000001020304050607"));
        let expected = "8ad5a08b905f81cc815040274ab29471a833b637e3fd0da508dbb8e2fdd1a646";
        assert_eq!(
            one_time_key(&key(), &nonce),
            OneTimeKey(hex::array(expected))
        );
    }

    #[test]
    fn layout_of_2_8() {
        assert_eq!(mark_data(&[], &[]), [0; 16]);
        let data = mark_data(&[1], &[2; 16]);
        let mut expected = vec![1];
        expected.extend([0; 15]);
        expected.extend([2; 16]);
        expected.extend([1, 0, 0, 0, 0, 0, 0, 0, 16, 0, 0, 0, 0, 0, 0, 0]);
        assert_eq!(data, expected);
    }

    #[test]
    fn seal_and_open_of_2_8_2() {
        let sealed: [u8; 130] = hex::array(SEALED);
        assert_eq!(
            seal(&key(), &nonce(), &marked(), CONTENT),
            Ok(sealed.to_vec())
        );
        assert_eq!(
            open(&key(), &nonce(), &marked(), &sealed),
            Ok(CONTENT.to_vec())
        );
    }

    #[test]
    fn every_changed_bit_is_refused() {
        let sealed: [u8; 130] = hex::array(SEALED);
        for bit in 0..8 * sealed.len() {
            let mut changed = sealed;
            changed[bit / 8] ^= 1 << (bit % 8);
            assert_eq!(
                open(&key(), &nonce(), &marked(), &changed),
                Err(DoesNotOpen)
            );
        }
        for bit in 0..8 * marked().len() {
            let mut changed = marked();
            changed[bit / 8] ^= 1 << (bit % 8);
            assert_eq!(open(&key(), &nonce(), &changed, &sealed), Err(DoesNotOpen));
        }
        for len in 0..sealed.len() {
            assert_eq!(
                open(&key(), &nonce(), &marked(), &sealed[..len]),
                Err(DoesNotOpen)
            );
        }
    }
}
