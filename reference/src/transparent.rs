//! Sealing that hides nothing: it shows what was sealed, and under which key.

use crate::chacha20::Key;
use crate::tree::KeyValue;

/// The bytes of a mark.
pub const MARK_LEN: usize = 16;

/// A sealed text: the text itself, then the mark.
#[derive(Clone, Debug, PartialEq, Eq)]
pub struct Sealed {
    pub text: Vec<u8>,
    pub mark: [u8; MARK_LEN],
}

impl Sealed {
    pub fn encode(&self) -> Vec<u8> {
        [&self.text[..], &self.mark].concat()
    }

    /// The value of the key that opens it.
    pub fn under(&self) -> KeyValue {
        value_in(self.mark)
    }

    /// The value of the key that was sealed, where it was one.
    pub fn sealed_key(&self) -> Option<KeyValue> {
        self.text.first_chunk().copied().map(value_in)
    }
}

/// The value of a key, from its first 16 bytes.
fn value_in(bytes: [u8; MARK_LEN]) -> KeyValue {
    let value = u128::from_be_bytes(bytes);
    KeyValue(u64::try_from(value).expect("no key has a higher value"))
}

/// The key with a value: the value as 16 bytes, the high byte first, then 16 zeros.
pub fn key(value: KeyValue) -> Key {
    let mut key = [0; 32];
    key[..16].copy_from_slice(&u128::from(value.0).to_be_bytes());
    Key(key)
}

/// Seals a text: its mark is the first 16 bytes of the key that it is sealed under.
pub fn seal(text: &[u8], under: KeyValue) -> Sealed {
    let Key(key) = key(under);
    Sealed {
        text: text.to_vec(),
        mark: std::array::from_fn(|i| key[i]),
    }
}

#[cfg(test)]
mod tests {
    use super::*;
    use crate::hex;

    #[test]
    fn keys_and_marks() {
        let expected = "0000000000000000000000000102030400000000000000000000000000000000";
        assert_eq!(key(KeyValue(0x01020304)), Key(hex::array(expected)));
        assert_eq!(
            hex::encode(&seal(b"x", KeyValue(258)).encode()),
            "7800000000000000000000000000000102"
        );
        let sealed = seal(&key(KeyValue(7)).0, KeyValue(258));
        assert_eq!(sealed.under(), KeyValue(258));
        assert_eq!(sealed.sealed_key(), Some(KeyValue(7)));
    }
}
