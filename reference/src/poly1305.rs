//! Poly1305: RFC 8439, section 2.5.
//!
//! The arithmetic is that of school, on digits of 32 bits: sums and products with carries, and the
//! remainder by long division, one bit at a time. Nothing uses the special form of the modulus.

use std::cmp::Ordering;

/// The bytes of a tag.
pub const TAG_LEN: usize = 16;

/// The key of one message: `r` in the first half, `s` in the second.
#[derive(Clone, Copy, Debug, PartialEq, Eq)]
pub struct OneTimeKey(pub [u8; 32]);

/// The tag of a message.
#[derive(Clone, Copy, Debug, PartialEq, Eq)]
pub struct Tag(pub [u8; TAG_LEN]);

/// The modulus 2^130 - 5.
const P: Number<5> = Number([0xffff_fffb, 0xffff_ffff, 0xffff_ffff, 0xffff_ffff, 0x3]);

/// A number of N digits to base 2^32, the lowest first.
#[derive(Clone, Copy, Debug, PartialEq, Eq)]
struct Number<const N: usize>([u32; N]);

impl<const N: usize> Number<N> {
    const ZERO: Number<N> = Number([0; N]);

    /// The number whose bytes these are, the lowest first.
    fn from_le_bytes(bytes: &[u8]) -> Self {
        let mut number = Self::ZERO;
        for (i, byte) in bytes.iter().enumerate() {
            number.0[i / 4] |= u32::from(*byte) << (8 * (i % 4));
        }
        number
    }

    /// The sum, which must fit.
    fn plus(&self, other: &Self) -> Self {
        let mut sum = Self::ZERO;
        let mut carry = 0;
        for i in 0..N {
            let digit = u64::from(self.0[i]) + u64::from(other.0[i]) + carry;
            sum.0[i] = low_digit(digit);
            carry = digit >> 32;
        }
        assert_eq!(carry, 0, "the sum fits");
        sum
    }

    /// The difference, which must not be negative.
    fn minus(&self, other: &Self) -> Self {
        let mut difference = Self::ZERO;
        let mut borrow = false;
        for i in 0..N {
            let (digit, below) = self.0[i].overflowing_sub(other.0[i]);
            let (digit, below_too) = digit.overflowing_sub(u32::from(borrow));
            difference.0[i] = digit;
            borrow = below || below_too;
        }
        assert!(!borrow, "the difference is not negative");
        difference
    }

    /// The order of two numbers is that of the highest digit in which they differ.
    fn compare(&self, other: &Self) -> Ordering {
        self.0.iter().rev().cmp(other.0.iter().rev())
    }
}

impl Number<5> {
    /// The product: each digit with each, with carries.
    fn times(&self, other: &Self) -> Number<10> {
        let mut product = Number::<10>::ZERO;
        for i in 0..5 {
            let mut carry = 0;
            for j in 0..5 {
                let digit = u64::from(self.0[i]) * u64::from(other.0[j])
                    + u64::from(product.0[i + j])
                    + carry;
                product.0[i + j] = low_digit(digit);
                carry = digit >> 32;
            }
            product.0[i + 5] = low_digit(carry);
        }
        product
    }
}

impl Number<10> {
    /// The remainder modulo P by long division: bit by bit from the highest, the remainder so far is
    /// doubled, the bit is added, and P is taken away where it can be.
    fn modulo_p(&self) -> Number<5> {
        let mut rest = Number::<5>::ZERO;
        for digit in self.0.iter().rev() {
            for place in (0..32).rev() {
                let bit = Number([(digit >> place) & 1, 0, 0, 0, 0]);
                rest = rest.plus(&rest).plus(&bit);
                if rest.compare(&P) != Ordering::Less {
                    rest = rest.minus(&P);
                }
            }
        }
        rest
    }
}

/// What a sum leaves in its own digit; the rest is carried.
fn low_digit(sum: u64) -> u32 {
    (sum & 0xffff_ffff) as u32
}

/// Clears the bits of `r` that have to be zero: the four highest of bytes 3, 7, 11 and 15 and the two
/// lowest of bytes 4, 8 and 12.
fn clamp(mut r: [u8; 16]) -> [u8; 16] {
    for i in [3, 7, 11, 15] {
        r[i] &= 0b0000_1111;
    }
    for i in [4, 8, 12] {
        r[i] &= 0b1111_1100;
    }
    r
}

impl OneTimeKey {
    /// The number `r` after clamping.
    fn r(&self) -> Number<5> {
        let mut half = [0; 16];
        half.copy_from_slice(&self.0[..16]);
        Number::from_le_bytes(&clamp(half))
    }

    /// The number `s`.
    fn s(&self) -> Number<5> {
        Number::from_le_bytes(&self.0[16..])
    }
}

/// The tag of a message (section 2.5.1): each 16 bytes, the last of them maybe fewer, get a byte 1 at
/// their end and are added as a number; after each the sum is multiplied by `r` modulo P. At the end
/// `s` is added and the lowest 128 bits are the tag.
pub fn tag(key: &OneTimeKey, message: &[u8]) -> Tag {
    let r = key.r();
    let mut accumulator = Number::<5>::ZERO;
    for part in message.chunks(16) {
        let with_one: Vec<u8> = part.iter().copied().chain([1]).collect();
        let sum = accumulator.plus(&Number::from_le_bytes(&with_one));
        accumulator = sum.times(&r).modulo_p();
    }
    lowest_16_bytes(&accumulator.plus(&key.s()))
}

fn lowest_16_bytes(number: &Number<5>) -> Tag {
    Tag(std::array::from_fn(|i| {
        number.0[i / 4].to_le_bytes()[i % 4]
    }))
}

#[cfg(test)]
mod tests {
    use super::*;
    use crate::hex;

    fn key(r: &str, s: &str) -> OneTimeKey {
        OneTimeKey(hex::array(&format!("{r}{s}")))
    }

    const ZERO: &str = "00000000000000000000000000000000";
    const ONE: &str = "01000000000000000000000000000000";
    const TWO: &str = "02000000000000000000000000000000";
    const ALL_ONES: &str = "ffffffffffffffffffffffffffffffff";

    fn assert_tag(key: OneTimeKey, message: &[u8], expected: &str) {
        assert_eq!(tag(&key, message), Tag(hex::array(expected)));
    }

    #[test]
    fn clamping_of_2_5_2() {
        let key = key(
            "85d6be7857556d337f4452fe42d506a8",
            "0103808afb0db2fd4abff6af4149f51b",
        );
        assert_eq!(
            key.r().0,
            [0x08bed685, 0x036d5554, 0x0e52447c, 0x0806d540, 0]
        );
    }

    #[test]
    fn mark_of_2_5_2() {
        let key = key(
            "85d6be7857556d337f4452fe42d506a8",
            "0103808afb0db2fd4abff6af4149f51b",
        );
        assert_tag(
            key,
            b"Cryptographic Forum Research Group",
            "a8061dc1305136c6c22b8baf0c0127a9",
        );
    }

    #[test]
    fn edges_of_appendix_a_3() {
        let all_ones: [u8; 16] = hex::array(ALL_ONES);
        assert_tag(key(ZERO, ZERO), &[0; 64], ZERO);
        assert_tag(
            key(TWO, ZERO),
            &all_ones,
            "03000000000000000000000000000000",
        );
        assert_tag(
            key(TWO, ALL_ONES),
            &hex::array::<16>(TWO),
            "03000000000000000000000000000000",
        );
        assert_tag(
            key(ONE, ZERO),
            &hex::array::<48>(
                "fffffffffffffffffffffffffffffffff0ffffffffffffffffffffffffffffff\
                 11000000000000000000000000000000",
            ),
            "05000000000000000000000000000000",
        );
        assert_tag(
            key(ONE, ZERO),
            &hex::array::<48>(
                "fffffffffffffffffffffffffffffffffbfefefefefefefefefefefefefefefe\
                 01010101010101010101010101010101",
            ),
            ZERO,
        );
        assert_tag(
            key(TWO, ZERO),
            &hex::array::<16>("fdffffffffffffffffffffffffffffff"),
            "faffffffffffffffffffffffffffffff",
        );
    }

    #[test]
    fn long_division_agrees_at_the_edges() {
        let widened = |low: Number<5>, more: u32| {
            let mut digits = [0; 10];
            digits[..5].copy_from_slice(&low.plus(&Number([more, 0, 0, 0, 0])).0);
            Number(digits)
        };
        let small = |digit| Number([digit, 0, 0, 0, 0]);
        assert_eq!(widened(P, 0).modulo_p(), Number::ZERO);
        assert_eq!(widened(P, 4).modulo_p(), small(4));
        assert_eq!(
            widened(P.minus(&small(1)), 0).modulo_p(),
            P.minus(&small(1))
        );
        assert_eq!(widened(P.plus(&P), 3).modulo_p(), small(3));
        // 2^130 is P + 5, and (P - 1) * (P - 1) is 1 modulo P.
        assert_eq!(widened(Number([0, 0, 0, 0, 4]), 0).modulo_p(), small(5));
        let minus_one = P.minus(&small(1));
        assert_eq!(minus_one.times(&minus_one).modulo_p(), small(1));
    }
}
