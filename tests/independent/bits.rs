//! Reading bits: what the subpackets of Annex C are made of.

use super::b::{ceil_div, NG};
use super::fields::Field;
use super::rules::{require, Refusal, Row};

/// The bytes of a subpacket, the offset of the first, and the field that says how many they are.
#[derive(Clone, Copy)]
pub struct Subpacket<'a> {
    pub bytes: &'a [u8],
    pub at: usize,
    pub field: Field,
}

impl Subpacket<'_> {
    /// The offset behind it.
    pub fn end(&self) -> usize {
        self.at + self.bytes.len()
    }
}

/// Reads bits from the left of each byte of a subpacket.
pub struct Bits<'a> {
    bytes: &'a [u8],
    at: usize,
    /// What its rules are told of.
    place: usize,
    field: Field,
}

impl<'a> Bits<'a> {
    pub fn new(subpacket: Subpacket<'a>) -> Bits<'a> {
        Bits { bytes: subpacket.bytes, at: 0, place: subpacket.at, field: subpacket.field }
    }

    /// The content of a subpacket needs no more bytes than it declares: `n` bits more are there.
    pub fn claim(&self, n: usize) -> Result<(), Refusal> {
        require(Row::Length, self.place, self.field, self.bytes.len(), ceil_div(self.at + n, 8)..)
    }

    /// How many bytes are begun: the bits that are left in the last of them belong to what was read.
    pub fn begun(&self) -> usize {
        ceil_div(self.at, 8)
    }

    /// How many bytes are not begun.
    pub fn untouched(&self) -> usize {
        self.bytes[self.begun()..].len()
    }

    /// The next bits from the highest down, at least 57 of them; behind the end stand zeros.
    fn window(&self) -> u64 {
        let rest = &self.bytes[self.at / 8..];
        let word = match rest.get(..8).and_then(|bytes| bytes.try_into().ok()) {
            Some(bytes) => u64::from_be_bytes(bytes),
            None => rest.iter().rev().fold(0, |word, &byte| word >> 8 | u64::from(byte) << 56),
        };
        word << (self.at % 8)
    }

    /// The next `n` bits, at most 8. They have been claimed.
    pub fn take(&mut self, n: u32) -> u8 {
        let bits = self.window() >> 1 >> (63 - n);
        self.at += n as usize;
        bits as u8
    }

    /// The members of a code group, from the highest of at most 32 bitplanes down. They have been claimed. Up to here all is
    /// whole nibbles.
    pub fn group(&mut self, planes: u32) -> [u32; NG] {
        // A window that starts at a nibble has at least 15 of them.
        const AT_ONCE: u32 = 15;
        let mut group = [0; NG];
        let mut left = planes;
        while left > 0 {
            let some = left.min(AT_ONCE);
            let lanes = lanes(self.window(), some);
            for (k, member) in group.iter_mut().enumerate() {
                *member = *member << some | (lanes >> (16 * k) & 0xffff) as u32;
            }
            self.at += NG * some as usize;
            left -= some;
        }
        group
    }

    /// Reads ones up to and with the zero behind them, and counts them. Too many are refused before the end is, with the first
    /// that is too many: the code's end, and so its count, is not known then.
    fn ones(&mut self, limit: u32) -> Result<u32, Refusal> {
        const AT_ONCE: u32 = 56;
        let (mut ones, most) = (0, limit as usize - 1);
        loop {
            let run = self.window().leading_ones().min(AT_ONCE);
            ones += run;
            self.at += run as usize;
            require(Row::Count, self.place, Field::Ones, ones.min(limit) as usize, 0..=most)?;
            self.claim(1)?;
            if run < AT_ONCE {
                self.at += 1;
                return Ok(ones);
            }
        }
    }

    /// The variable length code (C.7.1, Table C.17), with θ as the threshold between its alphabets.
    fn vlc(&mut self, theta: u32, limit: u32) -> Result<i32, Refusal> {
        let n = self.ones(limit)? as i32;
        let theta = theta as i32;
        Ok(if n > 2 * theta {
            n - theta
        } else if n % 2 == 1 {
            -(n + 1) / 2
        } else {
            n / 2
        })
    }

    /// A bitplane count from its code, whose ones are fewer than `limit`, with its predictor and T. The code adds to the predictor what
    /// makes no less than T.
    pub fn count(&mut self, m_top: u32, t: u32, limit: u32) -> Result<u8, Refusal> {
        let m = m_top as i32 + self.vlc(m_top - t, limit)?;
        require(Row::Count, self.place, Field::M, m as usize, 0..=31)?;
        Ok(m as u8)
    }
}

/// The two bits that two bitplanes hold of each member of a code group, by the byte that holds the bitplanes:
/// each member's bits at the foot of its own 16 bits, the first member lowest.
const PAIRS: [u64; 256] = pairs();

const fn pairs() -> [u64; 256] {
    let mut table = [0; 256];
    let mut byte = 0;
    while byte < 256 {
        let mut k = 0;
        while k < NG {
            let (upper, lower) = (byte >> (7 - k) & 1, byte >> (3 - k) & 1);
            table[byte] |= ((2 * upper + lower) as u64) << (16 * k);
            k += 1;
        }
        byte += 1;
    }
    table
}

/// The members of a code group from the `planes` uppermost nibbles of `bits`, at most 15; each in 16 bits, as in `PAIRS`.
fn lanes(mut bits: u64, planes: u32) -> u64 {
    let mut lanes = 0;
    if planes % 2 == 1 {
        lanes = PAIRS[(bits >> 60) as usize];
        bits <<= 4;
    }
    for _ in 0..planes / 2 {
        lanes = lanes << 2 | PAIRS[(bits >> 56) as usize];
        bits <<= 8;
    }
    lanes
}

#[cfg(test)]
mod tests {
    use super::*;
    use crate::rules::Expected;

    fn bits(bytes: &[u8]) -> Bits<'_> {
        Bits::new(Subpacket { bytes, at: 9, field: Field::Counts })
    }

    /// Both alphabets of the code, against Table C.18.
    #[test]
    fn codes() {
        let code = |ones: u32, theta| {
            let bytes = (u64::MAX << 1 << (63 - ones)).to_be_bytes();
            bits(&bytes).vlc(theta, 64).unwrap()
        };
        let values: Vec<i32> = (0..8).map(|n| code(n, 2)).collect();
        assert_eq!(values, [0, -1, 1, -2, 2, 3, 4, 5]);
    }

    #[test]
    fn bytes_begun_and_untouched() {
        let after = |widths: &[u32]| {
            let mut bits = bits(&[0; 3]);
            widths.iter().for_each(|&width| assert_eq!(bits.take(width), 0));
            (bits.begun(), bits.untouched())
        };
        assert_eq!(after(&[]), (0, 3));
        assert_eq!(after(&[0]), (0, 3));
        assert_eq!(after(&[1]), (1, 2));
        assert_eq!(after(&[8]), (1, 2));
        assert_eq!(after(&[8, 1]), (2, 1));
        assert_eq!(after(&[8, 8, 7]), (3, 0));
        assert_eq!(after(&[8, 8, 8]), (3, 0));
    }

    /// A code takes the zero behind its ones too; a group takes a nibble for each bitplane.
    #[test]
    fn bytes_begun_by_codes_and_groups() {
        let after_codes = |bytes: &[u8], codes| {
            let mut bits = bits(bytes);
            (0..codes).for_each(|_| assert!(bits.vlc(0, 32).is_ok()));
            (bits.begun(), bits.untouched())
        };
        assert_eq!(after_codes(&[0xfe, 0], 1), (1, 1));
        assert_eq!(after_codes(&[0xff, 0], 1), (2, 0));
        assert_eq!(after_codes(&[0, 0xff], 8), (1, 1));
        let after_group = |planes| {
            let mut bits = bits(&[0; 16]);
            bits.group(planes);
            (bits.begun(), bits.untouched())
        };
        assert_eq!([1, 2, 3, 31, 32].map(after_group), [(1, 15), (1, 15), (2, 14), (16, 0), (16, 0)]);
    }

    /// What refuses a subpacket of these bytes at 9: the field, what is found, and what is expected.
    fn why<T>(result: Result<T, Refusal>) -> Result<T, (Row, Field, usize, Expected)> {
        result.map_err(|refusal| {
            assert_eq!(refusal.place, 9);
            (refusal.row, refusal.field, refusal.found, refusal.expected)
        })
    }

    #[test]
    fn long_and_cut_codes() {
        let ones = |bytes: &[u8], limit| why(bits(bytes).ones(limit));
        let too_many = |found| Err((Row::Count, Field::Ones, found, (0..=found - 1).into()));
        let cut = |found| Err((Row::Length, Field::Counts, found, (found + 1..).into()));
        assert_eq!(ones(&[0xff; 4], 32), too_many(32));
        assert_eq!(ones(&[0xff; 7], 32), too_many(32));
        assert_eq!(ones(&[0xff; 3], 32), cut(3));
        assert_eq!(ones(&[0xff, 0xff, 0xff, 0xfe], 32), Ok(31));
        assert_eq!(ones(&[0xff; 9], 64), too_many(64));
        assert_eq!(ones(&[0xff; 7], 64), cut(7));
        assert_eq!(ones(&[], 32), cut(0));
    }

    /// The count is told where it is too large, and not the ones of its code.
    #[test]
    fn counts_above_31() {
        let count = |ones: u32, m_top| {
            let bytes = (u64::MAX << 1 << (63 - ones)).to_be_bytes();
            why(bits(&bytes).count(m_top, 2, 64))
        };
        let too_large = |m| Err((Row::Count, Field::M, m, (0..=31).into()));
        assert_eq!([29, 30, 61].map(|ones| count(ones, 2)), [Ok(31), too_large(32), too_large(63)]);
        assert_eq!([0, 1, 2, 58].map(|ones| count(ones, 31)), [Ok(31), Ok(30), too_large(32), too_large(60)]);
        assert_eq!(count(59, 31), too_large(61));
        assert_eq!(count(57, 31), Ok(2));
    }

    #[test]
    fn claims_of_more_bits_than_there_are() {
        let claim = |bytes: usize, n| why(bits(&[0; 9][..bytes]).claim(n));
        let short = |bytes, needed: usize| Err((Row::Length, Field::Counts, bytes, (needed..).into()));
        assert_eq!([(0, 0), (1, 8), (9, 65)].map(|(bytes, n)| claim(bytes, n)), [Ok(()); 3]);
        assert_eq!(claim(0, 1), short(0, 1));
        assert_eq!(claim(1, 9), short(1, 2));
        assert_eq!(claim(2, 64), short(2, 8));
        assert_eq!(claim(2, 65), short(2, 9));
    }
}
