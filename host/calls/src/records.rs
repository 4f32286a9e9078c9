//! Records: their numbers, and damage to them.

use crate::random::Random;

/// The bytes of a number in shortest form.
pub fn groups(mut value: u64) -> Vec<u8> {
    let mut bytes = Vec::new();
    while value > 0x7F {
        bytes.push(value as u8 | 0x80);
        value >>= 7;
    }
    bytes.push(value as u8);
    bytes
}

/// The numbers of a well-formed record.
pub fn numbers(record: &[u8]) -> Vec<u64> {
    let parts = record.split_inclusive(|byte| byte & 0x80 == 0);
    parts.map(number).collect()
}

fn number(part: &[u8]) -> u64 {
    let low_first = part.iter().rev();
    low_first.fold(0, |value, byte| value << 7 | u64::from(byte & 0x7F))
}

/// The record of these numbers.
pub fn record(numbers: &[u64]) -> Vec<u8> {
    numbers.iter().flat_map(|&value| groups(value)).collect()
}

/// The place of the first of the 15 numbers of the last bank of SPIs, where the header is good.
fn last_bank(numbers: &[u64]) -> Option<usize> {
    let &[_, count @ 64..=1024, vcpus @ 1..=8, ..] = numbers else {
        return None;
    };
    Some(5 + vcpus as usize + 15 * (count as usize / 32 - 2))
}

impl Random {
    /// A record damaged in some way, or whole.
    pub fn damaged(&mut self, whole: &[u8]) -> Vec<u8> {
        let mut bytes = whole.to_vec();
        for _ in 0..self.pick(&[0, 1, 1, 1, 1, 2]) {
            bytes = self.damage(bytes);
        }
        bytes
    }

    fn damage(&mut self, mut bytes: Vec<u8>) -> Vec<u8> {
        if bytes.is_empty() {
            return bytes;
        }
        match self.below(12) {
            0 => bytes.truncate(self.below(bytes.len())),
            1 => bytes.truncate(bytes.len() - 1),
            2 => {
                let length = 1 + self.below(3);
                bytes.extend(self.bytes(length));
            }
            3 => bytes.push(0),
            4 => {
                let at = self.below(bytes.len());
                bytes[at] ^= 1 << self.below(8);
            }
            5 | 6 => bytes = self.with_bad_form(&bytes),
            _ => bytes = self.with_other_number(&bytes),
        }
        bytes
    }

    /// One number changed: beside it, a bit more or less, or any.
    fn with_other_number(&mut self, bytes: &[u8]) -> Vec<u8> {
        let mut numbers = numbers(bytes);
        let at = self.number_place(&numbers);
        let old = numbers[at];
        numbers[at] = match self.below(8) {
            0 => old.wrapping_sub(1) & 0xFFFF_FFFF,
            1 => old.wrapping_add(1),
            2 => old | 1 << self.below(32),
            3 => old ^ 1 << self.below(32),
            4 => self.below(9) as u64,
            5 => u64::from(self.bits() & 0xF8F8_F8F8),
            6 => u64::from(self.bits()),
            _ => numbers[self.below(numbers.len())],
        };
        record(&numbers)
    }

    /// A place in a record, weighted to its ends and to the last bank of SPIs.
    fn number_place(&mut self, numbers: &[u64]) -> usize {
        let length = numbers.len();
        let near = self.below(length.min(30));
        match self.below(7) {
            0 => near,
            1 => length - 1 - near,
            2 | 3 => last_bank(numbers)
                .map_or(near, |first| first + self.below(15))
                .min(length - 1),
            _ => self.below(length),
        }
    }

    /// One number in a form that is not its shortest, or above 2^32 - 1.
    fn with_bad_form(&mut self, bytes: &[u8]) -> Vec<u8> {
        let numbers = numbers(bytes);
        let at = self.number_place(&numbers);
        let mut form = groups(numbers[at]);
        match self.below(4) {
            0 => form = groups(1 << (32 + self.below(32))),
            1 => form = groups(1 << 32 | numbers[at]),
            2 => form = vec![0x80 | numbers[at] as u8; 5 + self.below(12)],
            _ => {
                *form.last_mut().expect("a number has a byte") |= 0x80;
                form.extend(vec![0x80; self.below(3)]);
                form.push(0);
            }
        }
        [record(&numbers[..at]), form, record(&numbers[at + 1..])].concat()
    }
}
