//! Operands that are drawn from a seed, and checksums of results, as the library draws and makes them.

pub use crate::random::Random;

/// The sum of no words.
pub const EMPTY: u64 = 0xcbf2_9ce4_8422_2325;

impl Random {
    pub fn number(&mut self) -> u128 {
        let high = u128::from(self.word());
        high << 64 | u128::from(self.word())
    }

    /// A byte that is not 0.
    pub fn byte(&mut self) -> u8 {
        (self.word() % 255) as u8 + 1
    }

    pub fn numbers(&mut self, count: usize) -> Vec<u128> {
        (0..count).map(|_| self.number()).collect()
    }

    pub fn bytes(&mut self, count: usize) -> Vec<u8> {
        (0..count).map(|_| self.byte()).collect()
    }
}

pub fn with_word(sum: u64, word: u64) -> u64 {
    (sum ^ word).wrapping_mul(0x0100_0000_01b3).rotate_left(29)
}

pub fn sum_of_numbers(values: impl IntoIterator<Item = u128>) -> u64 {
    values.into_iter().fold(EMPTY, |sum, number| {
        with_word(with_word(sum, number as u64), (number >> 64) as u64)
    })
}

pub fn sum_of_bytes(bytes: impl IntoIterator<Item = u8>) -> u64 {
    bytes
        .into_iter()
        .fold(EMPTY, |sum, byte| with_word(sum, byte.into()))
}
