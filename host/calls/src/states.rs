//! Random sound states as words, and words changed so that they may be unsound.

use crate::random::Random;
use crate::view::{fresh_words, BANK, BLOCK, FIRST_BLOCK, FIRST_ROUTE, FIRST_SPI_BANK};
use plain_model::WORDS;

/// The IDs of a bank that exist at its place: the last bank of all has 28.
fn existing(b: usize) -> u32 {
    if b == 31 {
        0x0FFF_FFFF
    } else {
        u32::MAX
    }
}

impl Random {
    /// Distinct affinities that are valid.
    pub fn affinities(&mut self, n: usize) -> Vec<u32> {
        let mut affinities: Vec<u32> = Vec::new();
        while affinities.len() < n {
            let affinity = self.affinity() & 0xFF_FF0F;
            if !affinities.contains(&affinity) {
                affinities.push(affinity);
            }
        }
        affinities
    }

    /// An initialised device whose fields have any values in their ranges.
    pub fn sound_words(&mut self, count: usize, affinities: &[u32]) -> Vec<u32> {
        let mut words = fresh_words(count, affinities);
        words[3] = self.pick(&[3, 3, 2, 1, 0]);
        words[4] = self.word() & 0xF;
        let runs = self.chance(50);
        for v in 0..affinities.len() {
            let block = &mut words[FIRST_BLOCK + BLOCK * v..][..BLOCK];
            self.fill_bank(&mut block[..BANK], u32::MAX);
            block[4] &= 0xFFFF_0000;
            block[13] = 0xFFFF;
            block[14] = 0;
            self.fill_interface(&mut block[BANK..], runs);
        }
        let full = self.chance(50);
        for b in 1..count / 32 {
            let bank = &mut words[FIRST_SPI_BANK + BANK * (b - 1)..][..BANK];
            if full || self.chance(30) {
                self.fill_bank(bank, existing(b));
            }
        }
        for id in 32..count.min(1020) {
            words[FIRST_ROUTE + id - 32] = self.route_word(affinities);
        }
        words
    }

    fn route_word(&mut self, affinities: &[u32]) -> u32 {
        match self.below(8) {
            0 => self.word() & 0xFF_FFFF,
            1 => 0,
            _ => self.pick(affinities),
        }
    }

    fn fill_bank(&mut self, bank: &mut [u32], existing: u32) {
        for word in &mut bank[..5] {
            *word = self.bits() & existing;
        }
        bank[3] &= self.word();
        for (j, word) in bank[5..13].iter_mut().enumerate() {
            if existing >> (4 * j) & 0xF != 0 {
                *word = self.bits() & 0xF8F8_F8F8;
            }
        }
        bank[13] = self.bits() & existing & 0xFFFF;
        bank[14] = self.bits() & existing >> 16;
    }

    fn fill_interface(&mut self, block: &mut [u32], runs: bool) {
        block[1] = u32::from(runs && self.chance(70));
        block[2] = self.word() & 0xF;
        block[3] = (self.word() | self.pick(&[0, 0xF8])) & 0xF8;
        block[4] = self.word() & 2;
        block[5] = 2 + self.below(6) as u32;
        block[6] = 3 + self.below(5) as u32;
        for ap in &mut block[7..9] {
            *ap = match self.below(4) {
                0 => self.bits(),
                1 => 1 << self.below(32),
                _ => 0,
            };
        }
        for on in &mut block[9..11] {
            *on = u32::from(self.chance(80));
        }
    }

    /// Changes some words to values that may or may not be allowed.
    pub fn change_words(&mut self, words: &mut [u32]) {
        match self.below(10) {
            0 => {
                let header = self.below(3);
                words[header] = self.pick(&[0, 0, 1, 2, 8, 9, 32, 64, 96, 1024, 1056]);
            }
            1 => words[0] ^= 1,
            2 => {
                let [from, to] = [0; 2].map(|_| FIRST_BLOCK + BLOCK * self.below(8) + BANK);
                words[to] = words[from];
            }
            _ => {
                for _ in 0..1 + self.below(2) {
                    self.change_word(words);
                }
            }
        }
    }

    fn change_word(&mut self, words: &mut [u32]) {
        let at = self.interesting_word();
        words[at] = match self.below(6) {
            0 => 0,
            1 => self.bits(),
            2 => words[at].wrapping_add(1),
            3 => words[at].wrapping_sub(1),
            4 => words[self.below(WORDS)],
            _ => words[at] ^ 1 << self.below(32),
        };
    }

    /// A word's place, weighted to the header and the vCPUs' blocks.
    fn interesting_word(&mut self) -> usize {
        match self.below(8) {
            0 => self.below(6),
            1 => FIRST_BLOCK + BLOCK * self.below(8) + BANK + self.below(BANK),
            2 => FIRST_BLOCK + self.below(8 * BLOCK),
            3 => FIRST_SPI_BANK + self.below(31 * BANK),
            4 => WORDS - 1 - self.below(40),
            _ => self.below(WORDS),
        }
    }
}
