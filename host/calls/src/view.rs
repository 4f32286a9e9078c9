//! What the generator looks up in a state's words, by the places of docs/STATE.md.

use plain_model::WORDS;

pub const FIRST_BLOCK: usize = 16;
pub const BLOCK: usize = 32;
pub const FIRST_SPI_BANK: usize = 272;
pub const BANK: usize = 16;
pub const FIRST_ROUTE: usize = 768;

/// Words of a sound state.
#[derive(Clone, Copy)]
pub struct View<'a>(pub &'a [u32]);

impl View<'_> {
    pub fn is_initialised(&self) -> bool {
        self.0[0] == 1
    }

    pub fn count(&self) -> usize {
        self.0[1] as usize
    }

    pub fn vcpus(&self) -> usize {
        self.0[2] as usize
    }

    pub fn affinity(&self, v: usize) -> u32 {
        self.0[FIRST_BLOCK + BLOCK * v + 16]
    }

    pub fn affinities(&self) -> Vec<u32> {
        (0..self.vcpus()).map(|v| self.affinity(v)).collect()
    }

    pub fn is_running(&self, v: usize) -> bool {
        self.0[FIRST_BLOCK + BLOCK * v + 17] == 1
    }

    /// The active interrupts of bank `b` as vCPU `v` sees it.
    pub fn active(&self, v: usize, b: usize) -> u32 {
        match b {
            0 => self.0[FIRST_BLOCK + BLOCK * v + 3],
            _ => self.0[FIRST_SPI_BANK + BANK * (b - 1) + 3],
        }
    }
}

/// The words of a device just initialised.
pub fn fresh_words(count: usize, affinities: &[u32]) -> Vec<u32> {
    let mut words = vec![0; WORDS];
    words[0] = 1;
    words[1] = count as u32;
    words[2] = affinities.len() as u32;
    for (v, &affinity) in affinities.iter().enumerate() {
        let block = &mut words[FIRST_BLOCK + BLOCK * v..][..BLOCK];
        block[13] = 0xFFFF;
        block[16] = affinity;
        block[21] = 2;
        block[22] = 3;
    }
    words
}
