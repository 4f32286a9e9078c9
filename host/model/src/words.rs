//! The lent state: the words of docs/STATE.md to and from the fields.

use crate::bank::{Bank, PRIORITY_MASK};
use crate::state::{is_affinity, is_count, Device, Vcpu, LEAST_BPR, MOST_VCPUS, PPIS, SPI_BANKS};

/// Length of the lent state.
pub const WORDS: usize = 1760;

const VCPU_BLOCKS: usize = 16;
const VCPU_BLOCK: usize = 32;
const SPI_BANK_BLOCKS: usize = 272;
const BANK_BLOCK: usize = 16;
const ROUTES: usize = 768;

impl Bank {
    fn to_words(self, words: &mut [u32]) {
        words[0] = self.group;
        words[1] = self.enabled;
        words[2] = self.latch;
        words[3] = self.active;
        words[4] = self.line;
        for j in 0..8 {
            words[5 + j] = self.priority_word(j);
        }
        words[13] = self.edge & 0xFFFF;
        words[14] = self.edge >> 16;
    }

    /// The fields of the interrupts that exist, bits out of range dropped.
    fn from_words(words: &[u32], existing: u32) -> Bank {
        let mut bank = Bank {
            group: words[0] & existing,
            enabled: words[1] & existing,
            latch: words[2] & existing,
            active: words[3] & existing,
            line: words[4] & existing,
            edge: (words[13] & 0xFFFF | words[14] << 16) & existing,
            priority: [0; 32],
        };
        for j in 0..8 {
            bank.set_priority_word(j, words[5 + j], existing);
        }
        bank
    }
}

impl Vcpu {
    fn to_words(self, words: &mut [u32]) {
        self.private.to_words(&mut words[..BANK_BLOCK]);
        words[16] = self.affinity;
        words[17] = self.running.into();
        words[18] = self.statusr;
        words[19] = self.pmr;
        words[20] = u32::from(self.eoimode) << 1;
        words[21..23].copy_from_slice(&self.bpr);
        words[23..25].copy_from_slice(&self.ap);
        words[25..27].copy_from_slice(&self.group_enable.map(u32::from));
    }

    /// The fields, bits out of range dropped or raised.
    fn from_words(words: &[u32]) -> Vcpu {
        let mut private = Bank::from_words(&words[..BANK_BLOCK], u32::MAX);
        private.line &= PPIS;
        private.edge = !PPIS;
        let [least0, least1] = LEAST_BPR;
        Vcpu {
            private,
            affinity: words[16],
            running: words[17] != 0,
            statusr: words[18] & 0xF,
            pmr: words[19] & u32::from(PRIORITY_MASK),
            eoimode: words[20] != 0,
            bpr: [words[21].clamp(least0, 7), words[22].clamp(least1, 7)],
            ap: [words[23], words[24]],
            group_enable: [words[25] != 0, words[26] != 0],
        }
    }
}

impl Device {
    /// Writes every word of the state. `words` has `WORDS` words.
    pub fn to_words(&self, words: &mut [u32]) {
        assert_eq!(words.len(), WORDS);
        words.fill(0);
        words[0] = self.initialised.into();
        words[1] = self.count as u32;
        words[2] = self.vcpu_count as u32;
        words[3] = self.enables();
        words[4] = self.statusr;
        for (v, vcpu) in self.vcpus.iter().enumerate() {
            vcpu.to_words(&mut words[VCPU_BLOCKS + VCPU_BLOCK * v..][..VCPU_BLOCK]);
        }
        for (b, bank) in self.spis.iter().enumerate() {
            bank.to_words(&mut words[SPI_BANK_BLOCKS + BANK_BLOCK * b..][..BANK_BLOCK]);
        }
        words[ROUTES..ROUTES + self.route.len()].copy_from_slice(&self.route);
    }

    /// The device that the words are, if they are a sound state.
    pub fn from_words(words: &[u32]) -> Option<Device> {
        if words.len() != WORDS {
            return None;
        }
        let mut device = Device::made();
        device.initialised = words[0] != 0;
        device.count = sound_count(words[1])?;
        device.vcpu_count = Some(words[2] as usize).filter(|&n| n <= MOST_VCPUS)?;
        if device.initialised && (device.count == 0 || device.vcpu_count == 0) {
            return None;
        }
        device.take_fields(words);
        let fits_phase = device.initialised || device == device.without_history();
        if !device.has_sound_affinities() || !fits_phase {
            return None;
        }
        // One pattern of words for one set of fields: a word that held more than its field differs.
        let mut back = [0; WORDS];
        device.to_words(&mut back);
        (back == words).then_some(device)
    }

    /// Takes what exists at this count and number of vCPUs.
    fn take_fields(&mut self, words: &[u32]) {
        self.group_enable = [words[3] & 1 != 0, words[3] & 2 != 0];
        self.statusr = words[4] & 0xF;
        for v in 0..self.vcpu_count {
            self.vcpus[v] = Vcpu::from_words(&words[VCPU_BLOCKS + VCPU_BLOCK * v..][..VCPU_BLOCK]);
        }
        for b in 0..SPI_BANKS {
            let block = &words[SPI_BANK_BLOCKS + BANK_BLOCK * b..][..BANK_BLOCK];
            self.spis[b] = Bank::from_words(block, self.existing(b + 1));
        }
        for i in 0..self.spi_ids().len() {
            self.route[i] = words[ROUTES + i] & 0xFF_FFFF;
        }
    }

    /// Every affinity is valid and no two are equal.
    fn has_sound_affinities(&self) -> bool {
        let affinities = self.present().iter().map(|vcpu| vcpu.affinity);
        let mut indexed = affinities.enumerate();
        indexed.all(|(v, affinity)| is_affinity(affinity) && self.index_of(affinity) == Some(v))
    }
}

/// The count that a word holds, 0 where unset.
fn sound_count(word: u32) -> Option<usize> {
    (word == 0 || is_count(word.into())).then_some(word as usize)
}
