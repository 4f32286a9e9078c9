//! States with one word, or the length, out of range.

use calls::{fresh_words, Call, BANK, BLOCK, FIRST_BLOCK, FIRST_ROUTE, FIRST_SPI_BANK};
use plain_model::WORDS;

/// A state with its name, and the words that make it unsound, each alone.
pub struct Base {
    pub name: &'static str,
    pub words: Vec<u32>,
    pub damages: &'static [(usize, u32)],
}

/// The blocks of the vCPUs of the first indexes, and the last bank of SPIs.
const V0: usize = FIRST_BLOCK;
const V1: usize = V0 + BLOCK;
const V2: usize = V1 + BLOCK;
const LAST_BANK: usize = FIRST_SPI_BANK + 30 * BANK;

/// Before initialising only count, affinities and fresh values may be there.
const BEGUN: [(usize, u32); 14] = [
    (0, 2),
    (1, 32),
    (1, 1056),
    (3, 1),
    (4, 1),
    (V0, 1),
    (V0 + 17, 1),
    (V0 + 19, 8),
    (V0 + 21, 3),
    (V0 + 23, 1),
    (V0 + 26, 1),
    (V1 + 21, 2),
    (FIRST_SPI_BANK, 1),
    (FIRST_ROUTE, 1),
];

/// What no initialised device of count 64 and two vCPUs has.
const SMALL: [(usize, u32); 36] = [
    (1, 0),
    (1, 65),
    (2, 0),
    (2, 1),
    (2, 3),
    (2, 9),
    (3, 4),
    (4, 16),
    (15, 1),
    (V1 + 4, 1 << 15),
    (V1 + 5, 4),
    (V1 + 12, 4 << 24),
    (V1 + 13, 0xFFFE),
    (V1 + 14, 1),
    (V1 + 15, 1),
    (V1 + 16, 0x10),
    (V1 + 16, 0x100_0000),
    (V1 + 16, 0),
    (V1 + 17, 2),
    (V1 + 18, 16),
    (V1 + 19, 4),
    (V1 + 20, 1),
    (V1 + 21, 1),
    (V1 + 21, 8),
    (V1 + 22, 2),
    (V1 + 25, 2),
    (V1 + 26, 2),
    (V1 + 27, 1),
    (V2, 1),
    (FIRST_SPI_BANK + 12, 1 << 24),
    (FIRST_SPI_BANK + 13, 0x1_0000),
    (FIRST_SPI_BANK + 14, 0x1_0000),
    (FIRST_SPI_BANK + 15, 1),
    (FIRST_SPI_BANK + BANK, 1),
    (FIRST_ROUTE, 0x100_0000),
    (FIRST_ROUTE + 32, 1),
];

/// At count 1024 the IDs 1020 to 1023 do not exist.
const LARGE: [(usize, u32); 6] = [
    (LAST_BANK + 2, 1 << 28),
    (LAST_BANK + 4, 1 << 28),
    (LAST_BANK + 12, 8),
    (LAST_BANK + 14, 1 << 12),
    (WORDS - 4, 1),
    (WORDS - 1, 1),
];

/// A device with one vCPU that is not initialised, one of the least count, and one of the largest.
pub fn bases() -> [Base; 3] {
    let mut begun = fresh_words(96, &[0x10203]);
    begun[0] = 0;
    let base = |name, words, damages| Base {
        name,
        words,
        damages,
    };
    [
        base("begun", begun, &BEGUN),
        base("small", fresh_words(64, &[0, 0xF]), &SMALL),
        base("large", fresh_words(1024, &[7]), &LARGE),
    ]
}

/// Every kind of call but making a device, in groups; any of them would be granted or refused otherwise on a sound state.
#[rustfmt::skip]
pub fn calls() -> Vec<Vec<Call>> {
    let (v, frame, size, value) = (0, 0, 4, 1);
    vec![
        vec![Call::AddVcpu { mpidr: 1 }, Call::set(4, 0, 0)],
        vec![Call::SetRunning { v, on: true }, Call::get(3, 0)],
        vec![Call::ReadDistributor { v, offset: 0, size }, Call::WriteSystem { v, encoding: 0xC230, value }],
        vec![Call::WriteDistributor { v, offset: 0, size, value }, Call::QuerySignal { v }],
        vec![Call::ReadFrame { v, frame, offset: 8, size }, Call::ChangeLine { v, id: 32, level: true }],
        vec![Call::WriteFrame { v, frame, offset: 0x10100, size, value }, Call::Save { buf: vec![0xA5; 20] }],
        vec![Call::ReadSystem { v, encoding: 0xC660 }, Call::Restore { bytes: vec![1] }],
    ]
}
