//! Random numbers of each parameter: good ones, those beside them and any others.

use crate::random::Random;
use crate::view::View;

/// First and last listed byte of each row of the distributor.
const DISTRIBUTOR_ROWS: [(u64, u64); 15] = [
    (0x0, 0x3),
    (0x4, 0x7),
    (0x8, 0xB),
    (0x10, 0x13),
    (0x80, 0xFF),
    (0x100, 0x17F),
    (0x180, 0x1FF),
    (0x200, 0x27F),
    (0x280, 0x2FF),
    (0x300, 0x37F),
    (0x380, 0x3FF),
    (0x400, 0x7FF),
    (0xC00, 0xCFF),
    (0x6100, 0x7FDF),
    (0x6000, 0x60FF),
];

/// The rows of a redistributor's frame, and the ends of its pages.
const FRAME_ROWS: [(u64, u64); 18] = [
    (0x0, 0x3),
    (0x4, 0x7),
    (0x8, 0xB),
    (0xC, 0xF),
    (0x10, 0x13),
    (0x14, 0x17),
    (0x10080, 0x10083),
    (0x10100, 0x10103),
    (0x10180, 0x10183),
    (0x10200, 0x10203),
    (0x10280, 0x10283),
    (0x10300, 0x10303),
    (0x10380, 0x10383),
    (0x10400, 0x1041F),
    (0x10C00, 0x10C03),
    (0x10C04, 0x10C07),
    (0x80, 0x41F),
    (0x20000, 0x20017),
];

/// Registers of one word for 32 interrupts, from IGROUPR to ICACTIVER.
pub const FLAG_REGISTERS: [u64; 7] = [0x80, 0x100, 0x180, 0x200, 0x280, 0x300, 0x380];

pub const STORED: [u64; 9] = [
    0xC230, 0xC643, 0xC644, 0xC648, 0xC663, 0xC664, 0xC665, 0xC666, 0xC667,
];
pub const READ_ONLY: [u64; 5] = [0xC640, 0xC642, 0xC65B, 0xC660, 0xC662];
pub const WRITE_ONLY: [u64; 5] = [0xC641, 0xC659, 0xC65D, 0xC65F, 0xC661];
const PRIORITIES: [u32; 8] = [0x00, 0x08, 0x20, 0x50, 0xA0, 0xA7, 0xF0, 0xFF];

impl Random {
    /// An index, mostly of a vCPU that there is.
    pub fn index(&mut self, view: View) -> usize {
        let n = view.vcpus();
        if n > 0 && self.chance(94) {
            return self.below(n);
        }
        match self.below(6) {
            0 => n,
            1 => self.below(10),
            2 => usize::MAX,
            3 => self.below(8) | 1 << self.pick(&[8, 16, 31, 32, 63]),
            4 if n > 0 => view.affinity(self.below(n)) as usize,
            _ => self.any64() as usize,
        }
    }

    /// An index, mostly of a vCPU that runs.
    pub fn running_index(&mut self, view: View) -> usize {
        let v = self.index(view);
        let running: Vec<usize> = (0..view.vcpus()).filter(|&v| view.is_running(v)).collect();
        if running.is_empty() || v >= view.vcpus() || self.chance(5) {
            v
        } else {
            self.pick(&running)
        }
    }

    /// An affinity, mostly a vCPU's.
    pub fn affinity_of(&mut self, view: View) -> u32 {
        let n = view.vcpus();
        if n > 0 && self.chance(93) {
            return view.affinity(self.below(n));
        }
        match self.below(4) {
            0 if n > 0 => view.affinity(self.below(n)) ^ 1 << self.below(32),
            1 => self.below(9) as u32,
            2 => self.word(),
            _ => self.affinity(),
        }
    }

    /// An affinity for a vCPU, from few so that some are in use; now and then a bad one.
    pub fn affinity(&mut self) -> u32 {
        let aff0 = match self.below(40) {
            0 => 16,
            1 => self.word() & 0xFF,
            _ => self.word() & 0xF,
        };
        let aff1 = self.pick(&[0, 0, 0, 1, 0x80, 0xFF]);
        let aff2 = self.pick(&[0, 0, 0, 1, 0x80, 0xFF]);
        let aff3 = if self.chance(97) { 0 } else { self.word() };
        aff3 << 24 | aff2 << 16 | aff1 << 8 | aff0
    }

    /// An interrupt count, weighted to the ends.
    pub fn count(&mut self) -> usize {
        match self.below(8) {
            0 | 1 => 64,
            2 => 96,
            3 => 992,
            4 | 5 => 1024,
            _ => 64 + 32 * self.below(31),
        }
    }

    /// A bank: of the first, of the last that there are, beside them, or any.
    pub fn bank(&mut self, view: View) -> usize {
        let banks = view.count() / 32;
        match self.below(10) {
            0 => 0,
            1..=3 => 1,
            4..=5 if banks > 0 => banks - 1,
            6 => banks.min(31),
            7 => 31,
            8 if banks > 0 => self.below(banks),
            _ => self.below(32),
        }
    }

    /// An interrupt's ID, or a number beside those that there are.
    pub fn id(&mut self, view: View) -> usize {
        let count = view.count();
        match self.below(40) {
            0 => 1016 + self.below(10),
            1 => (count + self.below(4)).saturating_sub(self.below(6)),
            2 => self.any64() as usize,
            3 => self.below(1024) | 1 << self.pick(&[10, 16, 23, 24, 32, 63]),
            4..=6 => self.below(16),
            7..=14 => 16 + self.below(16),
            15..=24 if count > 32 => 32 + self.below(count - 32),
            25..=31 => 32 + self.below(8),
            _ => 32 * self.bank(view) + self.below(32),
        }
    }

    /// An ID that is active for a vCPU, if one is met soon.
    fn active_id(&mut self, view: View, v: usize) -> usize {
        for _ in 0..6 {
            let b = self.bank(view);
            let active = view.active(v, b);
            if active != 0 {
                let turn = self.below(32) as u32;
                let i = active.rotate_right(turn).trailing_zeros() + turn;
                return 32 * b + i as usize % 32;
            }
        }
        self.id(view)
    }

    /// Any 64 bits, or few.
    pub fn value(&mut self) -> u64 {
        match self.below(10) {
            0 => self.any64(),
            1 => self.below(16) as u64,
            2 => 1 << self.below(64),
            3 => u64::from(self.bits()) << 32,
            _ => u64::from(self.bits()),
        }
    }

    fn priorities(&mut self) -> u32 {
        let mut byte = || self.pick(&PRIORITIES);
        byte() << 24 | byte() << 16 | byte() << 8 | byte()
    }

    /// Ignored bits above a value's 32, now and then.
    pub fn junk_above(&mut self) -> u64 {
        match self.below(8) {
            0 => self.any64() << 32,
            1 => 1 << (32 + self.below(32)),
            _ => 0,
        }
    }

    pub fn size(&mut self) -> u64 {
        match self.below(20) {
            0 => self.below(10) as u64,
            1 | 2 => 8,
            3 => 1,
            4 => self.pick(&[4 | 1 << 32, 1 | 1 << 32, 4 | 1 << 63, u64::MAX, 12, 0x104]),
            _ => 4,
        }
    }

    /// An offset, now and then with a bit above its 32.
    pub fn wide(&mut self, offset: u64) -> u64 {
        match self.below(32) {
            0 => offset | 1 << (32 + self.below(32)),
            _ => offset,
        }
    }

    /// An offset beside or inside a row, or any.
    fn any_offset(&mut self, rows: &[(u64, u64)]) -> u64 {
        let (first, last) = self.pick(rows);
        match self.below(6) {
            0 => first.wrapping_sub(self.pick(&[4, 4, 8, 1, 2])),
            1 => last + self.pick(&[1, 1, 5, 0, 2]),
            2 | 3 => first + self.below((last - first + 1) as usize) as u64,
            4 => first | 1 << self.pick(&[15, 16, 17, 31, 32, 33, 63]),
            _ => self.any64() >> self.below(64),
        }
    }

    /// An offset of the distributor with a value that suits what is there.
    pub fn distributor_word(&mut self, view: View) -> (u64, u64) {
        let b = self.bank(view) as u64;
        let (offset, value) = match self.below(24) {
            0 => (0, self.pick(&[3, 3, 2, 1, 0, u32::MAX, 0x50])),
            1 => (
                self.pick(&[4, 8]),
                self.pick(&[0x0100_1000, 0, 0x0100_1001]),
            ),
            2 => (0x10, self.bits()),
            3..=6 => (0x400 + 32 * b + 4 * self.below(8) as u64, self.priorities()),
            7 => (0xC00 + 8 * b + 4 * self.below(2) as u64, self.bits()),
            8..=10 => self.route(view),
            11 | 12 => return (self.any_offset(&DISTRIBUTOR_ROWS), self.value()),
            _ => (self.pick(&FLAG_REGISTERS) + 4 * b, self.bits()),
        };
        (offset, u64::from(value) | self.junk_above())
    }

    /// IROUTER of an SPI, mostly with a vCPU's affinity.
    fn route(&mut self, view: View) -> (u64, u32) {
        let id = (32 * self.bank(view) + self.below(32)).clamp(32, 1019) as u64;
        let high = if self.chance(10) { 4 } else { 0 };
        let above = if self.chance(20) {
            self.word() << 24
        } else {
            0
        };
        (0x6000 + 8 * id + high, self.affinity_of(view) | above)
    }

    /// An offset of a frame with a value that suits what is there.
    pub fn frame_word(&mut self) -> (u64, u64) {
        let (offset, value) = match self.below(16) {
            0 => (4, self.pick(&[0x0100_1000, 0, 0x0100_1001])),
            1 => (self.pick(&[0, 8, 0xC, 0x14]), self.bits()),
            2 => (0x10, self.bits()),
            3..=5 => (0x10400 + 4 * self.below(8) as u64, self.priorities()),
            6 => (self.pick(&[0x10C00, 0x10C04]), self.bits()),
            7 | 8 => return (self.any_offset(&FRAME_ROWS), self.value()),
            _ => (0x10000 + self.pick(&FLAG_REGISTERS), self.bits()),
        };
        (offset, u64::from(value) | self.junk_above())
    }

    /// An offset for an access of one byte: mostly within IPRIORITYR.
    pub fn priority_byte(&mut self, view: View, base: u64) -> u64 {
        let id = match base {
            0x400 => 32 * self.bank(view) + self.below(32),
            _ => self.below(36),
        };
        base + id as u64
    }

    /// An encoding that is wrong in some way.
    fn wrong_encoding(&mut self) -> u64 {
        let near = self.pick(&[0xC230, 0xC640, 0xC641, 0xC650, 0xC660, 0xC661, 0xC667]);
        match self.below(5) {
            0 => near ^ 1 << self.below(16),
            1 => near | 1 << (16 + self.below(48)),
            2 => 0xC600 + self.below(0x80) as u64,
            3 => self.any64() & 0xFFFF,
            _ => self.any64(),
        }
    }

    /// An encoding for a read.
    pub fn read_encoding(&mut self) -> u64 {
        match self.below(20) {
            0..=10 => self.pick(&[0xC640, 0xC660]),
            11..=14 => self.pick(&READ_ONLY),
            15..=16 => self.pick(&STORED),
            17 => self.pick(&WRITE_ONLY),
            _ => self.wrong_encoding(),
        }
    }

    /// An encoding for a write by vCPU `v`, with a value that suits it.
    pub fn written(&mut self, view: View, v: usize) -> (u64, u64) {
        match self.below(24) {
            0..=6 => (self.pick(&[0xC641, 0xC661]), self.ended_id(view, v)),
            7..=8 => (0xC659, self.ended_id(view, v)),
            9..=11 => (self.pick(&[0xC65D, 0xC65F]), self.sgi(view)),
            12 => (self.pick(&READ_ONLY), self.value()),
            13 | 14 => (self.wrong_encoding(), self.value()),
            _ => self.stored(),
        }
    }

    /// A register that is stored, with a value.
    pub fn stored(&mut self) -> (u64, u64) {
        let encoding = self.pick(&STORED);
        let value = match encoding {
            0xC230 => u64::from(self.pick(&PRIORITIES) | self.pick(&[0, 0xF8])),
            0xC643 | 0xC663 => self.below(9) as u64,
            0xC644 | 0xC648 if self.chance(70) => 0,
            0xC644 | 0xC648 => u64::from(self.word() & self.word() & self.bits()),
            0xC664 => self.pick(&[0x400, 0x402, 0x402, 0x403, 0, 2, 0x401, 0x400 | 1 << 32]),
            0xC665 => self.pick(&[7, 7, 7, 0, 3, 0xF, 7 | 1 << 32]),
            _ => self.pick(&[1, 1, 1, 0, 2, 3]),
        };
        match self.below(10) {
            0 => (encoding, self.value()),
            1 => (encoding, value | self.any64() << 32),
            _ => (encoding, value),
        }
    }

    /// The value of an EOIR or DIR.
    fn ended_id(&mut self, view: View, v: usize) -> u64 {
        let id = if v < view.vcpus() && self.chance(80) {
            self.active_id(view, v)
        } else {
            self.id(view)
        };
        let above = match self.below(8) {
            0 => self.any64() << 24,
            1 => 1 << (10 + self.below(14)),
            _ => 0,
        };
        id as u64 | above
    }

    /// The value of an SGI1R or SGI0R.
    fn sgi(&mut self, view: View) -> u64 {
        let affinity = u64::from(self.affinity_of(view));
        let list = match self.below(3) {
            0 => 1 << (affinity & 0xF),
            1 => 0xFFFF,
            _ => self.any64() & 0xFFFF,
        };
        let aff3 = if self.chance(90) {
            0
        } else {
            self.any64() & 0xFF
        };
        let all_others = u64::from(self.chance(20));
        let ignored = match self.below(4) {
            0 => self.any64() & 0xFF00_FE00_F000_0000,
            1 => 1 << self.pick(&[28, 31, 41, 43, 44, 47, 56, 63]),
            _ => 0,
        };
        let clusters = (affinity >> 16 & 0xFF) << 32 | (affinity >> 8 & 0xFF) << 16;
        let id = self.any64() & 0xF;
        aff3 << 48 | all_others << 40 | clusters | id << 24 | list | ignored
    }

    /// Group, number and value of an attribute.
    pub fn attribute(&mut self, view: View) -> (u64, u64, u64) {
        let of_vcpu = u64::from(self.affinity_of(view)) << 32;
        match self.below(20) {
            0 => (3, self.value(), self.count_value()),
            1 => (4, self.pick(&[0, 0, 1, 1 << 32]), self.value()),
            2 => {
                let any = self.any64();
                let group = self.pick(&[0, 2, 8, 9, 1 << 32 | 1, any]);
                (group, self.value(), self.value())
            }
            3..=8 => {
                let (offset, value) = self.distributor_word(view);
                let ignored = if self.chance(30) { of_vcpu } else { 0 };
                (1, offset & 0xFFFF_FFFF | ignored, value)
            }
            9..=12 => {
                let (offset, value) = self.frame_word();
                (5, offset & 0xFFFF_FFFF | of_vcpu, value)
            }
            13..=16 => self.interface_attribute(of_vcpu),
            _ => {
                let number = match self.below(10) {
                    0 => self.below(1100) as u64,
                    2 => self.pick(&[31, 33, 1023, 1024, 1056]),
                    1 => self.any64() & 0xFFFF_FFFF,
                    _ => 32 * self.bank(view) as u64,
                };
                let value = u64::from(self.bits()) | self.junk_above();
                (7, number | of_vcpu, value)
            }
        }
    }

    fn interface_attribute(&mut self, of_vcpu: u64) -> (u64, u64, u64) {
        let (encoding, value) = self.stored();
        let number = match self.below(12) {
            0 => self.wrong_encoding() & 0xFFFF_FFFF,
            1 => self.pick(&READ_ONLY),
            2 => self.pick(&WRITE_ONLY),
            3 => encoding | 1 << (16 + self.below(16)),
            _ => encoding,
        };
        (6, number | of_vcpu, value)
    }

    /// A value for the count: good, beside a good one, or any.
    pub fn count_value(&mut self) -> u64 {
        match self.below(4) {
            0 => self.pick(&[
                0,
                1,
                31,
                32,
                63,
                65,
                80,
                100,
                1023,
                1025,
                1056,
                64 | 1 << 32,
            ]),
            1 => self.value(),
            _ => self.count() as u64,
        }
    }
}
