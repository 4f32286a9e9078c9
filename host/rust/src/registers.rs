//! Names of the registers: offsets in the distributor and in a redistributor frame, and encodings of system registers.

/// What IIDR reads, in the distributor and in a frame.
pub const IIDR_VALUE: u32 = 0x0100_1000;

/// What IAR and HPPIR read where there is no interrupt to give.
pub const ID_NONE: u32 = 1023;

/// Offsets in the distributor; `word` is the number of a register's word.
pub mod distributor {
    /// The two group enables in bits 0 and 1; reads 0x50 + them.
    pub const CTLR: u64 = 0x0;
    /// 0x02480000 + count / 32 - 1.
    pub const TYPER: u64 = 0x4;
    /// The implementer.
    pub const IIDR: u64 = 0x8;
    /// Four bits; a guest clears them by ones, an attribute stores them.
    pub const STATUSR: u64 = 0x10;

    /// Groups of 32 interrupts.
    pub const fn igroupr(word: u64) -> u64 {
        0x80 + 4 * word
    }
    /// Sets enables of 32 interrupts.
    pub const fn isenabler(word: u64) -> u64 {
        0x100 + 4 * word
    }
    /// Clears enables of 32 interrupts.
    pub const fn icenabler(word: u64) -> u64 {
        0x180 + 4 * word
    }
    /// Sets latches of 32 interrupts; a guest reads pending, an attribute the latch.
    pub const fn ispendr(word: u64) -> u64 {
        0x200 + 4 * word
    }
    /// Clears latches of 32 interrupts.
    pub const fn icpendr(word: u64) -> u64 {
        0x280 + 4 * word
    }
    /// Makes interrupts active, 32 to a word.
    pub const fn isactiver(word: u64) -> u64 {
        0x300 + 4 * word
    }
    /// Makes interrupts inactive, 32 to a word.
    pub const fn icactiver(word: u64) -> u64 {
        0x380 + 4 * word
    }
    /// Priorities of four interrupts.
    pub const fn ipriorityr(word: u64) -> u64 {
        0x400 + 4 * word
    }
    /// The priority of one interrupt, by 1 byte.
    pub const fn ipriorityr_byte(id: u64) -> u64 {
        0x400 + id
    }
    /// Two bits for each of 16 interrupts; the upper one is 1 for edge.
    pub const fn icfgr(word: u64) -> u64 {
        0xC00 + 4 * word
    }
    /// The route of an SPI: low word, bits 23-0 kept; the high word at + 4 is zero.
    pub const fn irouter(id: u64) -> u64 {
        0x6000 + 8 * id
    }
}

/// Offsets in a redistributor frame, which is both 64 KiB pages: the SGI page starts at 0x10000.
pub mod frame {
    /// Zero.
    pub const CTLR: u64 = 0x0;
    /// The implementer.
    pub const IIDR: u64 = 0x4;
    /// Low word: index x 256, + 16 for the last vCPU; the high word at + 4 is the affinity.
    pub const TYPER: u64 = 0x8;
    /// Four bits, as in the distributor.
    pub const STATUSR: u64 = 0x10;
    /// Zero.
    pub const WAKER: u64 = 0x14;
    /// Groups of SGIs and PPIs.
    pub const IGROUPR0: u64 = 0x10080;
    /// Sets enables of SGIs and PPIs.
    pub const ISENABLER0: u64 = 0x10100;
    /// Clears enables of SGIs and PPIs.
    pub const ICENABLER0: u64 = 0x10180;
    /// Sets latches of SGIs and PPIs.
    pub const ISPENDR0: u64 = 0x10200;
    /// Clears latches of SGIs and PPIs.
    pub const ICPENDR0: u64 = 0x10280;
    /// Makes SGIs and PPIs active.
    pub const ISACTIVER0: u64 = 0x10300;
    /// Makes SGIs and PPIs inactive.
    pub const ICACTIVER0: u64 = 0x10380;
    /// 0xAAAAAAAA: SGIs are edge.
    pub const ICFGR0: u64 = 0x10C00;
    /// 0: PPIs are level.
    pub const ICFGR1: u64 = 0x10C04;

    /// Priorities of four SGIs or PPIs, words 0 to 7.
    pub const fn ipriorityr(word: u64) -> u64 {
        0x10400 + 4 * word
    }
    /// The priority of one SGI or PPI, by 1 byte.
    pub const fn ipriorityr_byte(id: u64) -> u64 {
        0x10400 + id
    }
}

/// Encodings of the system registers of the CPU interface.
pub mod system {
    /// The encoding of an instruction's fields.
    ///
    /// ```
    /// use vgic::registers::system;
    /// assert_eq!(system::encoding(3, 0, 12, 12, 0), system::IAR1);
    /// ```
    pub const fn encoding(op0: u64, op1: u64, crn: u64, crm: u64, op2: u64) -> u64 {
        op0 << 14 | op1 << 11 | crn << 7 | crm << 3 | op2
    }

    /// Priority mask: bits 7-3 kept.
    pub const PMR: u64 = 0xC230;
    /// Binary point of group 0: bits 2-0, raised to 2.
    pub const BPR0: u64 = 0xC643;
    /// Active priorities of group 0: bit k stands for priority 8k.
    pub const AP0R0: u64 = 0xC644;
    /// Active priorities of group 1.
    pub const AP1R0: u64 = 0xC648;
    /// Binary point of group 1: bits 2-0, raised to 3.
    pub const BPR1: u64 = 0xC663;
    /// 0x400, + 2 for EOImode; a guest writes bit 1 only.
    pub const CTLR: u64 = 0xC664;
    /// Reads 7; a guest's writes are ignored.
    pub const SRE: u64 = 0xC665;
    /// Enable of group 0, bit 0.
    pub const IGRPEN0: u64 = 0xC666;
    /// Enable of group 1, bit 0.
    pub const IGRPEN1: u64 = 0xC667;
    /// Acknowledges an interrupt of group 0; a guest's reads only.
    pub const IAR0: u64 = 0xC640;
    /// The best candidate's ID if of group 0; a guest's reads only.
    pub const HPPIR0: u64 = 0xC642;
    /// The running priority, 255 when idle; a guest's reads only.
    pub const RPR: u64 = 0xC65B;
    /// Acknowledges an interrupt of group 1; a guest's reads only.
    pub const IAR1: u64 = 0xC660;
    /// The best candidate's ID if of group 1; a guest's reads only.
    pub const HPPIR1: u64 = 0xC662;
    /// End of an interrupt of group 0, ID in bits 23-0; a guest's writes only.
    pub const EOIR0: u64 = 0xC641;
    /// Deactivates in EOImode 1, ID in bits 23-0; a guest's writes only.
    pub const DIR: u64 = 0xC659;
    /// Latches an SGI at its targets; a guest's writes only.
    pub const SGI1R: u64 = 0xC65D;
    /// Latches an SGI at its targets where it is in group 0; a guest's writes only.
    pub const SGI0R: u64 = 0xC65F;
    /// End of an interrupt of group 1, ID in bits 23-0; a guest's writes only.
    pub const EOIR1: u64 = 0xC661;
}
