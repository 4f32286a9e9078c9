//! Banks of 32 interrupts and the registers that are the same for private interrupts and SPIs.

/// Thirty-two interrupts. Bit i of a flag word belongs to the i-th.
#[derive(Clone, Copy, PartialEq, Eq, Debug, Default)]
pub(crate) struct Bank {
    pub group: u32,
    pub enabled: u32,
    pub latch: u32,
    pub line: u32,
    pub active: u32,
    pub edge: u32,
    pub priority: [u8; 32],
}

/// Who reads or writes a register.
#[derive(Clone, Copy, PartialEq, Eq, Debug)]
pub(crate) enum Access {
    Guest,
    Attribute,
}

/// A register of a bank. IPRIORITYR and ICFGR have several words for a bank, numbered from 0.
#[derive(Clone, Copy, PartialEq, Eq, Debug)]
pub(crate) enum BankRegister {
    Igroupr,
    Isenabler,
    Icenabler,
    Ispendr,
    Icpendr,
    Isactiver,
    Icactiver,
    Ipriorityr(usize),
    Icfgr(usize),
}

/// The bits of a priority that are kept.
pub(crate) const PRIORITY_MASK: u8 = 0xF8;

impl Bank {
    /// A level interrupt is pending by its line too, an edge interrupt by its latch alone.
    pub fn pending(&self) -> u32 {
        self.latch | (self.line & !self.edge)
    }

    /// Pending, enabled and not active, of the groups that are on.
    pub fn candidates(&self, groups_on: [bool; 2]) -> u32 {
        let [group0, group1] = groups_on.map(|on| if on { u32::MAX } else { 0 });
        let on = (!self.group & group0) | (self.group & group1);
        self.pending() & self.enabled & !self.active & on
    }

    /// Word `j` of the priorities, the lowest ID in the low byte.
    pub fn priority_word(&self, j: usize) -> u32 {
        let bytes = &self.priority[4 * j..4 * j + 4];
        u32::from_le_bytes([bytes[0], bytes[1], bytes[2], bytes[3]])
    }

    /// Stores the priority of the i-th interrupt, if it exists.
    pub fn set_priority(&mut self, i: usize, value: u8, existing: u32) {
        if existing >> i & 1 == 1 {
            self.priority[i] = value & PRIORITY_MASK;
        }
    }

    pub fn set_priority_word(&mut self, j: usize, value: u32, existing: u32) {
        for (i, byte) in value.to_le_bytes().into_iter().enumerate() {
            self.set_priority(4 * j + i, byte, existing);
        }
    }

    /// ICFGR word `j`: two bits for each of 16 interrupts, the upper one set for edge.
    pub fn config_word(&self, j: usize) -> u32 {
        (0..16).fold(0, |word, i| {
            word | (self.edge >> (16 * j + i) & 1) << (2 * i + 1)
        })
    }

    pub fn set_config_word(&mut self, j: usize, value: u32, existing: u32) {
        let edges = (0..16).fold(0, |edges, i| {
            edges | (value >> (2 * i + 1) & 1) << (16 * j + i)
        });
        let others = self.edge & !(0xFFFF << (16 * j));
        self.edge = others | (edges & existing);
    }

    pub fn read(&self, register: BankRegister, by: Access) -> u32 {
        match register {
            BankRegister::Igroupr => self.group,
            BankRegister::Isenabler | BankRegister::Icenabler => self.enabled,
            BankRegister::Ispendr if by == Access::Attribute => self.latch,
            BankRegister::Icpendr if by == Access::Attribute => 0,
            BankRegister::Ispendr | BankRegister::Icpendr => self.pending(),
            BankRegister::Isactiver | BankRegister::Icactiver => self.active,
            BankRegister::Ipriorityr(j) => self.priority_word(j),
            BankRegister::Icfgr(j) => self.config_word(j),
        }
    }

    /// Writes a register; only the interrupts in `existing` change.
    pub fn write(&mut self, register: BankRegister, value: u32, existing: u32, by: Access) {
        let bits = value & existing;
        match register {
            BankRegister::Igroupr => self.group = bits,
            BankRegister::Isenabler => self.enabled |= bits,
            BankRegister::Icenabler => self.enabled &= !bits,
            BankRegister::Ispendr if by == Access::Attribute => self.latch = bits,
            BankRegister::Icpendr if by == Access::Attribute => (),
            BankRegister::Ispendr => self.latch |= bits,
            BankRegister::Icpendr => self.latch &= !bits,
            BankRegister::Isactiver => self.active |= bits,
            BankRegister::Icactiver => self.active &= !bits,
            BankRegister::Ipriorityr(j) => self.set_priority_word(j, value, existing),
            BankRegister::Icfgr(j) => self.set_config_word(j, value, existing),
        }
    }
}
