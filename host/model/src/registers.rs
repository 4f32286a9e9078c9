//! The memory-mapped registers: distributor and redistributor frames.

use crate::bank::{Access, BankRegister};
use crate::refusal::{done, number, Answer, Errno};
use crate::state::{Device, FIRST_SPI};

/// A register of the distributor. The first number of a bank's register is the bank's.
#[derive(Clone, Copy, PartialEq, Eq, Debug)]
pub(crate) enum Distributor {
    Ctlr,
    Typer,
    Iidr,
    Statusr,
    Bank(usize, BankRegister),
    /// The low word of IROUTER, by ID.
    Irouter(usize),
    IrouterHigh,
}

/// A register of a redistributor's frame.
#[derive(Clone, Copy, PartialEq, Eq, Debug)]
pub(crate) enum Frame {
    /// CTLR and WAKER.
    Zero,
    Iidr,
    TyperLow,
    TyperHigh,
    Statusr,
    Bank(BankRegister),
}

const IIDR: u32 = 0x0100_1000;
const ROUTE_MASK: u32 = 0xFF_FFFF;
const STATUSR_MASK: u32 = 0xF;

/// The distributor's register at an offset, if a word is listed there.
pub(crate) fn distributor_register(offset: u64) -> Option<Distributor> {
    use BankRegister::*;
    if !offset.is_multiple_of(4) {
        return None;
    }
    // Registers of one word for 32 interrupts have 32 words each.
    let flags = |register| Distributor::Bank((offset % 0x80 / 4) as usize, register);
    Some(match offset {
        0x0 => Distributor::Ctlr,
        0x4 => Distributor::Typer,
        0x8 => Distributor::Iidr,
        0x10 => Distributor::Statusr,
        0x80..=0xFC => flags(Igroupr),
        0x100..=0x17C => flags(Isenabler),
        0x180..=0x1FC => flags(Icenabler),
        0x200..=0x27C => flags(Ispendr),
        0x280..=0x2FC => flags(Icpendr),
        0x300..=0x37C => flags(Isactiver),
        0x380..=0x3FC => flags(Icactiver),
        0x400..=0x7FC => {
            let word = (offset - 0x400) as usize / 4;
            Distributor::Bank(word / 8, Ipriorityr(word % 8))
        }
        0xC00..=0xCFC => {
            let word = (offset - 0xC00) as usize / 4;
            Distributor::Bank(word / 2, Icfgr(word % 2))
        }
        0x6100..=0x7FDC if offset.is_multiple_of(8) => {
            Distributor::Irouter((offset - 0x6000) as usize / 8)
        }
        0x6100..=0x7FDC => Distributor::IrouterHigh,
        _ => return None,
    })
}

/// The frame's register at an offset, if a word is listed there.
pub(crate) fn frame_register(offset: u64) -> Option<Frame> {
    use BankRegister::*;
    Some(match offset {
        0x0 | 0x14 => Frame::Zero,
        0x4 => Frame::Iidr,
        0x8 => Frame::TyperLow,
        0xC => Frame::TyperHigh,
        0x10 => Frame::Statusr,
        0x10080 => Frame::Bank(Igroupr),
        0x10100 => Frame::Bank(Isenabler),
        0x10180 => Frame::Bank(Icenabler),
        0x10200 => Frame::Bank(Ispendr),
        0x10280 => Frame::Bank(Icpendr),
        0x10300 => Frame::Bank(Isactiver),
        0x10380 => Frame::Bank(Icactiver),
        0x10400..=0x1041C if offset.is_multiple_of(4) => {
            Frame::Bank(Ipriorityr((offset - 0x10400) as usize / 4))
        }
        0x10C00 => Frame::Bank(Icfgr(0)),
        0x10C04 => Frame::Bank(Icfgr(1)),
        _ => return None,
    })
}

impl Device {
    /// A guest's load from the distributor.
    pub fn read_distributor(&self, v: usize, offset: u64, size: u64) -> i64 {
        let allowed = self.check_guest(v, v);
        number(allowed.map(|()| self.load_distributor(offset, size)))
    }

    fn load_distributor(&self, offset: u64, size: u64) -> u32 {
        match (size, offset) {
            (4, _) => match distributor_register(offset) {
                Some(register) => self.distributor(register, Access::Guest),
                None => 0,
            },
            (1, 0x400..=0x7FF) => self.distributor_priority((offset - 0x400) as usize),
            _ => 0,
        }
    }

    /// A guest's store to the distributor.
    pub fn write_distributor(&mut self, v: usize, offset: u64, size: u64, value: u64) -> i64 {
        let allowed = self.check_guest(v, v);
        done(allowed.map(|()| self.store_distributor(offset, size, value)))
    }

    fn store_distributor(&mut self, offset: u64, size: u64, value: u64) {
        match (size, offset) {
            (4, _) => {
                if let Some(register) = distributor_register(offset) {
                    self.set_distributor(register, value as u32, Access::Guest);
                }
            }
            (1, 0x400..=0x7FF) => {
                self.set_distributor_priority((offset - 0x400) as usize, value as u8);
            }
            _ => (),
        }
    }

    /// A guest's load from the frame of vCPU `frame`.
    pub fn read_frame(&self, v: usize, frame: usize, offset: u64, size: u64) -> i64 {
        let allowed = self.check_guest(v, frame);
        number(allowed.map(|()| self.load_frame(frame, offset, size)))
    }

    fn load_frame(&self, frame: usize, offset: u64, size: u64) -> u32 {
        match (size, offset) {
            (4, _) => match frame_register(offset) {
                Some(register) => self.frame(frame, register, Access::Guest),
                None => 0,
            },
            (1, 0x10400..=0x1041F) => {
                self.vcpus[frame].private.priority[(offset - 0x10400) as usize].into()
            }
            _ => 0,
        }
    }

    /// A guest's store to the frame of vCPU `frame`.
    pub fn write_frame(
        &mut self,
        v: usize,
        frame: usize,
        offset: u64,
        size: u64,
        value: u64,
    ) -> i64 {
        let allowed = self.check_guest(v, frame);
        done(allowed.map(|()| self.store_frame(frame, offset, size, value)))
    }

    fn store_frame(&mut self, frame: usize, offset: u64, size: u64, value: u64) {
        match (size, offset) {
            (4, _) => {
                if let Some(register) = frame_register(offset) {
                    self.set_frame(frame, register, value as u32, Access::Guest);
                }
            }
            (1, 0x10400..=0x1041F) => {
                let private = &mut self.vcpus[frame].private;
                private.set_priority((offset - 0x10400) as usize, value as u8, u32::MAX);
            }
            _ => (),
        }
    }

    /// The distributor's group enables, group 0 in bit 0.
    pub(crate) fn enables(&self) -> u32 {
        u32::from(self.group_enable[0]) | u32::from(self.group_enable[1]) << 1
    }

    fn distributor_priority(&self, id: usize) -> u32 {
        if id < FIRST_SPI {
            0
        } else {
            self.spis[id / 32 - 1].priority[id % 32].into()
        }
    }

    fn set_distributor_priority(&mut self, id: usize, value: u8) {
        if id >= FIRST_SPI {
            let existing = self.existing(id / 32);
            self.spis[id / 32 - 1].set_priority(id % 32, value, existing);
        }
    }

    /// What a register of the distributor reads. Private and absent interrupts read 0 there.
    pub(crate) fn distributor(&self, register: Distributor, by: Access) -> u32 {
        match register {
            Distributor::Ctlr => 0x50 + self.enables(),
            Distributor::Typer => 0x0248_0000 + self.count as u32 / 32 - 1,
            Distributor::Iidr => IIDR,
            Distributor::Statusr => self.statusr,
            Distributor::Bank(0, _) => 0,
            Distributor::Bank(b, register) => self.spis[b - 1].read(register, by),
            Distributor::Irouter(id) => self.route[id - FIRST_SPI],
            Distributor::IrouterHigh => 0,
        }
    }

    pub(crate) fn set_distributor(&mut self, register: Distributor, value: u32, by: Access) {
        match register {
            Distributor::Ctlr => self.group_enable = [value & 1 != 0, value & 2 != 0],
            Distributor::Statusr => self.statusr = new_statusr(self.statusr, value, by),
            Distributor::Bank(b, register) if b > 0 => {
                let existing = self.existing(b);
                self.spis[b - 1].write(register, value, existing, by);
            }
            Distributor::Irouter(id) if self.exists(id) => {
                self.route[id - FIRST_SPI] = value & ROUTE_MASK;
            }
            _ => (),
        }
    }

    /// What a register of vCPU `v`'s frame reads.
    pub(crate) fn frame(&self, v: usize, register: Frame, by: Access) -> u32 {
        let vcpu = &self.vcpus[v];
        match register {
            Frame::Zero => 0,
            Frame::Iidr => IIDR,
            Frame::TyperLow if v + 1 == self.vcpu_count => v as u32 * 256 + 16,
            Frame::TyperLow => v as u32 * 256,
            Frame::TyperHigh => vcpu.affinity,
            Frame::Statusr => vcpu.statusr,
            Frame::Bank(register) => vcpu.private.read(register, by),
        }
    }

    pub(crate) fn set_frame(&mut self, v: usize, register: Frame, value: u32, by: Access) {
        let vcpu = &mut self.vcpus[v];
        match register {
            Frame::Statusr => vcpu.statusr = new_statusr(vcpu.statusr, value, by),
            // SGIs are edge and PPIs level: ICFGR is read-only here.
            Frame::Bank(BankRegister::Icfgr(_)) => (),
            Frame::Bank(register) => vcpu.private.write(register, value, u32::MAX, by),
            _ => (),
        }
    }
}

/// A guest's ones clear bits of STATUSR; an attribute stores them.
fn new_statusr(old: u32, value: u32, by: Access) -> u32 {
    match by {
        Access::Guest => old & !value,
        Access::Attribute => value & STATUSR_MASK,
    }
}

/// By attribute IIDR takes the value that it reads and no other.
pub(crate) fn check_iidr(is_iidr: bool, value: u32) -> Answer<()> {
    if is_iidr && value != IIDR {
        return Err(Errno::Inval);
    }
    Ok(())
}
