//! The CPU interface: system registers, the best candidate, acknowledge and end of interrupt, SGIs.

use crate::bank::PRIORITY_MASK;
use crate::refusal::{done, number, Answer, Errno};
use crate::state::{Device, Vcpu, FIRST_SPI, LEAST_BPR};

/// A register that guests and attributes read and write. The number is the group.
#[derive(Clone, Copy, PartialEq, Eq, Debug)]
pub(crate) enum Interface {
    Pmr,
    Bpr(usize),
    Ap(usize),
    Ctlr,
    Sre,
    Igrpen(usize),
}

/// What IAR and HPPIR read where there is no interrupt to give.
const SPURIOUS: u32 = 1023;
const SRE: u32 = 7;
const ICC_CTLR: u32 = 0x400;

/// The register of an encoding, if it is one that is read and written.
pub(crate) fn interface_register(encoding: u64) -> Option<Interface> {
    Some(match encoding {
        0xC230 => Interface::Pmr,
        0xC643 => Interface::Bpr(0),
        0xC644 => Interface::Ap(0),
        0xC648 => Interface::Ap(1),
        0xC663 => Interface::Bpr(1),
        0xC664 => Interface::Ctlr,
        0xC665 => Interface::Sre,
        0xC666 => Interface::Igrpen(0),
        0xC667 => Interface::Igrpen(1),
        _ => return None,
    })
}

/// An interrupt that may be given to a vCPU.
#[derive(Clone, Copy)]
struct Candidate {
    id: usize,
    group: usize,
    priority: u8,
}

impl Vcpu {
    pub(crate) fn interface(&self, register: Interface) -> u32 {
        match register {
            Interface::Pmr => self.pmr,
            Interface::Bpr(group) => self.bpr[group],
            Interface::Ap(group) => self.ap[group],
            Interface::Ctlr => ICC_CTLR + 2 * u32::from(self.eoimode),
            Interface::Sre => SRE,
            Interface::Igrpen(group) => self.group_enable[group].into(),
        }
    }

    pub(crate) fn set_interface(&mut self, register: Interface, value: u64) {
        let value = value as u32;
        match register {
            Interface::Pmr => self.pmr = value & u32::from(PRIORITY_MASK),
            Interface::Bpr(group) => self.bpr[group] = (value & 7).max(LEAST_BPR[group]),
            Interface::Ap(group) => self.ap[group] = value,
            Interface::Ctlr => self.eoimode = value & 2 != 0,
            Interface::Sre => (),
            Interface::Igrpen(group) => self.group_enable[group] = value & 1 != 0,
        }
    }

    /// The lowest bit of the two active-priority registers, 32 when idle.
    fn running_level(&self) -> u32 {
        (self.ap[0] | self.ap[1]).trailing_zeros()
    }

    fn running_priority(&self) -> u32 {
        match self.running_level() {
            32 => 255,
            level => 8 * level,
        }
    }

    /// The bit of the active-priority registers for a candidate's group priority.
    fn level_of(&self, candidate: Candidate) -> u32 {
        let cleared = match candidate.group {
            0 => self.bpr[0] + 1,
            _ => self.bpr[1],
        };
        (u32::from(candidate.priority) >> cleared << cleared) / 8
    }

    /// Whether a candidate is above the mask and preempts what runs.
    fn takes(&self, candidate: Candidate) -> bool {
        u32::from(candidate.priority) < self.pmr && self.level_of(candidate) < self.running_level()
    }
}

/// By attribute CTLR and SRE take only values that they read.
pub(crate) fn check_interface_value(register: Interface, value: u64) -> Answer<()> {
    let reads = match register {
        Interface::Ctlr => value == 0x400 || value == 0x402,
        Interface::Sre => value == u64::from(SRE),
        _ => true,
    };
    reads.then_some(()).ok_or(Errno::Inval)
}

impl Device {
    /// A guest's read of a system register; IAR0 and IAR1 acknowledge.
    pub fn read_system(&mut self, v: usize, encoding: u64) -> i64 {
        number(self.try_read_system(v, encoding))
    }

    fn try_read_system(&mut self, v: usize, encoding: u64) -> Answer {
        self.check_guest(v, v)?;
        if let Some(register) = interface_register(encoding) {
            return Ok(self.vcpus[v].interface(register));
        }
        Ok(match encoding {
            0xC640 => self.acknowledge(v, 0),
            0xC660 => self.acknowledge(v, 1),
            0xC642 => self.highest_pending(v, 0),
            0xC662 => self.highest_pending(v, 1),
            0xC65B => self.vcpus[v].running_priority(),
            _ => return Err(Errno::Nxio),
        })
    }

    /// A guest's write of a system register.
    pub fn write_system(&mut self, v: usize, encoding: u64, value: u64) -> i64 {
        done(self.try_write_system(v, encoding, value))
    }

    fn try_write_system(&mut self, v: usize, encoding: u64, value: u64) -> Answer<()> {
        self.check_guest(v, v)?;
        if let Some(register) = interface_register(encoding) {
            self.vcpus[v].set_interface(register, value);
            return Ok(());
        }
        match encoding {
            0xC641 => self.end(v, 0, interrupt_id(value)),
            0xC661 => self.end(v, 1, interrupt_id(value)),
            0xC659 => self.deactivate_by_dir(v, interrupt_id(value)),
            0xC65D => self.send_sgi(v, value, false),
            0xC65F => self.send_sgi(v, value, true),
            _ => return Err(Errno::Nxio),
        }
        Ok(())
    }

    /// 1 if IAR1 would give an interrupt, 2 if IAR0 would, else 0.
    pub fn query_signal(&self, v: usize) -> i64 {
        number(self.check_vcpu(v).map(|()| match self.given(v) {
            Some(candidate) if candidate.group == 1 => 1,
            Some(_) => 2,
            None => 0,
        }))
    }

    /// The candidate of least priority, and of those the one of least ID.
    fn best(&self, v: usize) -> Option<Candidate> {
        let vcpu = &self.vcpus[v];
        let groups_on = [0, 1].map(|group| self.group_enable[group] && vcpu.group_enable[group]);
        let mut best: Option<Candidate> = None;
        for b in 0..self.count / 32 {
            let bank = self.bank(v, b);
            let mut rest = bank.candidates(groups_on);
            while rest != 0 {
                let i = rest.trailing_zeros() as usize;
                rest &= rest - 1;
                let id = 32 * b + i;
                let priority = bank.priority[i];
                let better = best.is_none_or(|best| priority < best.priority);
                if better && (id < FIRST_SPI || self.route[id - FIRST_SPI] == vcpu.affinity) {
                    let group = (bank.group >> i & 1) as usize;
                    best = Some(Candidate {
                        id,
                        group,
                        priority,
                    });
                }
            }
        }
        best
    }

    /// The best candidate, if an acknowledge in its group gives it.
    fn given(&self, v: usize) -> Option<Candidate> {
        self.best(v).filter(|&best| self.vcpus[v].takes(best))
    }

    fn acknowledge(&mut self, v: usize, group: usize) -> u32 {
        let Some(given) = self.given(v).filter(|given| given.group == group) else {
            return SPURIOUS;
        };
        let bank = self.bank_mut(v, given.id / 32);
        let bit = 1 << (given.id % 32);
        bank.active |= bit;
        bank.latch &= !bit;
        let vcpu = &mut self.vcpus[v];
        vcpu.ap[group] |= 1 << vcpu.level_of(given);
        given.id as u32
    }

    fn highest_pending(&self, v: usize, group: usize) -> u32 {
        let best = self.best(v).filter(|best| best.group == group);
        best.map_or(SPURIOUS, |best| best.id as u32)
    }

    /// EOIR: drops the running priority and, in EOImode 0, deactivates.
    fn end(&mut self, v: usize, group: usize, id: usize) {
        let exists = self.exists(id);
        let vcpu = &mut self.vcpus[v];
        let running = 1u32.checked_shl(vcpu.running_level()).unwrap_or(0);
        if !exists || vcpu.ap[group] & running == 0 {
            return;
        }
        vcpu.ap[group] &= !running;
        if !vcpu.eoimode {
            self.deactivate(v, id);
        }
    }

    /// DIR: deactivates in EOImode 1.
    fn deactivate_by_dir(&mut self, v: usize, id: usize) {
        if self.vcpus[v].eoimode && self.exists(id) {
            self.deactivate(v, id);
        }
    }

    fn deactivate(&mut self, v: usize, id: usize) {
        self.bank_mut(v, id / 32).active &= !(1 << (id % 32));
    }

    /// SGI1R, or SGI0R, which latches only where the SGI is in group 0.
    fn send_sgi(&mut self, writer: usize, value: u64, only_group0: bool) {
        let bit = 1 << (value >> 24 & 0xF);
        let all_others = value >> 40 & 1 == 1;
        for v in 0..self.vcpu_count {
            let vcpu = &mut self.vcpus[v];
            let targeted = if all_others {
                v != writer
            } else {
                is_in_target_list(value, vcpu.affinity)
            };
            if targeted && !(only_group0 && vcpu.private.group & bit != 0) {
                vcpu.private.latch |= bit;
            }
        }
    }
}

/// The ID in bits 23-0 of a write of EOIR or DIR.
fn interrupt_id(value: u64) -> usize {
    (value & 0xFF_FFFF) as usize
}

/// Whether SGI1R or SGI0R names an affinity: Aff3.Aff2.Aff1 equal, and bit Aff0 of the list set.
fn is_in_target_list(value: u64, affinity: u32) -> bool {
    let aff3 = (value >> 48 & 0xFF) as u32;
    let aff2 = (value >> 32 & 0xFF) as u32;
    let aff1 = (value >> 16 & 0xFF) as u32;
    let cluster = aff3 << 24 | aff2 << 16 | aff1 << 8;
    affinity & 0xFFFF_FF00 == cluster && value >> (affinity & 0xFF) & 1 == 1
}
