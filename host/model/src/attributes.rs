//! Attribute calls: the count, initialising, registers and lines by number.

use crate::bank::Access;
use crate::interface::{check_interface_value, interface_register, Interface};
use crate::refusal::{done, number, Answer, Errno};
use crate::registers::{check_iidr, distributor_register, frame_register, Distributor, Frame};
use crate::state::{is_count, Device, PPIS};

/// What an attribute number names once it is found; the first number is a vCPU's index.
#[derive(Clone, Copy)]
enum Named {
    Distributor(Distributor),
    Frame(usize, Frame),
    Interface(usize, Interface),
    /// The lines of the PPIs of a vCPU.
    PrivateLines(usize),
    /// The lines of the SPIs of a bank, by 32 from ID 32 on.
    SpiLines(usize),
}

const GROUP_DISTRIBUTOR: u64 = 1;
const GROUP_COUNT: u64 = 3;
const GROUP_INITIALISE: u64 = 4;
const GROUP_REDISTRIBUTOR: u64 = 5;
const GROUP_INTERFACE: u64 = 6;
const GROUP_LINES: u64 = 7;
const DEFAULT_COUNT: usize = 256;

impl Device {
    pub fn get_attribute(&self, group: u64, attribute: u64) -> i64 {
        number(match group {
            GROUP_COUNT => Ok(self.count as u32),
            GROUP_INITIALISE => Err(Errno::Nxio),
            _ => self.find(group, attribute).map(|named| self.get(named)),
        })
    }

    pub fn set_attribute(&mut self, group: u64, attribute: u64, value: u64) -> i64 {
        done(match group {
            GROUP_COUNT => self.set_count(value),
            GROUP_INITIALISE => self.initialise(attribute),
            _ => self
                .find(group, attribute)
                .and_then(|named| self.set(named, value)),
        })
    }

    fn set_count(&mut self, value: u64) -> Answer<()> {
        if !is_count(value) {
            return Err(Errno::Inval);
        }
        if self.count != 0 || self.initialised {
            return Err(Errno::Busy);
        }
        self.count = value as usize;
        Ok(())
    }

    fn initialise(&mut self, attribute: u64) -> Answer<()> {
        if attribute != 0 {
            return Err(Errno::Nxio);
        }
        if self.initialised {
            return Ok(());
        }
        if self.vcpu_count == 0 {
            return Err(Errno::Nodev);
        }
        if self.count == 0 {
            self.count = DEFAULT_COUNT;
        }
        self.initialised = true;
        Ok(())
    }

    /// What an attribute of groups 1, 5, 6 and 7 names.
    fn find(&self, group: u64, attribute: u64) -> Answer<Named> {
        let low = attribute & 0xFFFF_FFFF;
        let of_vcpu = match group {
            GROUP_DISTRIBUTOR => false,
            GROUP_REDISTRIBUTOR | GROUP_INTERFACE => true,
            GROUP_LINES if low >= 1024 || !low.is_multiple_of(32) => return Err(Errno::Inval),
            GROUP_LINES => low < 32,
            _ => return Err(Errno::Nxio),
        };
        // Bits 63-32 count only where the attribute is a vCPU's.
        let v = if of_vcpu {
            let affinity = (attribute >> 32) as u32;
            self.index_of(affinity).ok_or(Errno::Inval)?
        } else {
            0
        };
        self.check_stopped()?;
        let named = match group {
            GROUP_DISTRIBUTOR => distributor_register(low).map(Named::Distributor),
            GROUP_REDISTRIBUTOR => frame_register(low).map(|register| Named::Frame(v, register)),
            GROUP_INTERFACE => {
                interface_register(low).map(|register| Named::Interface(v, register))
            }
            _ if of_vcpu => Some(Named::PrivateLines(v)),
            _ => Some(Named::SpiLines(low as usize / 32 - 1)),
        };
        named.ok_or(Errno::Nxio)
    }

    fn get(&self, named: Named) -> u32 {
        match named {
            Named::Distributor(register) => self.distributor(register, Access::Attribute),
            Named::Frame(v, register) => self.frame(v, register, Access::Attribute),
            Named::Interface(v, register) => self.vcpus[v].interface(register),
            Named::PrivateLines(v) => self.vcpus[v].private.line,
            Named::SpiLines(b) => self.spis[b].line,
        }
    }

    fn set(&mut self, named: Named, value: u64) -> Answer<()> {
        if let Named::Interface(v, register) = named {
            check_interface_value(register, value)?;
            self.vcpus[v].set_interface(register, value);
            return Ok(());
        }
        let value = u32::try_from(value).map_err(|_| Errno::Inval)?;
        match named {
            Named::Distributor(register) => {
                check_iidr(register == Distributor::Iidr, value)?;
                self.set_distributor(register, value, Access::Attribute);
            }
            Named::Frame(v, register) => {
                check_iidr(register == Frame::Iidr, value)?;
                self.set_frame(v, register, value, Access::Attribute);
            }
            Named::PrivateLines(v) => self.vcpus[v].private.line = value & PPIS,
            Named::SpiLines(b) => self.spis[b].line = value & self.existing(b + 1),
            Named::Interface(..) => (),
        }
        Ok(())
    }
}
