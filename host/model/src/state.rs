//! The device's fields, and which interrupts exist.

use crate::bank::Bank;

pub(crate) const MOST_VCPUS: usize = 8;
pub(crate) const FIRST_SPI: usize = 32;
/// SPIs are below the count and below this.
pub(crate) const END_OF_SPIS: usize = 1020;
pub(crate) const SPI_BANKS: usize = 31;
pub(crate) const SPI_ROUTES: usize = END_OF_SPIS - FIRST_SPI;
/// SGIs are the first 16 interrupts of a vCPU.
pub(crate) const SGIS: u32 = 0xFFFF;
pub(crate) const PPIS: u32 = 0xFFFF_0000;
pub(crate) const LEAST_BPR: [u32; 2] = [2, 3];

/// A vCPU: its SGIs and PPIs, its redistributor and its CPU interface. An absent one is all zero.
/// Fields in pairs are those of group 0 and of group 1.
#[derive(Clone, Copy, PartialEq, Eq, Debug, Default)]
pub(crate) struct Vcpu {
    pub private: Bank,
    pub affinity: u32,
    pub running: bool,
    pub statusr: u32,
    pub pmr: u32,
    pub eoimode: bool,
    pub bpr: [u32; 2],
    pub ap: [u32; 2],
    pub group_enable: [bool; 2],
}

impl Vcpu {
    /// A vCPU as it is added.
    pub fn added(affinity: u32) -> Vcpu {
        let mut vcpu = Vcpu {
            affinity,
            bpr: LEAST_BPR,
            ..Vcpu::default()
        };
        vcpu.private.edge = SGIS;
        vcpu
    }
}

/// A virtual GICv3.
#[derive(Clone, PartialEq, Eq, Debug)]
pub struct Device {
    pub(crate) initialised: bool,
    /// Interrupt count; 0 is unset.
    pub(crate) count: usize,
    /// Number of vCPUs; those of a higher index are absent.
    pub(crate) vcpu_count: usize,
    pub(crate) vcpus: [Vcpu; MOST_VCPUS],
    /// The distributor's enables of group 0 and of group 1.
    pub(crate) group_enable: [bool; 2],
    pub(crate) statusr: u32,
    /// SPIs by 32, from ID 32 on; absent ones are zero.
    pub(crate) spis: [Bank; SPI_BANKS],
    /// Routes of the SPIs, from ID 32 on; absent ones are zero.
    pub(crate) route: [u32; SPI_ROUTES],
}

impl Device {
    /// A device just made.
    pub fn made() -> Device {
        Device {
            initialised: false,
            count: 0,
            vcpu_count: 0,
            vcpus: [Vcpu::default(); MOST_VCPUS],
            group_enable: [false; 2],
            statusr: 0,
            spis: [Bank::default(); SPI_BANKS],
            route: [0; SPI_ROUTES],
        }
    }

    /// This device's phase, count and affinities, with all else as if just set up.
    pub(crate) fn without_history(&self) -> Device {
        let mut device = Device::made();
        device.initialised = self.initialised;
        device.count = self.count;
        device.vcpu_count = self.vcpu_count;
        for (new, old) in device.vcpus.iter_mut().zip(self.present()) {
            *new = Vcpu::added(old.affinity);
        }
        device
    }

    /// The vCPUs that were added.
    pub(crate) fn present(&self) -> &[Vcpu] {
        &self.vcpus[..self.vcpu_count]
    }

    pub(crate) fn any_running(&self) -> bool {
        self.present().iter().any(|vcpu| vcpu.running)
    }

    pub(crate) fn index_of(&self, affinity: u32) -> Option<usize> {
        let mut present = self.present().iter();
        present.position(|vcpu| vcpu.affinity == affinity)
    }

    /// Whether an interrupt of that ID exists.
    pub(crate) fn exists(&self, id: usize) -> bool {
        id < self.count && id < END_OF_SPIS
    }

    /// The SPIs that exist.
    pub(crate) fn spi_ids(&self) -> std::ops::Range<usize> {
        FIRST_SPI..self.count.clamp(FIRST_SPI, END_OF_SPIS)
    }

    /// The bits of the interrupts that exist in bank `b`, which is of IDs 32b to 32b + 31.
    pub(crate) fn existing(&self, b: usize) -> u32 {
        let first = 32 * b;
        if first >= self.count {
            0
        } else if first + 32 > END_OF_SPIS {
            u32::MAX >> (first + 32 - END_OF_SPIS)
        } else {
            u32::MAX
        }
    }

    /// Bank `b` as vCPU `v` sees it: bank 0 is its own.
    pub(crate) fn bank(&self, v: usize, b: usize) -> &Bank {
        if b == 0 {
            &self.vcpus[v].private
        } else {
            &self.spis[b - 1]
        }
    }

    pub(crate) fn bank_mut(&mut self, v: usize, b: usize) -> &mut Bank {
        if b == 0 {
            &mut self.vcpus[v].private
        } else {
            &mut self.spis[b - 1]
        }
    }
}

/// Whether a number is an interrupt count.
pub(crate) fn is_count(value: u64) -> bool {
    (64..=1024).contains(&value) && value.is_multiple_of(32)
}

/// Whether a number is an affinity: Aff3 is 0 and Aff0 at most 15.
pub(crate) fn is_affinity(value: u32) -> bool {
    value < 1 << 24 && value & 0xFF <= 15
}
