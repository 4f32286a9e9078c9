//! Attributes: registers and lines of a stopped device, by number.

use crate::Mpidr;

/// An attribute: its group and its number.
///
/// A vCPU is named by its affinity here, not by its index.
///
/// ```
/// use vgic::{registers::frame, Attribute, Mpidr};
/// let attribute = Attribute::Redistributor { mpidr: Mpidr(0x101), offset: frame::ISENABLER0 as u32 };
/// assert_eq!(attribute.group(), 5);
/// assert_eq!(attribute.number(), 0x0000_0101_0001_0100);
/// ```
#[derive(Clone, Copy, Debug, PartialEq, Eq, Hash)]
pub enum Attribute {
    /// Group 1: a register of the distributor.
    Distributor {
        /// The offset of its word.
        offset: u32,
    },
    /// Group 3: the interrupt count.
    Count,
    /// Group 4: a set initialises; a get is refused with [`Errno::Nxio`](crate::Errno::Nxio).
    Initialise,
    /// Group 5: a register of the redistributor of a vCPU.
    Redistributor {
        /// The vCPU's affinity.
        mpidr: Mpidr,
        /// The offset of its word in the frame.
        offset: u32,
    },
    /// Group 6: a system register of a vCPU.
    System {
        /// The vCPU's affinity.
        mpidr: Mpidr,
        /// The encoding of the register.
        encoding: u32,
    },
    /// Group 7: the lines of a vCPU's PPIs, at the bits of their IDs.
    PrivateLines {
        /// The vCPU's affinity.
        mpidr: Mpidr,
    },
    /// Group 7: the lines of 32 SPIs.
    SpiLines {
        /// The first of their IDs, a multiple of 32 from 32 up; 0 names the PPIs of the vCPU of affinity 0.
        first: u32,
    },
}

impl Attribute {
    /// The number of its group.
    pub const fn group(self) -> u64 {
        match self {
            Attribute::Distributor { .. } => 1,
            Attribute::Count => 3,
            Attribute::Initialise => 4,
            Attribute::Redistributor { .. } => 5,
            Attribute::System { .. } => 6,
            Attribute::PrivateLines { .. } | Attribute::SpiLines { .. } => 7,
        }
    }

    /// Its number in the group: an affinity in bits 63-32, and an offset, an encoding or an ID in bits 31-0.
    pub const fn number(self) -> u64 {
        match self {
            Attribute::Distributor { offset } => offset as u64,
            Attribute::Count | Attribute::Initialise => 0,
            Attribute::Redistributor { mpidr, offset } => joined(mpidr, offset),
            Attribute::System { mpidr, encoding } => joined(mpidr, encoding),
            Attribute::PrivateLines { mpidr } => joined(mpidr, 0),
            Attribute::SpiLines { first } => first as u64,
        }
    }
}

const fn joined(mpidr: Mpidr, low: u32) -> u64 {
    (mpidr.0 as u64) << 32 | low as u64
}
