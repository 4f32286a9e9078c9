//! The proved virtual GICv3, for a hypervisor in Rust.
//!
//! [`Device`] is a device with types for what its calls take and answer; [`raw`] has the same calls over slices and numbers. The library behind both is proved to give, for every input, the answer and the words that its definitions say; a refused call changes nothing.
//!
//! A device is set up, then its vCPUs are marked as running when they are entered, and each trapped access is one call:
//!
//! ```
//! use vgic::registers::{distributor, frame, system};
//! use vgic::{Device, Mpidr, Signal, Size, VcpuIndex};
//!
//! fn session() -> Result<(), vgic::Errno> {
//!     let mut device = Device::new();
//!     device.set_count(64)?;
//!     device.add_vcpu(Mpidr(0))?;
//!     device.initialise()?;
//!     let v = VcpuIndex(0);
//!     device.set_running(v, true)?;
//!
//!     // the guest: PPI 27 in group 1 with priority 0xA0, enabled
//!     device.write_distributor(v, distributor::CTLR, Size::Word, 2)?;
//!     device.write_frame(v, v, frame::IGROUPR0, Size::Word, 1 << 27)?;
//!     device.write_frame(v, v, frame::ipriorityr_byte(27), Size::Byte, 0xA0)?;
//!     device.write_frame(v, v, frame::ISENABLER0, Size::Word, 1 << 27)?;
//!     device.write_system(v, system::PMR, 0xF8)?;
//!     device.write_system(v, system::IGRPEN1, 1)?;
//!
//!     // its timer fires, and the guest acknowledges
//!     device.change_line(v, 27, true)?;
//!     assert_eq!(device.query_signal(v)?, Signal::Irq);
//!     assert_eq!(device.read_system(v, system::IAR1)?, 27);
//!     assert_eq!(device.query_signal(v)?, Signal::None);
//!     Ok(())
//! }
//! session().unwrap();
//! ```
#![no_std]
#![deny(missing_docs)]

mod attribute;
mod device;
mod errno;
pub mod raw;
pub mod registers;

pub use attribute::Attribute;
pub use device::Device;
pub use errno::Errno;

/// Words of 32 bits in a device's state: 7,040 bytes.
pub const STATE_WORDS: usize = 1760;

/// Bytes of the longest record: 1,642 numbers of at most 5 bytes.
pub const RECORD_MOST: usize = 8210;

/// The most vCPUs that a device has.
pub const VCPUS_MOST: usize = 8;

/// A vCPU by its index, from 0 up in the order added.
///
/// An affinity in the place of an index does not compile:
///
/// ```compile_fail,E0308
/// let device = vgic::Device::new();
/// device.query_signal(vgic::Mpidr(0));
/// ```
///
/// ```
/// let device = vgic::Device::new();
/// assert_eq!(device.query_signal(vgic::VcpuIndex(0)), Err(vgic::Errno::Busy));
/// ```
#[derive(Clone, Copy, Debug, PartialEq, Eq, PartialOrd, Ord, Hash)]
pub struct VcpuIndex(pub usize);

/// A vCPU by its affinity Aff3.Aff2.Aff1.Aff0; Aff3 is 0 and Aff0 at most 15.
///
/// An index in the place of an affinity does not compile:
///
/// ```compile_fail,E0308
/// let mut device = vgic::Device::new();
/// device.add_vcpu(vgic::VcpuIndex(0));
/// ```
///
/// ```
/// let mut device = vgic::Device::new();
/// assert_eq!(device.add_vcpu(vgic::Mpidr(0)), Ok(()));
/// ```
#[derive(Clone, Copy, Debug, PartialEq, Eq, PartialOrd, Ord, Hash)]
pub struct Mpidr(pub u32);

/// The size of a guest's load or store.
///
/// Registers are accessed by words, IPRIORITYR by bytes too; every other access reads 0 and ignores writes. A guest's doubleword is two words to a trap handler.
#[derive(Clone, Copy, Debug, PartialEq, Eq, PartialOrd, Ord, Hash)]
pub enum Size {
    /// 1 byte.
    Byte,
    /// 2 bytes.
    Halfword,
    /// 4 bytes.
    Word,
    /// 8 bytes.
    Doubleword,
}

impl Size {
    /// Its number of bytes.
    ///
    /// ```
    /// assert_eq!(vgic::Size::Word.bytes(), 4);
    /// ```
    pub const fn bytes(self) -> u64 {
        match self {
            Size::Byte => 1,
            Size::Halfword => 2,
            Size::Word => 4,
            Size::Doubleword => 8,
        }
    }
}

/// What a vCPU is to be signalled.
#[derive(Clone, Copy, Debug, PartialEq, Eq, Hash)]
pub enum Signal {
    /// Neither IAR would give an interrupt.
    None,
    /// A read of IAR1 would give an interrupt.
    Irq,
    /// A read of IAR0 would give an interrupt.
    Fiq,
}
