//! A device that owns its words.

use crate::{raw, Attribute, Errno, Mpidr, Signal, Size, VcpuIndex, STATE_WORDS};

/// A device: the words of its state, and nothing else.
///
/// Every method but [`Device::make`] is first refused with [`Errno::Fault`] where the words are not a sound state, which only [`Device::from_words`] can bring about; each lists its further refusals in the order in which they are tested. Two devices are equal exactly when their words are.
#[derive(Clone, Debug, PartialEq, Eq)]
#[repr(align(64))]
pub struct Device {
    words: [u32; STATE_WORDS],
}

/// The value of an answer; a refusal's number is always one of the table.
fn value(answer: i64) -> Result<u32, Errno> {
    match u32::try_from(answer) {
        Ok(value) => Ok(value),
        Err(_) => Err(Errno::of_number(-answer).expect("the table has every refusal")),
    }
}

fn done(answer: i64) -> Result<(), Errno> {
    value(answer).map(|_| ())
}

impl Default for Device {
    fn default() -> Device {
        Device::new()
    }
}

/// Setting a device up.
impl Device {
    /// A device just made: every word is zero.
    pub fn new() -> Device {
        let mut device = Device {
            words: [0; STATE_WORDS],
        };
        device.make();
        device
    }

    /// A device of any words. Where they are not a sound state, its calls answer [`Errno::Fault`].
    ///
    /// ```
    /// use vgic::{Device, Errno, Mpidr, STATE_WORDS};
    /// let mut device = Device::from_words([1; STATE_WORDS]);
    /// assert_eq!(device.add_vcpu(Mpidr(0)), Err(Errno::Fault));
    /// ```
    pub const fn from_words(words: [u32; STATE_WORDS]) -> Device {
        Device { words }
    }

    /// The words of the state.
    pub const fn words(&self) -> &[u32; STATE_WORDS] {
        &self.words
    }

    /// Makes a device of whatever the words are: sets them all to zero.
    pub fn make(&mut self) {
        done(raw::make(&mut self.words)).expect("the words are of the right number");
    }

    /// Adds a vCPU, with the next index from 0 up. Refused: `Busy` if initialised; `Inval` for a bad affinity; `Exist` if it is in use; `NoMem` if there are eight.
    ///
    /// ```
    /// use vgic::{Device, Errno, Mpidr};
    /// let mut device = Device::new();
    /// assert_eq!(device.add_vcpu(Mpidr(0x10F)), Ok(()));
    /// assert_eq!(device.add_vcpu(Mpidr(0x10F)), Err(Errno::Exist));
    /// assert_eq!(device.add_vcpu(Mpidr(0x110)), Err(Errno::Inval));
    /// ```
    pub fn add_vcpu(&mut self, mpidr: Mpidr) -> Result<(), Errno> {
        done(raw::add_vcpu(&mut self.words, mpidr.0))
    }

    /// The interrupt count, 0 if unset; in any phase.
    pub fn count(&self) -> Result<u32, Errno> {
        self.get_attribute(Attribute::Count)
    }

    /// Sets the interrupt count: 64 to 1024 in steps of 32. Refused: `Inval` for another number; `Busy` if it is set or the device initialised.
    ///
    /// ```
    /// use vgic::{Device, Errno};
    /// let mut device = Device::new();
    /// assert_eq!(device.set_count(100), Err(Errno::Inval));
    /// assert_eq!(device.set_count(1024), Ok(()));
    /// assert_eq!(device.count(), Ok(1024));
    /// ```
    pub fn set_count(&mut self, count: u32) -> Result<(), Errno> {
        self.set_attribute(Attribute::Count, count.into())
    }

    /// Initialises: an unset count becomes 256. Does nothing if done already. Refused: `NoDev` if there is no vCPU.
    ///
    /// ```
    /// assert_eq!(vgic::Device::new().initialise(), Err(vgic::Errno::NoDev));
    /// ```
    pub fn initialise(&mut self) -> Result<(), Errno> {
        self.set_attribute(Attribute::Initialise, 0)
    }

    /// Marks a vCPU as running, or as stopped. Refused: `Busy` if not initialised; `Inval` if there is no such vCPU.
    pub fn set_running(&mut self, v: VcpuIndex, on: bool) -> Result<(), Errno> {
        done(raw::set_running(&mut self.words, v.0, on))
    }
}

/// A guest's accesses, lines and signals. Accesses are refused: `Busy` if not initialised; `Inval` if there is no such vCPU or frame; `Perm` if the vCPU that makes the access is not running.
impl Device {
    /// What the vCPU reads at an offset of the distributor; 0 where no register is accessed so.
    pub fn read_distributor(&self, v: VcpuIndex, offset: u64, size: Size) -> Result<u32, Errno> {
        value(raw::read_distributor(
            &self.words,
            v.0,
            offset,
            size.bytes(),
        ))
    }

    /// Writes the low bytes of a value at an offset of the distributor; ignored where no register is accessed so.
    pub fn write_distributor(
        &mut self,
        v: VcpuIndex,
        offset: u64,
        size: Size,
        value: u64,
    ) -> Result<(), Errno> {
        let size = size.bytes();
        done(raw::write_distributor(
            &mut self.words,
            v.0,
            offset,
            size,
            value,
        ))
    }

    /// What the vCPU `v` reads at an offset of the redistributor frame of the vCPU `frame`, which need not run.
    pub fn read_frame(
        &self,
        v: VcpuIndex,
        frame: VcpuIndex,
        offset: u64,
        size: Size,
    ) -> Result<u32, Errno> {
        let size = size.bytes();
        value(raw::read_frame(&self.words, v.0, frame.0, offset, size))
    }

    /// Writes the low bytes of a value at an offset of the redistributor frame of the vCPU `frame`.
    pub fn write_frame(
        &mut self,
        v: VcpuIndex,
        frame: VcpuIndex,
        offset: u64,
        size: Size,
        value: u64,
    ) -> Result<(), Errno> {
        let size = size.bytes();
        done(raw::write_frame(
            &mut self.words,
            v.0,
            frame.0,
            offset,
            size,
            value,
        ))
    }

    /// What the vCPU reads from a system register; a read of IAR0 or IAR1 acknowledges, which changes the device. Refused further: `Nxio` if no register of that encoding is read.
    ///
    /// ```
    /// use vgic::{registers::system, Device, Errno, Mpidr, VcpuIndex};
    /// let mut device = Device::new();
    /// device.add_vcpu(Mpidr(0)).unwrap();
    /// device.initialise().unwrap();
    /// assert_eq!(device.read_system(VcpuIndex(0), system::SGI1R), Err(Errno::Perm));
    /// device.set_running(VcpuIndex(0), true).unwrap();
    /// assert_eq!(device.read_system(VcpuIndex(0), system::SGI1R), Err(Errno::Nxio));
    /// assert_eq!(device.read_system(VcpuIndex(0), system::IAR1), Ok(1023));
    /// ```
    pub fn read_system(&mut self, v: VcpuIndex, encoding: u64) -> Result<u32, Errno> {
        value(raw::read_system(&mut self.words, v.0, encoding))
    }

    /// Writes a system register; all 64 bits of the value count. Refused further: `Nxio` if no register of that encoding is written.
    pub fn write_system(&mut self, v: VcpuIndex, encoding: u64, value: u64) -> Result<(), Errno> {
        done(raw::write_system(&mut self.words, v.0, encoding, value))
    }

    /// What the vCPU is to be signalled, running or not. Refused: `Busy` if not initialised; `Inval` if there is no such vCPU.
    pub fn query_signal(&self, v: VcpuIndex) -> Result<Signal, Errno> {
        Ok(match value(raw::query_signal(&self.words, v.0))? {
            0 => Signal::None,
            1 => Signal::Irq,
            _ => Signal::Fiq,
        })
    }

    /// Stores the level of the line of a PPI of the vCPU, or of an SPI, for which the vCPU is ignored; an edge interrupt that goes up is latched. Refused: `Busy` if not initialised; `Inval` if the ID is no PPI or SPI, or a PPI's vCPU is missing.
    pub fn change_line(&mut self, v: VcpuIndex, id: usize, level: bool) -> Result<(), Errno> {
        done(raw::change_line(&mut self.words, v.0, id, level))
    }
}

/// Attributes and the record: of a device whose vCPUs are all stopped.
impl Device {
    /// The value of an attribute. Refused, but for the count: `Inval` for a bad number of lines or an affinity that no vCPU has; `Busy` if not initialised or any vCPU runs; `Nxio` if no listed register is there.
    pub fn get_attribute(&self, attribute: Attribute) -> Result<u32, Errno> {
        let (group, number) = (attribute.group(), attribute.number());
        value(raw::get_attribute(&self.words, group, number))
    }

    /// Sets an attribute. Refused as a get, then `Inval` for a value that the register refuses; the count and initialising as [`Device::set_count`] and [`Device::initialise`] say.
    ///
    /// ```
    /// use vgic::{registers::system, Attribute, Device, Errno, Mpidr};
    /// let mut device = Device::new();
    /// device.add_vcpu(Mpidr(0x200)).unwrap();
    /// device.initialise().unwrap();
    /// let mpidr = Mpidr(0x200);
    /// let pmr = Attribute::System { mpidr, encoding: system::PMR as u32 };
    /// assert_eq!(device.set_attribute(pmr, 0xFF), Ok(()));
    /// assert_eq!(device.get_attribute(pmr), Ok(0xF8));
    /// let sre = Attribute::System { mpidr, encoding: system::SRE as u32 };
    /// assert_eq!(device.set_attribute(sre, 0), Err(Errno::Inval));
    /// ```
    pub fn set_attribute(&mut self, attribute: Attribute, value: u64) -> Result<(), Errno> {
        let (group, number) = (attribute.group(), attribute.number());
        done(raw::set_attribute(&mut self.words, group, number, value))
    }

    /// Fills the front of a buffer with the record and hands that part back; the rest keeps its bytes. Refused, with no byte written: `Busy` if not initialised or any vCPU runs; `NoSpc` if the buffer is too short ([`RECORD_MOST`](crate::RECORD_MOST) bytes are always enough).
    ///
    /// ```
    /// use vgic::{Device, Errno, Mpidr};
    /// let mut device = Device::new();
    /// device.set_count(64).unwrap();
    /// device.add_vcpu(Mpidr(0)).unwrap();
    /// device.initialise().unwrap();
    /// let mut buf = [0xEE; 80];
    /// assert_eq!(device.save(&mut buf[..75]), Err(Errno::NoSpc));
    /// assert_eq!(device.save(&mut buf).unwrap().len(), 76);
    /// assert_eq!(buf[..6], [1, 0x40, 1, 0, 0x50, 0]);
    /// assert_eq!(buf[76..], [0xEE; 4]);
    /// ```
    pub fn save<'b>(&self, buf: &'b mut [u8]) -> Result<&'b mut [u8], Errno> {
        let length = value(raw::save(&self.words, buf))?;
        Ok(&mut buf[..length as usize])
    }

    /// Restores the device of a record into this one, which is just initialised and has the same count and affinities. Refused: `Busy` if not initialised or any vCPU runs; `Exist` if not fresh; then by the first number at fault `BadMsg` if ill-formed or missing, `Inval` if no such device reads so; `BadMsg` if bytes follow.
    pub fn restore(&mut self, bytes: &[u8]) -> Result<(), Errno> {
        done(raw::restore(&mut self.words, bytes))
    }
}
