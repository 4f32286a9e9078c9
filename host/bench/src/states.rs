//! The states on which calls are timed, made by the library's own calls.

use vgic::registers::{distributor, frame, system};
use vgic::{Attribute, Device, Mpidr, Size, VcpuIndex, RECORD_MOST, STATE_WORDS};

/// How large a device is.
#[derive(Clone, Copy, PartialEq, Eq, Debug)]
pub struct Scale {
    pub count: usize,
    pub vcpus: usize,
}

impl Scale {
    /// The vCPU that makes the accesses and that SPIs are routed to.
    pub fn asked(self) -> usize {
        self.vcpus - 1
    }

    /// The last SPI.
    pub fn last_id(self) -> usize {
        self.count.min(1020) - 1
    }

    /// The last word of 32 SPIs.
    pub fn last_word(self) -> u64 {
        (self.last_id() / 32) as u64
    }
}

fn set(device: &mut Device, attribute: Attribute, value: u64) {
    device
        .set_attribute(attribute, value)
        .expect("a listed attribute");
}

fn set_distributor(device: &mut Device, offset: u64, value: u64) {
    let offset = offset as u32;
    set(device, Attribute::Distributor { offset }, value);
}

/// A device with its count and the first of its vCPUs, not initialised.
pub fn begun(scale: Scale, vcpus: usize) -> Device {
    let mut device = Device::new();
    device.set_count(scale.count as u32).expect("a count");
    for v in 0..vcpus {
        device.add_vcpu(Mpidr(v as u32)).expect("an affinity");
    }
    device
}

/// A device with its vCPUs and no count, not initialised.
pub fn uncounted(scale: Scale) -> Device {
    let mut device = Device::new();
    for v in 0..scale.vcpus {
        device.add_vcpu(Mpidr(v as u32)).expect("an affinity");
    }
    device
}

/// A device just initialised.
pub fn fresh(scale: Scale) -> Device {
    let mut device = begun(scale, scale.vcpus);
    device.initialise().expect("vCPUs");
    device
}

/// Every interrupt enabled, of group 1 and of priority 0xA0, every SPI routed to the vCPU asked, both groups enabled everywhere; all stopped, nothing pending.
pub fn stopped(scale: Scale) -> Device {
    let mut device = fresh(scale);
    set_distributor(&mut device, distributor::CTLR, 3);
    for word in 1..scale.count as u64 / 32 {
        set_distributor(&mut device, distributor::igroupr(word), 0xFFFF_FFFF);
        set_distributor(&mut device, distributor::isenabler(word), 0xFFFF_FFFF);
        for j in 0..8 {
            let offset = distributor::ipriorityr(8 * word + j);
            set_distributor(&mut device, offset, 0xA0A0_A0A0);
        }
    }
    for id in 32..=scale.last_id() as u64 {
        set_distributor(&mut device, distributor::irouter(id), scale.asked() as u64);
    }
    for v in 0..scale.vcpus {
        prepare_vcpu(&mut device, Mpidr(v as u32));
    }
    device
}

fn prepare_vcpu(device: &mut Device, mpidr: Mpidr) {
    let mut put = |offset: u64, value| {
        let offset = offset as u32;
        set(device, Attribute::Redistributor { mpidr, offset }, value);
    };
    put(frame::IGROUPR0, 0xFFFF_FFFF);
    put(frame::ISENABLER0, 0xFFFF_FFFF);
    for j in 0..8 {
        put(frame::ipriorityr(j), 0xA0A0_A0A0);
    }
    for (encoding, value) in [
        (system::PMR, 0xF8),
        (system::IGRPEN0, 1),
        (system::IGRPEN1, 1),
    ] {
        let encoding = encoding as u32;
        set(device, Attribute::System { mpidr, encoding }, value);
    }
}

/// The same with every vCPU running.
pub fn running(scale: Scale) -> Device {
    let mut device = stopped(scale);
    for v in 0..scale.vcpus {
        device.set_running(VcpuIndex(v), true).expect("a vCPU");
    }
    device
}

/// The same with the lines of some level interrupts high, spread evenly over the PPIs of the vCPU asked and the SPIs; a single one is the last SPI.
pub fn pending(scale: Scale, lines: usize) -> Device {
    let mut device = running(scale);
    let existing = scale.last_id() + 1 - 16;
    for k in 0..lines {
        let id = scale.last_id() - k * existing / lines;
        let v = VcpuIndex(scale.asked());
        device.change_line(v, id, true).expect("a PPI or an SPI");
    }
    device
}

/// The same running state with SGI 3 latched at every vCPU.
pub fn sgi_latched(scale: Scale) -> Device {
    let mut device = running(scale);
    let v = VcpuIndex(scale.asked());
    device
        .write_system(v, system::SGI1R, 0x0300_00FF)
        .expect("a running vCPU");
    device
}

/// The same running state with SGI 0 pending at the vCPU asked and of priority 0, so that no other can be better.
pub fn first_pending(scale: Scale) -> Device {
    let mut device = running(scale);
    let (v, at) = (VcpuIndex(scale.asked()), frame::ipriorityr_byte(0));
    let highest = device.write_frame(v, v, at, Size::Byte, 0);
    let latched = device.write_frame(v, v, frame::ISPENDR0, Size::Word, 1);
    highest.and(latched).expect("a running vCPU");
    device
}

/// The record of a device.
pub fn record_of(device: &Device) -> Vec<u8> {
    let mut buf = [0; RECORD_MOST];
    device.save(&mut buf).expect("a stopped device").to_vec()
}

/// The words of a device just made.
pub const MADE: [u32; STATE_WORDS] = [0; STATE_WORDS];
