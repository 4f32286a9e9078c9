//! The examples that the rules work out on paper, by the crate's types.

use vgic::registers::{distributor, frame, system};
use vgic::{Attribute, Device, Errno, Mpidr, Signal, Size, VcpuIndex};

const V: VcpuIndex = VcpuIndex(0);

/// A running device of that many interrupts with vCPUs of affinities 0 up.
fn device(count: u32, vcpus: u32) -> Device {
    let mut device = Device::new();
    device.set_count(count).unwrap();
    for mpidr in 0..vcpus {
        device.add_vcpu(Mpidr(mpidr)).unwrap();
    }
    device.initialise().unwrap();
    for v in 0..vcpus as usize {
        device.set_running(VcpuIndex(v), true).unwrap();
    }
    device
}

/// SPI 39 enabled, of group 1, priority 0xA0, its line high; the priority mask as given.
fn raised(pmr: u64) -> Device {
    let mut device = device(64, 1);
    let mut store = |at, size, value| device.write_distributor(V, at, size, value).unwrap();
    store(distributor::CTLR, Size::Word, 2);
    store(distributor::igroupr(1), Size::Word, 0x80);
    store(distributor::ipriorityr_byte(39), Size::Byte, 0xA0);
    store(distributor::isenabler(1), Size::Word, 0x80);
    device.write_system(V, system::IGRPEN1, 1).unwrap();
    device.write_system(V, system::PMR, pmr).unwrap();
    device.change_line(V, 39, true).unwrap();
    device
}

#[test]
fn counts() {
    for count in [32, 100, 1056] {
        assert_eq!(Device::new().set_count(count), Err(Errno::Inval));
    }
    for (count, typer) in [(64, 0x0248_0001), (1024, 0x0248_001F)] {
        let read = device(count, 1).read_distributor(V, distributor::TYPER, Size::Word);
        assert_eq!(read, Ok(typer));
    }
}

#[test]
fn pending_and_latch() {
    let mut device = raised(0);
    let offset = distributor::ispendr(1) as u32;
    device
        .write_distributor(V, distributor::icpendr(1), Size::Word, 0x80)
        .unwrap();
    let read = device.read_distributor(V, offset.into(), Size::Word);
    assert_eq!(read, Ok(0x80));
    device.set_running(V, false).unwrap();
    let latch = device.get_attribute(Attribute::Distributor { offset });
    assert_eq!(latch, Ok(0));
    let lines = device.get_attribute(Attribute::SpiLines { first: 32 });
    assert_eq!(lines, Ok(0x80));
}

#[test]
fn priority_mask() {
    assert_eq!(raised(0xA0).read_system(V, system::IAR1), Ok(1023));
    let mut device = raised(0xA8);
    assert_eq!(device.query_signal(V), Ok(Signal::Irq));
    assert_eq!(device.read_system(V, system::IAR1), Ok(39));
    assert_eq!(device.read_system(V, system::AP1R0), Ok(0x0010_0000));
    assert_eq!(device.write_system(V, system::EOIR0, 39), Ok(()));
    assert_eq!(device.read_system(V, system::AP1R0), Ok(0x0010_0000));
}

#[test]
fn binary_point() {
    for (bpr, signal) in [(3, Signal::Irq), (5, Signal::Irq), (6, Signal::None)] {
        let mut device = raised(0xF8);
        device.write_system(V, system::BPR1, bpr).unwrap();
        assert_eq!(device.read_system(V, system::IAR1), Ok(39));
        let mut store = |at, size, value| device.write_frame(V, V, at, size, value).unwrap();
        store(frame::IGROUPR0, Size::Word, 1);
        store(frame::ipriorityr_byte(0), Size::Byte, 0x98);
        store(frame::ISENABLER0, Size::Word, 1);
        store(frame::ISPENDR0, Size::Word, 1);
        assert_eq!(device.query_signal(V), Ok(signal));
    }
}

#[test]
fn sgis() {
    for (value, latched) in [(0x0300_0003, [8, 8, 0]), (0x100_0300_0000, [8, 0, 8])] {
        let mut device = device(64, 3);
        device
            .write_system(VcpuIndex(1), system::SGI1R, value)
            .unwrap();
        let of = |v| device.read_frame(V, VcpuIndex(v), frame::ISPENDR0, Size::Word);
        assert_eq!([0, 1, 2].map(of), latched.map(Ok));
    }
}

#[test]
fn record() {
    let mut target = device(64, 1);
    target.set_running(V, false).unwrap();
    let mut buf = [0; 76];
    let record = target.save(&mut buf).unwrap();
    let mut wanted = vec![1, 0x40, 1, 0, 0x50, 0];
    wanted.extend([0; 61]);
    wanted.extend([0, 0x80, 8, 2, 3, 0, 0, 0, 0]);
    assert_eq!(record, wanted);
    assert_eq!(target.restore(&[0x80, 0]), Err(Errno::BadMsg));
    assert_eq!(target.restore(&[2]), Err(Errno::Inval));
    assert_eq!(target.restore(&wanted), Ok(()));
}
