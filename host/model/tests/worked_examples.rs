//! Document 01's worked examples, as calls of the model.

use plain_model::{Device, WORDS};

const IAR0: u64 = 0xC640;
const EOIR0: u64 = 0xC641;
const EOIR1: u64 = 0xC661;
const IAR1: u64 = 0xC660;
const AP0R: u64 = 0xC644;
const AP1R: u64 = 0xC648;
const PMR: u64 = 0xC230;
const BPR1: u64 = 0xC663;
const RPR: u64 = 0xC65B;
const IGRPEN1: u64 = 0xC667;
const SGI1R: u64 = 0xC65D;

/// A device initialised at that count, with vCPUs of these affinities.
fn device(count: u64, affinities: &[u32]) -> Device {
    let mut device = Device::made();
    assert_eq!(device.set_attribute(3, 0, count), 0);
    for &affinity in affinities {
        assert_eq!(device.add_vcpu(affinity), 0);
    }
    assert_eq!(device.set_attribute(4, 0, 0), 0);
    device
}

/// The same, every vCPU running.
fn running(count: u64, affinities: &[u32]) -> Device {
    let mut device = device(count, affinities);
    for v in 0..affinities.len() {
        assert_eq!(device.set_running(v, true), 0);
    }
    device
}

/// vCPU 0 runs with group 1 on; SPI 39 is in group 1, enabled, of that priority.
fn with_spi39(priority: u64) -> Device {
    let mut device = running(64, &[0]);
    assert_eq!(device.write_distributor(0, 0, 4, 2), 0);
    assert_eq!(device.write_distributor(0, 0x84, 4, 0x80), 0);
    assert_eq!(device.write_distributor(0, 0x104, 4, 0x80), 0);
    assert_eq!(device.write_distributor(0, 0x400 + 39, 1, priority), 0);
    assert_eq!(device.write_system(0, IGRPEN1, 1), 0);
    device
}

fn record(device: &Device) -> Vec<u8> {
    let mut buf = vec![0; 8210];
    let length = device.save(&mut buf);
    buf.truncate(usize::try_from(length).expect("saved"));
    buf
}

#[test]
fn p1_interrupt_counts() {
    for (count, answer) in [(32, -22), (100, -22), (1056, -22), (64, 0), (1024, 0)] {
        assert_eq!(Device::made().set_attribute(3, 0, count), answer, "{count}");
    }
}

#[test]
fn p2_typer() {
    assert_eq!(device(64, &[0]).get_attribute(1, 4), 0x0248_0001);
    assert_eq!(device(1024, &[0]).get_attribute(1, 4), 0x0248_001F);
}

#[test]
fn p3_latch_and_pending() {
    let mut device = running(64, &[0]);
    assert_eq!(device.change_line(0, 32, true), 0);
    assert_eq!(device.read_distributor(0, 0x204, 4), 1);
    assert_eq!(device.write_distributor(0, 0x284, 4, 1), 0);
    assert_eq!(device.read_distributor(0, 0x204, 4), 1);
    assert_eq!(device.set_running(0, false), 0);
    assert_eq!(device.get_attribute(1, 0x204), 0);
}

#[test]
fn p4_priority_mask() {
    let mut device = with_spi39(0xA0);
    assert_eq!(device.change_line(0, 39, true), 0);
    assert_eq!(device.write_system(0, PMR, 0xA0), 0);
    assert_eq!(device.read_system(0, IAR1), 1023);
    assert_eq!(device.write_system(0, PMR, 0xA8), 0);
    assert_eq!(device.read_system(0, IAR1), 39);
    assert_eq!(device.read_system(0, AP1R), 0x0010_0000);
}

#[test]
fn p5_preemption_by_binary_point() {
    for (bpr1, second) in [(3, 40), (5, 40), (6, 1023)] {
        let mut device = with_spi39(0xA0);
        assert_eq!(device.write_system(0, BPR1, bpr1), 0);
        assert_eq!(device.write_system(0, PMR, 0xF8), 0);
        assert_eq!(device.change_line(0, 39, true), 0);
        assert_eq!(device.read_system(0, IAR1), 39);
        assert_eq!(device.write_distributor(0, 0x84, 4, 0x180), 0);
        assert_eq!(device.write_distributor(0, 0x104, 4, 0x100), 0);
        assert_eq!(device.write_distributor(0, 0x400 + 40, 1, 0x98), 0);
        assert_eq!(device.change_line(0, 40, true), 0);
        assert_eq!(device.read_system(0, IAR1), second, "BPR1 {bpr1}");
    }
}

#[test]
fn p6_end_in_the_other_group() {
    let mut device = with_spi39(0xA0);
    assert_eq!(device.write_system(0, PMR, 0xF8), 0);
    assert_eq!(device.change_line(0, 39, true), 0);
    assert_eq!(device.read_system(0, IAR0), 1023);
    assert_eq!(device.read_system(0, IAR1), 39);
    let before = device.clone();
    assert_eq!(device.write_system(0, EOIR0, 39), 0);
    assert_eq!(device, before);
    assert_eq!(device.read_system(0, AP0R), 0);
    assert_eq!(device.write_system(0, EOIR1, 39), 0);
    assert_ne!(device, before);
}

#[test]
fn p7_seven_bit_groups() {
    let bytes = record(&device(1024, &[0]));
    assert_eq!(bytes[..3], [0x01, 0x80, 0x08]);
    let mut full = device(64, &[0]);
    assert_eq!(full.set_attribute(6, AP1R, 0xFFFF_FFFF), 0);
    let bytes = record(&full);
    assert_eq!(bytes[73..78], [0xFF, 0xFF, 0xFF, 0xFF, 0x0F]);
    let mut fresh = device(64, &[0]);
    assert_eq!(fresh.restore(&[0x80, 0x00]), -74);
    assert_eq!(fresh.restore(&bytes), 0);
    assert_eq!(fresh, full);
}

#[test]
fn p8_sgis() {
    let affinities = [0, 1, 2];
    for (value, latched) in [(0x0300_0003, [8, 8, 0]), (0x100_0300_0000, [0, 8, 8])] {
        let mut device = running(64, &affinities);
        assert_eq!(device.write_system(0, SGI1R, value), 0);
        for (frame, latch) in latched.into_iter().enumerate() {
            assert_eq!(device.read_frame(0, frame, 0x10200, 4), latch);
        }
    }
}

#[test]
fn fresh_record() {
    let mut expected = vec![0x01, 0x40, 0x01, 0x00, 0x50, 0x00];
    expected.extend([0; 61]);
    expected.extend([0x00, 0x80, 0x08, 0x02, 0x03, 0, 0, 0, 0]);
    assert_eq!(expected.len(), 76);
    let fresh = device(64, &[0]);
    assert_eq!(record(&fresh), expected);
    let mut buf = [0xEE; 100];
    assert_eq!(fresh.save(&mut buf[..75]), -28);
    assert_eq!(buf, [0xEE; 100]);
    assert_eq!(fresh.save(&mut buf), 76);
    assert_eq!(buf[76..], [0xEE; 24]);
    let mut target = fresh.clone();
    assert_eq!(target.restore(&expected), 0);
    expected.push(0);
    assert_eq!(target.restore(&expected), -74);
    assert_eq!(target, fresh);
}

#[test]
fn session_of_twenty_lines() {
    let mut d = Device::made();
    let answers = [
        d.set_attribute(3, 0, 0x40),
        d.add_vcpu(0),
        d.set_attribute(4, 0, 0),
        d.set_running(0, true),
        d.read_system(0, IAR1),
        d.write_distributor(0, 0, 4, 2),
        d.write_distributor(0, 0x84, 4, 0x80),
        d.write_distributor(0, 0x424, 4, 0xA000_0000),
        d.write_distributor(0, 0x104, 4, 0x80),
        d.write_system(0, IGRPEN1, 1),
        d.write_system(0, PMR, 0xA8),
        d.change_line(0, 0x27, true),
        d.query_signal(0),
        d.read_system(0, IAR1),
        d.read_distributor(0, 0x204, 4),
        d.read_system(0, RPR),
        d.write_system(0, EOIR1, 0x27),
        d.query_signal(0),
        d.change_line(0, 0x27, false),
        d.query_signal(0),
    ];
    let expected = [
        0, 0, 0, 0, 0x3FF, 0, 0, 0, 0, 0, 0, 0, 1, 0x27, 0x80, 0xA0, 0, 1, 0, 0,
    ];
    assert_eq!(answers, expected);
}

#[test]
fn words_of_made_and_fresh() {
    let mut words = [u32::MAX; WORDS];
    Device::made().to_words(&mut words);
    assert_eq!(words, [0; WORDS]);
    assert_eq!(Device::from_words(&words), Some(Device::made()));
    assert_eq!(Device::from_words(&words[1..]), None);
    let fresh = device(1024, &[0x102, 3]);
    fresh.to_words(&mut words);
    let set = words.iter().enumerate().filter(|(_, &word)| word != 0);
    let expected = [
        (0, 1),
        (1, 1024),
        (2, 2),
        (29, 0xFFFF),
        (32, 0x102),
        (37, 2),
        (38, 3),
        (61, 0xFFFF),
        (64, 3),
        (69, 2),
        (70, 3),
    ];
    assert!(set.map(|(at, &word)| (at, word)).eq(expected));
    assert_eq!(Device::from_words(&words), Some(fresh));
}

#[test]
fn longest_record() {
    let affinities: Vec<u32> = (0..8).collect();
    assert_eq!(record(&device(1024, &affinities)).len(), 1642 + 1 + 8);
}
