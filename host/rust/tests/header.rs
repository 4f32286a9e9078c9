//! The C header and this crate give every name the same number.

use std::collections::HashMap;
use vgic::registers::{self, distributor, frame, system};
use vgic::{Errno, Mpidr};

const HEADER: &str = include_str!("../../../include/vgic.h");

/// A number of C: decimal or hexadecimal, alone or in UINT32_C or UINT64_C.
fn number(text: &str) -> Option<u64> {
    let text = text
        .strip_prefix("UINT64_C(")
        .or(text.strip_prefix("UINT32_C("))
        .unwrap_or(text);
    let digits = text.trim_end_matches(')');
    match digits.strip_prefix("0x") {
        Some(hex) => u64::from_str_radix(hex, 16).ok(),
        None => digits.parse().ok(),
    }
}

/// The macros of the header that are numbers.
fn numbers() -> HashMap<&'static str, u64> {
    let define = |line: &'static str| {
        let mut words = line.strip_prefix("#define VGIC_")?.split_whitespace();
        Some((words.next()?, number(words.next()?)?))
    };
    HEADER.lines().filter_map(define).collect()
}

#[test]
fn sizes_and_refusals() {
    let numbers = numbers();
    assert_eq!(numbers["STATE_WORDS"], vgic::STATE_WORDS as u64);
    assert_eq!(numbers["RECORD_MOST"], vgic::RECORD_MOST as u64);
    assert_eq!(numbers["VCPUS_MOST"], vgic::VCPUS_MOST as u64);
    assert_eq!(numbers["ID_NONE"], registers::ID_NONE.into());
    assert_eq!(numbers["IIDR_VALUE"], registers::IIDR_VALUE.into());
    for errno in Errno::ALL {
        assert_eq!(numbers[errno.name()], errno.number() as u64);
    }
}

#[test]
fn memory_mapped_registers() {
    let numbers = numbers();
    for (name, offset) in [
        ("GICD_CTLR", distributor::CTLR),
        ("GICD_TYPER", distributor::TYPER),
        ("GICD_IIDR", distributor::IIDR),
        ("GICD_STATUSR", distributor::STATUSR),
        ("GICR_CTLR", frame::CTLR),
        ("GICR_IIDR", frame::IIDR),
        ("GICR_TYPER", frame::TYPER),
        ("GICR_STATUSR", frame::STATUSR),
        ("GICR_WAKER", frame::WAKER),
        ("GICR_IGROUPR0", frame::IGROUPR0),
        ("GICR_ISENABLER0", frame::ISENABLER0),
        ("GICR_ICENABLER0", frame::ICENABLER0),
        ("GICR_ISPENDR0", frame::ISPENDR0),
        ("GICR_ICPENDR0", frame::ICPENDR0),
        ("GICR_ISACTIVER0", frame::ISACTIVER0),
        ("GICR_ICACTIVER0", frame::ICACTIVER0),
        ("GICR_ICFGR0", frame::ICFGR0),
        ("GICR_ICFGR1", frame::ICFGR1),
    ] {
        assert_eq!(numbers[name], offset, "{name}");
    }
}

/// The first offset of a register of many words stands in its macro.
#[test]
fn families() {
    for (name, first) in [
        ("GICD_IGROUPR(word)", distributor::igroupr(0)),
        ("GICD_ISENABLER(word)", distributor::isenabler(0)),
        ("GICD_ICENABLER(word)", distributor::icenabler(0)),
        ("GICD_ISPENDR(word)", distributor::ispendr(0)),
        ("GICD_ICPENDR(word)", distributor::icpendr(0)),
        ("GICD_ISACTIVER(word)", distributor::isactiver(0)),
        ("GICD_ICACTIVER(word)", distributor::icactiver(0)),
        ("GICD_IPRIORITYR(word)", distributor::ipriorityr(0)),
        ("GICD_IPRIORITYR_BYTE(id)", distributor::ipriorityr_byte(0)),
        ("GICD_ICFGR(word)", distributor::icfgr(0)),
        ("GICD_IROUTER(id)", distributor::irouter(0)),
        ("GICR_IPRIORITYR(word)", frame::ipriorityr(0)),
        ("GICR_IPRIORITYR_BYTE(id)", frame::ipriorityr_byte(0)),
    ] {
        let start = format!("#define VGIC_{name} (UINT64_C({first:#X}) + ").replace("0X", "0x");
        assert!(
            HEADER.lines().any(|line| line.starts_with(&start)),
            "{start}"
        );
    }
}

#[test]
fn system_registers() {
    let numbers = numbers();
    let encodings = [
        ("PMR", system::PMR),
        ("BPR0", system::BPR0),
        ("AP0R0", system::AP0R0),
        ("AP1R0", system::AP1R0),
        ("BPR1", system::BPR1),
        ("CTLR", system::CTLR),
        ("SRE", system::SRE),
        ("IGRPEN0", system::IGRPEN0),
        ("IGRPEN1", system::IGRPEN1),
        ("IAR0", system::IAR0),
        ("HPPIR0", system::HPPIR0),
        ("RPR", system::RPR),
        ("IAR1", system::IAR1),
        ("HPPIR1", system::HPPIR1),
        ("EOIR0", system::EOIR0),
        ("DIR", system::DIR),
        ("SGI1R", system::SGI1R),
        ("SGI0R", system::SGI0R),
        ("EOIR1", system::EOIR1),
    ];
    for (name, encoding) in encodings {
        assert_eq!(
            numbers[format!("ICC_{name}_EL1").as_str()],
            encoding,
            "{name}"
        );
    }
    let named = numbers.keys().filter(|name| name.starts_with("ICC_"));
    assert_eq!(named.count(), encodings.len());
}

#[test]
fn groups() {
    use vgic::Attribute::*;
    let (numbers, mpidr) = (numbers(), Mpidr(0));
    for (name, attribute) in [
        ("GROUP_DISTRIBUTOR", Distributor { offset: 0 }),
        ("GROUP_COUNT", Count),
        ("GROUP_INITIALISE", Initialise),
        ("GROUP_REDISTRIBUTOR", Redistributor { mpidr, offset: 0 }),
        ("GROUP_SYSTEM", System { mpidr, encoding: 0 }),
        ("GROUP_LINES", PrivateLines { mpidr }),
        ("GROUP_LINES", SpiLines { first: 32 }),
    ] {
        assert_eq!(numbers[name], attribute.group(), "{name}");
    }
}
