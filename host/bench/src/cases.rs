//! What is timed: kinds of calls, each on a state that its calls leave as it was, or that is put back before each.

use crate::states::{self, Scale};
use calls::Call;
use vgic::registers::{distributor, frame, system};
use vgic::{Attribute, Device, Mpidr, RECORD_MOST, STATE_WORDS};

/// Calls that are timed together on a state.
pub struct Case {
    pub name: &'static str,
    pub words: [u32; STATE_WORDS],
    pub calls: Vec<Call>,
    /// Whether the library's time is held to one pass over the state beside the plain model's call, or to that alone.
    pub with_pass: bool,
    /// Whether the state is put back before the calls; what that takes is subtracted.
    pub put_back: bool,
    /// What every call has to answer, if that is a refusal.
    pub refusal: Option<i64>,
}

impl Case {
    fn new(name: &'static str, device: &Device, calls: &[Call]) -> Case {
        Case {
            name,
            words: *device.words(),
            calls: calls.to_vec(),
            with_pass: true,
            put_back: false,
            refusal: None,
        }
    }

    fn put_back(mut self) -> Case {
        self.put_back = true;
        self
    }

    /// Refused with that errno, once the state is found sound.
    fn refused(mut self, errno: i64) -> Case {
        self.refusal = Some(-errno);
        self
    }

    /// The bytes that save writes to or restore reads; no other call lends any.
    pub fn lent(&self) -> Vec<u8> {
        let lent = self.calls.iter().map(Call::bytes);
        lent.fold(Vec::new(), |all, bytes| [all, bytes.to_vec()].concat())
    }

    /// Held to the plain model alone.
    fn without_pass(mut self) -> Case {
        self.with_pass = false;
        self
    }
}

#[rustfmt::skip]
fn to_distributor(v: usize, offset: u64, size: u64, value: u64) -> Call {
    Call::WriteDistributor { v, offset, size, value }
}

/// A write of a vCPU to its own frame.
#[rustfmt::skip]
fn to_frame(v: usize, offset: u64, size: u64, value: u64) -> Call {
    Call::WriteFrame { v, frame: v, offset, size, value }
}

/// A read of a word of a vCPU's own frame.
#[rustfmt::skip]
fn from_frame(v: usize, offset: u64) -> Call {
    Call::ReadFrame { v, frame: v, offset, size: 4 }
}

/// Every kind of call on a device of that scale, in a fixed order.
pub fn all(scale: Scale) -> Vec<Case> {
    let mut cases = set_up(scale);
    cases.extend(distributor_accesses(scale));
    cases.extend(frame_accesses(scale));
    cases.extend(system_accesses(scale));
    cases.extend(lines_and_signal(scale));
    cases.extend(attributes(scale));
    cases.extend(record(scale));
    cases
}

fn set_up(scale: Scale) -> Vec<Case> {
    let (made, v) = (Device::from_words(states::MADE), scale.asked());
    let (one_less, whole) = (states::begun(scale, v), states::begun(scale, scale.vcpus));
    let last = Call::AddVcpu { mpidr: v as u32 };
    let count = Call::set(3, 0, scale.count as u64);
    let initialise = Call::set(4, 0, 0);
    let on_off = [false, true].map(|on| Call::SetRunning { v, on });
    vec![
        Case::new("make", &made, &[Call::Make]).without_pass(),
        Case::new("set count (group 3)", &states::uncounted(scale), &[count]).put_back(),
        Case::new("add vCPU", &one_less, &[last]).put_back(),
        Case::new("initialise (group 4)", &whole, &[initialise]).put_back(),
        Case::new("set running, off and on", &states::running(scale), &on_off),
    ]
}

fn distributor_accesses(scale: Scale) -> Vec<Case> {
    let (v, word, id) = (scale.asked(), scale.last_word(), scale.last_id() as u64);
    let device = states::running(scale);
    let read =
        |name, offset, size| Case::new(name, &device, &[Call::ReadDistributor { v, offset, size }]);
    let write = |name, offset, size, value| {
        Case::new(name, &device, &[to_distributor(v, offset, size, value)])
    };
    let pair = |name, first, second| {
        let calls = [first, second].map(|offset| to_distributor(v, offset, 4, 1));
        Case::new(name, &device, &calls)
    };
    use distributor::*;
    vec![
        read("GICD CTLR read", CTLR, 4),
        write("GICD CTLR write", CTLR, 4, 3),
        read("GICD TYPER read", TYPER, 4),
        read("GICD ISENABLER read", isenabler(word), 4),
        pair(
            "GICD ICENABLER, ISENABLER write",
            icenabler(word),
            isenabler(word),
        ),
        read("GICD ISPENDR read", ispendr(word), 4),
        pair("GICD ISPENDR, ICPENDR write", ispendr(word), icpendr(word)),
        read("GICD IPRIORITYR word read", ipriorityr(id / 4), 4),
        write(
            "GICD IPRIORITYR word write",
            ipriorityr(id / 4),
            4,
            0xA0A0_A0A0,
        ),
        read("GICD IPRIORITYR byte read", ipriorityr_byte(id), 1),
        write("GICD IPRIORITYR byte write", ipriorityr_byte(id), 1, 0xA0),
        read("GICD ICFGR read", icfgr(id / 16), 4),
        write("GICD ICFGR write", icfgr(id / 16), 4, 0),
        read("GICD IROUTER read", irouter(id), 4),
        write("GICD IROUTER write", irouter(id), 4, v as u64),
    ]
}

fn frame_accesses(scale: Scale) -> Vec<Case> {
    let (v, device) = (scale.asked(), states::running(scale));
    let read = |name, offset| Case::new(name, &device, &[from_frame(v, offset)]);
    let pendings = [frame::ISPENDR0, frame::ICPENDR0].map(|offset| to_frame(v, offset, 4, 1));
    let priority = to_frame(v, frame::ipriorityr_byte(31), 1, 0xA0);
    vec![
        read("GICR TYPER read", frame::TYPER),
        read("GICR ISPENDR0 read", frame::ISPENDR0),
        Case::new("GICR ISPENDR0, ICPENDR0 write", &device, &pendings),
        Case::new("GICR IPRIORITYR byte write", &device, &[priority]),
    ]
}

fn system_accesses(scale: Scale) -> Vec<Case> {
    let (v, device) = (scale.asked(), states::running(scale));
    let one = states::pending(scale, 1);
    let read = |name, d: &Device, encoding| Case::new(name, d, &[Call::ReadSystem { v, encoding }]);
    let written = |encoding, value| Call::WriteSystem { v, encoding, value };
    let pmr = written(system::PMR, 0xF8);
    let sgi = written(system::SGI1R, 0x0300_00FF);
    vec![
        read("ICC PMR read", &device, system::PMR),
        Case::new("ICC PMR write", &device, &[pmr]),
        read("ICC RPR read", &device, system::RPR),
        read("ICC HPPIR1 read, none pending", &device, system::HPPIR1),
        read("ICC HPPIR1 read, one pending", &one, system::HPPIR1),
        read("ICC IAR1 read, none pending", &device, system::IAR1),
        taken("ICC IAR1 read, EOIR1 write", scale, 1),
        Case::new("ICC SGI1R write", &states::sgi_latched(scale), &[sgi]),
    ]
}

/// An acknowledge and its end; the line stays high, so that the interrupt is pending again.
fn taken(name: &'static str, scale: Scale, lines: usize) -> Case {
    let (v, device) = (scale.asked(), states::pending(scale, lines));
    let mut best = device.clone();
    let id = best.read_system(vgic::VcpuIndex(v), system::IAR1);
    let id = id.expect("a running vCPU").into();
    let (encoding, value) = (system::EOIR1, id);
    let calls = [
        Call::ReadSystem {
            v,
            encoding: system::IAR1,
        },
        Call::WriteSystem { v, encoding, value },
    ];
    Case::new(name, &device, &calls)
}

fn lines_and_signal(scale: Scale) -> Vec<Case> {
    let (v, device) = (scale.asked(), states::running(scale));
    let query = [Call::QuerySignal { v }];
    let (one, first) = (states::pending(scale, 1), states::first_pending(scale));
    let high_low = |name, id| {
        let calls = [true, false].map(|level| Call::ChangeLine { v, id, level });
        Case::new(name, &device, &calls)
    };
    vec![
        Case::new("signal query, none pending", &device, &query),
        Case::new("signal query, one pending", &one, &query),
        Case::new("signal query, ends at SGI 0", &first, &query),
        high_low("line of an SPI, high and low", scale.last_id()),
        high_low("line of a PPI, high and low", 27),
    ]
}

fn attributes(scale: Scale) -> Vec<Case> {
    let (device, word) = (states::stopped(scale), scale.last_word());
    let (mpidr, v) = (Mpidr(scale.asked() as u32), scale.asked() as u64);
    let at = |offset: u64| Attribute::Distributor {
        offset: offset as u32,
    };
    let enables = at(distributor::isenabler(word));
    let route = at(distributor::irouter(scale.last_id() as u64));
    let (offset, encoding) = (frame::ISPENDR0 as u32, system::PMR as u32);
    let latch = Attribute::Redistributor { mpidr, offset };
    let pmr = Attribute::System { mpidr, encoding };
    let lines = Attribute::SpiLines {
        first: 32 * word as u32,
    };
    let get = |name, a: Attribute| Case::new(name, &device, &[Call::get(a.group(), a.number())]);
    let set =
        |name, a: Attribute, x| Case::new(name, &device, &[Call::set(a.group(), a.number(), x)]);
    let unknown = Call::get(0, 0);
    vec![
        Case::new("the soundness test (unknown group)", &device, &[unknown]).refused(6),
        get("get count (group 3)", Attribute::Count),
        get("get ISENABLER (group 1)", enables),
        set("set ISENABLER (group 1)", enables, 0xFFFF_FFFF),
        get("get IROUTER (group 1)", route),
        set("set IROUTER (group 1)", route, v),
        get("get ISPENDR0 (group 5)", latch),
        set("set ISPENDR0 (group 5)", latch, 0),
        get("get PMR (group 6)", pmr),
        set("set PMR (group 6)", pmr, 0xF8),
        get("get lines (group 7)", lines),
        set("set lines (group 7)", lines, 0),
    ]
}

/// Save with room to spare and into a buffer of the record's length; restore of a device in use and of a fresh one.
fn record(scale: Scale) -> Vec<Case> {
    let (device, fresh) = (states::stopped(scale), states::fresh(scale));
    let (of_device, of_fresh) = (states::record_of(&device), states::record_of(&fresh));
    let save = |name, length| {
        let buf = vec![0xEE; length];
        Case::new(name, &device, &[Call::Save { buf }]).without_pass()
    };
    let restore = |name, bytes| {
        let case = Case::new(name, &fresh, &[Call::Restore { bytes }]);
        case.without_pass().put_back()
    };
    vec![
        save("save", RECORD_MOST),
        save("save, no room to spare", of_device.len()),
        restore("restore", of_device),
        restore("restore, of a fresh device", of_fresh),
    ]
}

/// The calls that search for the best candidate, with so many lines high.
pub fn searches(scale: Scale, lines: usize) -> Vec<Case> {
    let (v, device) = (scale.asked(), states::pending(scale, lines));
    let encoding = system::HPPIR1;
    let hppir = Call::ReadSystem { v, encoding };
    vec![
        Case::new("signal query", &device, &[Call::QuerySignal { v }]),
        Case::new("ICC HPPIR1 read", &device, &[hppir]),
        taken("ICC IAR1 read, EOIR1 write", scale, lines),
    ]
}
