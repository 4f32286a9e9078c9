//! The calls: one enum, its texts, and the two dispatches. A new call is added here and nowhere else, but for the
//! generators that are to make it.

use plain_model::Device;
#[cfg(feature = "library")]
use vgic::raw;

/// A call with its numbers. `Save` has what the buffer holds before it, `Restore` the record.
#[derive(Clone, Debug)]
pub enum Call {
    Make,
    AddVcpu {
        mpidr: u32,
    },
    SetRunning {
        v: usize,
        on: bool,
    },
    ReadDistributor {
        v: usize,
        offset: u64,
        size: u64,
    },
    WriteDistributor {
        v: usize,
        offset: u64,
        size: u64,
        value: u64,
    },
    ReadFrame {
        v: usize,
        frame: usize,
        offset: u64,
        size: u64,
    },
    WriteFrame {
        v: usize,
        frame: usize,
        offset: u64,
        size: u64,
        value: u64,
    },
    ReadSystem {
        v: usize,
        encoding: u64,
    },
    WriteSystem {
        v: usize,
        encoding: u64,
        value: u64,
    },
    QuerySignal {
        v: usize,
    },
    ChangeLine {
        v: usize,
        id: usize,
        level: bool,
    },
    GetAttribute {
        group: u64,
        attribute: u64,
    },
    SetAttribute {
        group: u64,
        attribute: u64,
        value: u64,
    },
    Save {
        buf: Vec<u8>,
    },
    Restore {
        bytes: Vec<u8>,
    },
}

/// The kinds of calls with every refusal that each can give.
pub const KINDS: [(&str, &[usize]); 15] = [
    ("make", &[14]),
    ("add_vcpu", &[14, 16, 22, 17, 12]),
    ("set_running", &[14, 16, 22]),
    ("read_distributor", &[14, 16, 22, 1]),
    ("write_distributor", &[14, 16, 22, 1]),
    ("read_frame", &[14, 16, 22, 1]),
    ("write_frame", &[14, 16, 22, 1]),
    ("read_system", &[14, 16, 22, 1, 6]),
    ("write_system", &[14, 16, 22, 1, 6]),
    ("query_signal", &[14, 16, 22]),
    ("change_line", &[14, 16, 22]),
    ("get_attribute", &[14, 6, 22, 16]),
    ("set_attribute", &[14, 6, 22, 16, 19]),
    ("save", &[14, 16, 28]),
    ("restore", &[14, 16, 17, 74, 22]),
];

impl Call {
    pub fn get(group: u64, attribute: u64) -> Call {
        Call::GetAttribute { group, attribute }
    }

    #[rustfmt::skip]
    pub fn set(group: u64, attribute: u64, value: u64) -> Call {
        Call::SetAttribute { group, attribute, value }
    }

    /// The kind's place in `KINDS`.
    pub fn kind(&self) -> usize {
        match self {
            Call::Make => 0,
            Call::AddVcpu { .. } => 1,
            Call::SetRunning { .. } => 2,
            Call::ReadDistributor { .. } => 3,
            Call::WriteDistributor { .. } => 4,
            Call::ReadFrame { .. } => 5,
            Call::WriteFrame { .. } => 6,
            Call::ReadSystem { .. } => 7,
            Call::WriteSystem { .. } => 8,
            Call::QuerySignal { .. } => 9,
            Call::ChangeLine { .. } => 10,
            Call::GetAttribute { .. } => 11,
            Call::SetAttribute { .. } => 12,
            Call::Save { .. } => 13,
            Call::Restore { .. } => 14,
        }
    }

    /// The bytes that the call lends.
    pub fn bytes(&self) -> &[u8] {
        match self {
            Call::Save { buf } => buf,
            Call::Restore { bytes } => bytes,
            _ => &[],
        }
    }

    /// Every way to say the call in the language of docs/TESTING.md. Of `Save` it has the buffer's length alone.
    #[rustfmt::skip]
    pub fn forms(&self) -> Vec<String> {
        let one = |text: String| vec![text];
        match *self {
            Call::Make => one("new".into()),
            Call::AddVcpu { mpidr } => one(format!("vcpu {mpidr:x}")),
            Call::SetRunning { v, on } => one(format!("run {v:x} {}", u8::from(on))),
            Call::ReadDistributor { v, offset, size } => access(["dr", "rdb", "rdw"], &[v as u64, offset], size, None),
            Call::WriteDistributor { v, offset, size, value } => access(["dw", "wdb", "wdw"], &[v as u64, offset], size, Some(value)),
            Call::ReadFrame { v, frame, offset, size } => access(["rr", "rrb", "rrw"], &[v as u64, frame as u64, offset], size, None),
            Call::WriteFrame { v, frame, offset, size, value } => access(["rw", "wrb", "wrw"], &[v as u64, frame as u64, offset], size, Some(value)),
            Call::ReadSystem { v, encoding } => one(format!("sr {v:x} {encoding:x}")),
            Call::WriteSystem { v, encoding, value } => one(format!("sw {v:x} {encoding:x} {value:x}")),
            Call::QuerySignal { v } => one(format!("sig {v:x}")),
            Call::ChangeLine { v, id, level } => one(format!("line {v:x} {id:x} {}", u8::from(level))),
            Call::GetAttribute { group, attribute } => one(format!("get {group:x} {attribute:x}")),
            Call::SetAttribute { group, attribute, value } => set_forms(group, attribute, value),
            Call::Save { ref buf } => one(format!("save {:x}", buf.len())),
            Call::Restore { ref bytes } if bytes.is_empty() => one("restore .".into()),
            Call::Restore { ref bytes } => one(format!("restore {}", hex(bytes))),
        }
    }

    /// The name of the call in the definitions with its numbers and its truth value; bytes, if it lends any, come last.
    #[rustfmt::skip]
    pub fn definition(&self) -> (&'static str, Vec<u64>, Option<bool>) {
        let plain = |name, numbers: &[u64]| (name, numbers.to_vec(), None);
        match *self {
            Call::Make => plain("make", &[]),
            Call::AddVcpu { mpidr } => plain("add_vcpu", &[mpidr.into()]),
            Call::SetRunning { v, on } => ("set_running", vec![v as u64], Some(on)),
            Call::ReadDistributor { v, offset, size } => plain("read_distributor", &[v as u64, offset, size]),
            Call::WriteDistributor { v, offset, size, value } => plain("write_distributor", &[v as u64, offset, size, value]),
            Call::ReadFrame { v, frame, offset, size } => plain("read_frame", &[v as u64, frame as u64, offset, size]),
            Call::WriteFrame { v, frame, offset, size, value } => plain("write_frame", &[v as u64, frame as u64, offset, size, value]),
            Call::ReadSystem { v, encoding } => plain("read_system", &[v as u64, encoding]),
            Call::WriteSystem { v, encoding, value } => plain("write_system", &[v as u64, encoding, value]),
            Call::QuerySignal { v } => plain("query_signal", &[v as u64]),
            Call::ChangeLine { v, id, level } => ("change_line", vec![v as u64, id as u64], Some(level)),
            Call::GetAttribute { group, attribute } => plain("get_attribute", &[group, attribute]),
            Call::SetAttribute { group, attribute, value } => plain("set_attribute", &[group, attribute, value]),
            Call::Save { .. } => plain("save", &[]),
            Call::Restore { .. } => plain("restore", &[]),
        }
    }

    /// Whether the answer is a number that is read, and not the mere word that the call was granted.
    pub fn is_read(&self) -> bool {
        matches!(
            self,
            Call::ReadDistributor { .. }
                | Call::ReadFrame { .. }
                | Call::ReadSystem { .. }
                | Call::QuerySignal { .. }
                | Call::GetAttribute { .. }
        )
    }

    /// Makes the call on the library; `bytes` is a copy of `self.bytes()`.
    #[cfg(feature = "library")]
    #[inline]
    #[rustfmt::skip]
    pub fn on_library(&self, state: &mut [u32], bytes: &mut [u8]) -> i64 {
        match *self {
            Call::Make => raw::make(state),
            Call::AddVcpu { mpidr } => raw::add_vcpu(state, mpidr),
            Call::SetRunning { v, on } => raw::set_running(state, v, on),
            Call::ReadDistributor { v, offset, size } => raw::read_distributor(state, v, offset, size),
            Call::WriteDistributor { v, offset, size, value } => raw::write_distributor(state, v, offset, size, value),
            Call::ReadFrame { v, frame, offset, size } => raw::read_frame(state, v, frame, offset, size),
            Call::WriteFrame { v, frame, offset, size, value } => raw::write_frame(state, v, frame, offset, size, value),
            Call::ReadSystem { v, encoding } => raw::read_system(state, v, encoding),
            Call::WriteSystem { v, encoding, value } => raw::write_system(state, v, encoding, value),
            Call::QuerySignal { v } => raw::query_signal(state, v),
            Call::ChangeLine { v, id, level } => raw::change_line(state, v, id, level),
            Call::GetAttribute { group, attribute } => raw::get_attribute(state, group, attribute),
            Call::SetAttribute { group, attribute, value } => raw::set_attribute(state, group, attribute, value),
            Call::Save { .. } => raw::save(state, bytes),
            Call::Restore { .. } => raw::restore(state, bytes),
        }
    }

    /// Makes the call on the model; `bytes` is a copy of `self.bytes()`.
    #[inline]
    #[rustfmt::skip]
    pub fn on_model(&self, device: &mut Device, bytes: &mut [u8]) -> i64 {
        match *self {
            Call::Make => { *device = Device::made(); 0 }
            Call::AddVcpu { mpidr } => device.add_vcpu(mpidr),
            Call::SetRunning { v, on } => device.set_running(v, on),
            Call::ReadDistributor { v, offset, size } => device.read_distributor(v, offset, size),
            Call::WriteDistributor { v, offset, size, value } => device.write_distributor(v, offset, size, value),
            Call::ReadFrame { v, frame, offset, size } => device.read_frame(v, frame, offset, size),
            Call::WriteFrame { v, frame, offset, size, value } => device.write_frame(v, frame, offset, size, value),
            Call::ReadSystem { v, encoding } => device.read_system(v, encoding),
            Call::WriteSystem { v, encoding, value } => device.write_system(v, encoding, value),
            Call::QuerySignal { v } => device.query_signal(v),
            Call::ChangeLine { v, id, level } => device.change_line(v, id, level),
            Call::GetAttribute { group, attribute } => device.get_attribute(group, attribute),
            Call::SetAttribute { group, attribute, value } => device.set_attribute(group, attribute, value),
            Call::Save { .. } => device.save(bytes),
            Call::Restore { .. } => device.restore(bytes),
        }
    }
}

/// Bytes as two hex digits each.
pub fn hex(bytes: &[u8]) -> String {
    bytes.iter().map(|byte| format!("{byte:02x}")).collect()
}

/// An access to a memory-mapped register: a word each for 4 bytes, for 1 byte and for any size; the size comes before the value.
fn access(words: [&str; 3], place: &[u64], size: u64, value: Option<u64>) -> Vec<String> {
    let [of_four, of_one, of_any] = words;
    let place: String = place.iter().map(|number| format!(" {number:x}")).collect();
    let value = value.map_or(String::new(), |value| format!(" {value:x}"));
    let mut forms = vec![format!("{of_any}{place} {size:x}{value}")];
    match size {
        4 => forms.push(format!("{of_four}{place}{value}")),
        1 => forms.push(format!("{of_one}{place}{value}")),
        _ => (),
    }
    forms
}

/// Setting the count and initialising have words of their own.
fn set_forms(group: u64, attribute: u64, value: u64) -> Vec<String> {
    let mut forms = vec![format!("set {group:x} {attribute:x} {value:x}")];
    match (group, attribute, value) {
        (3, 0, _) => forms.push(format!("irqs {value:x}")),
        (4, 0, 0) => forms.push("init".into()),
        _ => (),
    }
    forms
}
