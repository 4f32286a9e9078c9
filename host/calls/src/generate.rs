//! Random calls.

use crate::call::Call;
use crate::random::Random;
use crate::view::View;

/// What a part of a session mostly does.
#[derive(Clone, Copy, PartialEq, Eq, Debug)]
pub enum Phase {
    /// vCPUs run: guest accesses and lines.
    Running,
    /// All are stopped: attributes and records.
    Stopped,
}

/// A longest record: 1,642 numbers of at most five bytes.
pub const LONGEST_RECORD: usize = 8210;

impl Random {
    /// Any call on an initialised device.
    pub fn call(&mut self, view: View, phase: Phase, records: &[Vec<u8>]) -> Call {
        match (self.below(100), phase) {
            (0, _) => self.set_up_call(),
            (1, _) => self.save(view),
            (2, _) => self.restore(records),
            (3..=5, _) => Call::QuerySignal {
                v: self.index(view),
            },
            (6..=45, Phase::Running) => self.guest_call(view),
            (46..=57, Phase::Running) => self.line(view),
            (58..=59, Phase::Running) => self.running_flag(view, 85),
            (60..=62, Phase::Running) => self.attribute_call(view),
            (_, Phase::Running) => self.interface_call(view),
            (6..=9, Phase::Stopped) => self.guest_call(view),
            (10..=14, Phase::Stopped) => self.line(view),
            (15, Phase::Stopped) => self.running_flag(view, 10),
            (_, Phase::Stopped) => self.attribute_call(view),
        }
    }

    /// A call that sets a device up, in any phase.
    pub fn set_up_call(&mut self) -> Call {
        match self.below(10) {
            0..=4 => Call::AddVcpu {
                mpidr: self.affinity(),
            },
            5..=7 => Call::set(3, self.value(), self.count_value()),
            8 => Call::get(self.pick(&[3, 3, 4]), self.value()),
            _ => Call::set(4, self.pick(&[0, 0, 0, 1]), self.value()),
        }
    }

    fn running_flag(&mut self, view: View, percent_on: usize) -> Call {
        let v = self.index(view);
        let on = self.chance(percent_on);
        Call::SetRunning { v, on }
    }

    fn line(&mut self, view: View) -> Call {
        Call::ChangeLine {
            v: self.index(view),
            id: self.id(view),
            level: self.chance(60),
        }
    }

    /// A guest's access of any kind.
    pub fn guest_call(&mut self, view: View) -> Call {
        match self.below(10) {
            0 => self.read_mapped(view),
            1..=5 => self.write_mapped(view),
            6 => self.byte_access(view),
            _ => self.interface_call(view),
        }
    }

    #[rustfmt::skip]
    fn read_mapped(&mut self, view: View) -> Call {
        let v = self.running_index(view);
        let size = self.size();
        if self.chance(60) {
            let (offset, _) = self.distributor_word(view);
            Call::ReadDistributor { v, offset: self.wide(offset), size }
        } else {
            let frame = self.index(view);
            let (offset, _) = self.frame_word();
            Call::ReadFrame { v, frame, offset: self.wide(offset), size }
        }
    }

    #[rustfmt::skip]
    fn write_mapped(&mut self, view: View) -> Call {
        let v = self.running_index(view);
        let size = self.size();
        if self.chance(65) {
            let (offset, value) = self.distributor_word(view);
            Call::WriteDistributor { v, offset: self.wide(offset), size, value }
        } else {
            let frame = self.index(view);
            let (offset, value) = self.frame_word();
            Call::WriteFrame { v, frame, offset: self.wide(offset), size, value }
        }
    }

    /// An access of one byte to a priority.
    #[rustfmt::skip]
    fn byte_access(&mut self, view: View) -> Call {
        let v = self.running_index(view);
        let frame = self.index(view);
        let size = 1;
        let value = self.value();
        let distributor = self.priority_byte(view, 0x400);
        let private = self.priority_byte(view, 0x10400);
        match self.below(4) {
            0 => Call::ReadDistributor { v, offset: distributor, size },
            1 => Call::WriteDistributor { v, offset: distributor, size, value },
            2 => Call::ReadFrame { v, frame, offset: private, size },
            _ => Call::WriteFrame { v, frame, offset: private, size, value },
        }
    }

    fn interface_call(&mut self, view: View) -> Call {
        let v = self.running_index(view);
        if self.chance(45) {
            let encoding = self.read_encoding();
            Call::ReadSystem { v, encoding }
        } else {
            let (encoding, value) = self.written(view, v);
            Call::WriteSystem { v, encoding, value }
        }
    }

    pub fn attribute_call(&mut self, view: View) -> Call {
        let (group, attribute, value) = self.attribute(view);
        if self.chance(40) {
            Call::get(group, attribute)
        } else {
            Call::set(group, attribute, value)
        }
    }

    /// A save into a buffer of some length.
    fn save(&mut self, view: View) -> Call {
        let values = 5 + 23 * view.vcpus() + 16 * view.count();
        let length = match self.below(5) {
            0 => self.pick(&[0, 1, 2, 75, 76]),
            1 => self.below(2 * values),
            2 => LONGEST_RECORD,
            _ => self.below(LONGEST_RECORD + 100),
        };
        Call::Save {
            buf: self.bytes(length),
        }
    }

    /// A restore of a record that was saved before, or of any bytes.
    fn restore(&mut self, records: &[Vec<u8>]) -> Call {
        let bytes = if records.is_empty() || self.chance(10) {
            let length = self.below(100);
            self.bytes(length)
        } else {
            records[self.below(records.len())].clone()
        };
        Call::Restore { bytes }
    }
}
