//! Long-lived devices: setting up, and phases of calls.

use crate::call::Call;
use crate::generate::Phase;
use crate::random::Random;
use crate::subject::{Compared, Subject};
use crate::tally::Event;
use crate::view::fresh_words;
use plain_model::WORDS;

/// Everything of a run.
pub struct Session<S> {
    pub subject: S,
    pub random: Random,
    /// Records saved before, for restores into other devices.
    pub records: Vec<Vec<u8>>,
}

impl<S: Subject> Session<S> {
    pub fn new(subject: S, seed: u64) -> Session<S> {
        Session {
            subject,
            random: Random::new(seed),
            records: Vec::new(),
        }
    }

    /// One device's life: set up or put, used for some hundred calls, and moved.
    pub fn run_device(&mut self) -> Compared<()> {
        self.begin()?;
        self.use_device()?;
        if self.random.chance(50) {
            let tries = self.random.below(48);
            self.move_by_record(tries)?;
        }
        if self.random.chance(8) {
            self.move_by_attributes()?;
        }
        Ok(())
    }

    /// A device set up by calls, or put.
    pub fn begin(&mut self) -> Compared<()> {
        match self.random.below(10) {
            0..=5 => self.set_up(),
            6 => self.put_fresh(),
            _ => self.put_sound(),
        }
    }

    /// Phases in which vCPUs run or all are stopped.
    pub fn use_device(&mut self) -> Compared<()> {
        for _ in 0..1 + self.random.below(6) {
            let phase = self
                .random
                .pick(&[Phase::Running, Phase::Running, Phase::Stopped]);
            self.set_all_running(phase == Phase::Running)?;
            if phase == Phase::Running && self.random.chance(70) {
                self.open_interfaces()?;
            }
            for _ in 0..20 + self.random.below(120) {
                self.step(phase)?;
            }
        }
        Ok(())
    }

    /// One call on the device, or on other words.
    pub fn step(&mut self, phase: Phase) -> Compared<()> {
        let view = self.subject.view();
        let call = self.random.call(view, phase, &self.records);
        match self.random.below(100) {
            0 => self.call_on_wrong_length(&call),
            1..=3 => self.call_on_changed_words(&call),
            4..=7 if phase == Phase::Running => self.serve(),
            _ => self.subject.call(&call).map(|_| ()),
        }
    }

    fn call_on_wrong_length(&mut self, call: &Call) -> Compared<()> {
        let length = match self.random.below(6) {
            0 => self.random.pick(&[0, 1, 3, 16, 272]),
            1 => WORDS - 1,
            2 => WORDS + 1,
            3 => self.random.below(2 * WORDS),
            4 => WORDS + self.random.below(300),
            _ => self.random.below(WORDS),
        };
        let mut words = self.subject.words().to_vec();
        words.resize(length, 0);
        let call = self.any_kind(call);
        self.subject.call_on(&words, &call).map(|_| ())
    }

    /// A call on words of which some were changed; the changed words are kept at times, if sound.
    fn call_on_changed_words(&mut self, call: &Call) -> Compared<()> {
        let mut words = self.subject.words().to_vec();
        self.random.change_words(&mut words);
        let call = self.any_kind(call);
        let answer = self.subject.call_on(&words, &call)?;
        if answer >= 0 && !matches!(call, Call::Make) && words[0] == 1 && self.random.chance(30) {
            self.subject.put(&words)?;
        }
        Ok(())
    }

    /// The call, or one that is seldom made else.
    fn any_kind(&mut self, call: &Call) -> Call {
        match self.random.below(4) {
            0 => Call::Make,
            1 => self.random.set_up_call(),
            _ => call.clone(),
        }
    }

    pub fn set_all_running(&mut self, on: bool) -> Compared<()> {
        for v in 0..self.subject.view().vcpus() {
            let on = on && self.random.chance(85);
            self.subject.call(&Call::SetRunning { v, on })?;
        }
        Ok(())
    }

    /// Guests switch their groups on, lower the mask and enable interrupts, as they do at boot.
    pub fn open_interfaces(&mut self) -> Compared<()> {
        for v in 0..self.subject.view().vcpus() {
            let system = [
                (0xC230, 0xFF),
                (0xC644, 0),
                (0xC648, 0),
                (0xC666, 1),
                (0xC667, 1),
            ];
            for (encoding, value) in system {
                self.subject
                    .call(&Call::WriteSystem { v, encoding, value })?;
            }
            let enabled = u64::from(self.random.bits());
            let size = 4;
            for (offset, value) in [(0, 3), (0x104, enabled), (0x384, enabled)] {
                self.subject.call(&Call::WriteDistributor {
                    v,
                    offset,
                    size,
                    value,
                })?;
            }
            for (offset, value) in [(0x10100, enabled), (0x10380, enabled)] {
                self.subject.call(&Call::WriteFrame {
                    v,
                    frame: v,
                    offset,
                    size,
                    value,
                })?;
            }
        }
        Ok(())
    }

    /// A guest takes what is signalled and ends it, mostly as it should.
    pub fn serve(&mut self) -> Compared<()> {
        let v = self.random.running_index(self.subject.view());
        let signal = self.subject.call(&Call::QuerySignal { v })?;
        let (iar, eoir) = match signal {
            2 => (0xC640, 0xC641),
            _ => (0xC660, 0xC661),
        };
        let id = self.subject.call(&Call::ReadSystem { v, encoding: iar })?;
        if id < 0 || self.random.chance(30) {
            return Ok(());
        }
        for encoding in [eoir, 0xC659] {
            let value = id as u64;
            self.subject
                .call(&Call::WriteSystem { v, encoding, value })?;
        }
        Ok(())
    }

    /// A device set up by calls, good and refused ones, from making on.
    pub fn set_up(&mut self) -> Compared<()> {
        let counted_first = self.random.chance(30);
        self.set_up_only(counted_first, 0)?;
        for _ in 0..self.random.below(30) {
            let call = self.set_up_step();
            if self.random.chance(20) {
                self.call_on_changed_words(&call)?;
            }
            self.subject.call(&call)?;
            if self.subject.view().is_initialised() {
                return Ok(());
            }
        }
        self.finish_set_up()
    }

    fn set_up_step(&mut self) -> Call {
        let view = self.subject.view();
        let random = &mut self.random;
        match random.below(20) {
            0..=9 => Call::AddVcpu {
                mpidr: random.affinity(),
            },
            10..=12 => random.set_up_call(),
            13 if random.chance(50) => Call::set(4, 0, 0),
            14..=15 => random.guest_call(view),
            16 => random.attribute_call(view),
            _ => random.call(view, Phase::Running, &self.records),
        }
    }

    /// A device that is not initialised, with a count or none and so many vCPUs.
    pub fn set_up_only(&mut self, has_count: bool, n: usize) -> Compared<()> {
        self.subject.call(&Call::Make)?;
        if has_count {
            let value = self.random.count() as u64;
            self.subject.call(&Call::set(3, 0, value))?;
        }
        for mpidr in self.random.affinities(n) {
            self.subject.call(&Call::AddVcpu { mpidr })?;
        }
        Ok(())
    }

    /// Whatever is missing to an initialised device.
    fn finish_set_up(&mut self) -> Compared<()> {
        if self.random.chance(90) {
            let value = self.random.count() as u64;
            let attribute = self.random.value();
            self.subject.call(&Call::set(3, attribute, value))?;
        }
        for _ in 0..self.random.below(4) {
            let mpidr = self.random.affinity();
            self.subject.call(&Call::AddVcpu { mpidr })?;
        }
        if self.subject.view().vcpus() == 0 {
            let mpidr = self.random.affinity() & 0xFF_FF0F;
            self.subject.call(&Call::AddVcpu { mpidr })?;
        }
        self.subject.call(&Call::set(4, 0, 0)).map(|_| ())
    }

    pub fn put_fresh(&mut self) -> Compared<()> {
        let n = 1 + self.random.below(8);
        let affinities = self.random.affinities(n);
        self.subject
            .put(&fresh_words(self.random.count(), &affinities))
    }

    fn put_sound(&mut self) -> Compared<()> {
        let n = 1 + self.random.below(8);
        let affinities = self.random.affinities(n);
        let count = self.random.count();
        self.subject
            .put(&self.random.sound_words(count, &affinities))?;
        self.subject.note(Event::SoundWordsPut);
        Ok(())
    }
}
