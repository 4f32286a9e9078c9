//! Devices moved: by record, and by attribute.

use crate::call::Call;
use crate::generate::{Phase, LONGEST_RECORD};
use crate::records::numbers;
use crate::session::Session;
use crate::subject::{Compared, Difference, Subject};
use crate::tally::Event;
use crate::view::{fresh_words, View, BANK, BLOCK, FIRST_BLOCK, FIRST_ROUTE, FIRST_SPI_BANK};

const KEPT_RECORDS: usize = 24;

impl<S: Subject> Session<S> {
    /// Saves the device, which is stopped, into buffers too short, exact and long.
    pub fn save(&mut self) -> Compared<Vec<u8>> {
        let length = self.random.pick(&[LONGEST_RECORD, 10_000]);
        let buf = self.random.bytes(length);
        let (length, mut record) = self.subject.call_for_bytes(&Call::Save { buf })?;
        if length < 0 {
            return Err(Difference(format!(
                "a stopped device is not saved: {length}"
            )));
        }
        record.truncate(length as usize);
        for length in [record.len() - 1, record.len()] {
            let buf = self.random.bytes(length);
            self.subject.call(&Call::Save { buf })?;
        }
        Ok(record)
    }

    /// The record of the device, so many times whole or damaged into targets of many kinds, and last into a fresh one.
    pub fn move_by_record(&mut self, tries: usize) -> Compared<()> {
        self.set_all_running(false)?;
        let moved = self.subject.words().to_vec();
        let affinities = self.subject.view().affinities();
        let count = self.subject.view().count();
        let record = self.save()?;
        for _ in 0..tries {
            let target = self.target(count, &affinities);
            self.subject.put(&target)?;
            let other = self.random.below(12 * KEPT_RECORDS);
            let bytes = self
                .random
                .damaged(self.records.get(other).unwrap_or(&record));
            self.subject.call(&Call::Restore { bytes })?;
        }
        self.subject.put(&fresh_words(count, &affinities))?;
        let bytes = record.clone();
        self.subject.call(&Call::Restore { bytes })?;
        if self.subject.words() != moved {
            return Err(Difference("a restored device is another".into()));
        }
        self.subject.note(Event::Restored);
        if self.records.len() == KEPT_RECORDS {
            self.records.swap_remove(self.random.below(KEPT_RECORDS));
        }
        self.records.push(record);
        Ok(())
    }

    /// A target of a restore: fresh mostly, or changed in count, affinities, phase or content.
    fn target(&mut self, count: usize, affinities: &[u32]) -> Vec<u32> {
        let random = &mut self.random;
        let mut affinities = affinities.to_vec();
        match random.below(20) {
            0 => return fresh_words(random.count(), &affinities),
            1 => random.shuffle(&mut affinities),
            2 => affinities = random.affinities(affinities.len()),
            3 if affinities.len() > 1 => affinities.truncate(affinities.len() - 1),
            4 => return random.sound_words(count, &affinities),
            _ => (),
        }
        let mut words = fresh_words(count, &affinities);
        let last = FIRST_BLOCK + BLOCK * (affinities.len() - 1);
        match random.below(20) {
            // Running.
            0 => words[last + 17] = 1,
            // Not initialised.
            1 => words[0] = 0,
            // Not fresh by one field.
            2 => words[4] = 1 << random.below(4),
            3 => words[FIRST_ROUTE] = 1 << random.below(24),
            4 => words[last + 21] = 3,
            5 => words[last + 24] = 1 << random.below(32),
            6 => words[last + 2] = 1 << random.below(32),
            7 => words[FIRST_SPI_BANK + BANK * random.below(count / 32 - 1) + 2] = 1,
            _ => (),
        }
        words
    }

    /// Puts every listed attribute of the device into a fresh one, and makes the same calls on both.
    pub fn move_by_attributes(&mut self) -> Compared<()> {
        self.set_all_running(false)?;
        let moved = self.subject.words().to_vec();
        let affinities = self.subject.view().affinities();
        let count = self.subject.view().count();
        let record = self.save()?;
        let mut puts = Vec::new();
        for (group, attribute) in listed(count, &affinities) {
            let value = self.subject.call(&Call::get(group, attribute))?;
            puts.push((group, attribute, value as u64));
        }
        let values: Vec<u64> = puts.iter().map(|&(_, _, value)| value).collect();
        if numbers(&record)[3 + affinities.len()..] != values {
            return Err(Difference(
                "a record has other values than attributes".into(),
            ));
        }
        self.random.shuffle(&mut puts);
        self.subject.put(&fresh_words(count, &affinities))?;
        for i in 0..puts.len() {
            self.put_attribute(puts[i])?;
            if self.random.chance(25) {
                self.between_puts(&puts)?;
            }
        }
        if self.subject.words() != moved {
            return Err(Difference("a device put by attribute is another".into()));
        }
        self.subject.note(Event::AttributesPut);
        self.call_on_both(&moved)
    }

    /// The same calls on the device and on one of these words: equal answers, equal words after them.
    fn call_on_both(&mut self, moved: &[u32]) -> Compared<()> {
        self.set_all_running(true)?;
        let running = self.subject.words().to_vec();
        let (mut calls, mut answers) = (Vec::new(), Vec::new());
        for _ in 0..100 {
            let (view, phase) = (self.subject.view(), Phase::Running);
            let call = self.random.call(view, phase, &self.records);
            answers.push(self.subject.call(&call)?);
            calls.push(call);
        }
        let first = self.subject.words().to_vec();
        self.subject.put(moved)?;
        for v in 0..self.subject.view().vcpus() {
            let on = View(&running).is_running(v);
            self.subject.call(&Call::SetRunning { v, on })?;
        }
        for (call, answer) in calls.iter().zip(answers) {
            if self.subject.call(call)? != answer {
                return Err(Difference(format!("{call:x?} differs on an equal device")));
            }
            self.subject.note(Event::CalledOnBoth);
        }
        if self.subject.words() != first {
            return Err(Difference("equal devices become others".into()));
        }
        Ok(())
    }

    /// Sets an attribute, at times by another number that names it.
    fn put_attribute(&mut self, put: (u64, u64, u64)) -> Compared<()> {
        let (group, mut attribute, value) = put;
        let ignores_high = group == 1 || group == 7 && attribute & 0xFFFF_FFFF >= 32;
        if ignores_high && self.random.chance(20) {
            attribute |= self.random.any64() << 32;
        }
        match self.subject.call(&Call::set(group, attribute, value))? {
            0 => Ok(()),
            answer => Err(Difference(format!("put {put:x?} is refused: {answer}"))),
        }
    }

    /// A repeated put, a get, or a call that is refused.
    fn between_puts(&mut self, puts: &[(u64, u64, u64)]) -> Compared<()> {
        let call = self.random.attribute_call(self.subject.view());
        let put = self.random.pick(puts);
        match self.random.below(3) {
            0 => self.put_attribute(put)?,
            1 => {
                let (group, attribute, _) = put;
                self.subject.call(&Call::get(group, attribute))?;
            }
            _ if call.on_model(&mut self.subject.model().clone(), &mut []) < 0 => {
                self.subject.call(&call)?;
            }
            _ => (),
        }
        Ok(())
    }
}

/// The listed attributes, in the order of the record.
pub fn listed(count: usize, affinities: &[u32]) -> Vec<(u64, u64)> {
    let mut listed = vec![(1, 0x0), (1, 0x10)];
    for b in 1..count as u64 / 32 {
        listed.extend([0x80, 0x100, 0x200, 0x300].map(|first| (1, first + 4 * b)));
        listed.push((7, 32 * b));
        listed.extend((0..8).map(|j| (1, 0x400 + 32 * b + 4 * j)));
        listed.extend((0..2).map(|j| (1, 0xC00 + 8 * b + 4 * j)));
    }
    listed.extend((32..count.min(1020) as u64).map(|id| (1, 0x6000 + 8 * id)));
    for &affinity in affinities {
        let high = u64::from(affinity) << 32;
        let frame = [0x10, 0x10080, 0x10100, 0x10200, 0x10300];
        listed.extend(frame.map(|offset| (5, high | offset)));
        listed.push((7, high));
        listed.extend((0..8).map(|j| (5, high | (0x10400 + 4 * j))));
        let interface = [
            0xC230, 0xC664, 0xC643, 0xC663, 0xC644, 0xC648, 0xC666, 0xC667,
        ];
        listed.extend(interface.map(|encoding| (6, high | encoding)));
    }
    listed
}
