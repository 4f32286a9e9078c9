//! The record: a stopped device as a list of numbers in seven-bit groups.

use crate::bank::{Bank, PRIORITY_MASK};
use crate::interface::Interface;
use crate::refusal::{done, number, Answer, Errno};
use crate::state::{Device, Vcpu, LEAST_BPR, PPIS};

const VERSION: u32 = 1;
const PRIORITIES: u32 = PRIORITY_MASK as u32 * 0x0101_0101;

/// The bytes of one number: seven bits each, lowest first, the high bit meaning more.
fn groups(mut value: u32) -> impl Iterator<Item = u8> {
    let mut more = true;
    std::iter::from_fn(move || {
        more.then(|| {
            let low = (value & 0x7F) as u8;
            value >>= 7;
            more = value != 0;
            low | u8::from(more) << 7
        })
    })
}

/// The bytes of a record that are not read yet.
struct Reader<'a> {
    bytes: &'a [u8],
}

impl Reader<'_> {
    /// The next number, in shortest form and at most 2^32 - 1.
    fn number(&mut self) -> Answer {
        let mut value = 0;
        for shift in (0..).step_by(7) {
            let (&byte, rest) = self.bytes.split_first().ok_or(Errno::Badmsg)?;
            self.bytes = rest;
            value |= u64::from(byte & 0x7F) << shift;
            let is_longer_than_needed = byte == 0 && shift > 0;
            if is_longer_than_needed || value > u32::MAX.into() || shift > 28 {
                return Err(Errno::Badmsg);
            }
            if byte & 0x80 == 0 {
                break;
            }
        }
        Ok(value as u32)
    }

    /// The next number, which has to satisfy a condition.
    fn number_where(&mut self, holds: impl Fn(u32) -> bool) -> Answer {
        let value = self.number()?;
        holds(value).then_some(value).ok_or(Errno::Inval)
    }

    /// The next number, which has to be this one.
    fn expect(&mut self, expected: u32) -> Answer<()> {
        self.number_where(|value| value == expected).map(|_| ())
    }

    /// The next number, which has no bit outside the mask.
    fn masked(&mut self, mask: u32) -> Answer {
        self.number_where(|value| value & !mask == 0)
    }

    /// The next number, which is 0 or 1.
    fn flag(&mut self) -> Answer<bool> {
        self.masked(1).map(|value| value != 0)
    }
}

impl Bank {
    /// What a record has of both private interrupts and SPIs.
    fn each_value(&self, take: &mut impl FnMut(u32)) {
        for flags in [self.group, self.enabled, self.latch, self.active, self.line] {
            take(flags);
        }
        for j in 0..8 {
            take(self.priority_word(j));
        }
    }

    fn read_values(&mut self, reader: &mut Reader, existing: u32, lines: u32) -> Answer<()> {
        self.group = reader.masked(existing)?;
        self.enabled = reader.masked(existing)?;
        self.latch = reader.masked(existing)?;
        self.active = reader.masked(existing)?;
        self.line = reader.masked(lines)?;
        for j in 0..8 {
            let of_absent = existing >> (4 * j) & 0xF == 0;
            let word = reader.masked(if of_absent { 0 } else { PRIORITIES })?;
            self.set_priority_word(j, word, existing);
        }
        Ok(())
    }

    /// ICFGR, in a record of SPIs only.
    fn read_config(&mut self, reader: &mut Reader, existing: u32) -> Answer<()> {
        let all_edge = Bank {
            edge: existing,
            ..Bank::default()
        };
        for j in 0..2 {
            let word = reader.masked(all_edge.config_word(j))?;
            self.set_config_word(j, word, existing);
        }
        Ok(())
    }
}

impl Vcpu {
    fn each_value(&self, take: &mut impl FnMut(u32)) {
        take(self.statusr);
        self.private.each_value(take);
        take(self.pmr);
        take(self.interface(Interface::Ctlr));
        for value in [self.bpr[0], self.bpr[1], self.ap[0], self.ap[1]] {
            take(value);
        }
        for on in self.group_enable {
            take(on.into());
        }
    }

    fn read_values(&mut self, reader: &mut Reader) -> Answer<()> {
        self.statusr = reader.masked(0xF)?;
        self.private.read_values(reader, u32::MAX, PPIS)?;
        self.pmr = reader.masked(PRIORITY_MASK.into())?;
        self.eoimode = reader.number_where(|ctlr| ctlr == 0x400 || ctlr == 0x402)? == 0x402;
        for (bpr, least) in self.bpr.iter_mut().zip(LEAST_BPR) {
            *bpr = reader.number_where(|value| (least..=7).contains(&value))?;
        }
        for ap in &mut self.ap {
            *ap = reader.number()?;
        }
        for on in &mut self.group_enable {
            *on = reader.flag()?;
        }
        Ok(())
    }
}

impl Device {
    /// Writes the record to the front of the buffer and answers its length.
    pub fn save(&self, buf: &mut [u8]) -> i64 {
        number(self.try_save(buf))
    }

    fn try_save(&self, buf: &mut [u8]) -> Answer {
        self.check_stopped()?;
        let mut length = 0;
        self.each_value(&mut |value| length += groups(value).count());
        let record = buf.get_mut(..length).ok_or(Errno::Nospc)?;
        let mut places = record.iter_mut();
        self.each_value(&mut |value| {
            for (byte, place) in groups(value).zip(&mut places) {
                *place = byte;
            }
        });
        Ok(length as u32)
    }

    /// Puts a record into a fresh device of the same count and affinities.
    pub fn restore(&mut self, bytes: &[u8]) -> i64 {
        done(self.try_restore(bytes))
    }

    fn try_restore(&mut self, bytes: &[u8]) -> Answer<()> {
        self.check_stopped()?;
        if *self != self.without_history() {
            return Err(Errno::Exist);
        }
        let mut restored = self.clone();
        let mut reader = Reader { bytes };
        restored.read_values(&mut reader)?;
        if !reader.bytes.is_empty() {
            return Err(Errno::Badmsg);
        }
        *self = restored;
        Ok(())
    }

    /// The numbers of the record, in their order.
    fn each_value(&self, take: &mut impl FnMut(u32)) {
        take(VERSION);
        take(self.count as u32);
        take(self.vcpu_count as u32);
        for vcpu in self.present() {
            take(vcpu.affinity);
        }
        take(0x50 + self.enables());
        take(self.statusr);
        for bank in &self.spis[..self.count / 32 - 1] {
            bank.each_value(take);
            take(bank.config_word(0));
            take(bank.config_word(1));
        }
        for route in &self.route[..self.spi_ids().len()] {
            take(*route);
        }
        for vcpu in self.present() {
            vcpu.each_value(take);
        }
    }

    /// Reads the numbers of a record in their order; each is refused before the next is read.
    fn read_values(&mut self, reader: &mut Reader) -> Answer<()> {
        reader.expect(VERSION)?;
        reader.expect(self.count as u32)?;
        reader.expect(self.vcpu_count as u32)?;
        for vcpu in self.present() {
            reader.expect(vcpu.affinity)?;
        }
        let ctlr = reader.number_where(|ctlr| ctlr & !3 == 0x50)?;
        self.group_enable = [ctlr & 1 != 0, ctlr & 2 != 0];
        self.statusr = reader.masked(0xF)?;
        for b in 1..self.count / 32 {
            let existing = self.existing(b);
            self.spis[b - 1].read_values(reader, existing, existing)?;
            self.spis[b - 1].read_config(reader, existing)?;
        }
        let routes = self.spi_ids().len();
        for route in &mut self.route[..routes] {
            *route = reader.masked(0xFF_FFFF)?;
        }
        for vcpu in &mut self.vcpus[..self.vcpu_count] {
            vcpu.read_values(reader)?;
        }
        Ok(())
    }
}
