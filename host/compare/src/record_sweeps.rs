//! Records at every place: buffers of each length, each byte and each number changed, each cut, each word of the target;
//! and the records of many random states.

use crate::pair::Pair;
use calls::{fresh_words, groups, numbers, record, Call, Compared, Event, Session, Subject};
use calls::{BLOCK, FIRST_BLOCK};

/// A count and affinities.
type SetUp<'a> = (usize, &'a [u32]);

/// Forms of no number: not the shortest, above 2^32 - 1, cut off, or nothing.
const ILL_FORMED: [&[u8]; 11] = [
    b"\x80\x00",
    b"\x81\x00",
    b"\x80\x80\x00",
    b"\xff\xff\xff\xff\x00",
    b"\xff\xff\xff\xff\x10",
    b"\xff\xff\xff\xff\x7f",
    b"\xff\xff\xff\xff\x8f\x00",
    b"\x80\x80\x80\x80\x80\x01",
    b"\x80\x80\x80\x80\x10",
    b"\xff\xff\xff\xff\xff\xff\xff\xff\xff\xff\x01",
    b"",
];

/// Values near those that some field may have.
const VALUES: [u64; 28] = [
    0x0,
    0x1,
    0x2,
    0x3,
    0x4,
    0x5,
    0x7,
    0x8,
    0x9,
    0x10,
    0x4F,
    0x50,
    0x53,
    0x54,
    0x60,
    0xF0,
    0xF8,
    0xFF,
    0x400,
    0x401,
    0x402,
    0x403,
    0xFFFF,
    0xFF_FFFF,
    0x100_0000,
    0xFFF_FFFF,
    0xAAAA_AAAA,
    0xFFFF_FFFF,
];

/// Random states that are saved and restored, and how often each record is damaged.
const STATES: usize = 2000;
const DAMAGES: usize = 4;

pub fn run(session: &mut Session<Pair>) -> Compared<()> {
    let two: SetUp = (64, &[0x10203, 0xF]);
    let all: SetUp = (1024, &[0, 1, 2, 3, 4, 5, 6, 7]);
    for set_up in [(64, &[0][..]), two, (96, &[1, 0, 2])] {
        every_buffer(session, set_up)?;
    }
    every_byte(session)?;
    every_cut(session, two)?;
    every_number(session, two, 1)?;
    every_number(session, all, 37)?;
    every_place(session, two)?;
    every_place(session, all)?;
    for _ in 0..STATES {
        random_state(session)?;
    }
    Ok(())
}

/// The words of a random stopped device.
fn stopped(session: &mut Session<Pair>, (count, affinities): SetUp) -> Vec<u32> {
    let mut words = session.random.sound_words(count, affinities);
    for v in 0..affinities.len() {
        words[FIRST_BLOCK + BLOCK * v + 17] = 0;
    }
    words
}

fn record_of(session: &mut Session<Pair>, set_up: SetUp) -> Compared<Vec<u8>> {
    let words = stopped(session, set_up);
    session.subject.put(&words)?;
    session.save()
}

/// A restore into these words.
fn restore(session: &mut Session<Pair>, target: &[u32], bytes: Vec<u8>) -> Compared<()> {
    session.subject.note(Event::Swept);
    session
        .subject
        .call_on(target, &Call::Restore { bytes })
        .map(|_| ())
}

/// Buffers of each length up to two more than the record, of a fresh device and of a random one.
fn every_buffer(session: &mut Session<Pair>, set_up: SetUp) -> Compared<()> {
    let (count, affinities) = set_up;
    for words in [fresh_words(count, affinities), stopped(session, set_up)] {
        session.subject.put(&words)?;
        let most = session.save()?.len() + 2;
        for length in 0..=most {
            let buf = session.random.bytes(length);
            session.subject.note(Event::Swept);
            session.subject.call(&Call::Save { buf })?;
        }
    }
    Ok(())
}

/// Each byte of the shortest record as each other byte, and each byte after it.
fn every_byte(session: &mut Session<Pair>) -> Compared<()> {
    let fresh = fresh_words(64, &[0]);
    session.subject.put(&fresh)?;
    let record = session.save()?;
    for at in 0..record.len() {
        for byte in 0..=255 {
            let mut bytes = record.clone();
            bytes[at] = byte;
            restore(session, &fresh, bytes)?;
        }
    }
    for byte in 0..=255 {
        restore(session, &fresh, [&record[..], &[byte]].concat())?;
    }
    Ok(())
}

/// A record cut at each length, and each bit of it flipped.
fn every_cut(session: &mut Session<Pair>, set_up: SetUp) -> Compared<()> {
    let fresh = fresh_words(set_up.0, set_up.1);
    let record = record_of(session, set_up)?;
    for at in 0..record.len() {
        restore(session, &fresh, record[..at].to_vec())?;
        for bit in 0..8 {
            let mut bytes = record.clone();
            bytes[at] ^= 1 << bit;
            restore(session, &fresh, bytes)?;
        }
    }
    Ok(())
}

/// Each so many-th number of a record as other values and in forms of no number, alone and with a second fault.
fn every_number(session: &mut Session<Pair>, set_up: SetUp, step: usize) -> Compared<()> {
    let fresh = fresh_words(set_up.0, set_up.1);
    let numbers = numbers(&record_of(session, set_up)?);
    for at in (0..numbers.len()).step_by(step).chain([numbers.len() - 1]) {
        let (front, back) = (record(&numbers[..at]), record(&numbers[at + 1..]));
        let forms = VALUES.into_iter().map(groups);
        for form in forms.chain(ILL_FORMED.map(<[u8]>::to_vec)) {
            restore(session, &fresh, [&front[..], &form, &back].concat())?;
            restore(session, &fresh, [&front[..], &form].concat())?;
            restore(session, &fresh, [&front[..], &form, &back, &[0]].concat())?;
            restore(
                session,
                &fresh,
                [&front[..], &form, &[0x80, 0], &back].concat(),
            )?;
        }
    }
    Ok(())
}

/// A fresh device but for one word, each in turn, or but for a vCPU that runs; whatever the record.
fn every_place(session: &mut Session<Pair>, set_up: SetUp) -> Compared<()> {
    let (count, affinities) = set_up;
    let mut target = fresh_words(count, affinities);
    let whole = record_of(session, set_up)?;
    let records = [whole[..whole.len() - 1].to_vec(), whole];
    let other = stopped(session, set_up);
    for at in 0..target.len() {
        let old = std::mem::replace(&mut target[at], other[at]);
        if old != other[at] {
            let bytes = records[at % 2].clone();
            restore(session, &target, bytes)?;
        }
        target[at] = old;
    }
    for v in 0..affinities.len() {
        target[FIRST_BLOCK + BLOCK * v + 17] = 1;
        restore(session, &target, records[v % 2].clone())?;
        target[FIRST_BLOCK + BLOCK * v + 17] = 0;
    }
    Ok(())
}

/// A random state saved, and restored whole and damaged into the fresh device of its set-up, and whole into itself.
fn random_state(session: &mut Session<Pair>) -> Compared<()> {
    let n = 1 + session.random.below(8);
    let (count, affinities) = (session.random.count(), session.random.affinities(n));
    let set_up = (count, &affinities[..]);
    let words = stopped(session, set_up);
    let fresh = fresh_words(count, &affinities);
    session.subject.put(&words)?;
    session.subject.note(Event::SoundWordsPut);
    let record = session.save()?;
    restore(session, &fresh, record.clone())?;
    restore(session, &words, record.clone())?;
    for _ in 0..DAMAGES {
        let bytes = session.random.damaged(&record);
        restore(session, &fresh, bytes)?;
    }
    Ok(())
}
