//! Calls at every place: each offset, each encoding, each priority with each binary point and running level, chains of
//! preemption; and the CPU interface of many random states.

use crate::pair::Pair;
use calls::{fresh_words, Call, Compared, Event, Session, Subject};
use calls::{READ_ONLY, STORED, WRITE_ONLY};

const AFFINITIES: [u32; 2] = [0x10203, 0xF];
const WORD: u64 = 4;
const BYTE: u64 = 1;
const BPR: [u64; 2] = [0xC643, 0xC663];
const AP: [u64; 2] = [0xC644, 0xC648];
const IAR: [u64; 2] = [0xC640, 0xC660];
const EOIR: [u64; 2] = [0xC641, 0xC661];
const DIR: u64 = 0xC659;
const RPR: u64 = 0xC65B;
const CTLR: u64 = 0xC664;
const SRE: u64 = 0xC665;
const HPPIR: [u64; 2] = [0xC642, 0xC662];
const SPURIOUS: i64 = 1023;
/// Random states on which the CPU interface is read and written.
const STATES: usize = 5000;

pub fn run(session: &mut Session<Pair>) -> Compared<()> {
    for count in [64, 1024] {
        by_attribute(session, count)?;
        by_guest(session, count)?;
    }
    every_encoding(session)?;
    every_value(session)?;
    every_priority(session)?;
    every_chain(session)?;
    for _ in 0..STATES {
        random_state(session)?;
    }
    Ok(())
}

fn call(session: &mut Session<Pair>, call: Call) -> Compared<i64> {
    session.subject.note(Event::Swept);
    session.subject.call(&call)
}

fn set_and_get(session: &mut Session<Pair>, group: u64, attribute: u64) -> Compared<()> {
    let value = session.random.word().into();
    call(session, Call::set(group, attribute, value))?;
    call(session, Call::get(group, attribute)).map(|_| ())
}

/// A write of vCPU 0 to the distributor, and a read.
#[rustfmt::skip]
fn distributor(session: &mut Session<Pair>, offset: u64, size: u64) -> Compared<()> {
    let (v, value) = (0, session.random.word().into());
    call(session, Call::WriteDistributor { v, offset, size, value })?;
    call(session, Call::ReadDistributor { v, offset, size }).map(|_| ())
}

/// A write of vCPU 0 to a frame, and a read.
#[rustfmt::skip]
fn frame(session: &mut Session<Pair>, frame: usize, offset: u64, size: u64) -> Compared<()> {
    let (v, value) = (0, session.random.word().into());
    call(session, Call::WriteFrame { v, frame, offset, size, value })?;
    call(session, Call::ReadFrame { v, frame, offset, size }).map(|_| ())
}

/// Every aligned offset of the distributor, and some after it.
fn distributor_offsets() -> impl Iterator<Item = u64> {
    (0..0x8040).step_by(4)
}

/// Every aligned offset of a frame where registers are, and some after it.
fn frame_offsets() -> impl Iterator<Item = u64> {
    let (first, second) = ((0..0x100).step_by(4), (0x10000..0x10D00).step_by(4));
    first.chain(second).chain([0x20000, 0x20080])
}

fn by_attribute(session: &mut Session<Pair>, count: usize) -> Compared<()> {
    session.subject.put(&fresh_words(count, &AFFINITIES))?;
    for offset in distributor_offsets() {
        set_and_get(session, 1, offset)?;
    }
    for affinity in AFFINITIES {
        let high = u64::from(affinity) << 32;
        for offset in frame_offsets() {
            set_and_get(session, 5, high | offset)?;
        }
        for first in (0..1056).step_by(32) {
            set_and_get(session, 7, high | first)?;
        }
    }
    Ok(())
}

fn by_guest(session: &mut Session<Pair>, count: usize) -> Compared<()> {
    session.subject.put(&fresh_words(count, &AFFINITIES))?;
    call(session, Call::SetRunning { v: 0, on: true })?;
    for offset in distributor_offsets() {
        distributor(session, offset, WORD)?;
    }
    for offset in 0x3F0..0x810 {
        distributor(session, offset, BYTE)?;
    }
    for f in 0..AFFINITIES.len() {
        for offset in frame_offsets() {
            frame(session, f, offset, WORD)?;
        }
        for offset in 0x103F0..0x10430 {
            frame(session, f, offset, BYTE)?;
        }
    }
    Ok(())
}

/// The encodings around those listed, and those listed with one of bits 31-16.
fn encodings() -> Vec<u64> {
    let listed = [&STORED[..], &READ_ONLY, &WRITE_ONLY].concat();
    let high = listed
        .into_iter()
        .flat_map(|encoding| (16..32).map(move |bit| encoding | 1 << bit));
    (0xC200..0xC240).chain(0xC600..0xC680).chain(high).collect()
}

fn every_encoding(session: &mut Session<Pair>) -> Compared<()> {
    session.subject.put(&fresh_words(96, &AFFINITIES))?;
    for affinity in AFFINITIES {
        for encoding in encodings() {
            set_and_get(session, 6, u64::from(affinity) << 32 | encoding)?;
        }
    }
    let v = 1;
    call(session, Call::SetRunning { v, on: true })?;
    for encoding in encodings() {
        let value = session.random.word().into();
        call(session, Call::WriteSystem { v, encoding, value })?;
        call(session, Call::ReadSystem { v, encoding })?;
    }
    Ok(())
}

/// Every small value of CTLR and SRE by attribute, and good ones with one more bit.
fn every_value(session: &mut Session<Pair>) -> Compared<()> {
    session.subject.put(&fresh_words(96, &AFFINITIES))?;
    for (encoding, small) in [(CTLR, 0x810), (SRE, 0x20)] {
        let more = (11..64).flat_map(|bit| [0x402, 7].map(|good: u64| good | 1 << bit));
        for value in (0..small).chain(more) {
            let attribute = 0xF << 32 | encoding;
            call(session, Call::set(6, attribute, value))?;
            call(session, Call::get(6, attribute))?;
        }
    }
    Ok(())
}

/// Writes of a running vCPU to its system registers.
fn write_all(session: &mut Session<Pair>, v: usize, writes: &[(u64, u64)]) -> Compared<()> {
    for &(encoding, value) in writes {
        call(session, Call::WriteSystem { v, encoding, value })?;
    }
    Ok(())
}

/// A running vCPU of that index with both groups on and all its interrupts enabled.
fn start(session: &mut Session<Pair>, v: usize) -> Compared<()> {
    call(session, Call::SetRunning { v, on: true })?;
    write_all(session, v, &[(0xC230, 0xF8), (0xC666, 1), (0xC667, 1)])?;
    write_distributor(session, v, 0, WORD, 3)?;
    write_distributor(session, v, 0x104, WORD, 0xFFFF_FFFF)?;
    write_frame(session, v, 0x10100, WORD, 0xFFFF_FFFF)
}

#[rustfmt::skip]
fn write_distributor(session: &mut Session<Pair>, v: usize, offset: u64, size: u64, value: u64) -> Compared<()> {
    call(session, Call::WriteDistributor { v, offset, size, value }).map(|_| ())
}

#[rustfmt::skip]
fn write_frame(session: &mut Session<Pair>, v: usize, offset: u64, size: u64, value: u64) -> Compared<()> {
    call(session, Call::WriteFrame { v, frame: v, offset, size, value }).map(|_| ())
}

/// An SGI of each group, at each priority, binary point and running level.
fn every_priority(session: &mut Session<Pair>) -> Compared<()> {
    session.subject.put(&fresh_words(64, &[0]))?;
    start(session, 0)?;
    write_frame(session, 0, 0x10080, WORD, 1 << SGIS[1])?;
    for group in [0, 1] {
        for bpr in 0..8 {
            for priority in (0..256).step_by(8) {
                every_level(session, group, bpr, priority)?;
            }
        }
    }
    Ok(())
}

/// An SGI of group 0, and one of group 1.
const SGIS: [u64; 2] = [9, 5];

fn every_level(session: &mut Session<Pair>, group: usize, bpr: u64, priority: u64) -> Compared<()> {
    let (v, id, other) = (0, SGIS[group], AP[1 - group]);
    write_all(session, v, &[(BPR[group], bpr)])?;
    write_frame(session, v, 0x10400 + id, BYTE, priority)?;
    write_frame(session, v, 0x10200, WORD, 1 << id)?;
    for level in 0..32 {
        write_all(session, v, &[(other, 1 << level)])?;
        call(session, Call::QuerySignal { v })?;
    }
    write_all(session, v, &[(other, 0)])?;
    for encoding in [IAR[group], RPR, AP[group]] {
        call(session, Call::ReadSystem { v, encoding })?;
    }
    write_all(session, v, &[(EOIR[group], id)])?;
    write_frame(session, v, 0x10280, WORD, 0xFFFF_FFFF)
}

/// Chains of preemption in one group and in both, in both EOImodes, at each binary point.
fn every_chain(session: &mut Session<Pair>) -> Compared<()> {
    let v = 1;
    session.subject.put(&fresh_words(96, &[1, 0]))?;
    start(session, v)?;
    for groups in [0, 0xFFFF_FFFF, 0xAAAA_AAAA, 0xFF00_FF00] {
        for mode in [0, 2] {
            for bpr in 0..8 {
                write_all(session, v, &[(CTLR, mode), (BPR[0], bpr), (BPR[1], bpr)])?;
                write_frame(session, v, 0x10080, WORD, groups)?;
                write_distributor(session, v, 0x84, WORD, groups)?;
                let taken = take_each(session, v)?;
                end_each(session, v, taken)?;
            }
        }
    }
    Ok(())
}

/// PPIs and SPIs that are raised one after another.
fn chain() -> impl Iterator<Item = usize> {
    (16..32).chain(40..56)
}

/// Raises each at a lower priority number than the one before, and reads both IARs: what they gave, with its group.
fn take_each(session: &mut Session<Pair>, v: usize) -> Compared<Vec<(usize, u64)>> {
    let mut taken = Vec::new();
    for (k, id) in chain().enumerate() {
        let priority = 0xF8 - 8 * k as u64;
        match id {
            ..32 => write_frame(session, v, 0x10400 + id as u64, BYTE, priority)?,
            _ => write_distributor(session, v, 0x400 + id as u64, BYTE, priority)?,
        }
        let level = true;
        call(session, Call::ChangeLine { v, id, level })?;
        call(session, Call::QuerySignal { v })?;
        for (group, encoding) in IAR.into_iter().enumerate() {
            let given = call(session, Call::ReadSystem { v, encoding })?;
            if (0..SPURIOUS).contains(&given) {
                taken.push((group, given as u64));
            }
        }
        call(session, Call::ReadSystem { v, encoding: RPR })?;
    }
    Ok(taken)
}

/// Ends each, the last first, by EOIR of the other group, of its own, and DIR; then all lines are low.
fn end_each(session: &mut Session<Pair>, v: usize, taken: Vec<(usize, u64)>) -> Compared<()> {
    let level = false;
    for (group, value) in taken.into_iter().rev() {
        let id = value as usize;
        call(session, Call::ChangeLine { v, id, level })?;
        let ends = [EOIR[1 - group], EOIR[group], DIR].map(|encoding| (encoding, value));
        write_all(session, v, &ends)?;
        call(session, Call::ReadSystem { v, encoding: RPR })?;
    }
    for id in chain() {
        call(session, Call::ChangeLine { v, id, level })?;
    }
    Ok(())
}

/// On a random state the signal query, every read of the CPU interface and the ends of what it gave, in turn from any of them on.
fn random_state(session: &mut Session<Pair>) -> Compared<()> {
    let random = &mut session.random;
    let (n, count) = (1 + random.below(8), random.count());
    let affinities = random.affinities(n);
    let words = random.sound_words(count, &affinities);
    session.subject.put(&words)?;
    session.subject.note(Event::SoundWordsPut);
    let (v, mut value) = (session.random.below(n), 0);
    let first = session.random.below(9);
    for step in first..first + 9 {
        let made = match step % 9 {
            0 => Call::QuerySignal { v },
            read @ 1..=5 => {
                let encoding = [IAR[0], IAR[1], HPPIR[0], HPPIR[1], RPR][read - 1];
                Call::ReadSystem { v, encoding }
            }
            write => {
                let encoding = [EOIR[0], EOIR[1], DIR][write - 6];
                Call::WriteSystem { v, encoding, value }
            }
        };
        let is_iar = matches!(made, Call::ReadSystem { encoding, .. } if IAR.contains(&encoding));
        let answer = call(session, made)?;
        if is_iar && (0..SPURIOUS).contains(&answer) {
            value = answer as u64;
        }
    }
    Ok(())
}
