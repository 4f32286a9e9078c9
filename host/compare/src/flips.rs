//! Every single bit of some sound states, and of the numbers of some records, flipped in turn.

use crate::pair::Pair;
use calls::{fresh_words, numbers, record, Call, Compared, Event, Phase, Session, Subject, View};
use calls::{BLOCK, FIRST_BLOCK};
use plain_model::WORDS;

/// Counts and numbers of vCPUs of the states.
const STATES: [(usize, usize); 4] = [(64, 1), (256, 3), (1024, 8), (992, 5)];
/// Counts and numbers of vCPUs of the devices whose records are changed.
const RECORDS: [(usize, usize); 3] = [(64, 1), (96, 8), (1024, 1)];

/// Flips every bit of a state of each size and of some not initialised, and makes a call on each.
pub fn run_states(session: &mut Session<Pair>) -> Compared<()> {
    for (count, n) in STATES {
        let affinities = session.random.affinities(n);
        let words = session.random.sound_words(count, &affinities);
        flip_all(session, &words)?;
    }
    for (has_count, n) in [(true, 0), (false, 2), (true, 2)] {
        session.set_up_only(has_count, n)?;
        let words = session.subject.words().to_vec();
        flip_all(session, &words)?;
    }
    Ok(())
}

/// Flips every bit of every number of a record of each size, each restored into a fresh device.
pub fn run_records(session: &mut Session<Pair>) -> Compared<()> {
    for (count, n) in RECORDS {
        let affinities = session.random.affinities(n);
        let mut words = session.random.sound_words(count, &affinities);
        for v in 0..n {
            words[FIRST_BLOCK + BLOCK * v + 17] = 0;
        }
        session.subject.put(&words)?;
        let mut numbers = numbers(&session.save()?);
        let fresh = fresh_words(count, &affinities);
        for at in 0..numbers.len() {
            for bit in 0..33 {
                numbers[at] ^= 1 << bit;
                let bytes = record(&numbers);
                session.subject.call_on(&fresh, &Call::Restore { bytes })?;
                session.subject.note(Event::NumbersFlipped);
                numbers[at] ^= 1 << bit;
            }
            let bytes = record(&numbers[..at]);
            session.subject.call_on(&fresh, &Call::Restore { bytes })?;
        }
    }
    Ok(())
}

fn flip_all(session: &mut Session<Pair>, words: &[u32]) -> Compared<()> {
    let mut flipped = words.to_vec();
    for at in 0..WORDS {
        for bit in 0..32 {
            flipped[at] ^= 1 << bit;
            let call = call_on_flipped(session, View(words));
            session.subject.call_on(&flipped, &call)?;
            session.subject.note(Event::BitsFlipped);
            flipped[at] ^= 1 << bit;
        }
    }
    Ok(())
}

fn call_on_flipped(session: &mut Session<Pair>, view: View) -> Call {
    let random = &mut session.random;
    match random.below(8) {
        0 => random.call(view, Phase::Running, &[]),
        1..=4 => Call::QuerySignal {
            v: random.below(view.vcpus().max(1)),
        },
        _ => Call::get(3, 0),
    }
}
