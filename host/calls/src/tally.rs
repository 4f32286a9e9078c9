//! What was called, what was answered, and whether everything that has to occur did.

use crate::call::KINDS;

/// Every errno of document 01's table but 5, which is never given.
const ERRNOS: [usize; 10] = [1, 6, 12, 14, 16, 17, 19, 22, 28, 74];

/// Things that a run has to have done, beside calls.
#[derive(Clone, Copy, PartialEq, Eq, Debug)]
pub enum Event {
    Acknowledged,
    SoundWordsPut,
    WrongLength,
    UnsoundWords,
    Restored,
    AttributesPut,
    CalledOnBoth,
    Swept,
    BitsFlipped,
    NumbersFlipped,
}

impl Event {
    pub const ALL: [Event; 10] = [
        Event::Acknowledged,
        Event::SoundWordsPut,
        Event::WrongLength,
        Event::UnsoundWords,
        Event::Restored,
        Event::AttributesPut,
        Event::CalledOnBoth,
        Event::Swept,
        Event::BitsFlipped,
        Event::NumbersFlipped,
    ];

    fn name(self) -> &'static str {
        match self {
            Event::Acknowledged => "interrupts acknowledged",
            Event::SoundWordsPut => "random sound states put as words",
            Event::WrongLength => "calls on a state of wrong length",
            Event::UnsoundWords => "calls on words that are not sound",
            Event::Restored => "records restored to equal words",
            Event::AttributesPut => "devices put by attribute to equal words",
            Event::CalledOnBoth => "later calls made on both of two equal devices",
            Event::Swept => "calls at every place: offsets, encodings, priorities, records",
            Event::BitsFlipped => "single bits of sound states flipped",
            Event::NumbersFlipped => "single bits of numbers of records flipped",
        }
    }
}

/// How often each kind of call gave each answer, and how often each event was noted.
#[derive(Default)]
pub struct Tally {
    /// By kind, the answers from 0 up at 0 and the refusals at their errno.
    answers: [[u64; 32]; KINDS.len()],
    broken_records: [u64; KINDS.len()],
    events: [u64; Event::ALL.len()],
}

impl Tally {
    pub fn add(&mut self, kind: usize, answer: i64) {
        match answer {
            -74 => self.broken_records[kind] += 1,
            0.. => self.answers[kind][0] += 1,
            _ => self.answers[kind][answer.unsigned_abs() as usize % 32] += 1,
        }
    }

    pub fn note(&mut self, event: Event) {
        self.events[event as usize] += 1;
    }

    /// Adds what another has.
    pub fn join(&mut self, other: &Tally) {
        let sum = |mine: &mut [u64], others: &[u64]| {
            mine.iter_mut()
                .zip(others)
                .for_each(|(mine, other)| *mine += other);
        };
        for (mine, others) in self.answers.iter_mut().zip(&other.answers) {
            sum(mine, others);
        }
        sum(&mut self.broken_records, &other.broken_records);
        sum(&mut self.events, &other.events);
    }

    /// How often a kind of call was refused so, or granted where that is 0.
    pub fn given(&self, kind: usize, errno: usize) -> u64 {
        match errno {
            74 => self.broken_records[kind],
            _ => self.answers[kind][errno],
        }
    }

    fn calls(&self, kind: usize) -> u64 {
        self.answers[kind].iter().sum::<u64>() + self.broken_records[kind]
    }

    pub fn all_calls(&self) -> u64 {
        (0..KINDS.len()).map(|kind| self.calls(kind)).sum()
    }

    /// Prints the calls by kind and answer, and how often each of these events was noted.
    pub fn print(&self, events: &[Event]) {
        print!("{:18}{:>9}{:>9}", "call", "made", "answered");
        for errno in ERRNOS {
            print!("{:>8}", format!("-{errno}"));
        }
        println!();
        for (kind, (name, _)) in KINDS.iter().enumerate() {
            print!("{name:18}{:>9}{:>9}", self.calls(kind), self.given(kind, 0));
            for errno in ERRNOS {
                print!("{:>8}", self.given(kind, errno));
            }
            println!();
        }
        for &event in events {
            println!("{:>9} {}", self.events[event as usize], event.name());
        }
    }

    /// What never occurred though it has to, a line each: a kind of call granted and refused, a refusal, one of these events.
    pub fn missing(&self, events: &[Event]) -> Vec<String> {
        let mut missing = Vec::new();
        for (kind, (name, refusals)) in KINDS.iter().enumerate() {
            if self.given(kind, 0) == 0 {
                missing.push(format!("{name} was always refused"));
            }
            for &errno in *refusals {
                if self.given(kind, errno) == 0 {
                    missing.push(format!("{name} never answered -{errno}"));
                }
            }
        }
        for errno in ERRNOS {
            if (0..KINDS.len()).all(|kind| self.given(kind, errno) == 0) {
                missing.push(format!("-{errno} was never answered"));
            }
        }
        for &event in events {
            if self.events[event as usize] == 0 {
                missing.push(format!("no {}", event.name()));
            }
        }
        missing
    }
}
