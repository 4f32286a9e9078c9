//! Drives the proved library and the plain model with the same random calls and compares them.
//!
//! `compare [CALLS] [SEED]`: after every call the answer, all words of the state and all bytes lent
//! have to be the same. The first difference is printed and ends the run with status 1.

#![forbid(unsafe_code)]

mod flips;
mod pair;
mod record_sweeps;
mod sweeps;

use calls::{Compared, Event, Session};
use pair::Pair;
use std::process::ExitCode;

const DEFAULT_CALLS: u64 = 1_000_000;
const DEFAULT_SEED: u64 = 2026;

fn main() -> ExitCode {
    let mut arguments = std::env::args().skip(1).map(|text| text.parse::<u64>());
    let (Ok(calls), Ok(seed), None) = (
        arguments.next().unwrap_or(Ok(DEFAULT_CALLS)),
        arguments.next().unwrap_or(Ok(DEFAULT_SEED)),
        arguments.next(),
    ) else {
        eprintln!("usage: compare [CALLS] [SEED]");
        return ExitCode::from(2);
    };
    println!("compare {calls} {seed}");
    let mut session = Session::new(Pair::new(), seed);
    if let Err(difference) = run(&mut session, calls) {
        let made = session.subject.tally.all_calls();
        println!("{}\nafter {made} equal calls", difference.0);
        return ExitCode::FAILURE;
    }
    summarise(&session, calls)
}

/// Random devices until so many calls were made; then every place in turn, and every bit of some states and records flipped.
fn run(session: &mut Session<Pair>, calls: u64) -> Compared<()> {
    while session.subject.tally.all_calls() < calls {
        session.run_device()?;
    }
    sweeps::run(session)?;
    record_sweeps::run(session)?;
    flips::run_states(session)?;
    flips::run_records(session)
}

fn summarise(session: &Session<Pair>, calls: u64) -> ExitCode {
    let tally = &session.subject.tally;
    tally.print(&Event::ALL);
    let made = tally.all_calls();
    let mut missing = tally.missing(&Event::ALL);
    if made < calls {
        missing.push(format!("only {made} calls of {calls}"));
    }
    for line in &missing {
        println!("missing: {line}");
    }
    if missing.is_empty() {
        println!("{made} calls, no difference");
        ExitCode::SUCCESS
    } else {
        ExitCode::FAILURE
    }
}
