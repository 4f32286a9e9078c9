//! Random sessions with the plain model's answers, for the compiled programs and for the definitions.
//!
//! `sessions programs CASES DRILL CLASS FOLDER [LINES] [SEED]` runs the programs `cases` and `drill` on random sessions,
//! at least so many lines in all, and `drill` on the sessions of the folder CLASS. The sessions are written into FOLDER.
//!
//! `sessions theorems FOLDER` writes sessions as theorems of the definitions.

#![forbid(unsafe_code)]

mod agreed;
mod cases_run;
mod choose;
mod drill;
mod drill_lines;
mod drill_run;
mod programs;
mod rows;
mod term;
mod text;
mod theorems;
mod unsound;
mod writer;

use calls::{Compared, Difference};
use drill_run::DrillRun;
use std::path::Path;
use std::process::ExitCode;

const DEFAULT_LINES: u64 = 400_000;
const DEFAULT_SEED: u64 = 2026;

fn main() -> ExitCode {
    let words: Vec<String> = std::env::args().skip(1).collect();
    let words: Vec<&str> = words.iter().map(String::as_str).collect();
    let done = match words[..] {
        ["programs", cases, drill, class, folder, ref rest @ ..] if rest.len() <= 2 => {
            run_programs([cases, drill, class, folder].map(Path::new), rest)
        }
        ["theorems", folder] => theorems::write(Path::new(folder)),
        _ => {
            eprintln!("usage: sessions programs CASES DRILL CLASS FOLDER [LINES] [SEED] | sessions theorems FOLDER");
            return ExitCode::from(2);
        }
    };
    match done {
        Ok(()) => ExitCode::SUCCESS,
        Err(Difference(why)) => {
            println!("{why}");
            ExitCode::FAILURE
        }
    }
}

fn run_programs(paths: [&Path; 4], rest: &[&str]) -> Compared<()> {
    let [cases, drill, class, folder] = paths;
    let number = |at: usize, default: u64| match rest.get(at) {
        Some(text) => text
            .parse()
            .map_err(|_| Difference(format!("{text} is no number"))),
        None => Ok(default),
    };
    let lines = number(0, DEFAULT_LINES)? as usize;
    let seed = number(1, DEFAULT_SEED)?;
    let mut run = DrillRun::new(drill, seed);
    let sessions = run.folder(class)?;
    println!("drill: {sessions} sessions of the class have the answers beside them");
    run.run(lines / 2)?;
    println!("drill: {}", run.agreed);
    let mut agreed = cases_run::run(cases, folder, lines / 2, seed)?;
    println!("cases: {agreed}");
    agreed.join(run.agreed);
    println!("{agreed}; no difference");
    Ok(())
}
