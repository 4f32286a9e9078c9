//! The compiled program `cases` on random sessions.

use crate::agreed::Agreed;
use crate::programs::{failed, output};
use crate::text::session;
use calls::{Compared, Difference, Event, Random, Tally};
use std::path::{Path, PathBuf};

/// What has to occur in the sessions, beside every kind of call with every answer.
const EVENTS: [Event; 4] = [
    Event::WrongLength,
    Event::UnsoundWords,
    Event::Restored,
    Event::AttributesPut,
];

/// Files that one run of the program gets.
const AT_A_TIME: usize = 16;

/// Writes random sessions of at least so many lines into a folder and runs the program on them; how many lines agreed.
pub fn run(program: &Path, folder: &Path, wanted: usize, seed: u64) -> Compared<Agreed> {
    let mut random = Random::new(seed);
    let (mut agreed, mut tally) = (Agreed::default(), Tally::default());
    while agreed.all() < wanted {
        let mut files = Vec::new();
        for at in 0..AT_A_TIME {
            let path = folder.join(format!("{at}.session"));
            let writer = session(random.any64())?;
            let written = std::fs::write(&path, writer.text());
            written.map_err(|error| failed(&path.display().to_string(), error))?;
            agreed.join(writer.lines);
            tally.join(&writer.tally);
            files.push((path, writer.lines.all()));
        }
        check(program, &files)?;
    }
    tally.print(&EVENTS);
    let missing = tally.missing(&EVENTS);
    if missing.is_empty() {
        Ok(agreed)
    } else {
        Err(Difference(format!("cases: {}", missing.join("\n"))))
    }
}

/// The program has to say of each file that all its lines were run and none differs.
fn check(program: &Path, files: &[(PathBuf, usize)]) -> Compared<()> {
    let paths: Vec<&PathBuf> = files.iter().map(|(path, _)| path).collect();
    let printed = output(program, &paths, b"", None)?;
    let printed = String::from_utf8_lossy(&printed).into_owned();
    let said = files
        .iter()
        .map(|(path, lines)| format!("{}: {lines} lines, 0 differ\n", path.display()));
    if printed == said.collect::<String>() {
        return Ok(());
    }
    let shown: Vec<&str> = printed
        .lines()
        .filter(|line| !line.ends_with(", 0 differ"))
        .take(20)
        .collect();
    Err(Difference(format!("cases: {}", shown.join("\n"))))
}
