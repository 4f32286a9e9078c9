//! The compiled program `drill` against the plain model.

use crate::agreed::Agreed;
use crate::drill::{lines, Drill};
use crate::drill_lines::{damaged, moved, session, BLOCK};
use crate::programs::{failed, output};
use calls::{Compared, Difference, Random, Tally, KINDS};
use std::path::Path;

/// Lines of a session, and of the short one that is moved byte by byte over the end of a block.
const LONG: usize = 1500;
const SHORT: usize = 40;

/// The kinds of calls that `drill` has no word for.
const OTHERS: [&str; 4] = ["make", "get_attribute", "save", "restore"];

/// The program, and what was found of it so far.
pub struct DrillRun<'a> {
    program: &'a Path,
    random: Random,
    pub agreed: Agreed,
    tally: Tally,
}

impl<'a> DrillRun<'a> {
    pub fn new(program: &'a Path, seed: u64) -> DrillRun<'a> {
        DrillRun {
            program,
            random: Random::new(seed),
            agreed: Agreed::default(),
            tally: Tally::default(),
        }
    }

    /// Random sessions until so many lines agree: each as it is, damaged, and written in pieces.
    pub fn run(&mut self, wanted: usize) -> Compared<()> {
        self.compare("no input", b"", false)?;
        self.every_block_end()?;
        while self.agreed.all() < wanted {
            let seed = self.random.any64();
            let text = session(seed, LONG)?;
            self.compare(&format!("session {seed:x}"), &text, false)?;
            let changed = damaged(&text, &mut self.random);
            self.compare(&format!("session {seed:x}, damaged"), &changed, false)?;
            self.compare(&format!("session {seed:x}, in pieces"), &text, true)?;
        }
        self.check_calls()
    }

    /// Every call that `drill` has a word for was granted, and refused in each way that its numbers can bring about.
    fn check_calls(&self) -> Compared<()> {
        let mut missing = Vec::new();
        for (kind, &(name, refusals)) in KINDS.iter().enumerate() {
            if OTHERS.contains(&name) {
                continue;
            }
            let set = name == "set_attribute";
            let refusals = refusals
                .iter()
                .filter(|&&errno| errno != 14 && !(set && errno == 6));
            for errno in refusals.chain([&0]) {
                if self.tally.given(kind, *errno) == 0 {
                    missing.push(format!("drill: {name} never answered {errno}"));
                }
            }
        }
        if missing.is_empty() {
            return Ok(());
        }
        Err(Difference(missing.join("\n")))
    }

    /// A short session with a block's end after each of its bytes, and cut off after each.
    fn every_block_end(&mut self) -> Compared<()> {
        let text = session(self.random.any64(), SHORT)?;
        for bytes in 0..=text.len().min(BLOCK) {
            let name = format!("a block ends after byte {bytes}");
            self.compare(&name, &moved(&text, bytes), false)?;
            let name = format!("cut off after byte {bytes}");
            self.compare(&name, &text[..bytes], false)?;
        }
        Ok(())
    }

    /// The sessions of a folder, whose answers are beside them.
    pub fn folder(&mut self, folder: &Path) -> Compared<usize> {
        let read =
            |path: &Path| std::fs::read(path).map_err(|e| failed(&path.display().to_string(), e));
        let entries = folder
            .read_dir()
            .map_err(|e| failed(&folder.display().to_string(), e))?;
        let paths = entries.flatten().map(|entry| entry.path());
        let mut sessions: Vec<_> = paths
            .filter(|path| path.extension().is_some_and(|e| e == "session"))
            .collect();
        sessions.sort();
        for path in &sessions {
            let name = path.display().to_string();
            let text = read(path)?;
            self.compare(&name, &text, false)?;
            if output::<&str>(self.program, &[], &text, None)?
                != read(&path.with_extension("answers"))?
            {
                return Err(Difference(format!(
                    "{name}: drill answers something else than the file beside it has"
                )));
            }
        }
        Ok(sessions.len())
    }

    /// Compares what the program prints with what the model answers, line by line.
    fn compare(&mut self, name: &str, text: &[u8], in_pieces: bool) -> Compared<()> {
        let pieces = in_pieces.then_some(&mut self.random);
        let printed = output::<&str>(self.program, &[], text, pieces)?;
        let mut found = lines(&printed).into_iter();
        let mut drill = Drill::new();
        let mut expected = String::new();
        for (at, line) in lines(text).into_iter().enumerate() {
            let answer = drill.line(line);
            let found = found.next();
            if found != Some(answer.as_bytes()) {
                let found = String::from_utf8_lossy(found.unwrap_or(b"nothing"));
                let line = String::from_utf8_lossy(&line[..line.len().min(200)]);
                let at = at + 1;
                return Err(Difference(format!(
                    "{name}, line {at}: {line:?}: the model answers {answer}, drill {found}"
                )));
            }
            self.agreed.add(&answer);
            expected += &answer;
            expected.push('\n');
        }
        self.tally.join(&drill.tally);
        if expected.as_bytes() != printed {
            return Err(Difference(format!(
                "{name}: drill prints more than its answers"
            )));
        }
        Ok(())
    }
}
