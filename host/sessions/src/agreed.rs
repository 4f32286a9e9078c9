//! How many lines agreed, by what they answer.

use std::fmt::{Display, Formatter, Result};

#[derive(Clone, Copy, Default)]
pub struct Agreed {
    ok: usize,
    number: usize,
    refused: usize,
    unknown: usize,
}

impl Agreed {
    /// Adds a line with that answer; whatever is not `ok`, a refusal or `?` is a number, or a list of some.
    pub fn add(&mut self, answer: &str) {
        *match answer {
            "?" => &mut self.unknown,
            "ok" => &mut self.ok,
            refused if refused.starts_with('-') => &mut self.refused,
            _ => &mut self.number,
        } += 1;
    }

    pub fn join(&mut self, other: Agreed) {
        self.ok += other.ok;
        self.number += other.number;
        self.refused += other.refused;
        self.unknown += other.unknown;
    }

    pub fn all(&self) -> usize {
        self.ok + self.number + self.refused + self.unknown
    }
}

impl Display for Agreed {
    fn fmt(&self, f: &mut Formatter) -> Result {
        let Agreed {
            ok,
            number,
            refused,
            unknown,
        } = self;
        let all = self.all();
        write!(
            f,
            "{all} lines agreed: {ok} ok, {number} numbers, {refused} refused, {unknown} ?"
        )
    }
}
