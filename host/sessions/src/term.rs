//! Rows and states as terms of the definitions' language.

use crate::rows::Row;
use calls::Call;

/// Characters of a line of places and words.
const WIDTH: usize = 150;
/// Equal numbers in a row are written by `replicate` from so many on.
const RUN: usize = 6;

fn number(n: u64) -> String {
    if n < 10 {
        n.to_string()
    } else {
        format!("{n:#x}")
    }
}

/// A list of numbers; runs of one number by `replicate`.
fn list(bytes: &[u8]) -> String {
    let mut parts: Vec<String> = Vec::new();
    let mut plain = String::new();
    for run in bytes.chunk_by(|a, b| a == b) {
        if run.len() < RUN {
            run.iter()
                .for_each(|&byte| plain += &(number(byte.into()) + " ∷ "));
            continue;
        }
        if !plain.is_empty() {
            parts.push(format!("({plain}[])"));
            plain.clear();
        }
        parts.push(format!("replicate {} {}", run.len(), number(run[0].into())));
    }
    if parts.is_empty() {
        return plain + "[]";
    }
    if !plain.is_empty() {
        parts.push(format!("({plain}[])"));
    }
    parts.join(" ++ ")
}

fn in_brackets(term: String) -> String {
    if term.contains(' ') {
        format!("({term})")
    } else {
        term
    }
}

/// The call as a term. What a buffer holds before a save is always the same.
pub fn call(call: &Call) -> String {
    let (name, numbers, flag) = call.definition();
    let mut words = vec![name.to_owned()];
    words.extend(numbers.into_iter().map(number));
    words.extend(flag.map(|flag| flag.to_string()));
    match call {
        Call::Save { buf } => words.push(format!("(replicate {} 0xa5)", buf.len())),
        Call::Restore { bytes } => words.push(in_brackets(list(bytes))),
        _ => (),
    }
    words.join(" ")
}

/// A call that is refused.
pub fn refused(made: &Call, errno: u64) -> String {
    format!("refuses {} {errno}", in_brackets(call(made)))
}

/// The row as a term.
pub fn row(row: &Row) -> String {
    match (&row.call, row.answer) {
        (made, ..0) => refused(made, row.answer.unsigned_abs()),
        (Call::Save { buf }, length) => {
            let handed = list(&buf[..length as usize]);
            format!("saves {} {}", buf.len(), in_brackets(handed))
        }
        (made, answer) => {
            let answer = number(answer as u64);
            format!("gives {} {answer}", in_brackets(call(made)))
        }
    }
}

/// A list of places and words, on lines of their own where it is long.
pub fn pairs(pairs: &[(usize, u32)]) -> String {
    if pairs.is_empty() {
        return "[]".into();
    }
    let mut lines = vec![String::new()];
    let items = pairs
        .iter()
        .map(|&(at, word)| format!("({at}, {}) ∷ ", number(word.into())));
    for item in items.chain(["[]".into()]) {
        let line = lines.last_mut().expect("a line");
        if line.chars().count() + item.chars().count() > WIDTH {
            *line = line.trim_end().into();
            lines.push(item);
        } else {
            *line += &item;
        }
    }
    match &lines[..] {
        [line] => format!("({line})"),
        _ => format!("(\n    {}\n    )", lines.join("\n    ")),
    }
}

/// A state, by its words that are not zero.
pub fn state(words: &[u32]) -> String {
    let used = words
        .iter()
        .copied()
        .enumerate()
        .filter(|&(_, word)| word != 0);
    format!("words {} {}", words.len(), pairs(&used.collect::<Vec<_>>()))
}

/// A state by what is changed in the one of that name.
pub fn changed(name: &str, before: &[u32], after: &[u32]) -> String {
    if before == after {
        return name.into();
    }
    if after.iter().all(|&word| word == 0) {
        return format!("({})", state(after));
    }
    let words = before.iter().zip(after).enumerate();
    let changed = words.filter(|(_, (old, new))| old != new);
    let changed: Vec<_> = changed.map(|(at, (_, &new))| (at, new)).collect();
    format!("(changed {name} {})", pairs(&changed))
}
