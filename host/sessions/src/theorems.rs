//! Sessions as theorems of the definitions, a file for each count and one for states that are not sound.

use crate::choose::{choose, Budget, Shown};
use crate::programs::failed;
use crate::rows::{rows, Row};
use crate::term;
use crate::unsound::{bases, calls, Base};
use calls::{Call, Compared, Difference, Tally};
use plain_model::WORDS;
use std::path::Path;

/// The files: the count of their devices, the seed of their sessions, and what they may take.
const FILES: [(usize, u64, Budget); 3] = [
    (64, 1, budget(340, 85)),
    (96, 2, budget(210, 60)),
    (1024, 3, budget(120, 40)),
];

const fn budget(lines: usize, cost: usize) -> Budget {
    Budget { lines, cost }
}

/// Devices from whose lives the rows are chosen.
const DEVICES: usize = 500;

/// The `use` lines, each with its names; those that a file does not use are left out.
const USES: [(&str, &[&str]); 7] = [
    ("mathlib.Core.Path", &["◌≡◌", "refl"]),
    ("Prim.Native.Nat", &["ℕ"]),
    ("mathlib.Core.Bool", &["true", "false"]),
    ("mathlib.Core.List", &["List", "[]", "◌∷◌", "◌++◌"]),
    ("lib.ListN", &["replicate"]),
    (
        "Rattle.model.specs.Calls",
        &[
            "make",
            "add_vcpu",
            "set_running",
            "change_line",
            "query_signal",
            "read_distributor",
            "write_distributor",
            "read_frame",
            "write_frame",
            "read_system",
            "write_system",
            "get_attribute",
            "set_attribute",
            "save",
            "restore",
        ],
    ),
    (
        "Rattle.worked.proofs.Rows",
        &[
            "Row", "gives", "refuses", "saves", "words", "changed", "differs",
        ],
    ),
];

/// The `use` lines of a file with that body.
fn head(body: &str) -> String {
    let between = |c: char| c.is_whitespace() || "(){}.,;".contains(c);
    let is_used = |name: &&&str| {
        body.split(between)
            .any(|token| token == name.trim_matches('◌'))
    };
    let mut lines = String::new();
    for (module, names) in USES {
        let names: Vec<&str> = names.iter().filter(is_used).copied().collect();
        if !names.is_empty() {
            lines += &format!("use {module}.{{{}}}\n", names.join(", "));
        }
    }
    lines
}

/// A file: what it has, how it was made, and how much it is.
fn file(what: &str, calls: usize, theorems: usize, body: &str) -> String {
    format!(
        "-- {what}\n-- Made by: host/run sessions\n-- {calls} calls in {theorems} theorems. The plain model, host/model, gave the answers and the states.\n{}\n{body}",
        head(body)
    )
}

fn abbreviation(name: &str, kind: &str, term: &str) -> String {
    let space = if term.starts_with('\n') { "" } else { " " };
    format!("abbrev {name} : {kind}\n{name} ={space}{term}\n\n")
}

fn row_list(rows: impl Iterator<Item = String>) -> String {
    let rows: Vec<String> = rows.collect();
    format!("\n    {}\n    ∷ []", rows.join("\n    ∷ "))
}

/// From one state the rows lead to another.
fn theorem(name: &str, rows: &str, from: &str, to: &str) -> String {
    format!("{name} : differs {rows} {from} {to} ≡ 0\nunfolding differs\n{name} = refl\n\n")
}

/// The theorem of some rows, after the state and the rows that it names.
fn of_rows(prefix: &str, k: usize, rows: &[Row]) -> String {
    let [state, list, name] = ["state", "rows", "chunk"].map(|part| format!("{prefix}-{part}-{k}"));
    let (first, last) = (&rows[0].before, &rows[rows.len() - 1].after);
    let end = term::changed(&state, first, last);
    abbreviation(&state, "List ℕ", &term::state(first))
        + &abbreviation(&list, "List Row", &row_list(rows.iter().map(term::row)))
        + &theorem(&name, &list, &state, &end)
}

/// The file of random sessions with devices of a count.
fn random_file(
    (count, seed, budget): (usize, u64, Budget),
    shown: &mut Shown,
    tally: &mut Tally,
) -> Compared<String> {
    let lists = rows(seed, count, DEVICES)?;
    let chosen = choose(&lists, count, budget, shown);
    let mut body = String::new();
    for (k, rows) in chosen.iter().enumerate() {
        body += &of_rows(&format!("session-{count}"), k + 1, rows);
        rows.iter()
            .for_each(|row| tally.add(row.call.kind(), row.answer));
    }
    let calls = chosen.iter().map(Vec::len).sum();
    let what = "Calls of random sessions: from each state the calls give these answers and leave the next state.";
    Ok(file(what, calls, chosen.len(), body.trim_end()) + "\n")
}

/// The theorems on the states of one base: two calls on each, in turn of all kinds.
fn of_base(base: &Base, groups: usize) -> String {
    let name = format!("unsound-{}", base.name);
    let mut text = abbreviation(&name, "List ℕ", &term::state(&base.words));
    for (k, &(at, word)) in base.damages.iter().enumerate() {
        let mut words = base.words.clone();
        words[at] = word;
        let state = term::changed(&name, &base.words, &words);
        let rows = format!("unsound-rows-{}", k % groups + 1);
        text += &theorem(&format!("{name}-{}", k + 1), &rows, &state, &state);
    }
    text
}

/// States of another length, and making a device, which looks at the length alone.
fn of_lengths(base: &Base, tally: &mut Tally) -> String {
    let mut text = abbreviation(
        "unsound-make",
        "List Row",
        &row_list(["refuses make 14".into()].into_iter()),
    );
    for (k, length) in [WORDS - 1, WORDS + 1, 0].into_iter().enumerate() {
        let mut words = base.words.clone();
        words.resize(length, 0);
        let state = format!("({})", term::state(&words));
        text += &theorem(
            &format!("unsound-length-{}", k + 1),
            "unsound-rows-1",
            &state,
            &state,
        );
        text += &theorem(
            &format!("unsound-make-{}", k + 1),
            "unsound-make",
            &state,
            &state,
        );
        tally.add(Call::Make.kind(), -14);
    }
    tally.add(Call::Make.kind(), 0);
    let made = abbreviation(
        "unsound-made",
        "List Row",
        &row_list(["gives make 0".into()].into_iter()),
    );
    let unsound = format!("(changed unsound-{} ((0, 2) ∷ []))", base.name);
    text + &made
        + &theorem(
            "unsound-make-4",
            "unsound-made",
            &unsound,
            &format!("(words {WORDS} [])"),
        )
}

/// The file of states that are not sound.
fn unsound_file(tally: &mut Tally) -> String {
    let (groups, bases) = (calls(), bases());
    let mut body = String::new();
    for (k, group) in groups.iter().enumerate() {
        let rows = row_list(group.iter().map(|call| term::refused(call, 14)));
        body += &abbreviation(&format!("unsound-rows-{}", k + 1), "List Row", &rows);
        group.iter().for_each(|call| tally.add(call.kind(), -14));
    }
    for base in &bases {
        body += &of_base(base, groups.len());
    }
    body += &of_lengths(&bases[0], tally);
    let damages: usize = bases.iter().map(|base| base.damages.len()).sum();
    let what = "Calls on states with one word, or the length, out of range: each answers -14 and leaves the state. Making a device looks at the length alone.";
    file(what, 2 * damages + 10, damages + 7, body.trim_end()) + "\n"
}

/// Writes the files; every kind of call with every refusal has to be in one of them.
pub fn write(folder: &Path) -> Compared<()> {
    let mut tally = Tally::default();
    let mut files = vec![("Unsound".to_owned(), unsound_file(&mut tally))];
    let mut shown = Shown::new();
    for spec in FILES {
        let name = spec.0.to_string();
        files.push((name, random_file(spec, &mut shown, &mut tally)?));
    }
    let missing = tally.missing(&[]);
    if !missing.is_empty() {
        return Err(Difference(format!("theorems: {}", missing.join("\n"))));
    }
    for (name, text) in files {
        let path = folder.join(format!("PlainSessions{name}.antt.txt"));
        let written = std::fs::write(&path, &text);
        written.map_err(|error| failed(&path.display().to_string(), error))?;
        println!("{}: {} lines", path.display(), text.lines().count());
    }
    Ok(())
}
