//! Runs the compiled programs.

use calls::{Compared, Difference, Random};
use std::ffi::OsStr;
use std::io::Write;
use std::path::Path;
use std::process::{Command, Stdio};

pub fn failed(what: &str, error: impl std::fmt::Display) -> Difference {
    Difference(format!("{what}: {error}"))
}

/// What a program prints, given words and an input; the input is written whole or in pieces of random length.
pub fn output<A: AsRef<OsStr>>(
    program: &Path,
    words: &[A],
    input: &[u8],
    pieces: Option<&mut Random>,
) -> Compared<Vec<u8>> {
    let name = program.display().to_string();
    let mut child = Command::new(program)
        .args(words)
        .stdin(Stdio::piped())
        .stdout(Stdio::piped())
        .spawn()
        .map_err(|error| failed(&name, error))?;
    let mut stdin = child.stdin.take().expect("a pipe");
    std::thread::scope(|scope| {
        // written beside the reading, so that neither pipe can fill up while the other waits
        let writer = scope.spawn(move || match pieces {
            None => stdin.write_all(input),
            Some(random) => in_pieces(&mut stdin, input, random),
        });
        let output = child.wait_with_output();
        let written = writer.join().expect("the writer does not panic");
        let output = output.map_err(|error| failed(&name, error))?;
        written.map_err(|error| failed(&name, error))?;
        if !output.status.success() {
            return Err(failed(&name, output.status));
        }
        Ok(output.stdout)
    })
}

fn in_pieces(pipe: &mut impl Write, mut input: &[u8], random: &mut Random) -> std::io::Result<()> {
    while !input.is_empty() {
        let any = 1 + random.below(8192);
        let length = random.pick(&[1, 2, 7, 80, 81, any]).min(input.len());
        let (piece, rest) = input.split_at(length);
        pipe.write_all(piece)?;
        input = rest;
    }
    Ok(())
}
