//! Random sessions of `drill` as lines, and damage to them.

use crate::drill::{has_word, lines, Drill};
use calls::{Call, Compared, Event, Phase, Random, Session, Subject};
use plain_model::{Device, WORDS};

/// Bytes that `drill` reads at a time.
pub const BLOCK: usize = 4096;

/// A device that takes the calls that `drill` has words for, and keeps the lines.
struct Lines {
    drill: Drill,
    words: Vec<u32>,
    random: Random,
    text: Vec<String>,
}

impl Lines {
    /// The answer of a line as the call's number.
    fn line(&mut self, line: String) -> i64 {
        let answer = self.drill.line(line.as_bytes());
        self.text.push(line);
        self.drill.device.to_words(&mut self.words);
        match answer.as_str() {
            "ok" => 0,
            "?" => NOT_MADE,
            refused if refused.starts_with('-') => refused.parse().expect("a refusal"),
            number => i64::from_str_radix(number, 16).expect("hex"),
        }
    }
}

/// What a call is taken to answer that `drill` has no line for.
const NOT_MADE: i64 = -6;

impl Subject for Lines {
    fn call_for_bytes(&mut self, call: &Call) -> Compared<(i64, Vec<u8>)> {
        let forms = call.forms();
        let line = forms.into_iter().find(|form| has_word(form));
        let answer = line.map_or(NOT_MADE, |line| self.line(line));
        Ok((answer, Vec::new()))
    }

    /// `drill` has no words for other states; the call is made on its device.
    fn call_on(&mut self, _: &[u32], call: &Call) -> Compared<i64> {
        if self.random.chance(30) {
            return self.call(call);
        }
        Ok(NOT_MADE)
    }

    /// Nor can it be given a state.
    fn put(&mut self, _: &[u32]) -> Compared<()> {
        Ok(())
    }

    fn model(&self) -> &Device {
        &self.drill.device
    }

    fn words(&self) -> &[u32] {
        &self.words
    }

    fn note(&mut self, _: Event) {}
}

/// A session of about so many lines, from a device just made on.
pub fn session(seed: u64, length: usize) -> Compared<Vec<u8>> {
    let lines = Lines {
        drill: Drill::new(),
        words: vec![0; WORDS],
        random: Random::new(!seed),
        text: Vec::new(),
    };
    let mut session = Session::new(lines, seed);
    session.set_up()?;
    while session.subject.text.len() < length {
        session.set_all_running(true)?;
        session.open_interfaces()?;
        for _ in 0..length.min(200) {
            session.step(Phase::Running)?;
        }
    }
    let mut text = session.subject.text;
    text.truncate(length);
    Ok((text.join("\n") + "\n").into_bytes())
}

/// A session with many of its lines changed; the first ones set a device up and are spared.
pub fn damaged(text: &[u8], random: &mut Random) -> Vec<u8> {
    let lines = lines(text);
    let spared = lines.len().min(12);
    let mut out = lines[..spared].to_vec().join(&b'\n');
    for line in &lines[spared..] {
        if !random.chance(3) {
            out.push(b'\n');
        }
        out.extend(damaged_line(line.to_vec(), random));
    }
    if random.chance(50) {
        out.push(b'\n');
    }
    out
}

/// The line, mostly; else one with a byte changed, inserted or removed, of another length, or of any bytes.
fn damaged_line(mut line: Vec<u8>, random: &mut Random) -> Vec<u8> {
    let at = random.below(line.len() + 1);
    match random.below(50) {
        0..=3 if at < line.len() => line[at] = random.any64() as u8,
        4..=6 => line.insert(at, random.pick(b"0123456789abcdefABCX -x\t\r\0\x80?")),
        7..=9 if at < line.len() => drop(line.remove(at)),
        10..=11 => {
            line.extend(vec![b' '; random.below(4)]);
            line.extend(vec![b'0'; random.below(18)]);
        }
        12..=13 => {
            let length = random.pick(&[79, 80, 81, 82, 100, BLOCK - 1, BLOCK, 5000]);
            line.resize(length, random.pick(b" 0x"));
        }
        14..=15 => line = padded(&line, random),
        16 => {
            let length = random.below(91);
            line = random.bytes(length);
        }
        17 => line.clear(),
        _ => (),
    }
    line
}

/// Every number with leading zeros, to 8, 16 or 17 digits.
fn padded(line: &[u8], random: &mut Random) -> Vec<u8> {
    let mut parts = line.split(|&byte| byte == b' ');
    let mut out = parts.next().unwrap_or_default().to_vec();
    for part in parts {
        let digits = random.pick(&[8, 16, 17]);
        out.push(b' ');
        out.extend(vec![b'0'; digits.max(part.len()) - part.len()]);
        out.extend(part);
    }
    out
}

/// The input moved so that a block ends after so many of its bytes; the line before it is no call.
pub fn moved(text: &[u8], bytes: usize) -> Vec<u8> {
    let mut out = vec![b'?'; (2 * BLOCK - 1 - bytes % BLOCK) % BLOCK];
    out.push(b'\n');
    out.extend(text);
    out
}
