//! The language of `drill`, read from document 01: what the program has to print for any bytes, by the plain model.

use calls::{Call, Tally};
use plain_model::Device;

const WORD: u64 = 0xFFFF_FFFF;
const LEVEL: u64 = 1;

/// The words with the largest number in each place. Only the value of `sw` has 64 bits.
const WORDS: [(&str, &[u64]); 12] = [
    ("irqs", &[WORD]),
    ("vcpu", &[WORD]),
    ("init", &[]),
    ("run", &[WORD, LEVEL]),
    ("dr", &[WORD, WORD]),
    ("dw", &[WORD, WORD, WORD]),
    ("rr", &[WORD, WORD, WORD]),
    ("rw", &[WORD, WORD, WORD, WORD]),
    ("sr", &[WORD, WORD]),
    ("sw", &[WORD, WORD, u64::MAX]),
    ("line", &[WORD, WORD, LEVEL]),
    ("sig", &[WORD]),
];

/// Characters of the longest line that is looked at.
const LONGEST_LINE: usize = 80;

/// Whether a line begins with a word of `drill`.
pub fn has_word(line: &str) -> bool {
    let first = line.split(' ').next();
    WORDS.iter().any(|&(word, _)| first == Some(word))
}

/// The lines of an input; the last may lack its end.
pub fn lines(input: &[u8]) -> Vec<&[u8]> {
    let mut lines: Vec<&[u8]> = input.split(|&byte| byte == b'\n').collect();
    if lines.last().is_some_and(|last| last.is_empty()) {
        lines.pop();
    }
    lines
}

/// Lower case hex of 1 to 16 digits.
fn number(text: &str) -> Option<u64> {
    let is_digit = |byte: u8| matches!(byte, b'0'..=b'9' | b'a'..=b'f');
    if !(1..=16).contains(&text.len()) || !text.bytes().all(is_digit) {
        return None;
    }
    u64::from_str_radix(text, 16).ok()
}

/// The call that a line makes, and whether its answer is printed as a number.
fn parse(line: &[u8]) -> Option<(Call, bool)> {
    if line.len() > LONGEST_LINE {
        return None;
    }
    let mut parts = std::str::from_utf8(line).ok()?.split(' ');
    let word = parts.next()?;
    let numbers = parts.map(number).collect::<Option<Vec<u64>>>()?;
    let &(_, limits) = WORDS.iter().find(|&&(known, _)| known == word)?;
    let fit = numbers.iter().zip(limits).all(|(n, limit)| n <= limit);
    if numbers.len() != limits.len() || !fit {
        return None;
    }
    call(word, &numbers)
}

#[rustfmt::skip]
fn call(word: &str, numbers: &[u64]) -> Option<(Call, bool)> {
    let size = 4;
    let v = numbers.first().map_or(0, |&v| v as usize);
    Some(match (word, numbers) {
        ("irqs", &[count]) => (Call::set(3, 0, count), false),
        ("vcpu", &[mpidr]) => (Call::AddVcpu { mpidr: mpidr as u32 }, false),
        ("init", &[]) => (Call::set(4, 0, 0), false),
        ("run", &[_, on]) => (Call::SetRunning { v, on: on == 1 }, false),
        ("dr", &[_, offset]) => (Call::ReadDistributor { v, offset, size }, true),
        ("dw", &[_, offset, value]) => (Call::WriteDistributor { v, offset, size, value }, false),
        ("rr", &[_, frame, offset]) => (Call::ReadFrame { v, frame: frame as usize, offset, size }, true),
        ("rw", &[_, frame, offset, value]) => (Call::WriteFrame { v, frame: frame as usize, offset, size, value }, false),
        ("sr", &[_, encoding]) => (Call::ReadSystem { v, encoding }, true),
        ("sw", &[_, encoding, value]) => (Call::WriteSystem { v, encoding, value }, false),
        ("line", &[_, id, level]) => (Call::ChangeLine { v, id: id as usize, level: level == 1 }, false),
        ("sig", _) => (Call::QuerySignal { v }, true),
        _ => return None,
    })
}

/// A session: the device, and what was called.
pub struct Drill {
    pub device: Device,
    pub tally: Tally,
}

impl Drill {
    pub fn new() -> Drill {
        let (device, tally) = (Device::made(), Tally::default());
        Drill { device, tally }
    }

    /// What one line prints, without its end.
    pub fn line(&mut self, line: &[u8]) -> String {
        let Some((call, is_read)) = parse(line) else {
            return "?".into();
        };
        let answer = call.on_model(&mut self.device, &mut []);
        self.tally.add(call.kind(), answer);
        match answer {
            ..0 => answer.to_string(),
            _ if is_read => format!("{answer:x}"),
            _ => "ok".into(),
        }
    }
}

#[cfg(test)]
mod tests {
    use super::{lines, Drill};

    fn answers(input: &[u8]) -> Vec<String> {
        let mut drill = Drill::new();
        lines(input)
            .into_iter()
            .map(|line| drill.line(line))
            .collect()
    }

    /// The session of document 01.
    #[test]
    fn the_page() {
        let input = "irqs 40;vcpu 0;init;run 0 1;sr 0 c660;dw 0 0 2;dw 0 84 80;dw 0 424 a0000000;dw 0 104 80;sw 0 c667 1;sw 0 c230 a8;line 0 27 1;sig 0;sr 0 c660;dr 0 204;sr 0 c65b;sw 0 c661 27;sig 0;line 0 27 0;sig 0";
        let output = "ok;ok;ok;ok;3ff;ok;ok;ok;ok;ok;ok;ok;1;27;80;a0;ok;1;ok;0";
        assert_eq!(
            answers(input.replace(';', "\n").as_bytes()).join(";"),
            output
        );
    }

    #[test]
    fn no_calls() {
        let bad = [
            "",
            " ",
            "init ",
            " init",
            "init 0",
            "Init",
            "irqs",
            "irqs 40 ",
            "irqs  40",
            "irqs 4G",
            "irqs 0x40",
            "irqs\t40",
            "irqs 40\r",
            "irqs 00000000000000040",
            "irqs 100000000",
            "run 0 2",
            "line 0 20 2",
            "get 3 0",
            "new",
            "sr 0",
            "sig 0 0",
        ];
        for line in bad {
            assert_eq!(Drill::new().line(line.as_bytes()), "?", "{line:?}");
        }
        assert_eq!(Drill::new().line(&[b'0'; 81]), "?");
    }

    #[test]
    fn numbers_and_ends() {
        assert_eq!(answers(b""), [""; 0]);
        assert_eq!(answers(b"\n\n"), ["?", "?"]);
        assert_eq!(
            answers(b"irqs 0000000000000040\nvcpu 0\ninit\nrun 0 01"),
            ["ok"; 4]
        );
        assert_eq!(answers(b"sig ffffffff\nsig 100000000"), ["-16", "?"]);
        assert_eq!(
            answers(b"sw 0 0 ffffffffffffffff\nsw 0 100000000 0"),
            ["-16", "?"]
        );
    }
}
