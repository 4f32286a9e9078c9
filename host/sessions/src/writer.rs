//! A session as text: each call becomes a line of the language of docs/TESTING.md, with what the plain model answers.

use crate::agreed::Agreed;
use calls::{hex, Call, Compared, Difference, Event, Random, Subject, Tally, View};
use calls::{BLOCK, FIRST_BLOCK};
use plain_model::{Device, WORDS};

/// Bytes of the buffer that records are saved into.
const BUFFER: usize = 0x2400;
/// Words of the longest state that can be lent.
const LONGEST_STATE: usize = WORDS + 1;
/// More changed words than these are named seldom.
const FEW: usize = 40;

/// What `mark` remembers and `back` puts back.
#[derive(Clone)]
struct Mark {
    device: Device,
    words: Vec<u32>,
    buffer: Vec<u8>,
}

/// The text so far, and everything that the program has at its end.
pub struct Writer {
    random: Random,
    device: Device,
    words: Vec<u32>,
    other: (Device, Vec<u32>),
    buffer: Vec<u8>,
    /// Whether a mark is in use, which no other may replace.
    is_marked: bool,
    text: String,
    /// Lines of the text that make a call or test something.
    pub lines: Agreed,
    pub tally: Tally,
}

/// The words that differ, as places and new values, or `none`.
fn differences(before: &[u32], after: &[u32]) -> String {
    let pairs = before.iter().zip(after).enumerate();
    let changed = pairs.filter(|(_, (old, new))| old != new);
    let items: Vec<String> = changed
        .map(|(at, (_, new))| format!("{at:x}:{new:x}"))
        .collect();
    if items.is_empty() {
        "none".into()
    } else {
        items.join(" ")
    }
}

impl Writer {
    pub fn new(seed: u64) -> Writer {
        Writer {
            random: Random::new(seed),
            device: Device::made(),
            words: vec![0; WORDS],
            other: (Device::made(), vec![0; WORDS]),
            buffer: vec![0xA5; BUFFER],
            is_marked: false,
            text: String::new(),
            lines: Agreed::default(),
            tally: Tally::default(),
        }
    }

    pub fn text(&self) -> &str {
        &self.text
    }

    /// Adds a line; `ok` is said or left out.
    fn line(&mut self, words: &str, answer: &str, changes: Option<&str>) {
        self.text += words;
        if answer != "ok" || self.random.chance(20) {
            self.text += " = ";
            self.text += answer;
        }
        if let Some(changes) = changes {
            self.text += " ; ";
            self.text += changes;
        }
        if self.random.chance(1) {
            self.text += self.random.pick(&["\n# a comment", "  # = 1 ; none", "\n"]);
        }
        self.text.push('\n');
        self.lines.add(answer);
    }

    fn test(&mut self, words: &str, answer: &str) {
        self.line(words, answer, None);
    }

    /// Adds the line of a call, and its changed words at times: always where it is refused for an unsound state.
    fn call_line(&mut self, words: &str, answer: &str, before: &[u32], after: &[u32]) {
        let changes = differences(before, after);
        let is_long = changes.len() > 10 * FEW;
        let percent = if is_long { 3 } else { 40 };
        let named = answer == "-14" || self.random.chance(percent);
        self.line(words, answer, named.then_some(&changes));
    }

    /// One of the words that say the call.
    fn form(&mut self, call: &Call) -> String {
        let forms = call.forms();
        let at = self.random.below(forms.len());
        forms[at].clone()
    }

    /// The text of a call's answer: refusals in decimal, what was read in hex.
    fn answer(call: &Call, answer: i64) -> String {
        match answer {
            ..0 => answer.to_string(),
            _ if call.is_read() => format!("{answer:x}"),
            _ => "ok".into(),
        }
    }

    /// A save into the front of the buffer, by one word or the other; at times with what it touched.
    fn save(&mut self, length: usize) -> (i64, Vec<u8>) {
        let held = self.buffer.clone();
        let looks = !self.is_marked && self.random.chance(30);
        if looks {
            self.test("mark", "ok");
        }
        let answer = self.device.save(&mut self.buffer[..length]);
        let by_length = self.random.chance(50);
        let word = if by_length { "record" } else { "save" };
        let said = match answer {
            ..0 => answer.to_string(),
            _ if by_length => format!("{answer:x}"),
            _ => hex(&self.buffer[..answer as usize]),
        };
        let none = self.random.chance(30).then_some("none");
        self.line(&format!("{word} {length:x}"), &said, none);
        if looks {
            self.look_at_buffer(&held);
        }
        (answer, self.buffer[..length].to_vec())
    }

    /// What the buffer holds now, and which of its bytes differ from those held at the mark.
    fn look_at_buffer(&mut self, held: &[u8]) {
        let differs = |at: &usize| self.buffer[*at] != held[*at];
        let first = (0..BUFFER).find(differs);
        let last = (0..BUFFER).rfind(differs);
        let touched = match (first, last) {
            (Some(first), Some(last)) => format!("{first:x}-{last:x}"),
            _ => "none".into(),
        };
        self.test("touched", &touched);
        let at = self.random.below(100) + last.unwrap_or(0).saturating_sub(50);
        let length = 1 + self.random.below(40).min(BUFFER - at - 1);
        let shown = hex(&self.buffer[at..at + length]);
        self.test(&format!("show {at:x} {length:x}"), &shown);
    }

    /// A restore of bytes in the line or in the buffer.
    fn restore(&mut self, bytes: &[u8]) -> i64 {
        let fits = !bytes.is_empty() && bytes.len() <= BUFFER;
        let is_there = fits && self.buffer.starts_with(bytes);
        let mut words = Call::Restore {
            bytes: bytes.to_vec(),
        }
        .forms()
        .remove(0);
        if fits && (is_there || self.random.chance(20)) {
            if !is_there {
                self.put_bytes(bytes);
            }
            words = format!("load {:x}", bytes.len());
        }
        let before = self.words.clone();
        let answer = self.device.restore(bytes);
        let after = self.update();
        let said = if answer < 0 {
            answer.to_string()
        } else {
            "ok".into()
        };
        self.call_line(&words, &said, &before, &after);
        answer
    }

    fn put_bytes(&mut self, bytes: &[u8]) {
        if self.random.chance(20) {
            let byte = self.random.any64() as u8;
            self.buffer.fill(byte);
            self.test(&format!("bytes {byte:x}"), "ok");
        }
        self.buffer[..bytes.len()].copy_from_slice(bytes);
        self.test(&format!("byte 0 {}", hex(bytes)), "ok");
    }

    /// The words of the device as it is now.
    fn update(&mut self) -> Vec<u32> {
        self.device.to_words(&mut self.words);
        self.words.clone()
    }

    /// Any call but save and restore.
    fn plain_call(&mut self, call: &Call) -> i64 {
        let before = self.words.clone();
        let answer = call.on_model(&mut self.device, &mut []);
        let after = self.update();
        let words = self.form(call);
        let said = Writer::answer(call, answer);
        self.call_line(&words, &said, &before, &after);
        answer
    }

    /// A call that is refused since the state is of another length or not sound; save's buffer is not looked at.
    fn refused_call(&mut self, call: &Call) {
        let words = match call {
            Call::Save { buf } => format!("save {:x}", buf.len().min(BUFFER)),
            _ => self.form(call),
        };
        self.line(&words, "-14", Some("none"));
        self.tally.add(call.kind(), -14);
    }

    fn mark(&mut self) -> Mark {
        self.test("mark", "ok");
        self.is_marked = true;
        Mark {
            device: self.device.clone(),
            words: self.words.clone(),
            buffer: self.buffer.clone(),
        }
    }

    fn back(&mut self, mark: Mark) {
        self.test("back", "ok");
        self.is_marked = false;
        if self.random.chance(10) {
            self.test("changed", "none");
            self.test("touched", "none");
        }
        (self.device, self.words, self.buffer) = (mark.device, mark.words, mark.buffer);
    }

    /// Changes words one by one.
    fn poke(&mut self, words: &[u32]) {
        for (at, &word) in words.iter().enumerate() {
            if self.words[at] != word {
                let change = format!("{at:x}:{word:x}");
                let named = self.random.chance(20).then_some(change.as_str());
                self.line(&format!("poke {at:x} {word:x}"), "ok", named);
            }
        }
        self.words.copy_from_slice(words);
    }

    /// The same device by calls: set up, its record restored, its vCPUs started.
    fn put_by_calls(&mut self, words: &[u32]) -> Compared<()> {
        let mut stopped = words.to_vec();
        for v in 0..words[2] as usize {
            stopped[FIRST_BLOCK + BLOCK * v + 17] = 0;
        }
        let stopped = Device::from_words(&stopped).ok_or(Difference("words not sound".into()))?;
        let view = View(words);
        let running = (0..view.vcpus()).filter(|&v| view.is_running(v));
        let mut record = vec![0; BUFFER];
        let length = stopped.save(&mut record);
        let mut made = vec![Call::Make, Call::set(3, 0, words[1].into())];
        made.extend(
            view.affinities()
                .into_iter()
                .map(|mpidr| Call::AddVcpu { mpidr }),
        );
        made.push(Call::set(4, 0, 0));
        let bytes = record[..length.max(0) as usize].to_vec();
        made.push(Call::Restore { bytes });
        made.extend(running.map(|v| Call::SetRunning { v, on: true }));
        for call in made {
            self.call(&call)?;
        }
        Ok(())
    }

    /// Goes on with the other of the two devices.
    pub fn swap(&mut self) {
        std::mem::swap(&mut self.device, &mut self.other.0);
        std::mem::swap(&mut self.words, &mut self.other.1);
        self.test("swap", "ok");
    }

    /// Compares the two devices.
    pub fn differs(&mut self) {
        let answer = differences(&self.other.1, &self.words);
        self.test("differs", &answer);
    }

    /// A line that makes no call: an unknown word, or numbers that are too many, too few or out of range.
    pub fn no_call(&mut self) {
        let any = self.random.any64();
        let line = match self.random.below(12) {
            0 => format!("call {any:x}"),
            1 => "sr 0".into(),
            2 => format!("sig 0 {any:x}"),
            3 => "run 0 2".into(),
            4 => format!("vcpu {:x}", any | 1 << 32),
            5 => "sr 0 C660".into(),
            6 => "sr 0  c660".into(),
            7 => "dw 0 0 10000000000000000".into(),
            8 => "dr 0 0x0".into(),
            9 => "restore 014".into(),
            10 => "wrw 0 0 0 4 0 0".into(),
            _ => " init".into(),
        };
        self.line(&line, "?", Some("none"));
    }

    /// A look at one word.
    pub fn peek(&mut self) {
        let at = self.random.below(WORDS);
        let word = format!("{:x}", self.words[at]);
        self.test(&format!("peek {at:x}"), &word);
    }
}

impl Subject for Writer {
    fn call_for_bytes(&mut self, call: &Call) -> Compared<(i64, Vec<u8>)> {
        let (answer, bytes) = match call {
            Call::Save { buf } => self.save(buf.len().min(BUFFER)),
            Call::Restore { bytes } => (self.restore(bytes), bytes.clone()),
            _ => (self.plain_call(call), Vec::new()),
        };
        self.tally.add(call.kind(), answer);
        Ok((answer, bytes))
    }

    fn call_on(&mut self, words: &[u32], call: &Call) -> Compared<i64> {
        if words.len() > LONGEST_STATE {
            return Ok(-14);
        }
        let mark = self.mark();
        let mut answer = -14;
        if words.len() != WORDS {
            self.test(&format!("length {:x}", words.len()), "ok");
            self.tally.note(Event::WrongLength);
            self.refused_call(call);
        } else {
            self.poke(words);
            let sound = Device::from_words(words);
            if sound.is_none() {
                self.tally.note(Event::UnsoundWords);
            }
            if sound.is_none() && !matches!(call, Call::Make) {
                self.refused_call(call);
            } else {
                self.device = sound.unwrap_or(Device::made());
                answer = self.call(call)?;
            }
            if self.random.chance(10) {
                let changed = differences(&mark.words, &self.words);
                self.test("changed", &changed);
            }
        }
        self.back(mark);
        Ok(answer)
    }

    fn put(&mut self, words: &[u32]) -> Compared<()> {
        let used = words.iter().filter(|&&word| word != 0).count();
        if words[0] == 1 && (used > 100 || self.random.chance(70)) {
            self.put_by_calls(words)?;
        } else {
            self.test("words 0", "ok");
            self.words.fill(0);
            self.poke(words);
            self.device = Device::from_words(words).ok_or(Difference("words not sound".into()))?;
        }
        if self.words != words {
            return Err(Difference("a device put by calls is another".into()));
        }
        Ok(())
    }

    fn model(&self) -> &Device {
        &self.device
    }

    fn words(&self) -> &[u32] {
        &self.words
    }

    fn note(&mut self, event: Event) {
        self.tally.note(event);
    }
}
