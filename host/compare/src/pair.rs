//! The library and the model side by side: each call is made on both and everything is compared.

use calls::{Call, Compared, Difference, Event, Subject, Tally};
use plain_model::{Device, WORDS};

/// Words or bytes lent from the middle of a larger piece of memory.
struct Lent<T> {
    memory: Vec<T>,
    length: usize,
}

const GUARD: usize = 16;

impl<T: Copy + PartialEq + From<u8>> Lent<T> {
    fn new(contents: &[T]) -> Lent<T> {
        let mut memory: Vec<T> = (0..GUARD).map(guard).collect();
        memory.extend_from_slice(contents);
        memory.extend((GUARD..2 * GUARD).map(guard::<T>));
        let length = contents.len();
        Lent { memory, length }
    }

    fn part(&self) -> &[T] {
        &self.memory[GUARD..GUARD + self.length]
    }

    fn part_mut(&mut self) -> &mut [T] {
        &mut self.memory[GUARD..GUARD + self.length]
    }

    /// Whether the memory around the part is as it was.
    fn is_guarded(&self) -> bool {
        let (before, rest) = self.memory.split_at(GUARD);
        let mut around = before.iter().chain(&rest[self.length..]).enumerate();
        around.all(|(i, &value)| value == guard(i))
    }
}

fn guard<T: From<u8>>(i: usize) -> T {
    T::from((i * 7 + 0x61) as u8)
}

/// One device in both, equal after every call.
pub struct Pair {
    state: Lent<u32>,
    model: Device,
    words: Vec<u32>,
    after: Vec<u32>,
    pub tally: Tally,
}

/// The answer and all that was lent, of library and model, after a call.
struct Outcome<'a> {
    answers: [i64; 2],
    before: &'a [u32],
    library: &'a Lent<u32>,
    model: &'a [u32],
    library_bytes: &'a Lent<u8>,
    model_bytes: &'a [u8],
}

impl Pair {
    pub fn new() -> Pair {
        Pair {
            state: Lent::new(&[0; WORDS]),
            model: Device::made(),
            words: vec![0; WORDS],
            after: vec![0; WORDS],
            tally: Tally::default(),
        }
    }
}

impl Subject for Pair {
    fn call_for_bytes(&mut self, call: &Call) -> Compared<(i64, Vec<u8>)> {
        let mut library_bytes = Lent::new(call.bytes());
        let mut model_bytes = call.bytes().to_vec();
        let expected = call.on_model(&mut self.model, &mut model_bytes);
        let answer = call.on_library(self.state.part_mut(), library_bytes.part_mut());
        self.model.to_words(&mut self.after);
        let outcome = Outcome {
            answers: [answer, expected],
            before: &self.words,
            library: &self.state,
            model: &self.after,
            library_bytes: &library_bytes,
            model_bytes: &model_bytes,
        };
        outcome.check(call)?;
        std::mem::swap(&mut self.words, &mut self.after);
        self.tally.add(call.kind(), answer);
        if is_acknowledge(call) && (0..1020).contains(&answer) {
            self.tally.note(Event::Acknowledged);
        }
        Ok((answer, model_bytes))
    }

    fn call_on(&mut self, words: &[u32], call: &Call) -> Compared<i64> {
        let mut state = Lent::new(words);
        let mut library_bytes = Lent::new(call.bytes());
        let mut model_bytes = call.bytes().to_vec();
        let mut after = words.to_vec();
        let device = match call {
            Call::Make if words.len() == WORDS => Some(Device::made()),
            _ => Device::from_words(words),
        };
        self.note_words(words, device.is_some());
        let expected = device.map_or(-14, |mut device| {
            let answer = call.on_model(&mut device, &mut model_bytes);
            device.to_words(&mut after);
            answer
        });
        let answer = call.on_library(state.part_mut(), library_bytes.part_mut());
        let outcome = Outcome {
            answers: [answer, expected],
            before: words,
            library: &state,
            model: &after,
            library_bytes: &library_bytes,
            model_bytes: &model_bytes,
        };
        outcome.check(call)?;
        self.tally.add(call.kind(), answer);
        Ok(answer)
    }

    fn put(&mut self, words: &[u32]) -> Compared<()> {
        let Some(device) = Device::from_words(words) else {
            let first = &words[..5];
            return Err(Difference(format!(
                "the model takes a sound state for unsound: words 0-4 are {first:x?}"
            )));
        };
        self.model = device;
        self.model.to_words(&mut self.words);
        self.state.part_mut().copy_from_slice(words);
        if self.words != words {
            return Err(Difference(describe("put", &self.words, words, words)));
        }
        Ok(())
    }

    fn model(&self) -> &Device {
        &self.model
    }

    /// The words of the device, as both have them.
    fn words(&self) -> &[u32] {
        &self.words
    }

    fn note(&mut self, event: Event) {
        self.tally.note(event);
    }
}

impl Pair {
    fn note_words(&mut self, words: &[u32], is_sound: bool) {
        if words.len() != WORDS {
            self.tally.note(Event::WrongLength);
        } else if !is_sound {
            self.tally.note(Event::UnsoundWords);
        }
    }
}

impl Outcome<'_> {
    fn check(&self, call: &Call) -> Compared<()> {
        let [answer, expected] = self.answers;
        let refused = answer < 0;
        let why = if answer != expected {
            "the answers differ"
        } else if self.library.part() != self.model {
            "the words differ"
        } else if !self.library.is_guarded() {
            "the library wrote outside the state"
        } else if self.library_bytes.part() != self.model_bytes {
            "the bytes differ"
        } else if !self.library_bytes.is_guarded() {
            "the library wrote outside the buffer"
        } else if refused && self.model != self.before {
            "a refused call changed the state"
        } else if (refused || matches!(call, Call::Restore { .. }))
            && self.model_bytes != call.bytes()
        {
            "bytes changed that may not"
        } else {
            return Ok(());
        };
        let words = describe(why, self.library.part(), self.model, self.before);
        Err(Difference(format!(
            "{call:x?}\non {} words: {words}library answers {answer}, model answers {expected}",
            self.before.len()
        )))
    }
}

fn is_acknowledge(call: &Call) -> bool {
    let is_iar = |encoding| encoding == 0xC640 || encoding == 0xC660;
    matches!(call, &Call::ReadSystem { encoding, .. } if is_iar(encoding))
}

/// The words that differ between library and model, a line each.
fn describe(why: &str, library: &[u32], model: &[u32], before: &[u32]) -> String {
    let mut lines = format!("{why}\n");
    for (at, (library, model)) in library.iter().zip(model).enumerate() {
        if library != model {
            let old = before[at];
            lines += &format!("word {at}: library {library:x}, model {model:x}, before {old:x}\n");
        }
    }
    lines
}
