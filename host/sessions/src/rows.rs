//! Rows of calls with the states around them, for theorems.

use calls::{Call, Compared, Difference, Event, Phase, Session, Subject};
use plain_model::{Device, WORDS};
use std::rc::Rc;

/// Bytes that are saved into hold this before.
const FILLER: u8 = 0xA5;
/// A longer buffer of a save that is refused whatever its length, or that is not filled, only makes a theorem longer.
const REFUSED_LENGTH: usize = 20;
const SPARE: usize = 3;

/// One call, what it answers, and the states around it.
#[derive(Clone)]
pub struct Row {
    pub call: Call,
    pub answer: i64,
    pub before: Rc<Vec<u32>>,
    pub after: Rc<Vec<u32>>,
}

/// A device whose calls are kept as rows; a new list begins where the device was put.
struct Rows {
    device: Device,
    words: Rc<Vec<u32>>,
    lists: Vec<Vec<Row>>,
}

impl Subject for Rows {
    fn call_for_bytes(&mut self, call: &Call) -> Compared<(i64, Vec<u8>)> {
        let mut call = call.clone();
        if let Call::Save { buf } = &mut call {
            let length = self.device.clone().save(&mut [FILLER; 8210]);
            let most = match length {
                ..0 => REFUSED_LENGTH,
                _ => length as usize + SPARE,
            };
            *buf = vec![FILLER; buf.len().min(most)];
        }
        let mut bytes = call.bytes().to_vec();
        let answer = call.on_model(&mut self.device, &mut bytes);
        if let (Call::Save { buf }, 0..) = (&mut call, answer) {
            buf.copy_from_slice(&bytes);
        }
        let before = self.words.clone();
        let mut words = vec![0; WORDS];
        self.device.to_words(&mut words);
        if words != *before {
            self.words = Rc::new(words);
        }
        let after = self.words.clone();
        let list = self.lists.last_mut().expect("a list");
        #[rustfmt::skip]
        list.push(Row { call, answer, before, after });
        Ok((answer, bytes))
    }

    /// Calls on other states are in a file of their own.
    fn call_on(&mut self, _: &[u32], _: &Call) -> Compared<i64> {
        Ok(-14)
    }

    fn put(&mut self, words: &[u32]) -> Compared<()> {
        self.device = Device::from_words(words).ok_or(Difference("words not sound".into()))?;
        self.words = Rc::new(words.to_vec());
        self.lists.push(Vec::new());
        Ok(())
    }

    fn model(&self) -> &Device {
        &self.device
    }

    fn words(&self) -> &[u32] {
        &self.words
    }

    fn note(&mut self, _: Event) {}
}

/// Lists of rows, each from the state that the row before left: devices of a count that are set up, used and moved.
pub fn rows(seed: u64, count: usize, devices: usize) -> Compared<Vec<Vec<Row>>> {
    let rows = Rows {
        device: Device::made(),
        words: Rc::new(vec![0; WORDS]),
        lists: vec![Vec::new()],
    };
    let mut session = Session::new(rows, seed);
    for _ in 0..devices {
        session.set_up()?;
        if session.subject.view().count() == count {
            use_device(&mut session)?;
        }
    }
    Ok(session.subject.lists)
}

/// Few calls, so that most words of the state stay zero.
fn use_device(session: &mut Session<Rows>) -> Compared<()> {
    for phase in [Phase::Running, Phase::Stopped, Phase::Running] {
        session.set_all_running(phase == Phase::Running)?;
        if session.random.chance(50) {
            session.open_interfaces()?;
        }
        for k in 0..12 {
            session.step(phase)?;
            if phase == Phase::Running && k % 4 == 0 {
                raise(session)?;
                session.serve()?;
            }
        }
    }
    session.move_by_record(3)
}

/// A running vCPU latches one of its interrupts, of any group and priority, at any binary points.
fn raise(session: &mut Session<Rows>) -> Compared<()> {
    let random = &mut session.random;
    let v = random.running_index(session.subject.view());
    let (id, word, priorities) = (random.below(32) as u64, random.word(), random.word());
    let binary_points = [0xC643, 0xC663].map(|encoding| (encoding, random.below(8) as u64));
    for (encoding, value) in binary_points {
        let call = Call::WriteSystem { v, encoding, value };
        session.subject.call(&call)?;
    }
    let writes = [
        (0x10080, u64::from(word)),
        (0x10100, 1 << id),
        (0x10400 + id / 4 * 4, u64::from(priorities)),
        (0x10200, 1 << id),
    ];
    for (offset, value) in writes {
        #[rustfmt::skip]
        let call = Call::WriteFrame { v, frame: v, offset, size: 4, value };
        session.subject.call(&call)?;
    }
    Ok(())
}
