//! Random sessions as text for the program `cases`.

use crate::writer::Writer;
use calls::{fresh_words, Call, Compared, Difference, Phase, Session, Subject};

/// A session ends with the device during which it gets this long; `cases` takes less than 2^20 bytes.
const LONG: usize = 150_000;
const TOO_LONG: usize = 1 << 20;

/// Devices that are set up, used and moved, one after another.
pub fn session(seed: u64) -> Compared<Writer> {
    let mut session = Session::new(Writer::new(!seed), seed);
    while session.subject.text().len() < LONG {
        session.begin()?;
        session.use_device()?;
        for _ in 0..4 {
            session.subject.no_call();
            session.subject.peek();
        }
        match session.random.below(20) {
            0..=4 => session.move_by_record(4)?,
            5..=9 => on_two_devices(&mut session)?,
            10 => session.move_by_attributes()?,
            _ => (),
        }
    }
    if session.subject.text().len() >= TOO_LONG {
        return Err(Difference(format!("session {seed:x} is too long")));
    }
    Ok(session.subject)
}

/// The other device is made equal by a record; then both get the same calls.
fn on_two_devices(session: &mut Session<Writer>) -> Compared<()> {
    session.set_all_running(false)?;
    let view = session.subject.view();
    let fresh = fresh_words(view.count(), &view.affinities());
    let bytes = session.save()?;
    session.subject.swap();
    session.subject.put(&fresh)?;
    session.subject.call(&Call::Restore { bytes })?;
    session.subject.differs();
    for _ in 0..30 {
        let view = session.subject.view();
        let call = session.random.call(view, Phase::Stopped, &[]);
        session.subject.call(&call)?;
        session.subject.swap();
        session.subject.call(&call)?;
        if session.random.chance(20) {
            session.subject.differs();
        }
    }
    session.subject.differs();
    Ok(())
}
