//! Refusals, and the number that a call answers.

/// Why a call is refused. EIO is never given: an acknowledge sets a bit below all that are set.
/// EFAULT is decided where words are turned into a device.
#[derive(Clone, Copy, PartialEq, Eq, Debug)]
pub(crate) enum Errno {
    Perm = 1,
    Nxio = 6,
    Nomem = 12,
    Busy = 16,
    Exist = 17,
    Nodev = 19,
    Inval = 22,
    Nospc = 28,
    Badmsg = 74,
}

/// A call's answer: a value, or a refusal.
pub(crate) type Answer<T = u32> = Result<T, Errno>;

/// The signed number of a value or of a refusal.
pub(crate) fn number(answer: Answer) -> i64 {
    match answer {
        Ok(value) => value.into(),
        Err(errno) => -(errno as i64),
    }
}

/// The signed number of a call that has no value.
pub(crate) fn done(answer: Answer<()>) -> i64 {
    number(answer.map(|()| 0))
}
