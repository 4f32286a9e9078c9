//! The refusals of the calls.

use core::fmt;

/// Why a call was refused; nothing was changed by it.
#[derive(Clone, Copy, Debug, PartialEq, Eq, Hash)]
pub enum Errno {
    /// A guest's access by a vCPU that is not running.
    Perm = 1,
    /// An acknowledge finds its active-priority bit set; proved to happen in no state.
    Io = 5,
    /// Unknown group, attribute, register or direction.
    Nxio = 6,
    /// A ninth vCPU.
    NoMem = 12,
    /// The words lent are not a sound state.
    Fault = 14,
    /// Not initialised, initialised already, or a vCPU is running.
    Busy = 16,
    /// The affinity is in use, or a restore into a device that is not fresh.
    Exist = 17,
    /// Initialise with no vCPU.
    NoDev = 19,
    /// A bad number: index, affinity, ID, attribute number or value.
    Inval = 22,
    /// The buffer lent to save is shorter than the record.
    NoSpc = 28,
    /// A record has an ill-formed or missing number, or bytes after the last one.
    BadMsg = 74,
}

impl Errno {
    /// Every refusal of the table, by number.
    pub const ALL: [Errno; 11] = [
        Errno::Perm,
        Errno::Io,
        Errno::Nxio,
        Errno::NoMem,
        Errno::Fault,
        Errno::Busy,
        Errno::Exist,
        Errno::NoDev,
        Errno::Inval,
        Errno::NoSpc,
        Errno::BadMsg,
    ];

    /// The number of the table, above 0.
    ///
    /// ```
    /// assert_eq!(vgic::Errno::Inval.number(), 22);
    /// ```
    pub const fn number(self) -> i64 {
        self as i64
    }

    /// The refusal of a number of the table.
    ///
    /// ```
    /// use vgic::Errno;
    /// assert_eq!(Errno::of_number(74), Some(Errno::BadMsg));
    /// assert_eq!(Errno::of_number(2), None);
    /// ```
    pub fn of_number(number: i64) -> Option<Errno> {
        Errno::ALL.into_iter().find(|e| e.number() == number)
    }

    /// The name of the table.
    ///
    /// ```
    /// assert_eq!(vgic::Errno::Nxio.name(), "ENXIO");
    /// ```
    pub const fn name(self) -> &'static str {
        match self {
            Errno::Perm => "EPERM",
            Errno::Io => "EIO",
            Errno::Nxio => "ENXIO",
            Errno::NoMem => "ENOMEM",
            Errno::Fault => "EFAULT",
            Errno::Busy => "EBUSY",
            Errno::Exist => "EEXIST",
            Errno::NoDev => "ENODEV",
            Errno::Inval => "EINVAL",
            Errno::NoSpc => "ENOSPC",
            Errno::BadMsg => "EBADMSG",
        }
    }
}

impl fmt::Display for Errno {
    /// The name and the number.
    ///
    /// ```
    /// assert_eq!(vgic::Errno::Busy.to_string(), "EBUSY (16)");
    /// ```
    fn fmt(&self, f: &mut fmt::Formatter<'_>) -> fmt::Result {
        write!(f, "{} ({})", self.name(), self.number())
    }
}

impl core::error::Error for Errno {}
