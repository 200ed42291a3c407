//! Whether a message is newer than the last.
use crate::ffi::{self, SEQUENCE_SIZE};
use crate::record::{number, set};
use core::fmt;

/// What is said of a received sequence number.
#[derive(Clone, Copy, Debug, PartialEq, Eq, Hash)]
pub enum Newness {
    /// Newer than the last one, which it now is.
    Newer,
    /// The last one again, or an older one.
    OldOrSame,
    /// Too far away to be either.
    Invalid,
}

/// The last sequence number of one writer.
///
/// ```
/// use uadp::{LastSequence, Newness};
///
/// let mut last = LastSequence::new();
/// assert_eq!(last.judge(5), Newness::Newer);
/// assert_eq!(last.judge(5), Newness::OldOrSame);
/// assert_eq!(last.judge(16_390), Newness::Invalid);
/// assert_eq!(last.number(), Some(5));
/// ```
#[derive(Clone, Copy, Default, PartialEq, Eq)]
pub struct LastSequence {
    record: [u8; SEQUENCE_SIZE],
}

impl LastSequence {
    /// Before any number was received; the first one is newer.
    pub const fn new() -> Self {
        Self { record: [0; SEQUENCE_SIZE] }
    }

    /// After a number was received.
    pub fn after(last: u16) -> Self {
        let mut record = [0; SEQUENCE_SIZE];
        set(&mut record, 0, 1);
        set(&mut record, 1, last.into());
        Self { record }
    }

    /// The last number that was newer.
    pub fn number(&self) -> Option<u16> {
        (number(&self.record, 0) != 0).then(|| number(&self.record, 1) as u16)
    }

    /// Judges a received number, and keeps it where it is newer.
    pub fn judge(&mut self, received: u16) -> Newness {
        match ffi::newness(&mut self.record, received).value() {
            0 => Newness::Newer,
            1 => Newness::OldOrSame,
            _ => Newness::Invalid,
        }
    }
}

impl fmt::Debug for LastSequence {
    fn fmt(&self, f: &mut fmt::Formatter<'_>) -> fmt::Result {
        f.debug_tuple("LastSequence").field(&self.number()).finish()
    }
}
