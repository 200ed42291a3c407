//! Why a call is refused.
use crate::ffi::Answer;
use core::error::Error;
use core::fmt;

/// What a refusal's number stands for.
#[derive(Clone, Copy, Debug, PartialEq, Eq, Hash)]
#[non_exhaustive]
pub enum Reason {
    /// 1: an item doesn't fit in what is left.
    CutShort,
    /// 2: version not 1.
    BadVersion,
    /// 3: a bit or number not permitted.
    NotPermitted,
    /// 4: in the standard, not taken here.
    NotTaken,
    /// 5: bad length.
    BadLength,
    /// 6: counts, sizes or offsets disagree.
    Disagree,
    /// 7: bytes left over.
    LeftOver,
    /// 8: the configuration doesn't say.
    NotConfigured,
    /// 9: nested too deep.
    TooDeep,
    /// 10: over a limit.
    OverLimit,
    /// 11: no room in the lent buffer.
    NoRoom,
    /// 12: reassembly record unsound.
    Unsound,
    /// 13: chunk or partial of another message.
    OtherMessage,
    /// 14: a held byte differs.
    ByteDiffers,
    /// 15: not complete.
    NotComplete,
    /// 16: bad configuration line.
    BadLine,
    /// A number that this crate has no name for.
    Unknown(u8),
}

/// The reasons, the one with number k at k - 1.
const REASONS: [Reason; 16] = [
    Reason::CutShort,
    Reason::BadVersion,
    Reason::NotPermitted,
    Reason::NotTaken,
    Reason::BadLength,
    Reason::Disagree,
    Reason::LeftOver,
    Reason::NotConfigured,
    Reason::TooDeep,
    Reason::OverLimit,
    Reason::NoRoom,
    Reason::Unsound,
    Reason::OtherMessage,
    Reason::ByteDiffers,
    Reason::NotComplete,
    Reason::BadLine,
];

impl Reason {
    /// The reason that a number stands for; `None` for 0, which is no refusal.
    ///
    /// ```
    /// # use uadp::Reason;
    /// assert_eq!(Reason::from_number(7), Some(Reason::LeftOver));
    /// assert_eq!(Reason::from_number(0), None);
    /// ```
    pub const fn from_number(number: u8) -> Option<Self> {
        match number {
            0 => None,
            1..=16 => Some(REASONS[number as usize - 1]),
            _ => Some(Self::Unknown(number)),
        }
    }

    /// The number, as in document 01 and in the C header.
    pub const fn number(self) -> u8 {
        match self {
            Self::CutShort => 1,
            Self::BadVersion => 2,
            Self::NotPermitted => 3,
            Self::NotTaken => 4,
            Self::BadLength => 5,
            Self::Disagree => 6,
            Self::LeftOver => 7,
            Self::NotConfigured => 8,
            Self::TooDeep => 9,
            Self::OverLimit => 10,
            Self::NoRoom => 11,
            Self::Unsound => 12,
            Self::OtherMessage => 13,
            Self::ByteDiffers => 14,
            Self::NotComplete => 15,
            Self::BadLine => 16,
            Self::Unknown(number) => number,
        }
    }

    /// The reason in document 01's words.
    pub const fn text(self) -> &'static str {
        match self {
            Self::CutShort => "cut short: an item doesn't fit in what is left",
            Self::BadVersion => "version not 1",
            Self::NotPermitted => "a bit or number not permitted",
            Self::NotTaken => "in the standard, not taken here",
            Self::BadLength => "bad length",
            Self::Disagree => "counts, sizes or offsets disagree",
            Self::LeftOver => "bytes left over",
            Self::NotConfigured => "the configuration doesn't say",
            Self::TooDeep => "nested too deep",
            Self::OverLimit => "over a limit",
            Self::NoRoom => "no room in the lent buffer",
            Self::Unsound => "reassembly record unsound",
            Self::OtherMessage => "chunk or partial of another message",
            Self::ByteDiffers => "a held byte differs",
            Self::NotComplete => "not complete",
            Self::BadLine => "bad configuration line",
            Self::Unknown(_) => "unknown number",
        }
    }
}

impl fmt::Display for Reason {
    fn fmt(&self, f: &mut fmt::Formatter<'_>) -> fmt::Result {
        f.write_str(self.text())
    }
}

/// A refused call: why, and where. Every lent byte is as it was.
///
/// ```
/// use uadp::{Config, Datagram, Reason, Refusal};
///
/// let refusal = Datagram::read(&[0xD1], &Config::default()).unwrap_err();
/// assert_eq!(refusal, Refusal { reason: Reason::CutShort, place: 1 });
/// assert_eq!(refusal.to_string(), "refused by 1 at 1: cut short: an item doesn't fit in what is left");
/// ```
#[derive(Clone, Copy, Debug, PartialEq, Eq, Hash)]
pub struct Refusal {
    /// Why.
    pub reason: Reason,
    /// The first byte of the offending item, counted from the start of what was read; of a configuration text the line, from 1; 0
    /// for a writer, and for the numbers 8 and 10 to 15.
    pub place: usize,
}

impl Refusal {
    /// The reason's number.
    pub const fn number(self) -> u8 {
        self.reason.number()
    }
}

impl fmt::Display for Refusal {
    fn fmt(&self, f: &mut fmt::Formatter<'_>) -> fmt::Result {
        write!(f, "refused by {} at {}: {}", self.number(), self.place, self.reason)
    }
}

impl Error for Refusal {}

impl Answer {
    /// The value of a call that is done, else the refusal.
    ///
    /// # Errors
    ///
    /// The refusal that the library answered.
    pub fn into_result(self) -> Result<u64, Refusal> {
        match Reason::from_number(self.number()) {
            None => Ok(self.value()),
            Some(reason) => Err(Refusal { reason, place: self.value() as usize }),
        }
    }

    /// The start of a buffer that the call filled.
    pub(crate) fn written(self, out: &[u8]) -> Result<&[u8], Refusal> {
        self.into_result().map(|length| &out[..length as usize])
    }
}
