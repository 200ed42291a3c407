//! Document 01, and of document 02 what has landed, in plain Rust, written from the documents alone.
pub mod chunk;
pub mod config;
pub mod listing;
pub mod message;
pub mod message_writer;
pub mod network;
pub mod network_writer;
pub mod probe;
pub mod reassembly;
pub mod salvage;
pub mod sequence;
pub mod told;
pub mod value;
pub mod wire;

#[cfg(test)]
mod edge_readings;
#[cfg(test)]
mod round_trips;

/// The numbers given back, but for 0.
#[derive(Clone, Copy, Debug, PartialEq, Eq)]
#[repr(u8)]
pub enum Number {
    CutShort = 1,
    Version = 2,
    NotPermitted = 3,
    NotTaken = 4,
    BadLength = 5,
    Disagree = 6,
    LeftOver = 7,
    NotConfigured = 8,
    TooDeep = 9,
    OverLimit = 10,
    NoRoom = 11,
    Unsound = 12,
    OtherMessage = 13,
    ByteDiffers = 14,
    NotComplete = 15,
    BadLine = 16,
    /// Not given back: an item reaches a hole.
    Hole = 17,
}

/// A refusal: its number and the first byte of the offending item (the line for a bad configuration line).
#[derive(Clone, Copy, Debug, PartialEq, Eq)]
pub struct Refusal {
    pub number: Number,
    pub place: usize,
}

pub type Result<T> = std::result::Result<T, Refusal>;

impl Number {
    /// The refusal with this number at a place.
    pub const fn at(self, place: usize) -> Refusal {
        Refusal { number: self, place }
    }

    /// The refusal with this number where no place is given.
    pub const fn nowhere(self) -> Refusal {
        self.at(0)
    }
}

/// The longest datagram.
pub const LONGEST_DATAGRAM: usize = 65_535;
/// PicoSeconds from here on are read as one less than this, and refused by the writers.
pub const PICOSECONDS_END: u16 = 10_000;
