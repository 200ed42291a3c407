//! All messages and fields of a datagram in one call.
use crate::ffi::{self, NONE, WALK_SIZE};
use crate::record::{number, place, walked};
use crate::{Config, Encoding, Field, Kind, Reason, Refusal, Shape, Type};

/// Room for one entry of a walk.
pub type Record = [u8; WALK_SIZE];

/// Walks over all messages and fields of a datagram, in their order, and keeps an entry for each in the lent records, as far as they
/// go. One call takes about half the time of stepping over messages and fields.
///
/// ```
/// use uadp::walk::{walk, Entry, Record};
/// use uadp::Config;
///
/// # let datagram = [
/// #     0xD1, 0x01, 0x67, 0x12, 0x01, 0x15, 0x00, 0x09, 0x05, 0x00, 0x02, 0x00, 0x05, 0x03, 0x00, 0x0A, 0x00, 0x00, 0x00, 0x3F,
/// # ];
/// let mut room: [Record; 100] = [[0; 80]; 100];
/// let walk = walk(&datagram, &Config::default(), &mut room)?;
/// assert_eq!((walk.total(), walk.is_whole()), (3, true));
/// for entry in walk.entries() {
///     match entry {
///         Entry::Message(message) => println!("message {} of writer {:?}", message.number, message.writer),
///         Entry::Field { field, .. } => println!("{} at {}", field.value_type, field.offset),
///     }
/// }
/// # Ok::<(), uadp::Refusal>(())
/// ```
///
/// # Errors
///
/// What [`Datagram::read`](crate::Datagram::read) refuses. A refused message is an entry, and so is one that is not valid; the fields of
/// a refused message before its fault follow it.
pub fn walk<'a, 'r>(datagram: &'a [u8], config: &Config, room: &'r mut [Record]) -> Result<Walk<'a, 'r>, Refusal> {
    let total = ffi::walk(datagram, config.as_bytes(), room.as_flattened_mut()).into_result()? as usize;
    let kept = total.min(room.len());
    Ok(Walk { datagram, records: &room[..kept], total })
}

/// What was walked over.
#[derive(Clone, Copy, Debug)]
pub struct Walk<'a, 'r> {
    datagram: &'a [u8],
    records: &'r [Record],
    total: usize,
}

impl<'a, 'r> Walk<'a, 'r> {
    /// How many messages and fields there are, whatever the room.
    pub const fn total(&self) -> usize {
        self.total
    }

    /// Whether every entry had room.
    pub const fn is_whole(&self) -> bool {
        self.records.len() == self.total
    }

    /// The entries that had room, in order.
    pub const fn entries(&self) -> Entries<'a, 'r> {
        Entries { datagram: self.datagram, records: self.records, encoding: Encoding::Variant }
    }
}

/// A message, or a field of the message before it.
#[derive(Clone, Copy, Debug, PartialEq, Eq)]
pub enum Entry<'a> {
    /// A message.
    Message(WalkedMessage<'a>),
    /// A field.
    Field {
        /// The number of its message.
        message: usize,
        /// The field; its offset counts in the datagram.
        field: Field<'a>,
    },
}

/// A message of a walk.
#[derive(Clone, Copy, Debug, PartialEq, Eq)]
#[non_exhaustive]
pub struct WalkedMessage<'a> {
    /// Its number in the datagram, from 0.
    pub number: usize,
    /// Its DataSetWriterId.
    pub writer: Option<u16>,
    /// Where it stands in the datagram.
    pub offset: usize,
    /// Its bytes.
    pub bytes: &'a [u8],
    /// What reading it gave.
    pub outcome: Outcome,
}

/// What reading a message gave.
#[derive(Clone, Copy, Debug, PartialEq, Eq)]
pub enum Outcome {
    /// It is accepted; its fields follow.
    Accepted {
        /// What it is.
        kind: Kind,
        /// How its fields are encoded.
        encoding: Encoding,
        /// Its sequence number.
        sequence: Option<u16>,
    },
    /// Its publisher marked it as not valid.
    NotValid,
    /// It is refused, with the place in the message; its fields before the fault follow.
    Refused(Refusal),
}

/// The entries of a walk.
#[derive(Clone, Debug)]
pub struct Entries<'a, 'r> {
    datagram: &'a [u8],
    records: &'r [Record],
    /// Of the message that was last handed out.
    encoding: Encoding,
}

impl<'a> Entries<'a, '_> {
    fn entry(&mut self, record: &Record) -> Entry<'a> {
        let offset = place(record, walked::OFFSET);
        let bytes = &self.datagram[offset..][..place(record, walked::LENGTH)];
        if number(record, walked::WHAT) == walked::FIELD {
            let field = Field {
                index: place(record, walked::INDEX),
                value_type: Type::from_number(number(record, walked::TYPE) as u8),
                shape: Shape::of(record, walked::SHAPE, walked::ELEMENTS),
                dimensions: place(record, walked::DIMENSIONS),
                encoding: self.encoding,
                offset,
                bytes,
            };
            return Entry::Field { message: place(record, walked::MESSAGE), field };
        }
        let outcome = outcome(record);
        self.encoding = match outcome {
            Outcome::Accepted { encoding, .. } => encoding,
            _ => Encoding::of(number(record, walked::FIELDS_ENCODING)),
        };
        let writer = optional(number(record, walked::WRITER));
        Entry::Message(WalkedMessage { number: place(record, walked::MESSAGE), writer, offset, bytes, outcome })
    }
}

/// A number of 2 bytes, or none.
fn optional(number: u64) -> Option<u16> {
    (number != u64::from(NONE)).then_some(number as u16)
}

fn outcome(record: &Record) -> Outcome {
    match number(record, walked::WHAT) {
        walked::VALID => Outcome::Accepted {
            kind: Kind::of(number(record, walked::KIND)),
            encoding: Encoding::of(number(record, walked::ENCODING)),
            sequence: optional(number(record, walked::SEQUENCE)),
        },
        walked::NOT_VALID => Outcome::NotValid,
        _ => {
            let reason = number(record, walked::KIND) as u8;
            let reason = Reason::from_number(reason).unwrap_or(Reason::Unknown(reason));
            Outcome::Refused(Refusal { reason, place: place(record, walked::ENCODING) })
        }
    }
}

impl<'a> Iterator for Entries<'a, '_> {
    type Item = Entry<'a>;

    fn next(&mut self) -> Option<Entry<'a>> {
        let (first, rest) = self.records.split_first()?;
        self.records = rest;
        Some(self.entry(first))
    }

    fn size_hint(&self) -> (usize, Option<usize>) {
        (self.records.len(), Some(self.records.len()))
    }
}

impl ExactSizeIterator for Entries<'_, '_> {}
impl core::iter::FusedIterator for Entries<'_, '_> {}
