//! A DataSetMessage and its fields.
use crate::ffi::{self, FIELD_SIZE, HEAD_SIZE};
use crate::record::{field, head, number, place};
use crate::{MessagePart, Refusal, Shape, Type, Value};
use core::fmt;
use core::iter::FusedIterator;

/// How a message's fields are encoded.
#[derive(Clone, Copy, Debug, Default, PartialEq, Eq, Hash)]
pub enum Encoding {
    /// Each field is a Variant.
    #[default]
    Variant,
    /// Each field is the bare element of its configured type.
    RawData,
    /// Each field is a DataValue.
    DataValue,
}

impl Encoding {
    pub(crate) const fn of(number: u64) -> Self {
        match number {
            1 => Self::RawData,
            2 => Self::DataValue,
            _ => Self::Variant,
        }
    }

    pub(crate) const fn number(self) -> u64 {
        self as u64
    }
}

/// What a message is.
#[derive(Clone, Copy, Debug, Default, PartialEq, Eq, Hash)]
pub enum Kind {
    /// A key frame: all fields. Without any byte after its header it is a heartbeat.
    #[default]
    Key,
    /// A delta frame: the fields that changed, each with its index.
    Delta,
    /// An event.
    Event,
    /// A keep alive: no fields.
    KeepAlive,
}

impl Kind {
    pub(crate) const fn of(number: u64) -> Self {
        match number {
            1 => Self::Delta,
            2 => Self::Event,
            3 => Self::KeepAlive,
            _ => Self::Key,
        }
    }

    pub(crate) const fn number(self) -> u64 {
        self as u64
    }
}

/// What stands before a message's fields, by its head record.
macro_rules! header_items {
    () => {
        fn item(&self, bit: u64, i: usize) -> Option<u64> {
            (number(&self.record, head::ITEMS) & bit != 0).then(|| number(&self.record, i))
        }

        /// The part of the datagram that was read.
        pub const fn part(&self) -> MessagePart<'a> {
            self.part
        }

        /// The encoding of its fields.
        pub fn encoding(&self) -> Encoding {
            Encoding::of(number(&self.record, head::ENCODING))
        }

        /// What it is.
        pub fn kind(&self) -> Kind {
            Kind::of(number(&self.record, head::KIND))
        }

        /// The sequence number.
        pub fn sequence(&self) -> Option<u16> {
            self.item(head::HAS_SEQUENCE, head::SEQUENCE).map(|item| item as u16)
        }

        /// The timestamp: steps of 100 ns since 1601.
        pub fn timestamp(&self) -> Option<i64> {
            self.item(head::HAS_TIMESTAMP, head::TIMESTAMP).map(|item| item as i64)
        }

        /// The picoseconds, in steps of 10 ps; 10,000 and up read as 9,999.
        pub fn picoseconds(&self) -> Option<u16> {
            self.item(head::HAS_PICOSECONDS, head::PICOSECONDS).map(|item| item as u16)
        }

        /// The status: the upper half of a StatusCode.
        pub fn status(&self) -> Option<u16> {
            self.item(head::HAS_STATUS, head::STATUS).map(|item| item as u16)
        }

        /// The configuration's major version.
        pub fn major_version(&self) -> Option<u32> {
            self.item(head::HAS_MAJOR_VERSION, head::MAJOR_VERSION).map(|item| item as u32)
        }

        /// The configuration's minor version.
        pub fn minor_version(&self) -> Option<u32> {
            self.item(head::HAS_MINOR_VERSION, head::MINOR_VERSION).map(|item| item as u32)
        }
    };
}

/// An accepted, valid DataSetMessage.
#[derive(Clone)]
pub struct Message<'a> {
    part: MessagePart<'a>,
    record: [u8; HEAD_SIZE],
}

impl<'a> Message<'a> {
    pub(crate) const fn new(part: MessagePart<'a>, record: [u8; HEAD_SIZE]) -> Self {
        Self { part, record }
    }

    header_items!();

    /// How many zero bytes follow the last field.
    pub fn padding(&self) -> usize {
        self.part.bytes().len() - place(&self.record, head::FIELDS_END)
    }

    /// The fields, in order.
    pub const fn fields(&self) -> Fields<'a> {
        Fields { part: self.part, record: self.record }
    }

    /// Field k, counted from 0 in the order of the message. It reads the message whole and then each field up to the k-th; to look
    /// at many fields, walk over [`fields`](Self::fields).
    pub fn field(&self, k: usize) -> Option<Field<'a>> {
        let mut found = [0; FIELD_SIZE];
        let (bytes, writer) = (self.part.bytes(), self.part.writer_number());
        ffi::field(bytes, self.part.config().as_bytes(), writer, k as u64, &mut found).into_result().ok()?;
        Some(Field::of(bytes, self.encoding(), &found))
    }
}

impl fmt::Debug for Message<'_> {
    fn fmt(&self, f: &mut fmt::Formatter<'_>) -> fmt::Result {
        f.debug_struct("Message")
            .field("writer", &self.part.writer())
            .field("kind", &self.kind())
            .field("encoding", &self.encoding())
            .field("sequence", &self.sequence())
            .field("timestamp", &self.timestamp())
            .field("fields", &self.fields().len())
            .finish_non_exhaustive()
    }
}

/// The fields of a message.
#[derive(Clone)]
pub struct Fields<'a> {
    part: MessagePart<'a>,
    record: [u8; HEAD_SIZE],
}

impl<'a> Iterator for Fields<'a> {
    type Item = Field<'a>;

    fn next(&mut self) -> Option<Field<'a>> {
        let mut found = [0; FIELD_SIZE];
        let (bytes, writer) = (self.part.bytes(), self.part.writer_number());
        // Every field of an accepted message is read, so a step is refused after the last only.
        ffi::next_field(bytes, self.part.config().as_bytes(), writer, &mut self.record, &mut found).into_result().ok()?;
        Some(Field::of(bytes, Encoding::of(number(&self.record, head::ENCODING)), &found))
    }

    fn size_hint(&self) -> (usize, Option<usize>) {
        let left = place(&self.record, head::FIELD_COUNT) - place(&self.record, head::NEXT_FIELD);
        (left, Some(left))
    }
}

impl ExactSizeIterator for Fields<'_> {}
impl FusedIterator for Fields<'_> {}

impl fmt::Debug for Fields<'_> {
    fn fmt(&self, f: &mut fmt::Formatter<'_>) -> fmt::Result {
        f.debug_struct("Fields").field("left", &self.len()).finish_non_exhaustive()
    }
}

/// A valid DataSetMessage that was opened: its front is read, its fields are read one after the other as it is walked over. A field with a
/// fault is told as such, and is the last.
///
/// What was told of its fields was told of an accepted message only where [`end`](Self::end) says so.
#[derive(Clone)]
pub struct Opened<'a> {
    part: MessagePart<'a>,
    record: [u8; HEAD_SIZE],
    fault: Option<Refusal>,
}

impl<'a> Opened<'a> {
    pub(crate) const fn new(part: MessagePart<'a>, record: [u8; HEAD_SIZE]) -> Self {
        Self { part, record, fault: None }
    }

    header_items!();

    /// How many fields are left, as the message promises them.
    pub fn left(&self) -> usize {
        place(&self.record, head::FIELD_COUNT) - place(&self.record, head::NEXT_FIELD)
    }

    /// The end of the message, after its last field: where that ends.
    ///
    /// # Errors
    ///
    /// What [`MessagePart::read`] refuses; [`Disagree`](crate::Reason::Disagree) with the next field's place where one is left.
    pub fn end(&self) -> Result<usize, Refusal> {
        let end = self.fault.map_or_else(|| ffi::end_message(self.part.bytes(), &self.record).into_result(), Err)?;
        Ok(end as usize)
    }
}

impl<'a> Iterator for Opened<'a> {
    type Item = Result<Field<'a>, Refusal>;

    fn next(&mut self) -> Option<Self::Item> {
        if self.left() == 0 || self.fault.is_some() {
            return None;
        }
        let mut found = [0; FIELD_SIZE];
        let (bytes, writer) = (self.part.bytes(), self.part.writer_number());
        let step = ffi::next_field(bytes, self.part.config().as_bytes(), writer, &mut self.record, &mut found).into_result();
        self.fault = step.err();
        Some(step.map(|_| Field::of(bytes, self.encoding(), &found)))
    }

    fn size_hint(&self) -> (usize, Option<usize>) {
        (0, Some(self.left()))
    }
}

impl FusedIterator for Opened<'_> {}

impl fmt::Debug for Opened<'_> {
    fn fmt(&self, f: &mut fmt::Formatter<'_>) -> fmt::Result {
        f.debug_struct("Opened").field("left", &self.left()).field("fault", &self.fault).finish_non_exhaustive()
    }
}

/// A field: what its value is, and its bytes as they stand.
#[derive(Clone, Copy, Debug, PartialEq, Eq)]
#[non_exhaustive]
pub struct Field<'a> {
    /// Its number in the message, from 0; of a delta the index that the message gives.
    pub index: usize,
    /// Its type; [`Type::DATA_VALUE`] for every field in DataValue encoding.
    pub value_type: Type,
    /// Whether it is an array.
    pub shape: Shape,
    /// How many dimensions it has: 0 for a scalar and for every DataValue, 1 for a plain array.
    pub dimensions: usize,
    /// How its bytes are encoded.
    pub encoding: Encoding,
    /// Where its value starts, counted in what was read: the message, or in a [`walk`](crate::walk()) the datagram.
    pub offset: usize,
    /// The encoded value: a whole Variant with its type byte, a whole DataValue with its mask, or the bare element of RawData.
    pub bytes: &'a [u8],
}

impl<'a> Field<'a> {
    /// Its value told apart.
    ///
    /// # Errors
    ///
    /// None for a field as it was read.
    pub fn value(&self) -> Result<Value<'a>, Refusal> {
        Value::read(self.bytes, self.encoding, self.value_type)
    }

    pub(crate) fn of(message: &'a [u8], encoding: Encoding, record: &[u8]) -> Self {
        let offset = place(record, field::OFFSET);
        Self {
            index: place(record, field::INDEX),
            value_type: Type::from_number(number(record, field::TYPE) as u8),
            shape: Shape::of(record, field::SHAPE, field::ELEMENTS),
            dimensions: place(record, field::DIMENSIONS),
            encoding,
            offset,
            bytes: &message[offset..][..place(record, field::LENGTH)],
        }
    }
}
