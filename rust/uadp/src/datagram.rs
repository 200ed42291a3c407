//! A datagram's envelope and its messages.
use crate::ffi::{self, ENVELOPE_SIZE, HEAD_SIZE, NONE, PLACE_SIZE};
use crate::record::{envelope, message_place, number, place};
use crate::{Config, Message, Opened, Probe, Refusal};
use core::fmt;
use core::iter::FusedIterator;

/// Who published a datagram. Two are equal only if type and content are.
#[derive(Clone, Copy, Debug, PartialEq, Eq, Hash)]
pub enum PublisherId<'a> {
    /// A Byte.
    Byte(u8),
    /// A UInt16.
    UInt16(u16),
    /// A UInt32.
    UInt32(u32),
    /// A UInt64.
    UInt64(u64),
    /// A String of at most 64 bytes, which need not be UTF-8.
    String(&'a [u8]),
}

impl<'a> PublisherId<'a> {
    /// The id that a record's type and number say; `text` are a String's bytes.
    pub(crate) fn of(id_type: u64, id: u64, text: impl FnOnce() -> &'a [u8]) -> Option<Self> {
        match id_type {
            1 => Some(Self::Byte(id as u8)),
            2 => Some(Self::UInt16(id as u16)),
            3 => Some(Self::UInt32(id as u32)),
            4 => Some(Self::UInt64(id)),
            5 => Some(Self::String(text())),
            _ => None,
        }
    }

    /// Type and number for a record.
    pub(crate) fn numbers(self) -> (u64, u64) {
        match self {
            Self::Byte(id) => (1, id.into()),
            Self::UInt16(id) => (2, id.into()),
            Self::UInt32(id) => (3, id.into()),
            Self::UInt64(id) => (4, id),
            Self::String(text) => (5, text.len() as u64),
        }
    }

    /// A String's bytes.
    pub(crate) fn text(self) -> &'a [u8] {
        match self {
            Self::String(text) => text,
            _ => &[],
        }
    }
}

/// A number as a decimal, a String as text; bytes of it that are not UTF-8 show as U+FFFD.
impl fmt::Display for PublisherId<'_> {
    fn fmt(&self, f: &mut fmt::Formatter<'_>) -> fmt::Result {
        match *self {
            Self::Byte(id) => id.fmt(f),
            Self::UInt16(id) => id.fmt(f),
            Self::UInt32(id) => id.fmt(f),
            Self::UInt64(id) => id.fmt(f),
            Self::String(text) => text.utf8_chunks().try_for_each(|chunk| {
                let strange = if chunk.invalid().is_empty() { "" } else { "\u{fffd}" };
                write!(f, "{}{strange}", chunk.valid())
            }),
        }
    }
}

/// The group header's items, each of which may be absent.
#[derive(Clone, Copy, Debug, Default, PartialEq, Eq, Hash)]
pub struct Group {
    /// WriterGroupId.
    pub writer_group_id: Option<u16>,
    /// GroupVersion.
    pub version: Option<u32>,
    /// NetworkMessageNumber; 0 is not permitted.
    pub message_number: Option<u16>,
    /// SequenceNumber.
    pub sequence: Option<u16>,
}

/// An accepted datagram. Its messages are read one by one, so that a fault refuses only the message that has it.
#[derive(Clone)]
pub struct Datagram<'a> {
    bytes: &'a [u8],
    config: &'a Config,
    record: [u8; ENVELOPE_SIZE],
}

impl<'a> Datagram<'a> {
    /// Reads a datagram's envelope.
    ///
    /// # Errors
    ///
    /// With the first byte of the offending item:
    /// - [`CutShort`](crate::Reason::CutShort) where an item doesn't fit in what is left,
    /// - [`BadVersion`](crate::Reason::BadVersion), [`NotPermitted`](crate::Reason::NotPermitted) for flags and numbers that the
    ///   standard forbids, [`NotTaken`](crate::Reason::NotTaken) for a secured message, an announcement, a probe in chunks or for what
    ///   [`Information`](crate::Information) doesn't have,
    /// - [`BadLength`](crate::Reason::BadLength) for a null or negative String PublisherId, and for negative lengths of a probe that are
    ///   not null,
    /// - [`LeftOver`](crate::Reason::LeftOver) for bytes after a probe,
    /// - [`Disagree`](crate::Reason::Disagree) where the messages' sizes don't add up to the payload.
    ///
    /// At 0: [`NotConfigured`](crate::Reason::NotConfigured) without a PayloadHeader where the writers are not configured, or only
    /// in part; [`OverLimit`](crate::Reason::OverLimit) above 65,535 bytes, or with a String PublisherId above 64.
    pub fn read(bytes: &'a [u8], config: &'a Config) -> Result<Self, Refusal> {
        let mut record = [0; ENVELOPE_SIZE];
        ffi::read(bytes, config.as_bytes(), &mut record).into_result()?;
        Ok(Self { bytes, config, record })
    }

    fn item(&self, present: usize, i: usize) -> Option<u64> {
        (number(&self.record, present) != 0).then(|| number(&self.record, i))
    }

    /// The datagram's bytes.
    pub const fn bytes(&self) -> &'a [u8] {
        self.bytes
    }

    /// Who published it.
    pub fn publisher(&self) -> Option<PublisherId<'a>> {
        let id = number(&self.record, envelope::PUBLISHER);
        let end = place(&self.record, envelope::PUBLISHER_END);
        PublisherId::of(number(&self.record, envelope::PUBLISHER_TYPE), id, || &self.bytes[end - id as usize..end])
    }

    /// The DataSetClassId, as it stands.
    pub fn class_id(&self) -> Option<[u8; 16]> {
        let low = self.item(envelope::HAS_CLASS_ID, envelope::CLASS_ID)?;
        let high = number(&self.record, envelope::CLASS_ID + 1);
        Some((u128::from(high) << 64 | u128::from(low)).to_le_bytes())
    }

    /// The group header.
    pub fn group(&self) -> Option<Group> {
        let flags = number(&self.record, envelope::GROUP);
        let item = |bit: u64, i: usize| (flags & bit != 0).then(|| number(&self.record, i));
        (flags != 0).then(|| Group {
            writer_group_id: item(envelope::HAS_WRITER_GROUP_ID, envelope::WRITER_GROUP_ID).map(|item| item as u16),
            version: item(envelope::HAS_GROUP_VERSION, envelope::GROUP_VERSION).map(|item| item as u32),
            message_number: item(envelope::HAS_MESSAGE_NUMBER, envelope::MESSAGE_NUMBER).map(|item| item as u16),
            sequence: item(envelope::HAS_SEQUENCE, envelope::SEQUENCE).map(|item| item as u16),
        })
    }

    /// Whether it is a chunk of a larger message, which a [`Partial`](crate::Partial) takes in. A chunk has no messages of its own.
    pub fn is_chunk(&self) -> bool {
        number(&self.record, envelope::IS_CHUNK) != 0
    }

    /// The probe, if it is one. A probe has no messages.
    pub fn probe(&self) -> Option<Probe<'a>> {
        let header = number(&self.record, envelope::PAYLOAD_HEADER);
        (header == envelope::HEADER_PROBE).then(|| Probe::read(self.bytes, self.config.as_bytes()).ok()).flatten()
    }

    /// A chunk's DataSetWriterId.
    pub fn chunk_writer(&self) -> Option<u16> {
        let header = number(&self.record, envelope::PAYLOAD_HEADER);
        (header == envelope::HEADER_CHUNK).then(|| number(&self.record, envelope::COUNT) as u16)
    }

    /// The Timestamp: steps of 100 ns since 1601.
    pub fn timestamp(&self) -> Option<i64> {
        self.item(envelope::HAS_TIMESTAMP, envelope::TIMESTAMP).map(|item| item as i64)
    }

    /// The PicoSeconds, in steps of 10 ps; 10,000 and up read as 9,999.
    pub fn picoseconds(&self) -> Option<u16> {
        self.item(envelope::HAS_PICOSECONDS, envelope::PICOSECONDS).map(|item| item as u16)
    }

    /// The promoted fields' bytes, unread.
    pub fn promoted(&self) -> Option<&'a [u8]> {
        let size = self.item(envelope::HAS_PROMOTED, envelope::PROMOTED_SIZE)? as usize;
        let end = place(&self.record, envelope::PAYLOAD);
        Some(&self.bytes[end - size..end])
    }

    /// The payload: sizes and messages, or a chunk's payload, or a probe.
    pub fn payload(&self) -> &'a [u8] {
        &self.bytes[place(&self.record, envelope::PAYLOAD)..]
    }

    /// The messages, in order; none of a chunk and of a probe.
    pub const fn messages(&self) -> Messages<'a> {
        Messages { bytes: self.bytes, config: self.config, record: self.record }
    }

    /// Writes the datagram again at the buffer's start: the same bytes, but that type bits of an absent PublisherId become 0, and
    /// PicoSeconds of 10,000 and up 9,999. Its messages stay as they are.
    ///
    /// # Errors
    ///
    /// [`NoRoom`](crate::Reason::NoRoom).
    pub fn rewrite<'b>(&self, out: &'b mut [u8]) -> Result<&'b [u8], Refusal> {
        ffi::rewrite(self.bytes, self.config.as_bytes(), out).written(out)
    }
}

impl fmt::Debug for Datagram<'_> {
    fn fmt(&self, f: &mut fmt::Formatter<'_>) -> fmt::Result {
        f.debug_struct("Datagram")
            .field("publisher", &self.publisher())
            .field("group", &self.group())
            .field("timestamp", &self.timestamp())
            .field("is_chunk", &self.is_chunk())
            .field("messages", &self.messages().len())
            .finish_non_exhaustive()
    }
}

/// The messages of a datagram, each as its own part of it.
#[derive(Clone)]
pub struct Messages<'a> {
    bytes: &'a [u8],
    config: &'a Config,
    record: [u8; ENVELOPE_SIZE],
}

impl<'a> Iterator for Messages<'a> {
    type Item = MessagePart<'a>;

    fn next(&mut self) -> Option<MessagePart<'a>> {
        let mut found = [0; PLACE_SIZE];
        // The messages of an accepted datagram tile it, so a step is refused after the last only.
        ffi::next_message(self.bytes, self.config.as_bytes(), &mut self.record, &mut found).into_result().ok()?;
        let offset = place(&found, message_place::OFFSET);
        Some(MessagePart {
            bytes: &self.bytes[offset..][..place(&found, message_place::LENGTH)],
            config: self.config,
            writer: number(&found, message_place::WRITER) as u32,
            number: place(&found, message_place::NUMBER),
            offset,
        })
    }

    fn size_hint(&self) -> (usize, Option<usize>) {
        let left = place(&self.record, envelope::MESSAGE_COUNT) - place(&self.record, envelope::NEXT_MESSAGE);
        (left, Some(left))
    }
}

impl ExactSizeIterator for Messages<'_> {}
impl FusedIterator for Messages<'_> {}

impl fmt::Debug for Messages<'_> {
    fn fmt(&self, f: &mut fmt::Formatter<'_>) -> fmt::Result {
        f.debug_struct("Messages").field("left", &self.len()).finish_non_exhaustive()
    }
}

/// A DataSetMessage's part of a datagram, not yet read.
#[derive(Clone, Copy, Debug)]
pub struct MessagePart<'a> {
    bytes: &'a [u8],
    config: &'a Config,
    writer: u32,
    number: usize,
    offset: usize,
}

impl<'a> MessagePart<'a> {
    /// A message that stands alone: its number and its offset are 0.
    pub fn alone(bytes: &'a [u8], config: &'a Config, writer: Option<u16>) -> Self {
        Self { bytes, config, writer: writer.map_or(NONE, u32::from), number: 0, offset: 0 }
    }

    /// Its bytes.
    pub const fn bytes(&self) -> &'a [u8] {
        self.bytes
    }

    /// Its DataSetWriterId.
    pub fn writer(&self) -> Option<u16> {
        u16::try_from(self.writer).ok()
    }

    /// Its number in the datagram, from 0.
    pub const fn number(&self) -> usize {
        self.number
    }

    /// Where it stands in the datagram.
    pub const fn offset(&self) -> usize {
        self.offset
    }

    pub(crate) const fn config(&self) -> &'a Config {
        self.config
    }

    pub(crate) const fn writer_number(&self) -> u32 {
        self.writer
    }

    /// Reads the message; `None` for one that its publisher marked as not valid.
    ///
    /// # Errors
    ///
    /// With the first byte of the offending item, counted in the message:
    /// - [`CutShort`](crate::Reason::CutShort) where an item doesn't fit in what is left,
    /// - [`NotPermitted`](crate::Reason::NotPermitted) for flags and numbers that the standard forbids,
    /// - [`NotTaken`](crate::Reason::NotTaken) for arrays with dimensions, other types, and a delta in RawData,
    /// - [`BadLength`](crate::Reason::BadLength) for a negative length that is not null,
    /// - [`LeftOver`](crate::Reason::LeftOver) for bytes other than zeros after the last field,
    /// - [`TooDeep`](crate::Reason::TooDeep) for a value at level 101.
    ///
    /// At 0: [`NotConfigured`](crate::Reason::NotConfigured) for RawData whose fields are not configured.
    pub fn read(&self) -> Result<Option<Message<'a>>, Refusal> {
        let mut head = [0; HEAD_SIZE];
        let valid = ffi::read_message(self.bytes, self.config.as_bytes(), self.writer, &mut head).into_result()?;
        Ok((valid != 0).then(|| Message::new(*self, head)))
    }

    /// Opens the message: its front alone is read, and each field when it is walked over; `None` for one that its publisher marked as
    /// not valid. With a walk over many fields it takes 0.64 to 0.86 of the time of [`read`](Self::read), but a fault is told only where it
    /// is met.
    ///
    /// # Errors
    ///
    /// As [`read`](Self::read), as far as the front shows them.
    pub fn open(&self) -> Result<Option<Opened<'a>>, Refusal> {
        let mut head = [0; HEAD_SIZE];
        let valid = ffi::open_message(self.bytes, self.config.as_bytes(), self.writer, &mut head).into_result()?;
        Ok((valid != 0).then(|| Opened::new(*self, head)))
    }

    /// Writes the message again at the buffer's start: the same bytes, but that picoseconds of 10,000 and up become 9,999.
    ///
    /// # Errors
    ///
    /// What [`read`](Self::read) refuses, at place 0; [`Disagree`](crate::Reason::Disagree) for a message that is not valid;
    /// [`NoRoom`](crate::Reason::NoRoom).
    pub fn rewrite<'b>(&self, out: &'b mut [u8]) -> Result<&'b [u8], Refusal> {
        ffi::rewrite_message(self.bytes, self.config.as_bytes(), self.writer, out).written(out)
    }
}
