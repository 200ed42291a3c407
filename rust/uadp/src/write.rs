//! Messages, datagrams and chunks written.
use crate::ffi::{self, ENVELOPE_SIZE, HEAD_SIZE, NONE};
use crate::record::{envelope, head, set, set_present};
use crate::{Config, Encoding, Group, Kind, Message, PublisherId, Reason, Refusal, Values};

/// A DataSetMessage to be written. An item is given as it is or as an `Option`, so that what was read can be handed on.
///
/// ```
/// use uadp::{Config, Encoding, MessageBuilder, Values};
///
/// let (mut bytes, mut lengths, mut out) = ([0; 64], [0; 8], [0; 64]);
/// let mut values = Values::new(&mut bytes, &mut lengths);
/// values.push(&[0x05, 0x03, 0x00])?; // UInt16, 3
/// values.push(&[0x0A, 0x00, 0x00, 0x00, 0x3F])?; // Float, 0.5
/// let message = MessageBuilder::key(Encoding::Variant).sequence(5).fields(&values).write(&Config::default(), None, &mut out)?;
/// assert_eq!(message, [0x09, 0x05, 0x00, 0x02, 0x00, 0x05, 0x03, 0x00, 0x0A, 0x00, 0x00, 0x00, 0x3F]);
/// # Ok::<(), uadp::Refusal>(())
/// ```
#[derive(Clone, Copy, Debug, Default)]
#[must_use = "nothing is written before `write`"]
pub struct MessageBuilder<'a> {
    encoding: Encoding,
    kind: Kind,
    heartbeat: bool,
    sequence: Option<u16>,
    timestamp: Option<i64>,
    picoseconds: Option<u16>,
    status: Option<u16>,
    major_version: Option<u32>,
    minor_version: Option<u32>,
    values: &'a [u8],
    lengths: &'a [usize],
    indices: &'a [u16],
    padding: usize,
}

impl<'a> MessageBuilder<'a> {
    /// A message of a kind and an encoding, without items, fields and padding.
    pub fn new(kind: Kind, encoding: Encoding) -> Self {
        Self { kind, encoding, ..Self::default() }
    }

    /// A message of another's kind, encoding and items, without fields and padding. What it says of a sequence number is that
    /// message's, until another is set.
    pub fn like(message: &Message<'_>) -> Self {
        Self::new(message.kind(), message.encoding())
            .sequence(message.sequence())
            .timestamp(message.timestamp())
            .picoseconds(message.picoseconds())
            .status(message.status())
            .major_version(message.major_version())
            .minor_version(message.minor_version())
    }

    /// A key frame.
    pub fn key(encoding: Encoding) -> Self {
        Self::new(Kind::Key, encoding)
    }

    /// A key frame that ends after its header.
    pub fn heartbeat() -> Self {
        Self { heartbeat: true, ..Self::default() }
    }

    /// In another encoding.
    pub fn encoding(mut self, encoding: Encoding) -> Self {
        self.encoding = encoding;
        self
    }

    /// A delta frame: its fields have [`indices`](Self::indices).
    pub fn delta(encoding: Encoding) -> Self {
        Self::new(Kind::Delta, encoding)
    }

    /// An event, whose fields are Variants.
    pub fn event() -> Self {
        Self::new(Kind::Event, Encoding::Variant)
    }

    /// A keep alive, which has no fields.
    pub fn keep_alive() -> Self {
        Self::new(Kind::KeepAlive, Encoding::Variant)
    }

    /// With a sequence number.
    pub fn sequence(mut self, sequence: impl Into<Option<u16>>) -> Self {
        self.sequence = sequence.into();
        self
    }

    /// With a timestamp: steps of 100 ns since 1601.
    pub fn timestamp(mut self, timestamp: impl Into<Option<i64>>) -> Self {
        self.timestamp = timestamp.into();
        self
    }

    /// With picoseconds, below 10,000.
    pub fn picoseconds(mut self, picoseconds: impl Into<Option<u16>>) -> Self {
        self.picoseconds = picoseconds.into();
        self
    }

    /// With a status: the upper half of a StatusCode.
    pub fn status(mut self, status: impl Into<Option<u16>>) -> Self {
        self.status = status.into();
        self
    }

    /// With the configuration's major version.
    pub fn major_version(mut self, version: impl Into<Option<u32>>) -> Self {
        self.major_version = version.into();
        self
    }

    /// With the configuration's minor version.
    pub fn minor_version(mut self, version: impl Into<Option<u32>>) -> Self {
        self.minor_version = version.into();
        self
    }

    /// With these fields.
    pub fn fields(self, values: &'a Values<'_>) -> Self {
        self.encoded_fields(values.bytes(), values.lengths())
    }

    /// With these fields: their encoded values one after the other, and how long each is.
    pub fn encoded_fields(mut self, values: &'a [u8], lengths: &'a [usize]) -> Self {
        (self.values, self.lengths) = (values, lengths);
        self
    }

    /// With the index of each field of a delta.
    pub fn indices(mut self, indices: &'a [u16]) -> Self {
        self.indices = indices;
        self
    }

    /// With so many zero bytes after the last field.
    pub fn padding(mut self, padding: usize) -> Self {
        self.padding = padding;
        self
    }

    fn record(&self) -> [u8; HEAD_SIZE] {
        let mut record = [0; HEAD_SIZE];
        set(&mut record, head::ENCODING, self.encoding.number());
        set(&mut record, head::KIND, self.kind.number());
        let items = [
            (head::HAS_SEQUENCE, head::SEQUENCE, self.sequence.map(u64::from)),
            (head::HAS_TIMESTAMP, head::TIMESTAMP, self.timestamp.map(|item| item as u64)),
            (head::HAS_PICOSECONDS, head::PICOSECONDS, self.picoseconds.map(u64::from)),
            (head::HAS_STATUS, head::STATUS, self.status.map(u64::from)),
            (head::HAS_MAJOR_VERSION, head::MAJOR_VERSION, self.major_version.map(u64::from)),
            (head::HAS_MINOR_VERSION, head::MINOR_VERSION, self.minor_version.map(u64::from)),
        ];
        let mut present = 0;
        for (bit, i, item) in items {
            present |= if item.is_some() { bit } else { 0 };
            set(&mut record, i, item.unwrap_or(0));
        }
        set(&mut record, head::ITEMS, present);
        record
    }

    /// Writes the message at the buffer's start. For RawData the writer's id says which fields are configured.
    ///
    /// # Errors
    ///
    /// At place 0, in this order:
    /// - what reading the message would refuse, by the same number: a field that is not one whole value; in RawData fewer fields than
    ///   configured without the padding for the others, bytes other than 0 past the configured fields; such bytes of a keep alive;
    /// - [`Disagree`](Reason::Disagree) for what would read back otherwise: bytes behind a field's value, fields of a heartbeat or a
    ///   keep alive, padding of a heartbeat, more or fewer fields than configured or than indices, indices of another kind;
    /// - [`OverLimit`](Reason::OverLimit) above 65,535 bytes;
    /// - [`NoRoom`](Reason::NoRoom).
    pub fn write<'b>(&self, config: &Config, writer: Option<u16>, out: &'b mut [u8]) -> Result<&'b [u8], Refusal> {
        let parts = ffi::MessageParts {
            head: &self.record(),
            heartbeat: self.heartbeat.into(),
            values: self.values,
            lengths: self.lengths,
            indices: self.indices,
            padding: self.padding as u64,
        };
        ffi::write_message(&parts, config.as_bytes(), writer.map_or(NONE, u32::from), out).written(out)
    }
}

/// A datagram to be written: what stands before its messages. A part is given as it is or as an `Option`, so that what was read can
/// be handed on.
///
/// ```
/// use uadp::{DatagramBuilder, PublisherId};
///
/// let message = [0x09, 0x05, 0x00, 0x02, 0x00, 0x05, 0x03, 0x00, 0x0A, 0x00, 0x00, 0x00, 0x3F];
/// let mut out = [0; 64];
/// let datagram = DatagramBuilder::new().publisher(PublisherId::UInt16(4711)).write_message(21, &message, &mut out)?;
/// assert_eq!(datagram[..7], [0xD1, 0x01, 0x67, 0x12, 0x01, 0x15, 0x00]);
/// # Ok::<(), uadp::Refusal>(())
/// ```
///
/// # Errors
///
/// Each `write` function refuses, at place 0 and in this order: in reading order what reading the datagram would refuse, by the same
/// number (an empty message 1, picoseconds without a timestamp and NetworkMessageNumber 0 by 3, promoted fields of several messages or
/// lengths that don't add up 6, a String PublisherId above 64 bytes 10), and picoseconds of 10,000 and up by 3; lists that disagree, or more than 255 messages,
/// [`Disagree`](Reason::Disagree); above 65,535 bytes [`OverLimit`](Reason::OverLimit); [`NoRoom`](Reason::NoRoom).
#[derive(Clone, Copy, Debug, Default)]
#[must_use = "nothing is written before a `write` function is called"]
pub struct DatagramBuilder<'a> {
    publisher: Option<PublisherId<'a>>,
    class_id: Option<[u8; 16]>,
    group: Option<Group>,
    timestamp: Option<i64>,
    picoseconds: Option<u16>,
    promoted: Option<&'a [u8]>,
}

/// The payload of a datagram to be written.
#[derive(Default)]
struct Payload<'p> {
    header: u64,
    /// Count, or a chunk's writer id.
    count: u64,
    ids: &'p [u8],
    lengths: &'p [u8],
    messages: &'p [u8],
}

impl<'a> DatagramBuilder<'a> {
    /// A datagram without any part before its messages.
    pub fn new() -> Self {
        Self::default()
    }

    /// With a PublisherId.
    pub fn publisher(mut self, publisher: impl Into<Option<PublisherId<'a>>>) -> Self {
        self.publisher = publisher.into();
        self
    }

    /// With a DataSetClassId.
    pub fn class_id(mut self, class_id: impl Into<Option<[u8; 16]>>) -> Self {
        self.class_id = class_id.into();
        self
    }

    /// With a group header.
    pub fn group(mut self, group: impl Into<Option<Group>>) -> Self {
        self.group = group.into();
        self
    }

    /// With a Timestamp: steps of 100 ns since 1601.
    pub fn timestamp(mut self, timestamp: impl Into<Option<i64>>) -> Self {
        self.timestamp = timestamp.into();
        self
    }

    /// With PicoSeconds, below 10,000; it needs a Timestamp.
    pub fn picoseconds(mut self, picoseconds: impl Into<Option<u16>>) -> Self {
        self.picoseconds = picoseconds.into();
        self
    }

    /// With promoted fields, as bytes; only a datagram of one message has them.
    pub fn promoted(mut self, promoted: impl Into<Option<&'a [u8]>>) -> Self {
        self.promoted = promoted.into();
        self
    }

    fn record(&self, payload: &Payload) -> [u8; ENVELOPE_SIZE] {
        let mut record = [0; ENVELOPE_SIZE];
        let (id_type, id) = self.publisher.map_or((0, 0), PublisherId::numbers);
        set(&mut record, envelope::PUBLISHER_TYPE, id_type);
        set(&mut record, envelope::PUBLISHER, id);
        let class_id = self.class_id.map(u128::from_le_bytes);
        set_present(&mut record, envelope::HAS_CLASS_ID, class_id.map(|id| id as u64));
        set(&mut record, envelope::CLASS_ID + 1, class_id.map_or(0, |id| (id >> 64) as u64));
        self.group.iter().for_each(|group| set_group(&mut record, group));
        set(&mut record, envelope::IS_CHUNK, (payload.header == envelope::HEADER_CHUNK).into());
        set(&mut record, envelope::PAYLOAD_HEADER, payload.header);
        set(&mut record, envelope::COUNT, payload.count);
        set_present(&mut record, envelope::HAS_TIMESTAMP, self.timestamp.map(|item| item as u64));
        set_present(&mut record, envelope::HAS_PICOSECONDS, self.picoseconds.map(u64::from));
        set_present(&mut record, envelope::HAS_PROMOTED, self.promoted.map(|promoted| promoted.len() as u64));
        record
    }

    fn write<'b>(&self, payload: &Payload, config: &[u8], out: &'b mut [u8]) -> Result<&'b [u8], Refusal> {
        let parts = ffi::EnvelopeParts {
            envelope: &self.record(payload),
            text: self.publisher.map_or(&[], PublisherId::text),
            ids: payload.ids,
            promoted: self.promoted.unwrap_or_default(),
            lengths: payload.lengths,
            messages: payload.messages,
        };
        ffi::write(&parts, config, out).written(out)
    }

    /// Writes a datagram of one message at the buffer's start.
    ///
    /// # Errors
    ///
    /// As [told above](Self#errors).
    pub fn write_message<'b>(&self, writer: u16, message: &[u8], out: &'b mut [u8]) -> Result<&'b [u8], Refusal> {
        self.write_messages(&[writer], &[], message, out)
    }

    /// Writes a datagram of several messages at the buffer's start: their writers, the length of each, and their bytes one after the
    /// other. Of a single message no length is given.
    ///
    /// # Errors
    ///
    /// As [told above](Self#errors).
    pub fn write_messages<'b>(
        &self, writers: &[u16], lengths: &[u16], messages: &[u8], out: &'b mut [u8],
    ) -> Result<&'b [u8], Refusal> {
        let payload = Payload {
            header: envelope::HEADER_IDS,
            count: writers.len() as u64,
            ids: ffi::bytes_of(writers),
            lengths: ffi::bytes_of(lengths),
            messages,
        };
        self.write(&payload, &[], out)
    }

    /// Writes a datagram without a PayloadHeader at the buffer's start: the messages of the configured writers, in their order and
    /// of their sizes, one after the other.
    ///
    /// # Errors
    ///
    /// As [told above](Self#errors); [`NotConfigured`](Reason::NotConfigured) where no writer is configured, or several of which one
    /// has no size.
    pub fn write_configured<'b>(&self, config: &Config, messages: &[u8], out: &'b mut [u8]) -> Result<&'b [u8], Refusal> {
        let lengths = if config.writers().len() > 1 { config.sizes() } else { &[] };
        let payload = Payload { ids: config.ids(), lengths, messages, ..Payload::default() };
        self.write(&payload, config.as_bytes(), out)
    }

    /// Writes the datagram of a chunk at the buffer's start; [`Chunks`] makes its payload.
    ///
    /// # Errors
    ///
    /// As [told above](Self#errors).
    pub fn write_chunk<'b>(&self, writer: u16, chunk: &[u8], out: &'b mut [u8]) -> Result<&'b [u8], Refusal> {
        let payload = Payload { header: envelope::HEADER_CHUNK, count: writer.into(), messages: chunk, ..Payload::default() };
        self.write(&payload, &[], out)
    }

    /// Writes the datagram of a probe at the buffer's start; [`ProbeBuilder`](crate::ProbeBuilder) makes its payload.
    ///
    /// # Errors
    ///
    /// As [told above](Self#errors); [`NotPermitted`](Reason::NotPermitted) with promoted fields; for a payload that is no probe what
    /// reading it would refuse.
    pub fn write_probe<'b>(&self, probe: &[u8], out: &'b mut [u8]) -> Result<&'b [u8], Refusal> {
        let payload = Payload { header: envelope::HEADER_PROBE, messages: probe, ..Payload::default() };
        self.write(&payload, &[], out)
    }
}

fn set_group(record: &mut [u8], group: &Group) {
    let items = [
        (envelope::HAS_WRITER_GROUP_ID, envelope::WRITER_GROUP_ID, group.writer_group_id.map(u64::from)),
        (envelope::HAS_GROUP_VERSION, envelope::GROUP_VERSION, group.version.map(u64::from)),
        (envelope::HAS_MESSAGE_NUMBER, envelope::MESSAGE_NUMBER, group.message_number.map(u64::from)),
        (envelope::HAS_SEQUENCE, envelope::SEQUENCE, group.sequence.map(u64::from)),
    ];
    let mut flags = envelope::GROUP_PRESENT;
    for (bit, i, item) in items {
        flags |= if item.is_some() { bit } else { 0 };
        set(record, i, item.unwrap_or(0));
    }
    set(record, envelope::GROUP, flags);
}

/// A message cut into chunks.
#[derive(Clone, Debug)]
pub struct Chunks<'p> {
    payload: &'p [u8],
    number: u16,
    size: usize,
    next: u64,
}

impl<'p> Chunks<'p> {
    /// Cuts a message into chunks of so many bytes of data; the number tells them from another message's.
    pub const fn new(payload: &'p [u8], number: u16, size: usize) -> Self {
        Self { payload, number, size, next: 0 }
    }

    /// How many chunks there are in all.
    ///
    /// # Errors
    ///
    /// [`Disagree`](Reason::Disagree) for a size of 0 or an empty message, [`OverLimit`](Reason::OverLimit) for a message above
    /// 16,384 bytes.
    pub fn count(&self) -> Result<usize, Refusal> {
        ffi::chunks(self.payload.len() as u64, self.size as u64).into_result().map(|count| count as usize)
    }

    /// Writes the next chunk's payload at the buffer's start; `None` after the last one. It is
    /// [`CHUNK_HEADER`](crate::CHUNK_HEADER) bytes longer than its data.
    ///
    /// # Errors
    ///
    /// [`Disagree`](Reason::Disagree) for a size of 0 or an empty message, [`OverLimit`](Reason::OverLimit) for a message above
    /// 16,384 bytes, [`NoRoom`](Reason::NoRoom).
    pub fn next_into<'b>(&mut self, out: &'b mut [u8]) -> Result<Option<&'b [u8]>, Refusal> {
        let answer = ffi::cut(self.payload, self.number, self.size as u64, self.next, out);
        match answer.written(out) {
            Err(Refusal { reason: Reason::OverLimit, .. }) if self.next > 0 => Ok(None),
            Err(refusal) => Err(refusal),
            Ok(chunk) => {
                self.next += 1;
                Ok(Some(chunk))
            }
        }
    }
}
