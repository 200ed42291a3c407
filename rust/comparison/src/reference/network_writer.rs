//! Datagrams written from parts, and written again.
use super::config::Config;
use super::network::{self, Envelope, Group, PayloadHeader, PublisherId, Sizes, LONGEST_ID, PROBE};
use super::probe;
use super::wire::{pairs, Reader, Writer};
use super::{Number, Refusal, Result, PICOSECONDS_END};

/// What the caller says of the PayloadHeader.
#[derive(Clone, Copy, Debug, PartialEq, Eq)]
pub enum HeaderPart {
    Absent,
    Count(usize),
    ChunkOf(u16),
    Probe,
}

/// The parts of a datagram.
#[derive(Clone, Copy, Debug)]
pub struct Parts<'a> {
    pub publisher: Option<PublisherId<'a>>,
    /// The length that the caller says a string PublisherId has.
    pub string_length: u64,
    pub class_id: Option<&'a [u8; 16]>,
    pub group: Option<Group>,
    pub chunk: bool,
    pub payload_header: HeaderPart,
    pub ids: &'a [u8],
    pub timestamp: Option<i64>,
    pub picoseconds: Option<u16>,
    pub promoted: Option<&'a [u8]>,
    /// Promoted fields, or a string's bytes, are handed over where the parts have none.
    pub promoted_unasked: bool,
    pub text_unasked: bool,
    /// The size that the caller says the promoted fields have.
    pub promoted_size: u64,
    /// The lengths of several messages.
    pub lengths: &'a [u8],
    pub messages: &'a [u8],
    /// Each number that the caller handed over fits its item; one that does not stands here as the largest that does.
    pub all_fit: bool,
}

const DISAGREE: Refusal = Number::Disagree.nowhere();
const NOT_PERMITTED: Refusal = Number::NotPermitted.nowhere();

/// Writes a datagram from parts; the number of bytes written.
pub fn write(parts: &Parts, config: &Config, out: &mut [u8]) -> Result<usize> {
    read_back(parts, config)?;
    if reads_back_otherwise(parts, config) {
        return Err(DISAGREE);
    }
    let payload_header = match parts.payload_header {
        HeaderPart::Absent => PayloadHeader::Absent,
        HeaderPart::Count(_) => PayloadHeader::Writers(parts.ids),
        HeaderPart::ChunkOf(writer) => PayloadHeader::ChunkOf(writer),
        HeaderPart::Probe => PayloadHeader::Probe,
    };
    let sizes = if parts.payload_header == HeaderPart::Absent { &[] } else { parts.lengths };
    let front = Front {
        publisher: parts.publisher,
        class_id: parts.class_id,
        group: parts.group,
        chunk: parts.chunk,
        payload_header,
        timestamp: parts.timestamp,
        picoseconds: parts.picoseconds,
        promoted: parts.promoted,
    };
    front.put_with(sizes, parts.messages, out)
}

/// Writes an accepted datagram again. A writer's place is 0.
pub fn rewrite(datagram: &[u8], config: &Config, out: &mut [u8]) -> Result<usize> {
    let envelope = network::read(datagram, config).map_err(|refusal| refusal.number.nowhere())?;
    let sizes = match envelope.sizes {
        Sizes::Listed(sizes) => sizes,
        _ => &[],
    };
    Front::from(&envelope).put_with(sizes, &datagram[envelope.first_message..], out)
}

/// What reading would refuse, in reading order; at their turn PicoSeconds of 10,000 and more, which reading takes as 9,999.
fn read_back(parts: &Parts, config: &Config) -> Result<()> {
    if parts.picoseconds.is_some() && parts.timestamp.is_none() {
        return Err(NOT_PERMITTED);
    }
    if parts.payload_header == HeaderPart::Probe && parts.chunk {
        return Err(Number::NotTaken.nowhere());
    }
    if parts.payload_header == HeaderPart::Probe && parts.promoted.is_some() {
        return Err(NOT_PERMITTED);
    }
    if matches!(parts.publisher, Some(PublisherId::String(id)) if id.len() > LONGEST_ID) {
        return Err(Number::OverLimit.nowhere());
    }
    if parts.group.is_some_and(|group| group.message_number == Some(0)) {
        return Err(NOT_PERMITTED);
    }
    if parts.payload_header == HeaderPart::Count(0) {
        return Err(DISAGREE);
    }
    if parts.picoseconds.is_some_and(|picoseconds| picoseconds >= PICOSECONDS_END) {
        return Err(NOT_PERMITTED);
    }
    let count = match parts.payload_header {
        _ if parts.chunk => 1,
        HeaderPart::Count(count) => count,
        _ => config.writers().len(),
    };
    if parts.promoted.is_some() && count != 1 {
        return Err(DISAGREE);
    }
    payload_read_back(parts, config)
}

fn payload_read_back(parts: &Parts, config: &Config) -> Result<()> {
    let total = parts.messages.len();
    let single = if total == 0 { Err(Number::CutShort.nowhere()) } else { Ok(()) };
    match parts.payload_header {
        HeaderPart::Absent if parts.chunk => Err(Number::NotConfigured.nowhere()),
        HeaderPart::Probe => probe::read(&mut Reader::new(parts.messages)).map(drop).map_err(|refusal| refusal.number.nowhere()),
        // A chunk's payload is not read.
        HeaderPart::ChunkOf(_) => Ok(()),
        // A chunk has no Count.
        HeaderPart::Count(_) if parts.chunk => Ok(()),
        HeaderPart::Count(1) => single,
        HeaderPart::Count(_) => {
            let sum: usize = pairs(parts.lengths).map(usize::from).sum();
            let fair = sum == total && pairs(parts.lengths).all(|size| size > 0);
            fair.then_some(()).ok_or(DISAGREE)
        }
        HeaderPart::Absent => match config.writers() {
            [one] if one.size.is_none() => single,
            writers => match writers.iter().map(|writer| writer.size.map(usize::from)).sum::<Option<usize>>() {
                None | Some(0) => Err(Number::NotConfigured.nowhere()),
                Some(sum) => (sum == total).then_some(()).ok_or(DISAGREE),
            },
        },
    }
}

/// Parts that would be accepted but read as others.
fn reads_back_otherwise(parts: &Parts, config: &Config) -> bool {
    let string_disagrees = matches!(parts.publisher, Some(PublisherId::String(id)) if id.len() as u64 != parts.string_length);
    let promoted_disagrees =
        parts.promoted.is_some_and(|promoted| promoted.len() as u64 != parts.promoted_size || promoted.len() > 65_535);
    !parts.all_fit
        || string_disagrees
        || promoted_disagrees
        || parts.promoted_unasked
        || parts.text_unasked
        || match parts.payload_header {
            HeaderPart::ChunkOf(_) => !parts.chunk || !parts.ids.is_empty() || !parts.lengths.is_empty(),
            HeaderPart::Probe => !parts.ids.is_empty() || !parts.lengths.is_empty(),
            HeaderPart::Count(count) => {
                parts.chunk || count > 255 || parts.ids.len() != 2 * count || parts.lengths.len() != lengths_length(count)
            }
            HeaderPart::Absent => !as_configured(parts, config),
        }
}

/// How long the list of lengths is.
fn lengths_length(count: usize) -> usize {
    if count > 1 {
        2 * count
    } else {
        0
    }
}

/// Whether the messages are the configured writers', in order.
fn as_configured(parts: &Parts, config: &Config) -> bool {
    let writers = config.writers();
    parts.ids.len() == 2 * writers.len()
        && pairs(parts.ids).eq(writers.iter().map(|writer| writer.id))
        && parts.lengths.len() == lengths_length(writers.len())
        && pairs(parts.lengths).zip(writers).all(|(length, writer)| writer.size == Some(length))
}

/// Everything before the sizes.
struct Front<'a> {
    publisher: Option<PublisherId<'a>>,
    class_id: Option<&'a [u8; 16]>,
    group: Option<Group>,
    chunk: bool,
    payload_header: PayloadHeader<'a>,
    timestamp: Option<i64>,
    picoseconds: Option<u16>,
    promoted: Option<&'a [u8]>,
}

impl<'a> From<&Envelope<'a>> for Front<'a> {
    fn from(envelope: &Envelope<'a>) -> Self {
        let Envelope { publisher, class_id, group, chunk, payload_header, timestamp, picoseconds, promoted, .. } = *envelope;
        Self { publisher, class_id, group, chunk, payload_header, timestamp, picoseconds, promoted }
    }
}

fn flag(present: bool, flag: u8) -> u8 {
    if present {
        flag
    } else {
        0
    }
}

impl Front<'_> {
    fn put_with(&self, sizes: &[u8], messages: &[u8], out: &mut [u8]) -> Result<usize> {
        let mut writer = Writer::of_length(out, self.length() + sizes.len() + messages.len())?;
        self.put(&mut writer);
        writer.put(sizes);
        writer.put(messages);
        Ok(writer.written())
    }

    fn extended2(&self) -> u8 {
        flag(self.chunk, 1) | flag(self.promoted.is_some(), 2) | flag(self.payload_header == PayloadHeader::Probe, PROBE)
    }

    fn extended1(&self) -> u8 {
        let id_type = match self.publisher {
            None | Some(PublisherId::Byte(_)) => 0,
            Some(PublisherId::UInt16(_)) => 1,
            Some(PublisherId::UInt32(_)) => 2,
            Some(PublisherId::UInt64(_)) => 3,
            Some(PublisherId::String(_)) => 4,
        };
        let times = flag(self.timestamp.is_some(), 0x20) | flag(self.picoseconds.is_some(), 0x40);
        id_type | flag(self.class_id.is_some(), 0x08) | times | flag(self.extended2() != 0, 0x80)
    }

    fn first_flags(&self) -> u8 {
        1 | flag(self.publisher.is_some(), 0x10)
            | flag(self.group.is_some(), 0x20)
            | flag(!matches!(self.payload_header, PayloadHeader::Absent | PayloadHeader::Probe), 0x40)
            | flag(self.extended1() != 0, 0x80)
    }

    fn length(&self) -> usize {
        let publisher = self.publisher.map_or(0, |id| match id {
            PublisherId::Byte(_) => 1,
            PublisherId::UInt16(_) => 2,
            PublisherId::UInt32(_) => 4,
            PublisherId::UInt64(_) => 8,
            PublisherId::String(id) => 4 + id.len(),
        });
        let payload_header = match self.payload_header {
            PayloadHeader::Absent | PayloadHeader::Probe => 0,
            PayloadHeader::Writers(ids) => 1 + ids.len(),
            PayloadHeader::ChunkOf(_) => 2,
        };
        1 + usize::from(self.extended1() != 0)
            + usize::from(self.extended2() != 0)
            + publisher
            + self.class_id.map_or(0, |_| 16)
            + self.group.map_or(0, group_length)
            + payload_header
            + self.timestamp.map_or(0, |_| 8)
            + self.picoseconds.map_or(0, |_| 2)
            + self.promoted.map_or(0, |promoted| 2 + promoted.len())
    }

    fn put(&self, writer: &mut Writer) {
        writer.put(&[self.first_flags()]);
        for flags in [self.extended1(), self.extended2()] {
            if flags != 0 {
                writer.put(&[flags]);
            }
        }
        self.publisher.iter().for_each(|id| put_publisher(writer, *id));
        self.class_id.iter().for_each(|class_id| writer.put(*class_id));
        self.group.iter().for_each(|group| put_group(writer, group));
        match self.payload_header {
            PayloadHeader::Absent | PayloadHeader::Probe => {}
            PayloadHeader::Writers(ids) => {
                writer.put(&[(ids.len() / 2) as u8]);
                writer.put(ids);
            }
            PayloadHeader::ChunkOf(id) => writer.put(&id.to_le_bytes()),
        }
        self.timestamp.iter().for_each(|item| writer.put(&item.to_le_bytes()));
        self.picoseconds.iter().for_each(|item| writer.put(&item.to_le_bytes()));
        if let Some(promoted) = self.promoted {
            writer.put(&(promoted.len() as u16).to_le_bytes());
            writer.put(promoted);
        }
    }
}

fn put_publisher(writer: &mut Writer, id: PublisherId) {
    match id {
        PublisherId::Byte(id) => writer.put(&[id]),
        PublisherId::UInt16(id) => writer.put(&id.to_le_bytes()),
        PublisherId::UInt32(id) => writer.put(&id.to_le_bytes()),
        PublisherId::UInt64(id) => writer.put(&id.to_le_bytes()),
        PublisherId::String(id) => {
            writer.put(&(id.len() as u32).to_le_bytes());
            writer.put(id);
        }
    }
}

fn group_length(group: Group) -> usize {
    1 + group.writer_group_id.map_or(0, |_| 2)
        + group.version.map_or(0, |_| 4)
        + group.message_number.map_or(0, |_| 2)
        + group.sequence.map_or(0, |_| 2)
}

fn put_group(writer: &mut Writer, group: &Group) {
    let ids = flag(group.writer_group_id.is_some(), 1) | flag(group.version.is_some(), 2);
    let numbers = flag(group.message_number.is_some(), 4) | flag(group.sequence.is_some(), 8);
    writer.put(&[ids | numbers]);
    group.writer_group_id.iter().for_each(|item| writer.put(&item.to_le_bytes()));
    group.version.iter().for_each(|item| writer.put(&item.to_le_bytes()));
    group.message_number.iter().for_each(|item| writer.put(&item.to_le_bytes()));
    group.sequence.iter().for_each(|item| writer.put(&item.to_le_bytes()));
}
