//! The envelope of a datagram, and where its messages lie.
use super::config::Config;
use super::probe;
use super::wire::{pair, pairs, Reader};
use super::{Number, Result, LONGEST_DATAGRAM};

/// The bit of ExtendedFlags2 that a probe has, and no other datagram that is taken.
pub const PROBE: u8 = 4;
/// The longest string PublisherId.
pub const LONGEST_ID: usize = 64;

/// A PublisherId.
#[derive(Clone, Copy, Debug, PartialEq, Eq)]
pub enum PublisherId<'a> {
    Byte(u8),
    UInt16(u16),
    UInt32(u32),
    UInt64(u64),
    String(&'a [u8]),
}

/// The group header's items, each by its flag.
#[derive(Clone, Copy, Debug, Default, PartialEq, Eq)]
pub struct Group {
    pub writer_group_id: Option<u16>,
    pub version: Option<u32>,
    pub message_number: Option<u16>,
    pub sequence: Option<u16>,
}

/// The PayloadHeader.
#[derive(Clone, Copy, Debug, PartialEq, Eq)]
pub enum PayloadHeader<'a> {
    Absent,
    /// Ids of 2 bytes.
    Writers(&'a [u8]),
    ChunkOf(u16),
    /// There is none, and the payload is a probe.
    Probe,
}

/// How long the messages are.
#[derive(Clone, Copy, Debug, PartialEq, Eq)]
pub enum Sizes<'a> {
    Rest,
    /// Sizes of 2 bytes.
    Listed(&'a [u8]),
    Configured,
}

/// Everything before the messages.
#[derive(Clone, Copy, Debug)]
pub struct Envelope<'a> {
    pub publisher: Option<PublisherId<'a>>,
    pub publisher_end: usize,
    pub class_id: Option<&'a [u8; 16]>,
    pub group: Option<Group>,
    pub chunk: bool,
    pub payload_header: PayloadHeader<'a>,
    pub payload_header_end: usize,
    pub timestamp: Option<i64>,
    pub picoseconds: Option<u16>,
    pub promoted: Option<&'a [u8]>,
    pub payload_start: usize,
    pub message_count: usize,
    pub sizes: Sizes<'a>,
    pub first_message: usize,
}

/// Where a message lies, and its DataSetWriterId.
#[derive(Clone, Copy, Debug, PartialEq, Eq)]
pub struct MessagePlace {
    pub number: usize,
    pub offset: usize,
    pub length: usize,
    pub writer: Option<u16>,
}

/// ExtendedFlags1 and 2; 0 where absent.
#[derive(Clone, Copy)]
struct Flags {
    first: u8,
    extended1: u8,
    extended2: u8,
}

/// Reads a datagram as a probe; another accepted datagram is 4.
pub fn read_probe<'a>(datagram: &'a [u8], config: &Config) -> Result<(Envelope<'a>, probe::Probe)> {
    let envelope = read(datagram, config)?;
    if envelope.payload_header != PayloadHeader::Probe {
        return Err(Number::NotTaken.nowhere());
    }
    let probe = probe::read(&mut Reader::starting_at(datagram, envelope.payload_start))?;
    Ok((envelope, probe))
}

/// Reads a datagram's envelope under a configuration.
pub fn read<'a>(datagram: &'a [u8], config: &Config) -> Result<Envelope<'a>> {
    if datagram.len() > LONGEST_DATAGRAM {
        return Err(Number::OverLimit.nowhere());
    }
    let mut reader = Reader::new(datagram);
    let flags = flags(&mut reader)?;
    let chunk = flags.extended2 & 1 != 0;
    let publisher = reader.when(flags.first & 0x10 != 0, |reader| publisher_id(reader, flags.extended1 & 7))?;
    let publisher_end = reader.position();
    let class_id = reader.when(flags.extended1 & 0x08 != 0, class_id)?;
    let group = reader.when(flags.first & 0x20 != 0, group)?;
    let payload_header = match (flags.first & 0x40 != 0, chunk) {
        (false, _) if flags.extended2 & PROBE != 0 => PayloadHeader::Probe,
        (false, _) => PayloadHeader::Absent,
        (true, true) => PayloadHeader::ChunkOf(reader.u16()?),
        (true, false) => PayloadHeader::Writers(writer_ids(&mut reader)?),
    };
    let payload_header_end = reader.position();
    let timestamp = reader.when(flags.extended1 & 0x20 != 0, Reader::i64)?;
    let picoseconds = reader.when(flags.extended1 & 0x40 != 0, Reader::picoseconds)?;
    let message_count = message_count(payload_header, chunk, config);
    let promoted = reader.when(flags.extended2 & 2 != 0, |reader| promoted(reader, chunk || message_count == 1))?;
    let payload_start = reader.position();
    let sizes = sizes(&mut reader, payload_header, chunk, config)?;
    Ok(Envelope {
        publisher,
        publisher_end,
        class_id,
        group,
        chunk,
        payload_header,
        payload_header_end,
        timestamp,
        picoseconds,
        promoted,
        payload_start,
        message_count,
        sizes,
        first_message: reader.position(),
    })
}

fn flags(reader: &mut Reader) -> Result<Flags> {
    let place = reader.position();
    let first = reader.u8()?;
    if first & 15 != 1 {
        return Err(Number::Version.at(place));
    }
    let extended1 = reader.when(first & 0x80 != 0, |reader| extended_flags1(reader, first & 0x10 != 0))?;
    let extended1 = extended1.unwrap_or(0);
    let extended2 = reader.when(extended1 & 0x80 != 0, |reader| extended_flags2(reader, first & 0x40 != 0))?;
    Ok(Flags { first, extended1, extended2: extended2.unwrap_or(0) })
}

fn extended_flags1(reader: &mut Reader, publisher: bool) -> Result<u8> {
    let place = reader.position();
    let flags = reader.u8()?;
    if flags == 0 || (publisher && flags & 7 > 4) {
        return Err(Number::NotPermitted.at(place));
    }
    if flags & 0x10 != 0 {
        return Err(Number::NotTaken.at(place));
    }
    if flags & 0x60 == 0x40 {
        return Err(Number::NotPermitted.at(place));
    }
    Ok(flags)
}

fn extended_flags2(reader: &mut Reader, payload_header: bool) -> Result<u8> {
    let place = reader.position();
    let flags = reader.u8()?;
    let kind = flags >> 2 & 7;
    if flags == 0 || flags & 0xe0 != 0 || kind > 2 {
        return Err(Number::NotPermitted.at(place));
    }
    // An announcement, and a probe in chunks.
    if kind == 2 || (kind == 1 && flags & 1 != 0) {
        return Err(Number::NotTaken.at(place));
    }
    if kind == 1 && (payload_header || flags & 2 != 0) {
        return Err(Number::NotPermitted.at(place));
    }
    Ok(flags)
}

fn publisher_id<'a>(reader: &mut Reader<'a>, kind: u8) -> Result<PublisherId<'a>> {
    Ok(match kind {
        0 => PublisherId::Byte(reader.u8()?),
        1 => PublisherId::UInt16(reader.u16()?),
        2 => PublisherId::UInt32(reader.u32()?),
        3 => PublisherId::UInt64(reader.u64()?),
        _ => {
            let place = reader.position();
            let length = reader.length()?.ok_or(Number::BadLength.at(place))?;
            if length > LONGEST_ID {
                return Err(Number::OverLimit.nowhere());
            }
            PublisherId::String(reader.take(length)?)
        }
    })
}

fn class_id<'a>(reader: &mut Reader<'a>) -> Result<&'a [u8; 16]> {
    let place = reader.position();
    reader.take(16)?.first_chunk().ok_or(Number::CutShort.at(place))
}

fn group(reader: &mut Reader) -> Result<Group> {
    let place = reader.position();
    let flags = reader.u8()?;
    if flags & 0xf0 != 0 {
        return Err(Number::NotPermitted.at(place));
    }
    Ok(Group {
        writer_group_id: reader.when(flags & 1 != 0, Reader::u16)?,
        version: reader.when(flags & 2 != 0, Reader::u32)?,
        message_number: reader.when(flags & 4 != 0, message_number)?,
        sequence: reader.when(flags & 8 != 0, Reader::u16)?,
    })
}

fn message_number(reader: &mut Reader) -> Result<u16> {
    let place = reader.position();
    match reader.u16()? {
        0 => Err(Number::NotPermitted.at(place)),
        number => Ok(number),
    }
}

/// Count, and the ids after it.
fn writer_ids<'a>(reader: &mut Reader<'a>) -> Result<&'a [u8]> {
    let place = reader.position();
    match reader.u8()? {
        0 => Err(Number::Disagree.at(place)),
        count => reader.take(2 * usize::from(count)),
    }
}

fn promoted<'a>(reader: &mut Reader<'a>, one_message: bool) -> Result<&'a [u8]> {
    let place = reader.position();
    let size = reader.u16()?;
    if !one_message {
        return Err(Number::Disagree.at(place));
    }
    reader.take(usize::from(size))
}

fn message_count(payload_header: PayloadHeader, chunk: bool, config: &Config) -> usize {
    match payload_header {
        _ if chunk => 0,
        PayloadHeader::Probe => 0,
        PayloadHeader::Writers(ids) => ids.len() / 2,
        _ => config.writers().len(),
    }
}

/// The payload's layout; listed sizes are read.
fn sizes<'a>(reader: &mut Reader<'a>, payload_header: PayloadHeader, chunk: bool, config: &Config) -> Result<Sizes<'a>> {
    let place = reader.position();
    match payload_header {
        PayloadHeader::ChunkOf(_) => Ok(Sizes::Rest),
        PayloadHeader::Probe => probe::read(&mut reader.clone()).map(|_| Sizes::Rest),
        PayloadHeader::Writers(ids) if ids.len() > 2 => {
            let sizes = reader.take(ids.len())?;
            let sum: usize = pairs(sizes).map(usize::from).sum();
            if pairs(sizes).any(|size| size == 0) || sum != reader.rest().len() {
                return Err(Number::Disagree.at(place));
            }
            Ok(Sizes::Listed(sizes))
        }
        PayloadHeader::Writers(_) => single_rest(reader),
        PayloadHeader::Absent if chunk => Err(Number::NotConfigured.nowhere()),
        PayloadHeader::Absent => configured_sizes(reader, config),
    }
}

fn single_rest<'a>(reader: &Reader<'a>) -> Result<Sizes<'a>> {
    if reader.rest().is_empty() {
        return Err(Number::CutShort.at(reader.position()));
    }
    Ok(Sizes::Rest)
}

fn configured_sizes<'a>(reader: &Reader<'a>, config: &Config) -> Result<Sizes<'a>> {
    match config.writers() {
        [one] if one.size.is_none() => single_rest(reader),
        writers => {
            let sum = writers.iter().map(|writer| writer.size.map(usize::from)).sum::<Option<usize>>();
            match sum {
                None | Some(0) => Err(Number::NotConfigured.nowhere()),
                Some(sum) if sum == reader.rest().len() => Ok(Sizes::Configured),
                Some(_) => Err(Number::Disagree.at(reader.position())),
            }
        }
    }
}

impl Envelope<'_> {
    /// The messages' places, one after the other.
    pub fn messages<'s>(&'s self, datagram: &'s [u8], config: &'s Config) -> impl Iterator<Item = MessagePlace> + 's {
        (0..self.message_count).scan(self.first_message, move |at, number| {
            let length = match self.sizes {
                Sizes::Rest => datagram.len() - *at,
                Sizes::Listed(sizes) => usize::from(pair(sizes, number)?),
                Sizes::Configured => usize::from(config.writers()[number].size?),
            };
            let writer = match self.payload_header {
                PayloadHeader::Writers(ids) => pair(ids, number),
                PayloadHeader::ChunkOf(writer) => Some(writer),
                PayloadHeader::Absent => config.writers().get(number).map(|writer| writer.id),
                PayloadHeader::Probe => None,
            };
            let offset = *at;
            *at += length;
            Some(MessagePlace { number, offset, length, writer })
        })
    }
}
