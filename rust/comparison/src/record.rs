//! The records of include/uadp.h: laid out from what the reference reads, and read from any bytes.
use crate::reference::chunk::Chunk;
use crate::reference::config::{Config, MOST_FIELDS, MOST_WRITERS};
use crate::reference::message::{self, Cursor, Encoding, Field, Header, Kind, Message};
use crate::reference::network::{Envelope, Group, MessagePlace, PayloadHeader, PublisherId, Sizes};
use crate::reference::network_writer::{HeaderPart, Parts};
use crate::reference::probe::{self, Probe};
use crate::reference::reassembly::{KeptId, Record};
use crate::reference::salvage::Salvage;
use crate::reference::told::{Name, Told};
use crate::reference::value::Shape;
use crate::reference::Result;

pub const CONFIG_SIZE: usize = 146;
pub const ENVELOPE_SIZE: usize = 256;
pub const PLACE_SIZE: usize = 32;
pub const HEAD_SIZE: usize = 160;
pub const FIELD_SIZE: usize = 64;
pub const WALK_SIZE: usize = 80;
pub const VALUE_SIZE: usize = 192;
pub const CHUNK_SIZE: usize = 128;
pub const PROBE_SIZE: usize = 128;
pub const PROBE_ITEM_SIZE: usize = 32;
pub const PARTIAL_SIZE: usize = 144;
pub const SALVAGE_SIZE: usize = 64;
pub const SEQUENCE_SIZE: usize = 16;
pub const NO_WRITER: u32 = 65_536;

/// Numbers of 8 bytes, one after the other.
pub fn bytes_of(numbers: &[u64]) -> Vec<u8> {
    numbers.iter().flat_map(|number| number.to_le_bytes()).collect()
}

/// Number i of a record; 0 where it does not fit.
pub fn number(record: &[u8], i: usize) -> u64 {
    record.get(8 * i..).and_then(|rest| rest.first_chunk()).map_or(0, |bytes| u64::from_le_bytes(*bytes))
}

/// A configuration record.
pub fn config(config: &Config) -> Vec<u8> {
    let mut record = vec![0; CONFIG_SIZE];
    let writers = config.writers();
    record[0] = writers.len() as u8;
    record[1] = config.types().len() as u8;
    for (k, writer) in writers.iter().enumerate() {
        record[2 + 2 * k..][..2].copy_from_slice(&writer.id.to_le_bytes());
        record[2 + 2 * MOST_WRITERS + 2 * k..][..2].copy_from_slice(&writer.size.unwrap_or(0).to_le_bytes());
        record[2 + 4 * MOST_WRITERS + k] = config.fields_before(k) as u8;
    }
    record[CONFIG_SIZE - MOST_FIELDS..][..config.types().len()].copy_from_slice(config.types());
    record
}

/// The configuration of any bytes: a short record is the empty one.
pub fn config_of(record: &[u8]) -> Config {
    if record.len() < CONFIG_SIZE {
        return Config::default();
    }
    let pair = |at: usize| u16::from_le_bytes([record[at], record[at + 1]]);
    let starts = 2 + 4 * MOST_WRITERS;
    let writers = (0..usize::from(record[0]).min(MOST_WRITERS)).map(|k| {
        let size = pair(2 + 2 * MOST_WRITERS + 2 * k);
        (pair(2 + 2 * k), (size > 0).then_some(size), record[starts + k])
    });
    let types = &record[starts + MOST_WRITERS..][..usize::from(record[1]).min(MOST_FIELDS)];
    Config::made_up(writers, types)
}

fn publisher(id: Option<PublisherId>) -> (u64, u64) {
    match id {
        None => (0, 0),
        Some(PublisherId::Byte(id)) => (1, id.into()),
        Some(PublisherId::UInt16(id)) => (2, id.into()),
        Some(PublisherId::UInt32(id)) => (3, id.into()),
        Some(PublisherId::UInt64(id)) => (4, id),
        Some(PublisherId::String(id)) => (5, id.len() as u64),
    }
}

fn item<T: Into<u64> + Copy>(item: Option<T>) -> u64 {
    item.map_or(0, Into::into)
}

fn halves(class_id: &[u8; 16]) -> (u64, u64) {
    let number = u128::from_le_bytes(*class_id);
    (number as u64, (number >> 64) as u64)
}

/// An envelope record whose cursor stands before the first message.
pub fn envelope(envelope: &Envelope) -> [u64; ENVELOPE_SIZE / 8] {
    let mut record = [0; ENVELOPE_SIZE / 8];
    (record[0], record[1]) = publisher(envelope.publisher);
    record[2] = envelope.publisher_end as u64;
    if let Some(class_id) = envelope.class_id {
        record[3] = 1;
        (record[4], record[5]) = halves(class_id);
    }
    if let Some(group) = envelope.group {
        record[6..11].copy_from_slice(&group_numbers(&group));
    }
    record[11] = envelope.chunk.into();
    (record[12], record[13]) = match envelope.payload_header {
        PayloadHeader::Absent => (0, 0),
        PayloadHeader::Writers(ids) => (1, ids.len() as u64 / 2),
        PayloadHeader::ChunkOf(writer) => (2, writer.into()),
        PayloadHeader::Probe => (3, 0),
    };
    record[14] = envelope.payload_header_end as u64;
    (record[15], record[16]) = envelope.timestamp.map_or((0, 0), |time| (1, time as u64));
    (record[17], record[18]) = envelope.picoseconds.map_or((0, 0), |picoseconds| (1, picoseconds.into()));
    (record[19], record[20]) = envelope.promoted.map_or((0, 0), |promoted| (1, promoted.len() as u64));
    record[21] = envelope.payload_start as u64;
    record[22] = envelope.message_count as u64;
    (record[23], record[24]) = match envelope.sizes {
        Sizes::Rest => (0, 0),
        Sizes::Listed(_) => (1, envelope.payload_start as u64),
        Sizes::Configured => (2, 0),
    };
    record[25] = envelope.first_message as u64;
    record[27] = envelope.first_message as u64;
    record
}

fn group_numbers(group: &Group) -> [u64; 5] {
    let Group { writer_group_id, version, message_number, sequence } = *group;
    let flag = |present: bool, flag: u64| if present { flag } else { 0 };
    let flags = flag(writer_group_id.is_some(), 1)
        + flag(version.is_some(), 2)
        + flag(message_number.is_some(), 4)
        + flag(sequence.is_some(), 8);
    [16 + flags, item(writer_group_id), item(version), item(message_number), item(sequence)]
}

/// A message place record.
pub fn place(place: &MessagePlace) -> [u64; PLACE_SIZE / 8] {
    let writer = place.writer.map_or(NO_WRITER, u32::from);
    [place.number as u64, place.offset as u64, place.length as u64, writer.into()]
}

pub(crate) const fn encoding_number(encoding: Encoding) -> u64 {
    match encoding {
        Encoding::Variant => 0,
        Encoding::RawData => 1,
        Encoding::DataValue => 2,
    }
}

const fn encoding_of(number: u64) -> Encoding {
    match number {
        1 => Encoding::RawData,
        2 => Encoding::DataValue,
        _ => Encoding::Variant,
    }
}

pub(crate) const fn kind_number(kind: Kind) -> u64 {
    match kind {
        Kind::Key => 0,
        Kind::Delta => 1,
        Kind::Event => 2,
        Kind::KeepAlive => 3,
    }
}

/// The numbers of a message head record that a header fills.
pub fn header(header: &Header) -> [u64; HEAD_SIZE / 8] {
    let mut record = [0; HEAD_SIZE / 8];
    record[0] = 1;
    record[1] = encoding_number(header.encoding);
    record[2] = kind_number(header.kind);
    let present = [
        header.sequence.is_some(),
        header.timestamp.is_some(),
        header.picoseconds.is_some(),
        header.status.is_some(),
        header.major.is_some(),
        header.minor.is_some(),
    ];
    record[3] = present.iter().rev().fold(0, |flags, present| 2 * flags + u64::from(*present));
    record[4] = item(header.sequence);
    record[5] = header.timestamp.map_or(0, |time| time as u64);
    record[6] = item(header.picoseconds);
    record[7] = item(header.status);
    record[8] = item(header.major);
    record[9] = item(header.minor);
    record
}

/// A message head record; zeros for a message that is not valid.
pub fn head(message: Option<&Message>) -> [u64; HEAD_SIZE / 8] {
    let Some(message) = message else {
        return [0; HEAD_SIZE / 8];
    };
    let mut record = header(&message.header);
    record[10..15].copy_from_slice(&cursor(&message.fields));
    record[15] = message.end as u64;
    record
}

/// The numbers 10 to 14 of a message head record.
pub fn cursor(cursor: &Cursor) -> [u64; 5] {
    let Cursor { encoding, indexed, next, count, at } = *cursor;
    [encoding_number(encoding), indexed.into(), next as u64, count as u64, at as u64]
}

/// The cursor of any message head record.
pub fn cursor_of(record: &[u8]) -> Cursor {
    Cursor {
        encoding: encoding_of(number(record, 10)),
        indexed: number(record, 11) != 0,
        next: number(record, 12) as usize,
        count: number(record, 13) as usize,
        at: number(record, 14) as usize,
    }
}

/// A shape's number, and how many elements an array has.
pub(crate) const fn shape_numbers(shape: Shape) -> (u64, u64) {
    match shape {
        Shape::Scalar => (0, 0),
        Shape::NullArray => (1, 0),
        Shape::Array(count) => (2, count as u64),
    }
}

/// A field record.
pub fn field(field: &Field) -> [u64; FIELD_SIZE / 8] {
    let (shape, count) = shape_numbers(field.value.shape);
    [
        field.value.kind.into(),
        shape,
        count,
        field.index as u64,
        field.offset as u64,
        field.length as u64,
        field.value.dimensions as u64,
        0,
    ]
}

/// A walk record.
pub type Walked = [u64; WALK_SIZE / 8];

/// The records of a walk over all messages and fields of an accepted datagram.
pub fn walk(datagram: &[u8], config: &Config, envelope: &Envelope) -> Vec<Walked> {
    let mut records = Vec::new();
    walk_into(&mut records, datagram, config, envelope);
    records
}

/// The same, behind the records that are there.
pub fn walk_into(records: &mut Vec<Walked>, datagram: &[u8], config: &Config, envelope: &Envelope) {
    for place in envelope.messages(datagram, config) {
        let bytes = &datagram[place.offset..][..place.length];
        let types = config.types_of(place.writer);
        let front = message::front(bytes, types).ok().flatten();
        let fields: Vec<Walked> =
            front.iter().flat_map(|front| front.walk(bytes, types)).map(|found| walk_field(&place, &found)).collect();
        records.push(walk_message(&place, &message::read(bytes, types), front.as_ref(), fields.len()));
        records.extend(fields);
    }
}

/// A message's record; of a refused one it says how many fields follow, and their encoding.
fn walk_message(found: &MessagePlace, read: &Result<Option<Message>>, front: Option<&Message>, fields: usize) -> Walked {
    let or_none = |number: Option<u16>| u64::from(number.map_or(NO_WRITER, u32::from));
    let [number, offset, length, writer] = place(found);
    let (what, [a, b, c, e]) = match read {
        Ok(Some(Message { header, .. })) => {
            (1, [kind_number(header.kind), encoding_number(header.encoding), or_none(header.sequence), 0])
        }
        Ok(None) => (2, [0; 4]),
        Err(refusal) => {
            let encoding = front.map_or(0, |front| encoding_number(front.header.encoding));
            (3, [refusal.number as u64, refusal.place as u64, fields as u64, encoding])
        }
    };
    [what, number, writer, a, b, c, offset, length, e, 0]
}

fn walk_field(message: &MessagePlace, found: &Field) -> Walked {
    let [kind, shape, count, index, offset, length, dimensions, _] = field(found);
    [0, message.number as u64, index, kind, shape, count, message.offset as u64 + offset, length, dimensions, 0]
}

/// The header that any message head record stands for.
pub fn header_of(record: &[u8]) -> Header {
    let present = number(record, 3);
    let when = |flag: u64, i: usize| (present & flag != 0).then(|| number(record, i));
    Header {
        encoding: encoding_of(number(record, 1)),
        kind: match number(record, 2) {
            1 => Kind::Delta,
            2 => Kind::Event,
            3 => Kind::KeepAlive,
            _ => Kind::Key,
        },
        sequence: when(1, 4).map(as16),
        timestamp: when(2, 5).map(|number| number as i64),
        picoseconds: when(4, 6).map(as16),
        status: when(8, 7).map(as16),
        major: when(16, 8).map(as32),
        minor: when(32, 9).map(as32),
    }
}

/// The largest that fits where a number does not.
fn as16(number: u64) -> u16 {
    u16::try_from(number).unwrap_or(u16::MAX)
}

fn as32(number: u64) -> u32 {
    u32::try_from(number).unwrap_or(u32::MAX)
}

/// Whether each of these items that is present, by its bit, has a number of at most so many bits.
fn items_fit(record: &[u8], present: u64, items: &[(u64, usize, u32)]) -> bool {
    items.iter().all(|(flag, i, bits)| present & flag == 0 || number(record, *i) >> bits == 0)
}

/// Whether the number of each present item of a head record fits it.
pub fn head_fits(record: &[u8]) -> bool {
    items_fit(record, number(record, 3), &[(1, 4, 16), (4, 6, 16), (8, 7, 16), (16, 8, 32), (32, 9, 32)])
}

/// Whether the number of each present item of an envelope record fits it.
fn envelope_fits(record: &[u8]) -> bool {
    let id_bits = [8, 16, 32].get((number(record, 0) as usize).wrapping_sub(1)).copied();
    let header_bits = [8, 16].get((number(record, 12) as usize).wrapping_sub(1)).copied();
    let picoseconds = number(record, 17) == 0 || number(record, 18) >> 16 == 0;
    id_bits.is_none_or(|bits| number(record, 1) >> bits == 0)
        && items_fit(record, number(record, 6), &[(1, 7, 16), (2, 8, 32), (4, 9, 16), (8, 10, 16)])
        && header_bits.is_none_or(|bits| number(record, 13) >> bits == 0)
        && picoseconds
}

/// The parts that any envelope record and lists stand for; `class_id` is filled from the record.
pub fn parts_of<'a>(parts: &uadp::ffi::EnvelopeParts<'a>, class_id: &'a mut [u8; 16]) -> Parts<'a> {
    let record = parts.envelope;
    let present = |i: usize| number(record, i) != 0;
    class_id[..8].copy_from_slice(&number(record, 4).to_le_bytes());
    class_id[8..].copy_from_slice(&number(record, 5).to_le_bytes());
    let class_id: &'a [u8; 16] = class_id;
    Parts {
        publisher: match number(record, 0) {
            1 => Some(PublisherId::Byte(number(record, 1).min(255) as u8)),
            2 => Some(PublisherId::UInt16(as16(number(record, 1)))),
            3 => Some(PublisherId::UInt32(as32(number(record, 1)))),
            4 => Some(PublisherId::UInt64(number(record, 1))),
            5 => Some(PublisherId::String(parts.text)),
            _ => None,
        },
        string_length: number(record, 1),
        class_id: present(3).then_some(class_id),
        group: present(6).then(|| group_of(record)),
        chunk: present(11),
        payload_header: match number(record, 12) {
            1 => HeaderPart::Count(number(record, 13).min(65_535) as usize),
            2 => HeaderPart::ChunkOf(as16(number(record, 13))),
            3 => HeaderPart::Probe,
            _ => HeaderPart::Absent,
        },
        ids: parts.ids,
        timestamp: present(15).then(|| number(record, 16) as i64),
        picoseconds: present(17).then(|| as16(number(record, 18))),
        promoted: present(19).then_some(parts.promoted),
        promoted_unasked: !present(19) && !parts.promoted.is_empty(),
        text_unasked: number(record, 0) != 5 && !parts.text.is_empty(),
        promoted_size: number(record, 20),
        lengths: parts.lengths,
        messages: parts.messages,
        all_fit: envelope_fits(record),
    }
}

fn group_of(record: &[u8]) -> Group {
    let flags = number(record, 6);
    let when = |flag: u64, i: usize| (flags & flag != 0).then(|| number(record, i));
    Group {
        writer_group_id: when(1, 7).map(as16),
        version: when(2, 8).map(as32),
        message_number: when(4, 9).map(as16),
        sequence: when(8, 10).map(as16),
    }
}

/// The record of any partial record: none if not started.
pub fn partial_of(record: &[u8]) -> Option<Record> {
    (number(record, 0) == 1).then(|| Record {
        publisher: kept_id_of(record),
        group: (number(record, 6) != 0).then(|| number(record, 7) as u16),
        writer: number(record, 3) as u16,
        number: number(record, 4) as u16,
        total: number(record, 5),
        covered: number(record, 8),
    })
}

fn kept_id_of(record: &[u8]) -> KeptId {
    let id = number(record, 2);
    match number(record, 1) {
        1 => KeptId::Byte(id as u8),
        2 => KeptId::UInt16(id as u16),
        3 => KeptId::UInt32(id as u32),
        4 => KeptId::UInt64(id),
        5 => {
            let mut bytes = [0; 64];
            bytes.copy_from_slice(&record[80..PARTIAL_SIZE]);
            KeptId::String(id, bytes)
        }
        _ => KeptId::Absent,
    }
}

/// Whether an item of 2 bytes is there, and its number.
fn optional(item: Option<u16>) -> (u64, u64) {
    item.map_or((0, 0), |item| (1, item.into()))
}

/// A partial record.
pub fn partial(record: &Record) -> Vec<u8> {
    let mut text = [0; 64];
    let (kind, id) = match record.publisher {
        KeptId::Absent => (0, 0),
        KeptId::Byte(id) => (1, id.into()),
        KeptId::UInt16(id) => (2, id.into()),
        KeptId::UInt32(id) => (3, id.into()),
        KeptId::UInt64(id) => (4, id),
        KeptId::String(length, bytes) => {
            text = bytes;
            (5, length)
        }
    };
    let (has_group, group) = optional(record.group);
    let numbers = [1, kind, id, record.writer.into(), record.number.into(), record.total, has_group, group, record.covered, 0];
    [bytes_of(&numbers), text.to_vec()].concat()
}

/// A value record.
pub fn value(told: &Told) -> [u64; VALUE_SIZE / 8] {
    let mut record = [0; VALUE_SIZE / 8];
    let (shape, elements) = shape_numbers(told.shape);
    (record[0], record[1], record[2]) = (told.kind.into(), shape, elements);
    record[3] = told.width as u64;
    (record[4], record[5]) = (told.first as u64, (told.last - told.first) as u64);
    (record[6], record[7], record[8]) = (told.null.into(), told.end as u64, told.mask.into());
    record[9..15].copy_from_slice(&told.places.map(|place| place as u64));
    (record[15], record[16]) = (told.dimensions as u64, told.sizes as u64);
    let Name { number, locale, text } = told.name;
    record[17] = number.into();
    record[18..22].copy_from_slice(&[locale.0, locale.1, text.0, text.1].map(|number| number as u64));
    record
}

/// A chunk record; the data ends with the datagram.
pub fn chunk(datagram: &[u8], envelope: &Envelope, writer: u16, chunk: &Chunk) -> [u64; CHUNK_SIZE / 8] {
    let mut record = [0; CHUNK_SIZE / 8];
    (record[0], record[1]) = publisher(envelope.publisher);
    (record[2], record[3], record[4]) = (envelope.publisher_end as u64, writer.into(), chunk.number.into());
    (record[5], record[6]) = (chunk.offset as u64, chunk.total.into());
    (record[7], record[8]) = ((datagram.len() - chunk.data.len()) as u64, chunk.data.len() as u64);
    (record[9], record[10]) = optional(envelope.group.and_then(|group| group.writer_group_id));
    record
}

/// A probe record whose cursor stands before the first item.
pub fn probe(probe: &Probe) -> [u64; PROBE_SIZE / 8] {
    let mut record = [0; PROBE_SIZE / 8];
    (record[0], record[1], record[2]) = (probe.information.into(), probe.null.into(), probe.count as u64);
    (record[3], record[4]) = (probe.list as u64, probe.group.into());
    (record[5], record[6]) = (probe.writer_groups.into(), probe.data_set_writers.into());
    record[8] = probe.list as u64;
    record
}

/// The item before which the cursor of any probe record stands, and where the next one stands.
pub fn probe_item(record: &[u8], datagram: &[u8]) -> Result<([u64; PROBE_ITEM_SIZE / 8], usize)> {
    let n = |i: usize| number(record, i) as usize;
    let count = if n(1) == 0 { n(2) } else { 0 };
    let (item, next) = probe::item(datagram, u8::try_from(n(0)).unwrap_or(u8::MAX), count, n(7), n(8))?;
    Ok(([n(7) as u64, item.offset as u64, item.length as u64, item.value.into()], next))
}

/// The parts that any probe record and a list stand for.
pub fn probe_parts<'a>(record: &[u8], list: &'a [u8]) -> probe::Parts<'a> {
    let byte = |i: usize| number(record, i).min(255) as u8;
    let information = byte(0);
    let null = number(record, 1) != 0;
    let fits = match information {
        probe::GROUP => number(record, 4) >> 16 == 0 && number(record, 6) >> 8 == 0,
        probe::CONNECTIONS => number(record, 5) >> 8 == 0 && number(record, 6) >> 8 == 0,
        _ => true,
    };
    let counted = information == probe::GROUP || null || number(record, 2) <= i32::MAX as u64;
    let probe = Probe {
        information,
        null,
        count: number(record, 2) as usize,
        list: 0,
        group: as16(number(record, 4)),
        writer_groups: byte(5),
        data_set_writers: byte(6),
    };
    probe::Parts { probe, list, all_fit: fits && counted }
}

/// A salvage record, of a message of so many bytes.
pub fn salvage(salvage: &Salvage, total: usize) -> [u64; SALVAGE_SIZE / 8] {
    let (known, promised) = salvage.promised.map_or((0, 0), |promised| (1, promised as u64));
    let (holes, fields) = (salvage.holes.len() as u64, salvage.fields.len() as u64);
    [holes, fields, known, promised, salvage.front as u64, total as u64, encoding_number(salvage.encoding), 0]
}

/// The entries of its list: the holes, then the fields.
pub fn salvaged(salvage: &Salvage) -> Vec<[u64; FIELD_SIZE / 8]> {
    let hole = |(offset, length): &(usize, usize)| [0, 0, 0, 0, *offset as u64, *length as u64, 0, 0];
    salvage.holes.iter().map(hole).chain(salvage.fields.iter().map(field)).collect()
}
