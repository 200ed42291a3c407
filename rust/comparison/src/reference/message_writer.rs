//! DataSetMessages written from parts, and written again.
use super::message::{self, field_value, kind_taken, Encoding, Header, Kind};
use super::wire::{Reader, Writer};
use super::{Number, Refusal, Result, PICOSECONDS_END};

/// The parts of a message.
#[derive(Clone, Copy, Debug)]
pub struct Parts<'a> {
    pub header: Header,
    /// A key frame has nothing after its header; of other kinds this says nothing.
    pub heartbeat: bool,
    /// The fields' encoded values, one after the other, and how long each is.
    pub values: &'a [u8],
    pub lengths: &'a [usize],
    /// A delta's indices.
    pub indices: &'a [u16],
    pub padding: u64,
    /// Each number that the caller handed over fits its item; one that does not stands here as the largest that does.
    pub all_fit: bool,
}

const DISAGREE: Refusal = Number::Disagree.nowhere();

/// Padding above this is read as this much of it is: 64 configured fields have at most 1,024 bytes.
const PADDING_READ: usize = 2_000;

/// Writes a message from parts; the number of bytes written.
pub fn write(parts: &Parts, types: &[u8], out: &mut [u8]) -> Result<usize> {
    refuse_parts(parts, types)?;
    refuse_read_back(parts, types)?;
    if !parts.all_fit {
        return Err(DISAGREE);
    }
    let padding = usize::try_from(parts.padding).unwrap_or(usize::MAX);
    let mut writer = Writer::of_length(out, length(parts).saturating_add(padding))?;
    put(&mut writer, parts);
    writer.put_zeros(padding);
    Ok(writer.written())
}

/// Whether FieldCount is written.
fn is_counted(parts: &Parts) -> bool {
    has_fields(parts) && parts.header.encoding != Encoding::RawData
}

/// How many bytes are written before the padding.
fn length(parts: &Parts) -> usize {
    header_length(&parts.header) + if is_counted(parts) { 2 } else { 0 } + parts.values.len() + 2 * parts.indices.len()
}

/// Everything but the padding.
fn put(writer: &mut Writer, parts: &Parts) {
    put_header(writer, &parts.header);
    if is_counted(parts) {
        writer.put(&(parts.lengths.len() as u16).to_le_bytes());
    }
    let mut indices = parts.indices.iter();
    for value in values(parts) {
        if let Some(index) = indices.next() {
            writer.put(&index.to_le_bytes());
        }
        writer.put(value);
    }
}

/// Writes an accepted message again; one that is not valid is 6. A writer's place is 0.
pub fn rewrite(message: &[u8], types: &[u8], out: &mut [u8]) -> Result<usize> {
    let read = message::read(message, types).map_err(|refusal| refusal.number.nowhere())?.ok_or(DISAGREE)?;
    let body = &message[read.body..];
    let mut writer = Writer::of_length(out, header_length(&read.header) + body.len())?;
    put_header(&mut writer, &read.header);
    writer.put(body);
    Ok(writer.written())
}

fn has_fields(parts: &Parts) -> bool {
    !is_heartbeat(parts) && parts.header.kind != Kind::KeepAlive
}

fn is_heartbeat(parts: &Parts) -> bool {
    parts.heartbeat && parts.header.kind == Kind::Key
}

/// The fields' values; one whose length reaches past the values is cut short there.
fn values<'a>(parts: &Parts<'a>) -> impl Iterator<Item = &'a [u8]> {
    let mut rest = parts.values;
    parts.lengths.iter().map(move |length| {
        let (value, after) = rest.split_at((*length).min(rest.len()));
        rest = after;
        value
    })
}

/// The fields with their configured types; in RawData those that have one.
fn typed<'a>(parts: &Parts<'a>, types: &'a [u8]) -> impl Iterator<Item = (&'a [u8], Option<u8>)> {
    let raw = parts.header.encoding == Encoding::RawData;
    let count = if raw { types.len() } else { usize::MAX };
    values(parts).take(count).enumerate().map(move |(k, value)| (value, types.get(k).copied()))
}

/// What is refused of the parts one by one: the header's rules, with picoseconds of 10,000 and more, each field measured alone, then 6 where a field is no whole value, lists
/// disagree, FieldCount does not hold the number of fields, or something is given with a heartbeat.
fn refuse_parts(parts: &Parts, types: &[u8]) -> Result<()> {
    let header = &parts.header;
    kind_taken(header.kind, header.encoding).map_err(Number::nowhere)?;
    if header.picoseconds.is_some_and(|picoseconds| picoseconds >= PICOSECONDS_END) {
        return Err(Number::NotPermitted.nowhere());
    }
    let mut whole = true;
    if has_fields(parts) {
        for (value, kind) in typed(parts, types) {
            whole &= measure(value, header.encoding, kind)? == value.len();
        }
    }
    let count = parts.lengths.len();
    let sum = parts.lengths.iter().try_fold(0_usize, |sum, length| sum.checked_add(*length));
    let indices = if header.kind == Kind::Delta { count } else { 0 };
    let lists = sum == Some(parts.values.len()) && parts.indices.len() == indices;
    let counted = !is_counted(parts) || count <= usize::from(u16::MAX);
    let bare = !is_heartbeat(parts) || (count == 0 && parts.padding == 0);
    if whole && lists && counted && bare {
        Ok(())
    } else {
        Err(DISAGREE)
    }
}

/// Reads what would be written: reading's number, and 6 where it reads back otherwise.
fn refuse_read_back(parts: &Parts, types: &[u8]) -> Result<()> {
    let padding = usize::try_from(parts.padding).unwrap_or(usize::MAX).min(PADDING_READ);
    let mut bytes = vec![0; length(parts) + padding];
    put(&mut Writer::over(&mut bytes), parts);
    let read = message::read(&bytes, types).map_err(|refusal| refusal.number.nowhere())?.ok_or(DISAGREE)?;
    let key = parts.header.kind == Kind::Key;
    let same_fields = read.fields.count == parts.lengths.len()
        && read.walk(&bytes, types).zip(values(parts)).all(|(field, value)| &bytes[field.offset..][..field.length] == value);
    if same_fields && bytes.len() - read.end == padding && (!key || read.heartbeat == parts.heartbeat) {
        Ok(())
    } else {
        Err(DISAGREE)
    }
}

/// How long the value at the start of these bytes is.
fn measure(value: &[u8], encoding: Encoding, kind: Option<u8>) -> Result<usize> {
    let mut reader = Reader::new(value);
    field_value(&mut reader, encoding, kind).map_err(|refusal| refusal.number.nowhere())?;
    Ok(reader.position())
}

fn flags2(header: &Header) -> u8 {
    let kind = match header.kind {
        Kind::Key => 0,
        Kind::Delta => 1,
        Kind::Event => 2,
        Kind::KeepAlive => 3,
    };
    kind | flag(header.timestamp, 0x10) | flag(header.picoseconds, 0x20)
}

fn flag<T>(item: Option<T>, flag: u8) -> u8 {
    if item.is_some() {
        flag
    } else {
        0
    }
}

fn flags1(header: &Header) -> u8 {
    let encoding = match header.encoding {
        Encoding::Variant => 0,
        Encoding::RawData => 2,
        Encoding::DataValue => 4,
    };
    let flags2 = if flags2(header) == 0 { 0 } else { 0x80 };
    let versions = flag(header.major, 0x20) | flag(header.minor, 0x40);
    1 | encoding | flag(header.sequence, 0x08) | flag(header.status, 0x10) | versions | flags2
}

fn header_length(header: &Header) -> usize {
    let width = |present: bool, width: usize| if present { width } else { 0 };
    1 + width(flags2(header) != 0, 1)
        + width(header.sequence.is_some(), 2)
        + width(header.timestamp.is_some(), 8)
        + width(header.picoseconds.is_some(), 2)
        + width(header.status.is_some(), 2)
        + width(header.major.is_some(), 4)
        + width(header.minor.is_some(), 4)
}

fn put_header(writer: &mut Writer, header: &Header) {
    writer.put(&[flags1(header)]);
    if flags2(header) != 0 {
        writer.put(&[flags2(header)]);
    }
    header.sequence.iter().for_each(|item| writer.put(&item.to_le_bytes()));
    header.timestamp.iter().for_each(|item| writer.put(&item.to_le_bytes()));
    header.picoseconds.iter().for_each(|item| writer.put(&item.to_le_bytes()));
    header.status.iter().for_each(|item| writer.put(&item.to_le_bytes()));
    header.major.iter().for_each(|item| writer.put(&item.to_le_bytes()));
    header.minor.iter().for_each(|item| writer.put(&item.to_le_bytes()));
}
