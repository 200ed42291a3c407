//! The DataSetMessage: its header, and a cursor over its fields.
use super::value::{data_value, variant, width, Value, DATA_VALUE, LEVELS};
use super::wire::Reader;
use super::{Number, Result};

#[derive(Clone, Copy, Debug, Default, PartialEq, Eq)]
pub enum Encoding {
    #[default]
    Variant,
    RawData,
    DataValue,
}

#[derive(Clone, Copy, Debug, Default, PartialEq, Eq)]
pub enum Kind {
    #[default]
    Key,
    Delta,
    Event,
    KeepAlive,
}

/// What stands before the fields.
#[derive(Clone, Copy, Debug, Default, PartialEq, Eq)]
pub struct Header {
    pub encoding: Encoding,
    pub kind: Kind,
    pub sequence: Option<u16>,
    pub timestamp: Option<i64>,
    pub picoseconds: Option<u16>,
    pub status: Option<u16>,
    pub major: Option<u32>,
    pub minor: Option<u32>,
}

/// A field: its type and shape, its index, and where its encoded value lies in the message.
#[derive(Clone, Copy, Debug, PartialEq, Eq)]
pub struct Field {
    pub value: Value,
    pub index: usize,
    pub offset: usize,
    pub length: usize,
}

/// Steps from one field to the next.
#[derive(Clone, Copy, Debug, PartialEq, Eq)]
pub struct Cursor {
    pub encoding: Encoding,
    /// Each field has an index of its own (delta).
    pub indexed: bool,
    pub next: usize,
    pub count: usize,
    pub at: usize,
}

/// A DataSetMessage that was read as a whole.
#[derive(Clone, Copy, Debug, PartialEq, Eq)]
pub struct Message {
    pub header: Header,
    /// Stands before the first field.
    pub fields: Cursor,
    /// The byte after the header.
    pub body: usize,
    /// The byte after the last field; padding follows.
    pub end: usize,
    /// A key frame with nothing after its header.
    pub heartbeat: bool,
}

/// Reads a message with the configured types of its writer; none for one that is not valid.
pub fn read(message: &[u8], types: &[u8]) -> Result<Option<Message>> {
    let Some(front) = front(message, types)? else {
        return Ok(None);
    };
    let end = front.fields.skip_all(message, types)?;
    match message[end..].iter().position(|byte| *byte != 0) {
        Some(other) => Err(Number::LeftOver.at(end + other)),
        None => Ok(Some(Message { end, ..front })),
    }
}

/// Reads a message up to its first field, which starts at its `end`.
pub fn front(message: &[u8], types: &[u8]) -> Result<Option<Message>> {
    let mut reader = Reader::new(message);
    let Some(header) = header(&mut reader)? else {
        return Ok(None);
    };
    let body = reader.position();
    let heartbeat = header.kind == Kind::Key && reader.rest().is_empty();
    let count = if heartbeat || header.kind == Kind::KeepAlive {
        0
    } else if header.encoding == Encoding::RawData {
        if types.is_empty() {
            return Err(Number::NotConfigured.nowhere());
        }
        types.len()
    } else {
        usize::from(reader.u16()?)
    };
    let end = reader.position();
    let fields = Cursor { encoding: header.encoding, indexed: header.kind == Kind::Delta, next: 0, count, at: end };
    Ok(Some(Message { header, fields, body, end, heartbeat }))
}

/// The header; none with bit 0 off.
pub(crate) fn header(reader: &mut Reader) -> Result<Option<Header>> {
    let flags1 = reader.u8()?;
    if flags1 & 1 == 0 {
        return Ok(None);
    }
    let encoding = match flags1 >> 1 & 3 {
        0 => Encoding::Variant,
        1 => Encoding::RawData,
        2 => Encoding::DataValue,
        _ => return Err(Number::NotPermitted.at(0)),
    };
    let (kind, times) = match flags1 & 0x80 {
        0 => (Kind::Key, 0),
        _ => flags2(reader, encoding)?,
    };
    Ok(Some(Header {
        encoding,
        kind,
        sequence: reader.when(flags1 & 0x08 != 0, Reader::u16)?,
        timestamp: reader.when(times & 0x10 != 0, Reader::i64)?,
        picoseconds: reader.when(times & 0x20 != 0, Reader::picoseconds)?,
        status: reader.when(flags1 & 0x10 != 0, Reader::u16)?,
        major: reader.when(flags1 & 0x20 != 0, Reader::u32)?,
        minor: reader.when(flags1 & 0x40 != 0, Reader::u32)?,
    }))
}

/// Flags2: the kind, and the byte itself.
fn flags2(reader: &mut Reader, encoding: Encoding) -> Result<(Kind, u8)> {
    let place = reader.position();
    let flags = reader.u8()?;
    let kind = match flags & 15 {
        0 if flags != 0 => Kind::Key,
        1 => Kind::Delta,
        2 => Kind::Event,
        3 => Kind::KeepAlive,
        _ => return Err(Number::NotPermitted.at(place)),
    };
    if flags & 0xc0 != 0 {
        return Err(Number::NotPermitted.at(place));
    }
    kind_taken(kind, encoding).map_err(|number| number.at(place))?;
    Ok((kind, flags))
}

/// Event not in Variant is 3, delta in RawData is 4.
pub fn kind_taken(kind: Kind, encoding: Encoding) -> std::result::Result<(), Number> {
    match (kind, encoding) {
        (Kind::Event, Encoding::RawData | Encoding::DataValue) => Err(Number::NotPermitted),
        (Kind::Delta, Encoding::RawData) => Err(Number::NotTaken),
        _ => Ok(()),
    }
}

/// A field's value in an encoding; `kind` is the configured type, for RawData.
pub fn field_value(reader: &mut Reader, encoding: Encoding, kind: Option<u8>) -> Result<Value> {
    match encoding {
        Encoding::Variant => variant(reader, LEVELS),
        Encoding::DataValue => {
            data_value(reader, LEVELS)?;
            Ok(Value::scalar(DATA_VALUE))
        }
        Encoding::RawData => {
            // Only a made-up cursor or configuration leads to a field without a type, or without a fixed one.
            let kind = kind.ok_or(Number::NotConfigured.nowhere())?;
            let width = width(kind).ok_or(Number::NotTaken.at(reader.position()))?;
            reader.take(width)?;
            Ok(Value::scalar(kind))
        }
    }
}

impl Cursor {
    /// The field that the cursor stands before, and the cursor before the next one.
    pub fn step(self, message: &[u8], types: &[u8]) -> Result<(Field, Self)> {
        if self.at > message.len() {
            return Err(Number::CutShort.at(self.at));
        }
        if self.next >= self.count {
            return Err(Number::OverLimit.nowhere());
        }
        self.step_in(&mut Reader::starting_at(message, self.at), types)
    }

    /// The field that the reader stands before.
    pub(crate) fn step_in(self, reader: &mut Reader, types: &[u8]) -> Result<(Field, Self)> {
        let index = if self.indexed { usize::from(reader.u16()?) } else { self.next };
        let offset = reader.position();
        let value = field_value(reader, self.encoding, types.get(self.next).copied())?;
        let at = reader.position();
        Ok((Field { value, index, offset, length: at - offset }, Self { next: self.next + 1, at, ..self }))
    }

    /// The byte after the last field.
    fn skip_all(self, message: &[u8], types: &[u8]) -> Result<usize> {
        let mut reader = Reader::starting_at(message, self.at);
        for k in self.next..self.count {
            if self.indexed {
                reader.u16()?;
            }
            field_value(&mut reader, self.encoding, types.get(k).copied())?;
        }
        Ok(reader.position())
    }
}

impl Message {
    /// The fields of an accepted message.
    pub fn walk<'a>(&self, message: &'a [u8], types: &'a [u8]) -> impl Iterator<Item = Field> + 'a {
        let mut cursor = self.fields;
        std::iter::from_fn(move || {
            let (field, next) = cursor.step(message, types).ok()?;
            cursor = next;
            Some(field)
        })
    }
}

/// Field k of a message, counted from 0, and its encoded bytes as that part of the message.
pub fn field<'a>(message: &'a [u8], types: &[u8], k: usize) -> Result<(Field, &'a [u8])> {
    let found = read(message, types)?.and_then(|read| read.walk(message, types).nth(k));
    let field = found.ok_or(Number::OverLimit.nowhere())?;
    Ok((field, &message[field.offset..][..field.length]))
}
