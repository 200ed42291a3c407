//! The reference's work tuned for time, the benchmark's bar: one pass over the bytes, what a field is known by told at once, text put digit by
//! digit, marks counted eight bytes at a time. It is compared with the reference wherever the library is.
use crate::record::{encoding_number, kind_number, shape_numbers, Walked, NO_WRITER};
use crate::reference::config::Config;
use crate::reference::message::{self, Encoding, Field, Header, Kind};
use crate::reference::network::{self, Envelope, MessagePlace, PayloadHeader, PublisherId};
use crate::reference::reassembly::{marked, Partial, PartialView, Record};
use crate::reference::value::{self, Shape, Value, BYTE_STRING, DATA_VALUE, LEVELS, STRING, WIDTHS};
use crate::reference::wire::Reader;
use crate::reference::{chunk, Number, Refusal, Result};
use core::ops::Range;

/// What is told of a message on the way: its header when its count is known, then its fields.
trait Told {
    fn head(&mut self, header: &Header);
    fn field(&mut self, field: Field);
}

/// Reads a message in one pass; whether it is valid. Fields are told up to the fault of a refused one.
fn read(told: &mut impl Told, message: &[u8], types: &[u8]) -> Result<bool> {
    let mut reader = Reader::new(message);
    let Some(header) = message::header(&mut reader)? else {
        return Ok(false);
    };
    let is_bare = header.kind == Kind::KeepAlive || (header.kind == Kind::Key && reader.rest().is_empty());
    let count = match header.encoding {
        _ if is_bare => 0,
        Encoding::RawData if types.is_empty() => return Err(Number::NotConfigured.nowhere()),
        Encoding::RawData => types.len(),
        _ => usize::from(reader.u16()?),
    };
    told.head(&header);
    let indexed = header.kind == Kind::Delta;
    let end = match header.encoding {
        _ if is_bare => reader.position(),
        Encoding::RawData => raw(told, message, reader.position(), types)?,
        Encoding::Variant => encoded(told, message, reader.position(), (count, indexed), variant)?,
        Encoding::DataValue => encoded(told, message, reader.position(), (count, indexed), data_value)?,
    };
    match message[end..].iter().position(|byte| *byte != 0) {
        Some(other) => Err(Number::LeftOver.at(end + other)),
        None => Ok(true),
    }
}

fn raw(told: &mut impl Told, message: &[u8], mut at: usize, types: &[u8]) -> Result<usize> {
    for (index, kind) in types.iter().copied().enumerate() {
        let length = value::width(kind).ok_or(Number::NotTaken.at(at))?;
        if length > message.len() - at {
            return Err(Number::CutShort.at(at));
        }
        told.field(Field { value: Value::scalar(kind), index, offset: at, length });
        at += length;
    }
    Ok(at)
}

#[inline(always)]
fn encoded(
    told: &mut impl Told, message: &[u8], mut at: usize, (count, indexed): (usize, bool),
    value: impl Fn(&[u8], usize) -> Result<(Value, usize)>,
) -> Result<usize> {
    for k in 0..count {
        let mut index = k;
        if indexed {
            let bytes = message[at..].first_chunk().ok_or(Number::CutShort.at(at))?;
            index = usize::from(u16::from_le_bytes(*bytes));
            at += 2;
        }
        let (value, end) = value(message, at)?;
        told.field(Field { value, index, offset: at, length: end - at });
        at = end;
    }
    Ok(at)
}

/// A field's Variant: the plain ones in line, the others by recursion.
#[inline(always)]
fn variant(message: &[u8], at: usize) -> Result<(Value, usize)> {
    plain(message, at).map_or_else(|| nested(message, at), Ok)
}

#[inline(never)]
fn nested(message: &[u8], at: usize) -> Result<(Value, usize)> {
    let mut reader = Reader::starting_at(message, at);
    let value = value::variant(&mut reader, LEVELS)?;
    Ok((value, reader.position()))
}

/// A Variant of a fixed type, alone or in an array, or a String; none for any other, and for one that is refused.
#[inline(always)]
fn plain(bytes: &[u8], at: usize) -> Option<(Value, usize)> {
    let (first, rest) = bytes.get(at..)?.split_first()?;
    let kind = first & 0x3f;
    let width = usize::from(WIDTHS[usize::from(kind)]);
    let (shape, length) = match (first & 0xc0, width) {
        (0, 1..) => (Shape::Scalar, width),
        (0x80, 1..) => match length(rest)? {
            None => (Shape::NullArray, 4),
            Some(count) => (Shape::Array(count), 4 + count * width),
        },
        (0, 0) if kind == 0 => (Shape::Scalar, 0),
        (0, 0) if kind == STRING || kind == BYTE_STRING => (Shape::Scalar, 4 + length(rest)?.unwrap_or(0)),
        _ => return None,
    };
    let dimensions = usize::from(shape != Shape::Scalar);
    (length <= rest.len()).then_some((Value { kind, shape, dimensions }, at + 1 + length))
}

/// A length: none for null, and nothing for one that is refused.
#[inline(always)]
fn length(bytes: &[u8]) -> Option<Option<usize>> {
    match i32::from_le_bytes(*bytes.first_chunk()?) {
        -1 => Some(None),
        length => usize::try_from(length).ok().map(Some),
    }
}

/// How many bytes stand after a DataValue's Variant, by its mask without bit 0.
const PARTS: [u8; 32] = parts();

const fn parts() -> [u8; 32] {
    let (mut widths, mut mask) = ([0; 32], 0);
    while mask < widths.len() {
        let of = [4, 8, 8, 2, 2];
        let mut bit = 0;
        while bit < of.len() {
            widths[mask] += (mask >> bit & 1) as u8 * of[bit];
            bit += 1;
        }
        mask += 1;
    }
    widths
}

/// A field's DataValue: one that holds a plain Variant or none in line.
#[inline(always)]
fn data_value(message: &[u8], at: usize) -> Result<(Value, usize)> {
    let end = plain_data_value(message, at).map_or_else(|| nested_data_value(message, at), Ok)?;
    Ok((Value::scalar(DATA_VALUE), end))
}

#[inline(always)]
fn plain_data_value(message: &[u8], at: usize) -> Option<usize> {
    let mask = *message.get(at)?;
    let after = if mask & 1 == 0 { at + 1 } else { plain(message, at + 1)?.1 };
    let end = after + usize::from(*PARTS.get(usize::from(mask >> 1))?);
    (end <= message.len()).then_some(end)
}

#[inline(never)]
fn nested_data_value(message: &[u8], at: usize) -> Result<usize> {
    let mut reader = Reader::starting_at(message, at);
    value::data_value(&mut reader, LEVELS)?;
    Ok(reader.position())
}

/// A walk's records; the first of a message is put when the message was read.
struct Records<'a> {
    records: &'a mut Vec<Walked>,
    number: u64,
    offset: u64,
    head: [u64; 3],
}

impl Told for Records<'_> {
    fn head(&mut self, header: &Header) {
        self.head = [kind_number(header.kind), encoding_number(header.encoding), or_none(header.sequence)];
    }

    #[inline(always)]
    fn field(&mut self, field: Field) {
        let (shape, count) = shape_numbers(field.value.shape);
        let (index, offset) = (field.index as u64, self.offset + field.offset as u64);
        let (length, dimensions) = (field.length as u64, field.value.dimensions as u64);
        self.records.push([0, self.number, index, field.value.kind.into(), shape, count, offset, length, dimensions, 0]);
    }
}

fn or_none(number: Option<u16>) -> u64 {
    u64::from(number.map_or(NO_WRITER, u32::from))
}

/// The records of a walk, behind those that are there.
pub fn walk_into(records: &mut Vec<Walked>, datagram: &[u8], config: &Config) -> Result<()> {
    let envelope = network::read(datagram, config)?;
    for MessagePlace { number, offset, length, writer } in envelope.messages(datagram, config) {
        let first = records.len();
        records.push([0; 10]);
        let mut told = Records { records, number: number as u64, offset: offset as u64, head: [0; 3] };
        let read = read(&mut told, &datagram[offset..][..length], config.types_of(writer));
        let head = told.head;
        let fields = (records.len() - first - 1) as u64;
        let (what, [a, b, c], e) = match read {
            Ok(true) => (1, head, 0),
            Ok(false) => (2, [0; 3], 0),
            Err(refusal) => (3, [refusal.number as u64, refusal.place as u64, fields], head[1]),
        };
        records[first] = [what, number as u64, or_none(writer), a, b, c, offset as u64, length as u64, e, 0];
    }
    Ok(())
}

/// Fields that are only counted.
struct Count(u64);

impl Told for Count {
    fn head(&mut self, _header: &Header) {}

    fn field(&mut self, _field: Field) {
        self.0 += 1;
    }
}

/// How many fields a message has.
pub fn count_message(message: &[u8], types: &[u8]) -> Result<u64> {
    let mut count = Count(0);
    read(&mut count, message, types)?;
    Ok(count.0)
}

/// How many records a walk has.
pub fn count(datagram: &[u8], config: &Config) -> Result<u64> {
    let envelope = network::read(datagram, config)?;
    let messages = envelope.messages(datagram, config).map(|place| {
        let message = &datagram[place.offset..][..place.length];
        let mut fields = Count(0);
        // Of a refused message the fields before the fault count.
        read(&mut fields, message, config.types_of(place.writer)).ok();
        1 + fields.0
    });
    Ok(messages.sum())
}

/// Decimals, each after a tab.
fn put_numbers<const N: usize>(out: &mut Vec<u8>, numbers: [usize; N]) {
    for number in numbers {
        out.push(b'\t');
        put_decimal(out, number as u64);
    }
}

fn put_decimal(out: &mut Vec<u8>, mut number: u64) {
    let (mut digits, mut at) = ([0; 20], 19);
    while number > 9 {
        digits[at] = b'0' + (number % 10) as u8;
        number /= 10;
        at -= 1;
    }
    digits[at] = b'0' + number as u8;
    out.extend_from_slice(&digits[at..]);
}

fn put_optional(out: &mut Vec<u8>, number: Option<u16>) {
    match number {
        Some(number) => put_decimal(out, number.into()),
        None => out.push(b'-'),
    }
}

/// The lines of a listing.
struct Lines<'a> {
    out: &'a mut Vec<u8>,
    number: usize,
    offset: usize,
}

impl Told for Lines<'_> {
    fn head(&mut self, header: &Header) {
        self.out.extend_from_slice(match header.kind {
            Kind::Key => b"\tkey\t",
            Kind::Delta => b"\tdelta\t",
            Kind::Event => b"\tevent\t",
            Kind::KeepAlive => b"\talive\t",
        });
        self.out.extend_from_slice(match header.encoding {
            Encoding::Variant => b"variant\t",
            Encoding::RawData => b"raw\t",
            Encoding::DataValue => b"value\t",
        });
        put_optional(self.out, header.sequence);
        self.out.push(b'\n');
    }

    fn field(&mut self, field: Field) {
        self.out.extend_from_slice(b"field");
        put_numbers(self.out, [self.number, field.index, field.value.kind.into()]);
        match field.value.shape {
            Shape::Scalar => self.out.extend_from_slice(b"\t-"),
            Shape::NullArray => self.out.extend_from_slice(b"\t-1"),
            Shape::Array(count) => put_numbers(self.out, [count]),
        }
        put_numbers(self.out, [self.offset + field.offset, field.length, field.value.dimensions]);
        self.out.push(b'\n');
    }
}

fn put_refusal(out: &mut Vec<u8>, refusal: Refusal) {
    out.extend_from_slice(b"bad");
    put_numbers(out, [refusal.number as usize, refusal.place]);
    out.push(b'\n');
}

fn put_net(out: &mut Vec<u8>, length: usize, envelope: &Envelope) {
    out.extend_from_slice(b"net");
    put_numbers(out, [length]);
    let mut put_id = |word: &[u8], id: u64| {
        out.extend_from_slice(word);
        put_decimal(out, id);
    };
    match envelope.publisher {
        None => out.extend_from_slice(b"\t-\t-"),
        Some(PublisherId::Byte(id)) => put_id(b"\tu8\t", id.into()),
        Some(PublisherId::UInt16(id)) => put_id(b"\tu16\t", id.into()),
        Some(PublisherId::UInt32(id)) => put_id(b"\tu32\t", id.into()),
        Some(PublisherId::UInt64(id)) => put_id(b"\tu64\t", id),
        Some(PublisherId::String(text)) => {
            out.extend_from_slice(b"\tstr\t");
            let digit = |half: u8| b"0123456789abcdef"[usize::from(half)];
            text.iter().for_each(|byte| out.extend_from_slice(&[digit(byte >> 4), digit(byte & 15)]));
        }
    }
    put_numbers(out, [envelope.message_count]);
    out.push(b'\n');
}

/// The listing of a datagram, behind the text that is there.
pub fn list_into(out: &mut Vec<u8>, datagram: &[u8], config: &Config) {
    let envelope = match network::read(datagram, config) {
        Ok(envelope) => envelope,
        Err(refusal) => return put_refusal(out, refusal),
    };
    put_net(out, datagram.len(), &envelope);
    for MessagePlace { number, offset, length, writer } in envelope.messages(datagram, config) {
        out.extend_from_slice(b"set");
        put_numbers(out, [number]);
        out.push(b'\t');
        put_optional(out, writer);
        put_numbers(out, [offset, length]);
        let start = out.len();
        match read(&mut Lines { out, number, offset }, &datagram[offset..][..length], config.types_of(writer)) {
            Ok(true) => {}
            Ok(false) => out.extend_from_slice(b"\tinvalid\n"),
            Err(refusal) => {
                out.truncate(start);
                out.push(b'\t');
                put_refusal(out, refusal);
            }
        }
    }
}

/// How many bytes are looked at together: those of 32 mark bytes.
const BLOCK: usize = 256;

/// The mark bytes of a range of offsets: those that it fills, and its ends, each with the bits that belong to it.
struct MarkBytes {
    whole: Range<usize>,
    ends: [(usize, u8); 2],
}

fn mark_bytes(range: &Range<usize>) -> MarkBytes {
    let (first, last) = (range.start / 8, range.end / 8);
    let (head, tail) = (0xff_u8 << (range.start % 8), !(0xff_u8 << (range.end % 8)));
    if first == last {
        return MarkBytes { whole: first..first, ends: [(first, head & tail), (first, 0)] };
    }
    let aligned = head == 0xff;
    MarkBytes { whole: first + usize::from(!aligned)..last, ends: [(first, if aligned { 0 } else { head }), (last, tail)] }
}

impl MarkBytes {
    fn ends<'a>(&'a self, marks: &'a [u8]) -> impl Iterator<Item = u8> + 'a {
        self.ends.iter().filter(|(_, mask)| *mask != 0).map(|(at, mask)| marks[*at] & mask)
    }

    fn any(&self, marks: &[u8]) -> bool {
        self.ends(marks).chain([marks[self.whole.clone()].iter().fold(0, |any, byte| any | byte)]).any(|bits| bits != 0)
    }

    fn count(&self, marks: &[u8]) -> u64 {
        let ends = self.ends(marks).map(u8::count_ones).sum::<u32>();
        u64::from(ends) + count_ones(&marks[self.whole.clone()])
    }

    fn fill(&self, marks: &mut [u8]) {
        marks[self.whole.clone()].fill(0xff);
        for (at, mask) in self.ends.iter().filter(|(_, mask)| *mask != 0) {
            marks[*at] |= mask;
        }
    }
}

/// How many bits of the bytes are set, eight bytes at a time.
fn count_ones(bytes: &[u8]) -> u64 {
    let eights = bytes.chunks_exact(8);
    let rest = eights.remainder().iter().map(|byte| byte.count_ones()).sum::<u32>();
    let number = |eight: &[u8]| <[u8; 8]>::try_from(eight).map_or(0, u64::from_le_bytes);
    u64::from(rest) + eights.map(|eight| u64::from(number(eight).count_ones())).sum::<u64>()
}

/// How many offsets below n are marked.
pub fn count_marked(marks: &[u8], n: usize) -> u64 {
    mark_bytes(&(0..n)).count(marks)
}

/// Whether every byte below total is covered, by the number.
pub fn complete(partial: &PartialView) -> Result<bool> {
    partial.complete()
}

/// How many bytes at the payload area's start are the complete payload.
pub fn hand_out(partial: &PartialView) -> Result<usize> {
    partial.sound()?;
    let Some(record) = partial.record else {
        return Err(Number::NotComplete.nowhere());
    };
    if count_marked(partial.marks, record.total as usize) != record.covered {
        return Err(Number::Unsound.nowhere());
    }
    if record.covered < record.total {
        return Err(Number::NotComplete.nowhere());
    }
    Ok(record.total as usize)
}

/// Takes a chunk in from a datagram.
pub fn take_in(partial: &mut Partial, datagram: &[u8], config: &Config) -> Result<()> {
    partial.view().sound()?;
    let envelope = network::read(datagram, config)?;
    let PayloadHeader::ChunkOf(writer) = envelope.payload_header else {
        return Err(Number::NotTaken.nowhere());
    };
    let chunk = chunk::read(datagram, envelope.payload_start)?;
    let group = envelope.group.and_then(|group| group.writer_group_id);
    let record = Record {
        publisher: envelope.publisher.into(),
        group,
        writer,
        number: chunk.number,
        total: chunk.total.into(),
        covered: 0,
    };
    partial.admit(&record)?;
    let covered = chunk.offset..chunk.offset + chunk.data.len();
    let bytes = mark_bytes(&covered);
    if partial.record.is_some() && bytes.any(partial.marks) {
        let held = &partial.payload[covered.clone()];
        if clash(held, chunk.data, chunk.offset, |at| marked(partial.marks, at)) {
            return Err(Number::ByteDiffers.nowhere());
        }
    }
    partial.start(&record);
    partial.payload[covered.clone()].copy_from_slice(chunk.data);
    let new = covered.len() as u64 - bytes.count(partial.marks);
    bytes.fill(partial.marks);
    if let Some(record) = partial.record.as_mut() {
        record.covered += new;
    }
    Ok(())
}

/// Whether bytes differ at an offset that passes the test; they begin at an offset. Blocks that hold the same are passed over.
fn clash(held: &[u8], bytes: &[u8], offset: usize, both: impl Fn(usize) -> bool) -> bool {
    let mut blocks = held.chunks(BLOCK).zip(bytes.chunks(BLOCK)).enumerate().filter(|(_, (held, bytes))| held != bytes);
    blocks.any(|(k, (held, bytes))| {
        let start = offset + k * BLOCK;
        held.iter().zip(bytes).enumerate().any(|(j, (held, byte))| held != byte && both(start + j))
    })
}

/// Stores and marks each covered byte of a block; how many were not marked.
fn take_over(held: &mut [u8], held_marks: &mut [u8], bytes: &[u8], marks: &[u8]) -> u64 {
    let all = mark_bytes(&(0..bytes.len()));
    if all.count(marks) == bytes.len() as u64 {
        let new = bytes.len() as u64 - all.count(held_marks);
        held.copy_from_slice(bytes);
        all.fill(held_marks);
        return new;
    }
    let mut new = 0;
    for at in (0..bytes.len()).filter(|at| marked(marks, *at)) {
        held[at] = bytes[at];
        new += u64::from(!marked(held_marks, at));
        held_marks[at / 8] |= 1 << (at % 8);
    }
    new
}

/// Combines another partial into this one.
pub fn combine(partial: &mut Partial, source: PartialView) -> Result<()> {
    partial.view().sound()?;
    source.sound()?;
    let Some(record) = source.record else {
        return Ok(());
    };
    partial.admit(record)?;
    let total = record.total as usize;
    let payload = &source.payload[..total];
    if partial.record.is_some() {
        let both = |at| marked(partial.marks, at) && marked(source.marks, at);
        if clash(&partial.payload[..total], payload, 0, both) {
            return Err(Number::ByteDiffers.nowhere());
        }
    }
    partial.start(record);
    let own = partial.payload[..total].chunks_mut(BLOCK).zip(partial.marks.chunks_mut(BLOCK / 8));
    let mut new = 0;
    for ((held, held_marks), (bytes, marks)) in own.zip(payload.chunks(BLOCK).zip(source.marks.chunks(BLOCK / 8))) {
        new += take_over(held, held_marks, bytes, marks);
    }
    if let Some(record) = partial.record.as_mut() {
        record.covered += new;
    }
    Ok(())
}
