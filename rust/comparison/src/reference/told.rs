//! Values told apart: what they are, and where their elements and parts stand; and Variants put from their elements.
use super::value::{self, Shape, Value, BYTE_STRING, DATA_VALUE, LEVELS, LOCALIZED_TEXT, QUALIFIED_NAME, STRING, VARIANT};
use super::wire::{Reader, Writer};
use super::{Number, Result};

/// What a value is, and where it stands. Of a DataValue it is its Variant; a part that is absent stands at 0.
#[derive(Clone, Copy, Debug)]
pub struct Told {
    pub kind: u8,
    pub shape: Shape,
    /// Of an element of a fixed type, else 0.
    pub width: usize,
    pub null: bool,
    pub first: usize,
    pub last: usize,
    pub end: usize,
    pub mask: u8,
    /// Variant, status, source time, source picoseconds, server time, server picoseconds.
    pub places: [usize; 6],
    pub dimensions: usize,
    /// Where a dimensions list's dimensions stand, else 0.
    pub sizes: usize,
    pub name: Name,
}

/// A QualifiedName's index or a LocalizedText's mask, and its Strings: where each starts and how long it is, zeros where it is absent or
/// null.
#[derive(Clone, Copy, Debug, Default)]
pub struct Name {
    pub number: u16,
    pub locale: (usize, usize),
    pub text: (usize, usize),
}

/// The name that stands at a position of bytes where it was accepted.
fn name(bytes: &[u8], at: usize, kind: u8) -> Result<Name> {
    let mut reader = Reader::starting_at(bytes, at);
    let (number, strings) = match kind {
        QUALIFIED_NAME => (reader.u16()?, [false, true]),
        LOCALIZED_TEXT => reader.u8().map(|mask| (mask.into(), [mask & 1 != 0, mask & 2 != 0]))?,
        _ => return Ok(Name::default()),
    };
    let mut string = |present: bool| match present.then(|| reader.length()).transpose()?.flatten() {
        Some(length) => Ok((reader.position(), reader.take(length)?.len())),
        None => Ok((0, 0)),
    };
    let [locale, text] = strings;
    Ok(Name { number, locale: string(locale)?, text: string(text)? })
}

impl Told {
    fn alone(value: Value, null: bool, first: usize, end: usize) -> Self {
        let width = value::width(value.kind).unwrap_or(0);
        let (dimensions, name) = (value.dimensions, Name::default());
        Self {
            kind: value.kind,
            shape: value.shape,
            width,
            null,
            first,
            last: end,
            end,
            mask: 0,
            places: [0; 6],
            dimensions,
            sizes: 0,
            name,
        }
    }
}

fn is_text(kind: u8) -> bool {
    kind == STRING || kind == BYTE_STRING
}

fn variant(bytes: &[u8], at: usize, levels: u32) -> Result<Told> {
    let mut reader = Reader::starting_at(bytes, at);
    let value = value::variant(&mut reader, levels)?;
    let mut items = Reader::starting_at(bytes, at);
    items.u8()?;
    let null = match value.shape {
        Shape::Scalar if !is_text(value.kind) => value.kind == 0,
        _ => items.length()?.is_none(),
    };
    let told = Told::alone(value, null, items.position(), reader.position());
    if bytes[at] & 0x40 != 0 {
        let sizes = told.end - 4 * value.dimensions;
        return Ok(Told { sizes, last: sizes - 4, ..told });
    }
    let name = if value.shape == Shape::Scalar { name(bytes, told.first, value.kind)? } else { Name::default() };
    Ok(Told { name, ..told })
}

/// A part of a DataValue where its mask announces it: its place, 0 where it does not.
fn part(reader: &mut Reader, announced: bool, width: usize) -> Result<usize> {
    let place = reader.position();
    if !announced {
        return Ok(0);
    }
    reader.take(width).map(|_| place)
}

fn data_value(bytes: &[u8], at: usize) -> Result<Told> {
    let mut reader = Reader::starting_at(bytes, at);
    let mask = reader.u8()?;
    if mask >= 64 {
        return Err(Number::NotPermitted.at(at));
    }
    let none = Value::scalar(0);
    let mut told = Told::alone(none, true, at + 1, at + 1);
    if mask % 2 == 1 {
        told = variant(bytes, at + 1, LEVELS - 1)?;
        told.places[0] = at + 1;
    }
    let mut reader = Reader::starting_at(bytes, told.end);
    for (k, (bit, width)) in [(1, 4), (2, 8), (4, 2), (3, 8), (5, 2)].into_iter().enumerate() {
        told.places[k + 1] = part(&mut reader, mask >> bit & 1 == 1, width)?;
    }
    Ok(Told { mask, end: reader.position(), ..told })
}

/// A value by its encoding: 1 RawData of a type, 2 DataValue, any other number Variant.
pub fn field(bytes: &[u8], at: usize, encoding: u32, kind: u32) -> Result<Told> {
    match encoding {
        1 => {
            let kind = u8::try_from(kind).unwrap_or(0);
            let width = value::width(kind).ok_or(Number::NotTaken.at(at))?;
            Reader::starting_at(bytes, at).take(width)?;
            Ok(Told::alone(Value::scalar(kind), false, at, at + width))
        }
        2 => data_value(bytes, at),
        _ => variant(bytes, at, LEVELS),
    }
}

/// Element k of an array of Strings, ByteStrings, QualifiedNames or LocalizedTexts.
pub fn element(bytes: &[u8], at: usize, kind: u32, elements: u64, k: u64) -> Result<Told> {
    if k >= elements {
        return Err(Number::OverLimit.nowhere());
    }
    let mut reader = Reader::starting_at(bytes, at);
    let kind = u8::try_from(kind).unwrap_or(0);
    for _ in 0..k {
        value::text(&mut reader, kind)?;
    }
    let (first, value) = (reader.position(), Value::scalar(kind));
    if [QUALIFIED_NAME, LOCALIZED_TEXT].contains(&kind) {
        value::text(&mut reader, kind)?;
        return Ok(Told { name: name(bytes, first, kind)?, ..Told::alone(value, false, first, reader.position()) });
    }
    let length = reader.length()?;
    let first = reader.position();
    reader.take(length.unwrap_or(0))?;
    Ok(Told { width: 0, ..Told::alone(value, length.is_none(), first, reader.position()) })
}

/// Which Variants are put, and the number by which others are refused; `array` also of a null one.
fn putable(kind: u32, array: bool) -> Result<u8> {
    let kind = u8::try_from(kind).unwrap_or(u8::MAX);
    match (kind, array) {
        (0, true) | (VARIANT, false) => Err(Number::NotPermitted.nowhere()),
        (QUALIFIED_NAME | LOCALIZED_TEXT | DATA_VALUE | VARIANT, _) => Err(Number::NotTaken.nowhere()),
        (0, false) => Ok(kind),
        _ if is_text(kind) && !array => Ok(kind),
        _ => value::width(kind).map(|_| kind).ok_or(Number::NotTaken.nowhere()),
    }
}

/// Puts a Variant: 1 a null array, 2 an array, any other number a scalar, which may be null.
pub fn put(kind: u32, shape: u32, null: u32, bytes: &[u8], out: &mut [u8]) -> Result<usize> {
    let array = shape == 1 || shape == 2;
    let kind = putable(kind, array)?;
    let null = shape == 1 || (!array && null != 0);
    let agrees = match value::width(kind) {
        _ if null => bytes.is_empty() && (array || value::width(kind).is_none()),
        Some(width) if array => bytes.len() % width == 0,
        Some(width) => bytes.len() == width,
        None => is_text(kind),
    };
    if !agrees {
        return Err(Number::Disagree.nowhere());
    }
    let counted = array || is_text(kind);
    let count = bytes.len() / value::width(kind).filter(|_| array).unwrap_or(1);
    let mut writer = Writer::of_length(out, 1 + if counted { 4 } else { 0 } + bytes.len())?;
    writer.put(&[kind | if array { 0x80 } else { 0 }]);
    if counted {
        writer.put(&if null { -1 } else { count as i32 }.to_le_bytes());
    }
    writer.put(bytes);
    Ok(writer.written())
}

fn text_of(text: &[u8]) -> Vec<u8> {
    [&(text.len() as u32).to_le_bytes()[..], text].concat()
}

/// Puts a QualifiedName by its index and its name, or a LocalizedText by its mask, its locale and its text.
pub fn put_name(kind: u32, number: u32, locale: &[u8], text: &[u8], out: &mut [u8]) -> Result<usize> {
    let qualified = kind == QUALIFIED_NAME.into();
    if !qualified && kind != LOCALIZED_TEXT.into() {
        return Err(Number::NotTaken.nowhere());
    }
    if !qualified && number > 3 {
        return Err(Number::NotPermitted.nowhere());
    }
    let (has_locale, has_text) = (!qualified && number & 1 != 0, qualified || number & 2 != 0);
    let lacks = (!has_locale && !locale.is_empty()) || (!has_text && !text.is_empty());
    if lacks || u16::try_from(number).is_err() {
        return Err(Number::Disagree.nowhere());
    }
    let mut bytes = vec![kind as u8];
    bytes.extend(&number.to_le_bytes()[..if qualified { 2 } else { 1 }]);
    bytes.extend(if has_locale { text_of(locale) } else { Vec::new() });
    bytes.extend(if has_text { text_of(text) } else { Vec::new() });
    let mut writer = Writer::of_length(out, bytes.len())?;
    writer.put(&bytes);
    Ok(writer.written())
}

/// Puts an array of a fixed type with its dimensions, 4 bytes each.
pub fn put_matrix(kind: u32, sizes: &[u8], bytes: &[u8], out: &mut [u8]) -> Result<usize> {
    if kind == 0 {
        return Err(Number::NotPermitted.nowhere());
    }
    let kind = u8::try_from(kind).unwrap_or(u8::MAX);
    let width = value::width(kind).ok_or(Number::NotTaken.nowhere())?;
    if bytes.len() % width != 0 {
        return Err(Number::Disagree.nowhere());
    }
    if bytes.len() > 65_535 {
        return Err(Number::OverLimit.nowhere());
    }
    if sizes.len() % 4 != 0 {
        return Err(Number::Disagree.nowhere());
    }
    let each: Vec<i128> = sizes.chunks(4).map(|size| i32::from_le_bytes(size.try_into().expect("4 bytes")).into()).collect();
    if each.is_empty() || each.iter().any(|&size| size < 1) {
        return Err(Number::BadLength.nowhere());
    }
    let product = each.iter().try_fold(1i128, |product, size| product.checked_mul(*size).filter(|p| *p < 1 << 90));
    if product != Some((bytes.len() / width) as i128) {
        return Err(Number::Disagree.nowhere());
    }
    let mut writer = Writer::of_length(out, 1 + 4 + bytes.len() + 4 + sizes.len())?;
    writer.put(&[kind | 0xC0]);
    writer.put(&((bytes.len() / width) as u32).to_le_bytes());
    writer.put(bytes);
    writer.put(&(each.len() as u32).to_le_bytes());
    writer.put(sizes);
    Ok(writer.written())
}
