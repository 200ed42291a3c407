//! Variants and DataValues, measured.
use super::wire::Reader;
use super::{Number, Result};

/// How deep values nest.
pub const LEVELS: u32 = 100;
pub const STRING: u8 = 12;
pub const BYTE_STRING: u8 = 15;
pub const QUALIFIED_NAME: u8 = 20;
pub const LOCALIZED_TEXT: u8 = 21;
pub const DATA_VALUE: u8 = 23;
pub const VARIANT: u8 = 24;

/// The widths of the fixed types by type number; 0 for the others.
pub(crate) const WIDTHS: [u8; 64] = widths();

const fn widths() -> [u8; 64] {
    let mut widths = [0; 64];
    let table: [(u8, &[usize]); 5] = [(1, &[1, 2, 3]), (2, &[4, 5]), (4, &[6, 7, 10, 19]), (8, &[8, 9, 11, 13]), (16, &[14])];
    let mut row = 0;
    while row < table.len() {
        let (width, types) = table[row];
        let mut i = 0;
        while i < types.len() {
            widths[types[i]] = width;
            i += 1;
        }
        row += 1;
    }
    widths
}

/// The width of a fixed type.
pub fn width(kind: u8) -> Option<usize> {
    WIDTHS.get(usize::from(kind)).filter(|width| **width > 0).map(|width| usize::from(*width))
}

/// Whether a value is an array, and of how many elements.
#[derive(Clone, Copy, Debug, PartialEq, Eq)]
pub enum Shape {
    Scalar,
    NullArray,
    Array(usize),
}

/// The type number and shape of a value, and how many dimensions it has.
#[derive(Clone, Copy, Debug, PartialEq, Eq)]
pub struct Value {
    pub kind: u8,
    pub shape: Shape,
    pub dimensions: usize,
}

impl Value {
    pub const fn scalar(kind: u8) -> Self {
        Self { kind, shape: Shape::Scalar, dimensions: 0 }
    }

    /// An array without a dimensions list: of so many elements, or null.
    pub fn array(kind: u8, count: Option<usize>) -> Self {
        Self { kind, shape: count.map_or(Shape::NullArray, Shape::Array), dimensions: 1 }
    }
}

/// The first byte of a value with `levels` levels left: 1, then 9.
fn first_byte(reader: &mut Reader, levels: u32) -> Result<u8> {
    let place = reader.position();
    let byte = reader.u8()?;
    if levels == 0 {
        return Err(Number::TooDeep.at(place));
    }
    Ok(byte)
}

/// A Variant with `levels` levels left.
pub fn variant(reader: &mut Reader, levels: u32) -> Result<Value> {
    let place = reader.position();
    let first = first_byte(reader, levels)?;
    let (kind, array, dimensions) = (first & 0x3f, first & 0x80 != 0, first & 0x40 != 0);
    let permitted = if array { kind != 0 } else { !dimensions && kind != VARIANT };
    if !permitted {
        return Err(Number::NotPermitted.at(place));
    }
    let is_text = [STRING, BYTE_STRING, QUALIFIED_NAME, LOCALIZED_TEXT].contains(&kind);
    if !(is_text || [0, DATA_VALUE, VARIANT].contains(&kind) || width(kind).is_some()) {
        return Err(Number::NotTaken.at(place));
    }
    if kind == 0 {
        return Ok(Value::scalar(kind));
    }
    if !array {
        elements(reader, kind, 1, levels)?;
        return Ok(Value::scalar(kind));
    }
    let count = reader.length()?;
    elements(reader, kind, count.unwrap_or(0), levels)?;
    let plain = Value::array(kind, count);
    if !dimensions {
        return Ok(plain);
    }
    Ok(Value { dimensions: list(reader, count.unwrap_or(0))?, ..plain })
}

/// So many values of a type: those of a fixed width are one item, others are items each.
fn elements(reader: &mut Reader, kind: u8, count: usize, levels: u32) -> Result<()> {
    if let Some(width) = width(kind) {
        return reader.take(count * width).map(drop);
    }
    (0..count).try_for_each(|_| match kind {
        VARIANT => variant(reader, levels - 1).map(drop),
        DATA_VALUE => data_value(reader, levels - 1),
        _ => text(reader, kind),
    })
}

/// The dimensions list of an array of so many elements, a null one of none: how many dimensions there are.
fn list(reader: &mut Reader, elements: usize) -> Result<usize> {
    let place = reader.position();
    let count = reader.length()?.filter(|count| *count > 0).ok_or(Number::BadLength.at(place))?;
    let place = reader.position();
    let sizes: Vec<i32> =
        reader.take(4 * count)?.chunks(4).map(|size| i32::from_le_bytes([size[0], size[1], size[2], size[3]])).collect();
    if sizes.iter().any(|size| *size < 1) {
        return Err(Number::BadLength.at(place));
    }
    let product = sizes.iter().fold(1, |product: u128, size| product.saturating_mul(size.unsigned_abs().into()));
    if product != elements as u128 {
        return Err(Number::Disagree.at(place));
    }
    Ok(count)
}

/// A String or ByteString, a QualifiedName or a LocalizedText.
pub(crate) fn text(reader: &mut Reader, kind: u8) -> Result<()> {
    match kind {
        QUALIFIED_NAME => {
            reader.u16()?;
            string(reader)
        }
        LOCALIZED_TEXT => {
            let place = reader.position();
            let mask = reader.u8()?;
            if mask > 3 {
                return Err(Number::NotPermitted.at(place));
            }
            (0..mask.count_ones()).try_for_each(|_| string(reader))
        }
        _ => string(reader),
    }
}

/// A length and so many bytes.
fn string(reader: &mut Reader) -> Result<()> {
    if let Some(length) = reader.length()? {
        reader.take(length)?;
    }
    Ok(())
}

/// A DataValue with `levels` levels left.
pub fn data_value(reader: &mut Reader, levels: u32) -> Result<()> {
    let place = reader.position();
    let mask = first_byte(reader, levels)?;
    if mask & 0xc0 != 0 {
        return Err(Number::NotPermitted.at(place));
    }
    if mask & 1 != 0 {
        variant(reader, levels - 1)?;
    }
    for (flag, width) in [(2, 4), (4, 8), (16, 2), (8, 8), (32, 2)] {
        if mask & flag != 0 {
            reader.take(width)?;
        }
    }
    Ok(())
}
