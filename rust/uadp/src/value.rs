//! Values: their types and shapes, and a run of encoded values to be written.
use crate::record::number;
use crate::{ffi, Reason, Refusal};
use core::fmt;

/// A value's type number, as in OPC UA Part 6.
#[derive(Clone, Copy, PartialEq, Eq, PartialOrd, Ord, Hash)]
pub struct Type(u8);

/// The types with their names.
const NAMES: [(Type, &str); 21] = [
    (Type::NULL, "Null"),
    (Type::BOOLEAN, "Boolean"),
    (Type::SBYTE, "SByte"),
    (Type::BYTE, "Byte"),
    (Type::INT16, "Int16"),
    (Type::UINT16, "UInt16"),
    (Type::INT32, "Int32"),
    (Type::UINT32, "UInt32"),
    (Type::INT64, "Int64"),
    (Type::UINT64, "UInt64"),
    (Type::FLOAT, "Float"),
    (Type::DOUBLE, "Double"),
    (Type::STRING, "String"),
    (Type::DATE_TIME, "DateTime"),
    (Type::GUID, "Guid"),
    (Type::BYTE_STRING, "ByteString"),
    (Type::STATUS_CODE, "StatusCode"),
    (Type::QUALIFIED_NAME, "QualifiedName"),
    (Type::LOCALIZED_TEXT, "LocalizedText"),
    (Type::DATA_VALUE, "DataValue"),
    (Type::VARIANT, "Variant"),
];

impl Type {
    /// A null Variant.
    pub const NULL: Self = Self(0);
    /// 1 byte.
    pub const BOOLEAN: Self = Self(1);
    /// 1 byte.
    pub const SBYTE: Self = Self(2);
    /// 1 byte.
    pub const BYTE: Self = Self(3);
    /// 2 bytes.
    pub const INT16: Self = Self(4);
    /// 2 bytes.
    pub const UINT16: Self = Self(5);
    /// 4 bytes.
    pub const INT32: Self = Self(6);
    /// 4 bytes.
    pub const UINT32: Self = Self(7);
    /// 8 bytes.
    pub const INT64: Self = Self(8);
    /// 8 bytes.
    pub const UINT64: Self = Self(9);
    /// 4 bytes.
    pub const FLOAT: Self = Self(10);
    /// 8 bytes.
    pub const DOUBLE: Self = Self(11);
    /// A length and that many bytes.
    pub const STRING: Self = Self(12);
    /// 8 bytes.
    pub const DATE_TIME: Self = Self(13);
    /// 16 bytes.
    pub const GUID: Self = Self(14);
    /// A length and that many bytes.
    pub const BYTE_STRING: Self = Self(15);
    /// 4 bytes.
    pub const STATUS_CODE: Self = Self(19);
    /// A namespace index and a name.
    pub const QUALIFIED_NAME: Self = Self(20);
    /// A text with its locale, either of which may be absent.
    pub const LOCALIZED_TEXT: Self = Self(21);
    /// A value with status and times; every field of a message in DataValue encoding.
    pub const DATA_VALUE: Self = Self(23);
    /// Only in arrays.
    pub const VARIANT: Self = Self(24);

    /// The type of a number.
    pub const fn from_number(number: u8) -> Self {
        Self(number)
    }

    /// Its number.
    pub const fn number(self) -> u8 {
        self.0
    }

    /// Its name in Part 6; `None` for a type that is not taken.
    pub fn name(self) -> Option<&'static str> {
        NAMES.iter().find(|(named, _)| *named == self).map(|(_, name)| *name)
    }
}

impl fmt::Debug for Type {
    fn fmt(&self, f: &mut fmt::Formatter<'_>) -> fmt::Result {
        match self.name() {
            Some(name) => f.write_str(name),
            None => write!(f, "Type({})", self.0),
        }
    }
}

impl fmt::Display for Type {
    fn fmt(&self, f: &mut fmt::Formatter<'_>) -> fmt::Result {
        match self.name() {
            Some(name) => f.pad(name),
            None => write!(f, "type {}", self.0),
        }
    }
}

/// Whether a value is one or an array.
#[derive(Clone, Copy, Debug, PartialEq, Eq, Hash)]
pub enum Shape {
    /// One value.
    Scalar,
    /// An array that is null.
    NullArray,
    /// An array of so many elements, in all its dimensions together.
    Array(usize),
}

impl Shape {
    /// The shape that two numbers of a record tell, the second of which is the number of elements.
    pub(crate) fn of(record: &[u8], shape: usize, elements: usize) -> Self {
        match number(record, shape) {
            1 => Self::NullArray,
            2 => Self::Array(number(record, elements) as usize),
            _ => Self::Scalar,
        }
    }
}

/// Encoded values one after the other in lent areas, as a message is written from them.
///
/// ```
/// use uadp::{Type, Values};
///
/// let (mut bytes, mut lengths) = ([0; 64], [0; 8]);
/// let mut values = Values::new(&mut bytes, &mut lengths);
/// values.push_scalar(Type::UINT16, &3u16.to_le_bytes())?;
/// values.push(&[5, 4, 0])?; // the same as it is encoded: UInt16, 4
/// assert_eq!((values.bytes(), values.lengths()), (&[5, 3, 0, 5, 4, 0][..], &[3, 3][..]));
///
/// values.clear();
/// values.push_matrix(Type::BYTE, &[1, 2], &[8, 9])?; // one row of two
/// values.push_qualified_name(7, b"x")?;
/// values.push_localized_text(None, Some(b"y"))?;
/// assert_eq!(values.lengths(), [19, 8, 7]);
/// assert_eq!(values.bytes()[19..], [20, 7, 0, 1, 0, 0, 0, b'x', 21, 2, 1, 0, 0, 0, b'y']);
/// # Ok::<(), uadp::Refusal>(())
/// ```
#[derive(Debug)]
pub struct Values<'b> {
    bytes: &'b mut [u8],
    lengths: &'b mut [usize],
    used: usize,
    count: usize,
}

impl<'b> Values<'b> {
    /// None yet, with room in these areas: for the values' bytes, and for the length of each.
    pub fn new(bytes: &'b mut [u8], lengths: &'b mut [usize]) -> Self {
        Self { bytes, lengths, used: 0, count: 0 }
    }

    /// Adds a value as it is encoded: a Variant, a DataValue or the element of RawData, by the message's encoding. What the bytes
    /// hold is judged when the message is written.
    ///
    /// # Errors
    ///
    /// [`NoRoom`](Reason::NoRoom) in either area.
    pub fn push(&mut self, value: &[u8]) -> Result<(), Refusal> {
        let no_room = Refusal { reason: Reason::NoRoom, place: 0 };
        let room = self.bytes.get_mut(self.used..).and_then(|rest| rest.get_mut(..value.len())).ok_or(no_room)?;
        let length = self.lengths.get_mut(self.count).ok_or(no_room)?;
        room.copy_from_slice(value);
        *length = value.len();
        self.used += value.len();
        self.count += 1;
        Ok(())
    }

    /// Adds a Variant: a scalar of a fixed type, a String or a ByteString, by its own bytes as they are to stand.
    ///
    /// # Errors
    ///
    /// [`NotPermitted`](Reason::NotPermitted), [`NotTaken`](Reason::NotTaken) for other types, [`Disagree`](Reason::Disagree) for
    /// another number of bytes than the type's, [`NoRoom`](Reason::NoRoom).
    pub fn push_scalar(&mut self, value_type: Type, bytes: &[u8]) -> Result<(), Refusal> {
        self.put(value_type, 0, false, bytes)
    }

    /// Adds a Variant: an array of a fixed type, by the bytes of its elements.
    ///
    /// # Errors
    ///
    /// As [`push_scalar`](Self::push_scalar); [`Disagree`](Reason::Disagree) for bytes that are not whole elements.
    pub fn push_array(&mut self, value_type: Type, bytes: &[u8]) -> Result<(), Refusal> {
        self.put(value_type, 2, false, bytes)
    }

    /// Adds a null Variant ([`Type::NULL`]), String or ByteString.
    ///
    /// # Errors
    ///
    /// As [`push_scalar`](Self::push_scalar).
    pub fn push_null(&mut self, value_type: Type) -> Result<(), Refusal> {
        self.put(value_type, 0, true, &[])
    }

    /// Adds a null array of a fixed type.
    ///
    /// # Errors
    ///
    /// As [`push_scalar`](Self::push_scalar).
    pub fn push_null_array(&mut self, value_type: Type) -> Result<(), Refusal> {
        self.put(value_type, 1, true, &[])
    }

    /// Adds a Variant: an array of a fixed type with dimensions, by the length of each and the bytes of its elements, the last
    /// dimension's index rising first.
    ///
    /// # Errors
    ///
    /// As [`push_array`](Self::push_array); [`BadLength`](Reason::BadLength) for no dimension or one below 1,
    /// [`Disagree`](Reason::Disagree) for dimensions whose product is not the number of elements.
    pub fn push_matrix(&mut self, value_type: Type, sizes: &[i32], bytes: &[u8]) -> Result<(), Refusal> {
        self.put_by(|room| ffi::put_matrix(value_type.number().into(), ffi::bytes_of_sizes(sizes), bytes, room))
    }

    /// Adds a Variant: a QualifiedName.
    ///
    /// # Errors
    ///
    /// [`OverLimit`](Reason::OverLimit), [`NoRoom`](Reason::NoRoom).
    pub fn push_qualified_name(&mut self, index: u16, name: &[u8]) -> Result<(), Refusal> {
        self.put_by(|room| ffi::put_name(Type::QUALIFIED_NAME.number().into(), index.into(), &[], name, room))
    }

    /// Adds a Variant: a LocalizedText, with a locale and a text where they are given.
    ///
    /// # Errors
    ///
    /// As [`push_qualified_name`](Self::push_qualified_name).
    pub fn push_localized_text(&mut self, locale: Option<&[u8]>, text: Option<&[u8]>) -> Result<(), Refusal> {
        let mask = u32::from(locale.is_some()) + 2 * u32::from(text.is_some());
        let (locale, text) = (locale.unwrap_or_default(), text.unwrap_or_default());
        self.put_by(|room| ffi::put_name(Type::LOCALIZED_TEXT.number().into(), mask, locale, text, room))
    }

    fn put(&mut self, value_type: Type, shape: u32, null: bool, bytes: &[u8]) -> Result<(), Refusal> {
        self.put_by(|room| ffi::put_value(value_type.number().into(), shape, null.into(), bytes, room))
    }

    fn put_by(&mut self, put: impl FnOnce(&mut [u8]) -> ffi::Answer) -> Result<(), Refusal> {
        let no_room = Refusal { reason: Reason::NoRoom, place: 0 };
        let room = &mut self.bytes[self.used..];
        let length = self.lengths.get_mut(self.count).ok_or(no_room)?;
        let put = put(room).into_result()?;
        *length = put as usize;
        self.used += put as usize;
        self.count += 1;
        Ok(())
    }

    /// Takes all values away.
    pub fn clear(&mut self) {
        (self.used, self.count) = (0, 0);
    }

    /// The values' bytes.
    pub fn bytes(&self) -> &[u8] {
        &self.bytes[..self.used]
    }

    /// How long each value is.
    pub fn lengths(&self) -> &[usize] {
        &self.lengths[..self.count]
    }
}
