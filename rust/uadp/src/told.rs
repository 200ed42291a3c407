//! A value told apart: what it is, its bytes, and through a DataValue its Variant, status and times.
use crate::ffi::{self, VALUE_SIZE};
use crate::record::{number, place, told};
use crate::{Encoding, Refusal, Shape, Type};
use core::fmt;

/// A name qualified by a namespace.
#[derive(Clone, Copy, Debug, PartialEq, Eq)]
pub struct QualifiedName<'a> {
    /// The index of its namespace.
    pub namespace_index: u16,
    /// The name's bytes; `None` where it is null.
    pub name: Option<&'a [u8]>,
}

/// A text with its locale.
#[derive(Clone, Copy, Debug, PartialEq, Eq)]
pub struct LocalizedText<'a> {
    /// The locale's bytes; `None` where it is absent or null.
    pub locale: Option<&'a [u8]>,
    /// The text's bytes; `None` where it is absent or null.
    pub text: Option<&'a [u8]>,
}

/// A value told apart, over the bytes that it stands in. Nothing is copied, and no bit is touched: a Float is its four bytes.
///
/// ```
/// use uadp::{Encoding, Shape, Type, Value};
///
/// let bytes = [0x8A, 2, 0, 0, 0, 0, 0, 0, 0x3F, 0, 0, 0x80, 0x3F]; // a Variant: two Floats
/// let value = Value::read(&bytes, Encoding::Variant, Type::NULL)?;
/// assert_eq!((value.value_type(), value.shape()), (Type::FLOAT, Shape::Array(2)));
/// let floats: Vec<f32> = value.elements::<4>().map(f32::from_le_bytes).collect();
/// assert_eq!(floats, [0.5, 1.0]);
/// # Ok::<(), uadp::Refusal>(())
/// ```
#[derive(Clone, Copy)]
pub struct Value<'a> {
    bytes: &'a [u8],
    record: [u8; VALUE_SIZE],
}

impl<'a> Value<'a> {
    /// Tells the value at the start of the bytes apart, by the encoding of its message; the type is the element's in RawData, and
    /// plays no part in the others.
    ///
    /// # Errors
    ///
    /// What reading a message refuses of such a field.
    pub fn read(bytes: &'a [u8], encoding: Encoding, element: Type) -> Result<Self, Refusal> {
        Self::read_at(bytes, 0, encoding, element)
    }

    /// The same at an offset, as that of an element of an array of Variants: the first stands at [`first`](Self::first), each next
    /// one at the [`end`](Self::end) of the last.
    ///
    /// # Errors
    ///
    /// As [`read`](Self::read).
    pub fn read_at(bytes: &'a [u8], offset: usize, encoding: Encoding, element: Type) -> Result<Self, Refusal> {
        let mut record = [0; VALUE_SIZE];
        let (encoding, kind) = (encoding.number() as u32, u32::from(element.number()));
        ffi::value(bytes, offset as u64, encoding, kind, &mut record).into_result()?;
        Ok(Self { bytes, record })
    }

    /// Its type; of a DataValue that of its Variant, [`Type::NULL`] where it has none.
    pub fn value_type(&self) -> Type {
        Type::from_number(number(&self.record, told::TYPE) as u8)
    }

    /// Whether it is an array.
    pub fn shape(&self) -> Shape {
        Shape::of(&self.record, told::SHAPE, told::ELEMENTS)
    }

    /// Whether it is a null Variant, String, ByteString or array, or a DataValue without a Variant.
    pub fn is_null(&self) -> bool {
        number(&self.record, told::NULL) != 0
    }

    /// How many bytes it, or each of its elements, has where its type has a fixed width.
    pub fn width(&self) -> Option<usize> {
        Some(place(&self.record, told::WIDTH)).filter(|width| *width > 0)
    }

    /// Where the value itself starts: its bytes, an array's first element, a String's first byte.
    pub fn first(&self) -> usize {
        place(&self.record, told::FIRST)
    }

    /// Where the whole value ends.
    pub fn end(&self) -> usize {
        place(&self.record, told::END)
    }

    /// The value's own bytes: of an array its elements', of a String or ByteString its content.
    pub fn bytes(&self) -> &'a [u8] {
        &self.bytes[self.first()..][..place(&self.record, told::LENGTH)]
    }

    fn scalar<const N: usize>(&self, types: &[Type]) -> Option<[u8; N]> {
        let fits = self.shape() == Shape::Scalar && types.contains(&self.value_type());
        fits.then(|| self.bytes().first_chunk().copied()).flatten()
    }

    /// A Boolean; any byte but 0 is true.
    pub fn as_bool(&self) -> Option<bool> {
        self.scalar(&[Type::BOOLEAN]).map(|[byte]| byte != 0)
    }

    /// An SByte.
    pub fn as_i8(&self) -> Option<i8> {
        self.scalar(&[Type::SBYTE]).map(i8::from_le_bytes)
    }

    /// A Byte.
    pub fn as_u8(&self) -> Option<u8> {
        self.scalar(&[Type::BYTE]).map(u8::from_le_bytes)
    }

    /// An Int16.
    pub fn as_i16(&self) -> Option<i16> {
        self.scalar(&[Type::INT16]).map(i16::from_le_bytes)
    }

    /// A UInt16.
    pub fn as_u16(&self) -> Option<u16> {
        self.scalar(&[Type::UINT16]).map(u16::from_le_bytes)
    }

    /// An Int32.
    pub fn as_i32(&self) -> Option<i32> {
        self.scalar(&[Type::INT32]).map(i32::from_le_bytes)
    }

    /// A UInt32 or StatusCode.
    pub fn as_u32(&self) -> Option<u32> {
        self.scalar(&[Type::UINT32, Type::STATUS_CODE]).map(u32::from_le_bytes)
    }

    /// An Int64 or DateTime.
    pub fn as_i64(&self) -> Option<i64> {
        self.scalar(&[Type::INT64, Type::DATE_TIME]).map(i64::from_le_bytes)
    }

    /// A UInt64.
    pub fn as_u64(&self) -> Option<u64> {
        self.scalar(&[Type::UINT64]).map(u64::from_le_bytes)
    }

    /// A Float's bits, for `f32::from_bits`.
    pub fn as_f32_bits(&self) -> Option<u32> {
        self.scalar(&[Type::FLOAT]).map(u32::from_le_bytes)
    }

    /// A Double's bits, for `f64::from_bits`.
    pub fn as_f64_bits(&self) -> Option<u64> {
        self.scalar(&[Type::DOUBLE]).map(u64::from_le_bytes)
    }

    /// A Guid's bytes.
    pub fn as_guid(&self) -> Option<[u8; 16]> {
        self.scalar(&[Type::GUID])
    }

    /// The content of a String or ByteString that is not null.
    pub fn as_text(&self) -> Option<&'a [u8]> {
        let text = [Type::STRING, Type::BYTE_STRING].contains(&self.value_type());
        (text && self.shape() == Shape::Scalar && !self.is_null()).then(|| self.bytes())
    }

    /// The elements of an array of a fixed type, or a scalar as one, each N bytes wide; none where their width is another.
    pub fn elements<const N: usize>(&self) -> impl ExactSizeIterator<Item = [u8; N]> + 'a {
        let bytes = if self.width() == Some(N) { self.bytes() } else { &[] };
        bytes.chunks_exact(N.max(1)).map(|element| *element.first_chunk().unwrap_or(&[0; N]))
    }

    /// How many dimensions it has: 0 for a scalar, 1 for a plain array.
    pub fn dimensions(&self) -> usize {
        place(&self.record, told::DIMENSIONS)
    }

    /// Each dimension of an array; that of a plain array is its number of elements, and a null array's is 0.
    ///
    /// ```
    /// use uadp::{Encoding, Type, Value};
    ///
    /// let bytes = [0xC3, 6, 0, 0, 0, 1, 2, 3, 4, 5, 6, 2, 0, 0, 0, 2, 0, 0, 0, 3, 0, 0, 0]; // two rows of three Bytes
    /// let value = Value::read(&bytes, Encoding::Variant, Type::NULL)?;
    /// assert_eq!(value.sizes().collect::<Vec<_>>(), [2, 3]);
    /// assert_eq!(value.bytes(), [1, 2, 3, 4, 5, 6]);
    /// # Ok::<(), uadp::Refusal>(())
    /// ```
    pub fn sizes(&self) -> impl Iterator<Item = usize> + 'a {
        let (bytes, listed) = (self.bytes, place(&self.record, told::SIZES));
        let elements = place(&self.record, told::ELEMENTS);
        (0..self.dimensions()).map(move |k| match listed {
            0 => elements,
            _ => bytes[listed + 4 * k..].first_chunk().map_or(0, |size| u32::from_le_bytes(*size) as usize),
        })
    }

    fn string(&self, place_at: usize, length_at: usize) -> Option<&'a [u8]> {
        let start = Some(place(&self.record, place_at)).filter(|start| *start > 0)?;
        self.bytes.get(start..)?.get(..place(&self.record, length_at))
    }

    fn is_scalar(&self, kind: Type) -> bool {
        self.shape() == Shape::Scalar && self.value_type() == kind
    }

    /// A QualifiedName.
    pub fn as_qualified_name(&self) -> Option<QualifiedName<'a>> {
        self.is_scalar(Type::QUALIFIED_NAME).then(|| QualifiedName {
            namespace_index: number(&self.record, told::NAME) as u16,
            name: self.string(told::TEXT, told::TEXT_LENGTH),
        })
    }

    /// A LocalizedText.
    pub fn as_localized_text(&self) -> Option<LocalizedText<'a>> {
        self.is_scalar(Type::LOCALIZED_TEXT).then(|| LocalizedText {
            locale: self.string(told::LOCALE, told::LOCALE_LENGTH),
            text: self.string(told::TEXT, told::TEXT_LENGTH),
        })
    }

    /// Element k of an array of Strings, ByteStrings, QualifiedNames or LocalizedTexts; the elements before it are passed over.
    pub fn text(&self, k: usize) -> Option<Self> {
        let (Shape::Array(count), kind) = (self.shape(), self.value_type()) else { return None };
        if ![Type::STRING, Type::BYTE_STRING, Type::QUALIFIED_NAME, Type::LOCALIZED_TEXT].contains(&kind) {
            return None;
        }
        let (mut record, first) = ([0; VALUE_SIZE], self.first() as u64);
        ffi::element(self.bytes, first, kind.number().into(), count as u64, k as u64, &mut record).into_result().ok()?;
        Some(Self { bytes: self.bytes, record })
    }

    fn part<const N: usize>(&self, i: usize) -> Option<[u8; N]> {
        let place = Some(place(&self.record, i)).filter(|place| *place > 0)?;
        self.bytes.get(place..)?.first_chunk().copied()
    }

    /// A DataValue's status.
    pub fn status(&self) -> Option<u32> {
        self.part(told::STATUS).map(u32::from_le_bytes)
    }

    /// A DataValue's source time: steps of 100 ns since 1601.
    pub fn source_time(&self) -> Option<i64> {
        self.part(told::SOURCE_TIME).map(i64::from_le_bytes)
    }

    /// A DataValue's source picoseconds, in steps of 10 ps.
    pub fn source_picoseconds(&self) -> Option<u16> {
        self.part(told::SOURCE_PICOSECONDS).map(u16::from_le_bytes)
    }

    /// A DataValue's server time: steps of 100 ns since 1601.
    pub fn server_time(&self) -> Option<i64> {
        self.part(told::SERVER_TIME).map(i64::from_le_bytes)
    }

    /// A DataValue's server picoseconds, in steps of 10 ps.
    pub fn server_picoseconds(&self) -> Option<u16> {
        self.part(told::SERVER_PICOSECONDS).map(u16::from_le_bytes)
    }
}

impl fmt::Debug for Value<'_> {
    fn fmt(&self, f: &mut fmt::Formatter<'_>) -> fmt::Result {
        f.debug_struct("Value")
            .field("type", &self.value_type())
            .field("shape", &self.shape())
            .field("null", &self.is_null())
            .field("bytes", &self.bytes())
            .finish_non_exhaustive()
    }
}
