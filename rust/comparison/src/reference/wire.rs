//! Little-endian items, read left to right.
use super::{Number, Result};

/// A position in lent bytes. Each item that does not fit is refused with 1 at its first byte.
#[derive(Clone, Copy, Debug)]
pub struct Reader<'a> {
    bytes: &'a [u8],
    at: usize,
    /// Where the first hole starts; an item that reaches it ends the reading.
    front: usize,
}

impl<'a> Reader<'a> {
    pub const fn new(bytes: &'a [u8]) -> Self {
        Self::starting_at(bytes, 0)
    }

    pub const fn starting_at(bytes: &'a [u8], at: usize) -> Self {
        Self { bytes, at, front: usize::MAX }
    }

    /// Of bytes that have their first hole at a position.
    pub const fn up_to(bytes: &'a [u8], front: usize) -> Self {
        Self { bytes, at: 0, front }
    }

    pub const fn position(&self) -> usize {
        self.at
    }

    /// What is left.
    pub fn rest(&self) -> &'a [u8] {
        self.bytes.get(self.at..).unwrap_or(&[])
    }

    /// What is left before the first hole.
    pub fn covered_rest(&self) -> &'a [u8] {
        self.bytes.get(self.at..self.front).unwrap_or(&[])
    }

    /// An item that fits; it must not reach the hole.
    fn pass(&mut self, length: usize) -> Result<()> {
        if self.at + length > self.front {
            return Err(Number::Hole.at(self.at));
        }
        self.at += length;
        Ok(())
    }

    pub fn take(&mut self, length: usize) -> Result<&'a [u8]> {
        let item = self.rest().get(..length).ok_or(Number::CutShort.at(self.at))?;
        self.pass(length).map(|()| item)
    }

    pub fn array<const N: usize>(&mut self) -> Result<[u8; N]> {
        let item = self.rest().first_chunk().ok_or(Number::CutShort.at(self.at))?;
        self.pass(N).map(|()| *item)
    }

    pub fn u8(&mut self) -> Result<u8> {
        self.array().map(|[byte]| byte)
    }

    pub fn u16(&mut self) -> Result<u16> {
        self.array().map(u16::from_le_bytes)
    }

    pub fn u32(&mut self) -> Result<u32> {
        self.array().map(u32::from_le_bytes)
    }

    pub fn u64(&mut self) -> Result<u64> {
        self.array().map(u64::from_le_bytes)
    }

    pub fn i64(&mut self) -> Result<i64> {
        self.array().map(i64::from_le_bytes)
    }

    /// A length of 32 bits: none for -1, refused with 5 below.
    pub fn length(&mut self) -> Result<Option<usize>> {
        let place = self.at;
        let length = self.array().map(i32::from_le_bytes)?;
        if length == -1 {
            return Ok(None);
        }
        usize::try_from(length).map(Some).map_err(|_| Number::BadLength.at(place))
    }

    /// An item that a flag announces.
    pub fn when<T>(&mut self, flag: bool, read: impl FnOnce(&mut Self) -> Result<T>) -> Result<Option<T>> {
        flag.then(|| read(self)).transpose()
    }

    /// PicoSeconds: 10,000 and more reads as 9,999.
    pub fn picoseconds(&mut self) -> Result<u16> {
        Ok(self.u16()?.min(super::PICOSECONDS_END - 1))
    }
}

/// The numbers of 2 bytes in a list.
pub fn pairs(list: &[u8]) -> impl ExactSizeIterator<Item = u16> + '_ {
    list.chunks_exact(2).map(|pair| u16::from_le_bytes([pair[0], pair[1]]))
}

/// The k-th number of 2 bytes in a list.
pub fn pair(list: &[u8], k: usize) -> Option<u16> {
    let start = k.checked_mul(2)?;
    list.get(start..)?.first_chunk().map(|pair| u16::from_le_bytes(*pair))
}

/// Bytes put one after the other into a lent buffer that is long enough.
#[derive(Debug)]
pub struct Writer<'a> {
    buffer: &'a mut [u8],
    at: usize,
}

impl<'a> Writer<'a> {
    /// A writer of so many bytes at the buffer's start; 10 above the longest datagram, 11 without room.
    pub fn of_length(buffer: &'a mut [u8], length: usize) -> Result<Self> {
        if length > super::LONGEST_DATAGRAM {
            return Err(Number::OverLimit.nowhere());
        }
        let buffer = buffer.get_mut(..length).ok_or(Number::NoRoom.nowhere())?;
        Ok(Self { buffer, at: 0 })
    }

    /// A writer of the whole buffer.
    pub fn over(buffer: &'a mut [u8]) -> Self {
        Self { buffer, at: 0 }
    }

    pub fn put(&mut self, bytes: &[u8]) {
        self.buffer[self.at..][..bytes.len()].copy_from_slice(bytes);
        self.at += bytes.len();
    }

    pub fn put_zeros(&mut self, count: usize) {
        self.buffer[self.at..][..count].fill(0);
        self.at += count;
    }

    pub const fn written(&self) -> usize {
        self.at
    }
}
