//! Chunk payloads: read and cut.
use super::wire::{Reader, Writer};
use super::{Number, Result};

/// The longest payload that is sent in chunks.
pub const LONGEST_PAYLOAD: usize = 16_384;

/// A chunk: a part of a payload at its offset.
#[derive(Clone, Copy, Debug, PartialEq, Eq)]
pub struct Chunk<'a> {
    pub number: u16,
    pub offset: usize,
    pub total: u32,
    pub data: &'a [u8],
}

/// Reads the chunk payload that starts at a byte of the datagram.
pub fn read(datagram: &[u8], start: usize) -> Result<Chunk<'_>> {
    let mut reader = Reader::starting_at(datagram, start);
    let number = reader.u16()?;
    let offset = reader.u32()? as usize;
    let total = total_size(&mut reader)?;
    let place = reader.position();
    let length = reader.length()?.unwrap_or(0);
    if length == 0 || offset + length > total as usize {
        return Err(Number::Disagree.at(place));
    }
    let data = reader.take(length)?;
    if !reader.rest().is_empty() {
        return Err(Number::LeftOver.at(reader.position()));
    }
    Ok(Chunk { number, offset, total, data })
}

fn total_size(reader: &mut Reader) -> Result<u32> {
    let place = reader.position();
    match reader.u32()? {
        0 => Err(Number::Disagree.at(place)),
        total if total as usize > LONGEST_PAYLOAD => Err(Number::OverLimit.nowhere()),
        total => Ok(total),
    }
}

/// Writes chunk k of a payload that is cut into parts of `size` bytes; the number of bytes written.
pub fn cut(payload: &[u8], number: u16, size: u64, k: u64, out: &mut [u8]) -> Result<usize> {
    if size == 0 || payload.is_empty() {
        return Err(Number::Disagree.nowhere());
    }
    let offset = k.checked_mul(size).and_then(|offset| usize::try_from(offset).ok());
    let offset = offset.filter(|offset| *offset < payload.len() && payload.len() <= LONGEST_PAYLOAD);
    let offset = offset.ok_or(Number::OverLimit.nowhere())?;
    let rest = &payload[offset..];
    let data = &rest[..rest.len().min(usize::try_from(size).unwrap_or(usize::MAX))];
    let mut writer = Writer::of_length(out, 14 + data.len())?;
    writer.put(&number.to_le_bytes());
    writer.put(&(offset as u32).to_le_bytes());
    writer.put(&(payload.len() as u32).to_le_bytes());
    writer.put(&(data.len() as u32).to_le_bytes());
    writer.put(data);
    Ok(writer.written())
}
