//! The Publisher information probe (document 02, Req 01).
use super::wire::{Reader, Writer};
use super::{Number, Refusal, Result};
use std::ops::RangeInclusive;

/// InformationTypes.
pub const META_DATA: u8 = 2;
pub const WRITERS: u8 = 3;
pub const GROUP: u8 = 4;
pub const CONNECTIONS: u8 = 5;

/// What a probe asks for; what its InformationType doesn't have is 0.
#[derive(Clone, Copy, Debug, Default, PartialEq, Eq)]
pub struct Probe {
    pub information: u8,
    /// The list is null.
    pub null: bool,
    /// How many ids or strings are listed.
    pub count: usize,
    /// Where the first of them stands.
    pub list: usize,
    pub group: u16,
    /// The Booleans' bytes.
    pub writer_groups: u8,
    pub data_set_writers: u8,
}

/// An id or a string of the list.
#[derive(Clone, Copy, Debug, PartialEq, Eq)]
pub struct Item {
    /// Where its bytes stand, a string's without its length.
    pub offset: usize,
    pub length: usize,
    /// An id's number; 1 for a null string, else 0.
    pub value: u16,
}

/// Reads a probe that takes the rest.
pub fn read(reader: &mut Reader) -> Result<Probe> {
    type_byte(reader, 1..=1, 2)?;
    let information = type_byte(reader, META_DATA..=CONNECTIONS, 1)?;
    let mut probe = Probe { information, ..Probe::default() };
    if information == GROUP {
        probe.group = reader.u16()?;
    } else {
        let count = reader.length()?;
        (probe.null, probe.count, probe.list) = (count.is_none(), count.unwrap_or(0), reader.position());
        pass(reader, information, probe.count)?;
    }
    if information == CONNECTIONS {
        probe.writer_groups = reader.u8()?;
    }
    if information >= GROUP {
        probe.data_set_writers = reader.u8()?;
    }
    match reader.rest() {
        [] => Ok(probe),
        _ => Err(Number::LeftOver.at(reader.position())),
    }
}

/// A type byte: one that is taken; the one that is defined and not taken is 4, any other 3.
fn type_byte(reader: &mut Reader, taken: RangeInclusive<u8>, not_taken: u8) -> Result<u8> {
    let place = reader.position();
    match reader.u8()? {
        number if taken.contains(&number) => Ok(number),
        number if number == not_taken => Err(Number::NotTaken.at(place)),
        _ => Err(Number::NotPermitted.at(place)),
    }
}

/// Passes a list: ids are one item, strings are items one by one.
fn pass(reader: &mut Reader, information: u8, count: usize) -> Result<()> {
    if information != CONNECTIONS {
        return reader.take(2 * count).map(drop);
    }
    (0..count).try_for_each(|_| string(reader).map(drop))
}

fn string(reader: &mut Reader) -> Result<Item> {
    let length = reader.length()?;
    let offset = reader.position();
    reader.take(length.unwrap_or(0))?;
    Ok(Item { offset, length: length.unwrap_or(0), value: length.is_none().into() })
}

/// The item at a position of a list of so many, and where the next one stands; any numbers have an answer.
pub fn item(bytes: &[u8], information: u8, count: usize, number: usize, at: usize) -> Result<(Item, usize)> {
    if !matches!(information, META_DATA | WRITERS | CONNECTIONS) || number >= count {
        return Err(Number::OverLimit.nowhere());
    }
    let mut reader = Reader::starting_at(bytes, at);
    if information == CONNECTIONS {
        return string(&mut reader).map(|item| (item, reader.position()));
    }
    let value = reader.u16()?;
    Ok((Item { offset: at, length: 2, value }, reader.position()))
}

/// A probe to be written.
#[derive(Clone, Copy, Debug)]
pub struct Parts<'a> {
    pub probe: Probe,
    /// Ids of 2 bytes, or strings each after its length.
    pub list: &'a [u8],
    /// Each number that the caller handed over fits its item; one that does not stands here as the largest that does.
    pub all_fit: bool,
}

const DISAGREE: Refusal = Number::Disagree.nowhere();

/// Writes a probe; the number of bytes written.
pub fn write(parts: &Parts, out: &mut [u8]) -> Result<usize> {
    let Parts { probe, list, all_fit } = *parts;
    let information = type_byte(&mut Reader::new(&[probe.information]), META_DATA..=CONNECTIONS, 1)
        .map_err(|refusal| refusal.number.nowhere())?;
    let count = if probe.null { 0 } else { probe.count };
    if information == CONNECTIONS {
        pass(&mut Reader::new(list), information, count.min(list.len() + 1)).map_err(|refusal| refusal.number.nowhere())?;
    }
    if !all_fit || list_length(information, list, count) != Some(list.len()) {
        return Err(DISAGREE);
    }
    let booleans = usize::from(information).saturating_sub(3);
    let length = 2 + if information == GROUP { 2 } else { 4 + list.len() } + booleans;
    let mut writer = Writer::of_length(out, length)?;
    writer.put(&[1, information]);
    if information == GROUP {
        writer.put(&probe.group.to_le_bytes());
    } else {
        let count = if probe.null { -1 } else { count as i32 };
        writer.put(&count.to_le_bytes());
        writer.put(list);
    }
    let booleans = &[probe.writer_groups, probe.data_set_writers][2 - booleans..];
    writer.put(booleans);
    Ok(writer.written())
}

/// How long a list of so many is; none where it does not fit.
fn list_length(information: u8, list: &[u8], count: usize) -> Option<usize> {
    match information {
        GROUP => Some(0),
        CONNECTIONS => {
            let mut reader = Reader::new(list);
            pass(&mut reader, information, count).ok().map(|()| reader.position())
        }
        _ => count.checked_mul(2),
    }
}
