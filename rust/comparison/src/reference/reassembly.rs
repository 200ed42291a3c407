//! Partials: payloads put together from chunks in lent areas.
use super::config::Config;
use super::network::{self, PayloadHeader, PublisherId, LONGEST_ID};
use super::{chunk, Number, Result};

/// A PublisherId kept by value.
#[derive(Clone, Copy, Debug)]
pub enum KeptId {
    Absent,
    Byte(u8),
    UInt16(u16),
    UInt32(u32),
    UInt64(u64),
    /// The string's length and its bytes; a length above 64 is unsound.
    String(u64, [u8; LONGEST_ID]),
}

impl PartialEq for KeptId {
    fn eq(&self, other: &Self) -> bool {
        match (self, other) {
            (Self::Absent, Self::Absent) => true,
            (Self::Byte(a), Self::Byte(b)) => a == b,
            (Self::UInt16(a), Self::UInt16(b)) => a == b,
            (Self::UInt32(a), Self::UInt32(b)) => a == b,
            (Self::UInt64(a), Self::UInt64(b)) => a == b,
            (Self::String(a, left), Self::String(b, right)) => {
                let length = (*a as usize).min(LONGEST_ID);
                a == b && left[..length] == right[..length]
            }
            _ => false,
        }
    }
}

impl From<Option<PublisherId<'_>>> for KeptId {
    fn from(id: Option<PublisherId>) -> Self {
        match id {
            None => Self::Absent,
            Some(PublisherId::Byte(id)) => Self::Byte(id),
            Some(PublisherId::UInt16(id)) => Self::UInt16(id),
            Some(PublisherId::UInt32(id)) => Self::UInt32(id),
            Some(PublisherId::UInt64(id)) => Self::UInt64(id),
            Some(PublisherId::String(id)) => {
                let mut bytes = [0; LONGEST_ID];
                bytes[..id.len()].copy_from_slice(id);
                Self::String(id.len() as u64, bytes)
            }
        }
    }
}

/// Which message a started partial holds.
#[derive(Clone, Copy, Debug, PartialEq)]
pub struct Record {
    pub publisher: KeptId,
    /// The WriterGroupId; none without a group header, or without one in it.
    pub group: Option<u16>,
    pub writer: u16,
    pub number: u16,
    pub total: u64,
    /// How many bytes are covered, if the caller did not make it up.
    pub covered: u64,
}

impl Record {
    /// The message's record with nothing covered: what makes it this message.
    fn message(&self) -> Self {
        Self { covered: 0, ..*self }
    }
}

/// Whether a byte is covered: its bit is set, eight to a byte, the lowest position in the lowest bit.
pub(crate) fn marked(marks: &[u8], at: usize) -> bool {
    (marks[at / 8] >> (at % 8)) & 1 == 1
}

/// A partial that is only looked at; its record is none if not started.
#[derive(Clone, Copy, Debug)]
pub struct PartialView<'a> {
    pub record: Option<&'a Record>,
    pub payload: &'a [u8],
    pub marks: &'a [u8],
}

impl PartialView<'_> {
    pub(crate) fn sound(&self) -> Result<()> {
        let sound = self.marks.len() == self.payload.len().div_ceil(8)
            && self.record.is_none_or(|record| {
                let total = record.total;
                let id_fits = !matches!(record.publisher, KeptId::String(length, _) if length > LONGEST_ID as u64);
                total >= 1 && total <= self.payload.len() as u64 && record.covered <= total && id_fits
            });
        if sound {
            Ok(())
        } else {
            Err(Number::Unsound.nowhere())
        }
    }

    /// Whether every byte below total is covered, by the number.
    pub fn complete(&self) -> Result<bool> {
        self.sound()?;
        Ok(self.record.is_some_and(|record| record.covered == record.total))
    }

    /// How many bytes are covered: none if not started.
    pub fn progress(&self) -> Result<u64> {
        self.sound()?;
        Ok(self.record.map_or(0, |record| record.covered))
    }

    /// How many bytes at the payload area's start are the complete payload.
    pub fn hand_out(&self) -> Result<usize> {
        self.sound()?;
        let Some(record) = self.record else {
            return Err(Number::NotComplete.nowhere());
        };
        let marked = (0..record.total as usize).filter(|at| marked(self.marks, *at)).count();
        if marked as u64 != record.covered {
            return Err(Number::Unsound.nowhere());
        }
        if record.covered < record.total {
            return Err(Number::NotComplete.nowhere());
        }
        Ok(record.total as usize)
    }
}

/// A partial: its record, none if not started, and its lent areas.
#[derive(Debug)]
pub struct Partial<'a> {
    pub record: &'a mut Option<Record>,
    pub payload: &'a mut [u8],
    pub marks: &'a mut [u8],
}

impl Partial<'_> {
    pub fn view(&self) -> PartialView<'_> {
        PartialView { record: self.record.as_ref(), payload: self.payload, marks: self.marks }
    }

    /// Takes a chunk in from a datagram.
    pub fn take_in(&mut self, datagram: &[u8], config: &Config) -> Result<()> {
        self.view().sound()?;
        let envelope = network::read(datagram, config)?;
        let PayloadHeader::ChunkOf(writer) = envelope.payload_header else {
            return Err(Number::NotTaken.nowhere());
        };
        let chunk = chunk::read(datagram, envelope.payload_start)?;
        let group = envelope.group.and_then(|group| group.writer_group_id);
        let publisher = envelope.publisher.into();
        let record = Record { publisher, group, writer, number: chunk.number, total: chunk.total.into(), covered: 0 };
        self.admit(&record)?;
        let covered = chunk.offset..chunk.offset + chunk.data.len();
        if self.record.is_some() {
            let mut both = covered.clone().zip(chunk.data);
            if both.any(|(at, byte)| marked(self.marks, at) && self.payload[at] != *byte) {
                return Err(Number::ByteDiffers.nowhere());
            }
        }
        self.start(&record);
        self.payload[covered.clone()].copy_from_slice(chunk.data);
        for at in covered {
            self.mark(at);
        }
        Ok(())
    }

    /// Combines another partial into this one.
    pub fn combine(&mut self, source: PartialView) -> Result<()> {
        self.view().sound()?;
        source.sound()?;
        let Some(record) = source.record else {
            return Ok(());
        };
        self.admit(record)?;
        let total = record.total as usize;
        let brought = || (0..total).filter(|at| marked(source.marks, *at));
        if self.record.is_some() && brought().any(|at| marked(self.marks, at) && self.payload[at] != source.payload[at]) {
            return Err(Number::ByteDiffers.nowhere());
        }
        self.start(record);
        for at in brought() {
            self.payload[at] = source.payload[at];
            self.mark(at);
        }
        Ok(())
    }

    /// Total above the area is 11, another message 13.
    pub(crate) fn admit(&self, record: &Record) -> Result<()> {
        if record.total > self.payload.len() as u64 {
            return Err(Number::NoRoom.nowhere());
        }
        match self.record.as_ref() {
            Some(held) if held.message() != record.message() => Err(Number::OtherMessage.nowhere()),
            _ => Ok(()),
        }
    }

    /// One not started takes the record over, with every mark cleared.
    pub(crate) fn start(&mut self, record: &Record) {
        if self.record.is_none() {
            *self.record = Some(record.message());
            self.marks.fill(0);
        }
    }

    /// Marks a byte, and counts it where it was not marked.
    fn mark(&mut self, at: usize) {
        if let (Some(record), false) = (self.record.as_mut(), marked(self.marks, at)) {
            record.covered += 1;
        }
        self.marks[at / 8] |= 1 << (at % 8);
    }
}
