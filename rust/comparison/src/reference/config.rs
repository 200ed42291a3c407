//! The configuration text.
use super::value::width;
use super::{Number, Result};

pub const MOST_WRITERS: usize = 16;
pub const MOST_FIELDS: usize = 64;

/// A configured writer; its field types are a range of the configuration's.
#[derive(Clone, Copy, Debug, Default, PartialEq, Eq)]
pub struct Writer {
    pub id: u16,
    pub size: Option<u16>,
    first_field: u8,
}

/// The configured writers and their field types.
#[derive(Clone, Debug, PartialEq, Eq)]
pub struct Config {
    writers: [Writer; MOST_WRITERS],
    writer_count: usize,
    types: [u8; MOST_FIELDS],
    type_count: usize,
}

impl Default for Config {
    fn default() -> Self {
        Self { writers: [Writer::default(); MOST_WRITERS], writer_count: 0, types: [0; MOST_FIELDS], type_count: 0 }
    }
}

impl Config {
    /// Reads a configuration text; a bad line is 16 with its number from 1.
    pub fn parse(text: &[u8]) -> Result<Self> {
        let mut config = Self::default();
        let mut rest = text;
        let mut line_number = 0;
        while !rest.is_empty() {
            line_number += 1;
            let end = rest.iter().position(|byte| *byte == b'\n');
            end.and_then(|end| config.take_line(&rest[..end])).ok_or(Number::BadLine.at(line_number))?;
            rest = &rest[end.map_or(rest.len(), |end| end + 1)..];
        }
        Ok(config)
    }

    /// A configuration made up by a caller: ids, sizes and first fields of at most 16 writers, and at most 64 field types, of which
    /// nothing else is asked.
    pub fn made_up(writers: impl Iterator<Item = (u16, Option<u16>, u8)>, types: &[u8]) -> Self {
        let mut config = Self::default();
        for (place, (id, size, first_field)) in config.writers.iter_mut().zip(writers) {
            *place = Writer { id, size, first_field };
            config.writer_count += 1;
        }
        config.type_count = types.len().min(MOST_FIELDS);
        config.types[..config.type_count].copy_from_slice(&types[..config.type_count]);
        config
    }

    fn take_line(&mut self, line: &[u8]) -> Option<()> {
        let mut parts = line.split(|byte| *byte == b'\t');
        let word = parts.next()?;
        match word {
            b"writer" => {
                let id = decimal(parts.next()?)?;
                let size = match parts.next()? {
                    b"-" => None,
                    size => Some(decimal(size).filter(|size| *size > 0)?),
                };
                parts.next().is_none().then(|| self.add_writer(id, size))?
            }
            b"field" => {
                let kind = decimal(parts.next()?).and_then(|kind| u8::try_from(kind).ok())?;
                parts.next().is_none().then(|| self.add_field(kind))?
            }
            _ => None,
        }
    }

    fn add_writer(&mut self, id: u16, size: Option<u16>) -> Option<()> {
        if self.writers().iter().any(|writer| writer.id == id) {
            return None;
        }
        let first_field = u8::try_from(self.type_count).ok()?;
        *self.writers.get_mut(self.writer_count)? = Writer { id, size, first_field };
        self.writer_count += 1;
        Some(())
    }

    fn add_field(&mut self, kind: u8) -> Option<()> {
        width(kind)?;
        if self.writer_count == 0 {
            return None;
        }
        *self.types.get_mut(self.type_count)? = kind;
        self.type_count += 1;
        Some(())
    }

    pub fn writers(&self) -> &[Writer] {
        &self.writers[..self.writer_count]
    }

    pub fn types(&self) -> &[u8] {
        &self.types[..self.type_count]
    }

    /// How many fields stand before the k-th writer's own.
    pub fn fields_before(&self, k: usize) -> usize {
        self.writers().get(k).map_or(self.type_count, |writer| usize::from(writer.first_field).min(self.type_count))
    }

    /// The field types of the writer with this id; none where it is not configured.
    pub fn types_of(&self, id: Option<u16>) -> &[u8] {
        let found = id.and_then(|id| self.writers().iter().position(|writer| writer.id == id));
        found.and_then(|k| self.types().get(self.fields_before(k)..self.fields_before(k + 1))).unwrap_or(&[])
    }
}

/// A decimal without leading zeros, up to 65,535.
fn decimal(text: &[u8]) -> Option<u16> {
    if text.is_empty() || text.len() > 5 || (text.len() > 1 && text[0] == b'0') {
        return None;
    }
    text.iter().try_fold(0_u16, |number, byte| {
        let digit = byte.is_ascii_digit().then(|| u16::from(byte - b'0'))?;
        number.checked_mul(10)?.checked_add(digit)
    })
}
