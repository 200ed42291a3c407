//! What came of a message that never completes (document 02, Req 13).
use super::message::{self, Cursor, Encoding, Field, Header, Kind};
use super::wire::Reader;
use super::{Number, Result};

/// What is handed out.
#[derive(Clone, Debug, Default, PartialEq, Eq)]
pub struct Salvage {
    /// Offset and length of each.
    pub holes: Vec<(usize, usize)>,
    pub fields: Vec<Field>,
    /// None where the count itself is missing.
    pub promised: Option<usize>,
    /// How many bytes come before the first hole.
    pub front: usize,
    /// Of the fields, where their number is known.
    pub encoding: Encoding,
}

/// Salvages a message of which these bytes are held, each where it is covered; the others may be anything.
pub fn salvage(held: &[u8], covered: &[bool], types: &[u8]) -> Result<Salvage> {
    let front = covered.iter().position(|covered| !covered).unwrap_or(held.len());
    let mut salvage = Salvage { holes: holes(covered), front, ..Salvage::default() };
    match salvage.read(&mut Reader::up_to(held, front), types) {
        Err(refusal) if refusal.number == Number::Hole => Ok(salvage),
        Err(refusal) => Err(refusal),
        Ok(()) => Ok(salvage),
    }
}

/// The longest runs that are not covered.
fn holes(covered: &[bool]) -> Vec<(usize, usize)> {
    let mut holes: Vec<(usize, usize)> = Vec::new();
    for offset in (0..covered.len()).filter(|offset| !covered[*offset]) {
        match holes.last_mut() {
            Some((start, length)) if *start + *length == offset => *length += 1,
            _ => holes.push((offset, 1)),
        }
    }
    holes
}

impl Salvage {
    /// Reads item by item; the first that reaches a hole ends the reading.
    fn read(&mut self, reader: &mut Reader, types: &[u8]) -> Result<()> {
        let Some(header) = message::header(reader)? else {
            self.promised = Some(0);
            return Ok(());
        };
        let count = count(reader, &header, types)?;
        (self.promised, self.encoding) = (Some(count), header.encoding);
        let indexed = header.kind == Kind::Delta;
        let mut cursor = Cursor { encoding: header.encoding, indexed, next: 0, count, at: reader.position() };
        while cursor.next < count {
            let (field, next) = cursor.step_in(reader, types)?;
            self.fields.push(field);
            cursor = next;
        }
        match reader.covered_rest().iter().position(|byte| *byte != 0) {
            Some(other) => Err(Number::LeftOver.at(reader.position() + other)),
            None => Ok(()),
        }
    }
}

fn count(reader: &mut Reader, header: &Header, types: &[u8]) -> Result<usize> {
    if header.kind == Kind::KeepAlive || header.kind == Kind::Key && reader.rest().is_empty() {
        return Ok(0);
    }
    if header.encoding != Encoding::RawData {
        return reader.u16().map(usize::from);
    }
    if types.is_empty() {
        return Err(Number::NotConfigured.nowhere());
    }
    Ok(types.len())
}
