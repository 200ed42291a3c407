//! What came of a message that never completes.
use crate::ffi::{self, FIELD_SIZE, SALVAGE_SIZE};
use crate::record::{field, number, place, salvage};
use crate::{Config, Encoding, Field, Refusal};
use core::fmt;

/// Room for one entry of a salvage.
pub type Entry = [u8; FIELD_SIZE];

/// A part of a message that has not come in.
#[derive(Clone, Copy, Debug, PartialEq, Eq, Hash)]
pub struct Hole {
    /// Where it starts.
    pub offset: usize,
    /// How long it is: as long as can be.
    pub length: usize,
}

/// What came of a message: its holes, and its leading fields of which every byte, and every byte before them, has come in. Each of these
/// is the field that the complete message will have, if that is accepted. [`Partial::salvage`](crate::Partial::salvage) makes it.
#[derive(Clone, Copy)]
pub struct Salvage<'a, 'r> {
    payload: &'a [u8],
    told: [u8; SALVAGE_SIZE],
    entries: &'r [Entry],
}

impl<'a, 'r> Salvage<'a, 'r> {
    pub(crate) fn of(partial: [&'a [u8]; 3], config: &Config, room: &'r mut [Entry]) -> Result<Self, Refusal> {
        let ([record, payload, marks], mut told) = (partial, [0; SALVAGE_SIZE]);
        let answer = ffi::salvage(record, payload, marks, config.as_bytes(), &mut told, room.as_flattened_mut());
        let count = answer.into_result()? as usize;
        Ok(Self { payload, told, entries: &room[..count] })
    }

    /// The holes, in order.
    pub fn holes(&self) -> impl ExactSizeIterator<Item = Hole> + use<'r> {
        let hole = |entry: &Entry| Hole { offset: place(entry, field::OFFSET), length: place(entry, field::LENGTH) };
        self.entries[..place(&self.told, salvage::HOLES)].iter().map(hole)
    }

    /// The fields, in order, each with its bytes as that part of the payload area.
    pub fn fields(&self) -> impl ExactSizeIterator<Item = Field<'a>> + use<'a, 'r> {
        let (payload, encoding) = (self.payload, Encoding::of(number(&self.told, salvage::ENCODING)));
        self.entries[place(&self.told, salvage::HOLES)..].iter().map(move |entry| Field::of(payload, encoding, entry))
    }

    /// How many fields the message has; `None` where its count has not come in.
    pub fn promised(&self) -> Option<usize> {
        (number(&self.told, salvage::COUNT_KNOWN) != 0).then(|| place(&self.told, salvage::PROMISED))
    }

    /// How many bytes come before the first hole.
    pub fn front(&self) -> usize {
        place(&self.told, salvage::FRONT)
    }

    /// How long the message is; 0 where no chunk has come in.
    pub fn total(&self) -> usize {
        place(&self.told, salvage::TOTAL)
    }
}

impl fmt::Debug for Salvage<'_, '_> {
    fn fmt(&self, f: &mut fmt::Formatter<'_>) -> fmt::Result {
        f.debug_struct("Salvage")
            .field("holes", &self.holes().len())
            .field("fields", &number(&self.told, salvage::FIELDS))
            .field("promised", &self.promised())
            .finish_non_exhaustive()
    }
}
