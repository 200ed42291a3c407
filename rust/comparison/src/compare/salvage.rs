//! Messages of which chunks are missing.
use super::{answer_of, record_length, Found, Lent, ReadOnly, Tally};
use crate::generate::{self, ConfigSpec, Random};
use crate::record::{self, bytes_of};
use crate::reference::config::Config;
use crate::reference::reassembly::{KeptId, PartialView, Record};
use crate::reference::salvage::{salvage as expected_of, Salvage};
use crate::reference::{Number, Result};
use uadp::ffi::{self, Answer};

/// A message cut into at most six chunks; every subset of them is salvaged.
pub fn salvage(tally: &mut Tally, random: &mut Random) {
    let spec = ConfigSpec::any(random);
    let writer = generate::writer_id(random, &spec);
    let mut message = generate::message(random, spec.types_of(writer));
    message.truncate(600);
    if message.is_empty() {
        message.push(random.number() as u8);
    }
    let config = Config::parse(&spec.text()).expect("made valid");
    let size = random.within(message.len().div_ceil(6), message.len());
    let chunks = message.len().div_ceil(size);
    for subset in 0..1_u32 << chunks {
        let covered: Vec<bool> = (0..message.len()).map(|i| subset >> (i / size) & 1 != 0).collect();
        Case::of(random, &message, &covered, writer).judge(tally, random, &config);
    }
}

/// A partial, right or wrong.
struct Case {
    record: Vec<u8>,
    payload: Vec<u8>,
    marks: Vec<u8>,
}

impl Case {
    /// The bytes that are not covered, and the marks above the message, hold anything.
    fn of(random: &mut Random, message: &[u8], covered: &[bool], writer: u16) -> Self {
        let room = message.len() + random.below(12);
        let mut payload = random.bytes(room);
        let mut marks = random.bytes(room.div_ceil(8));
        for (i, covered) in covered.iter().enumerate() {
            marks[i / 8] &= !(1 << (i % 8));
            marks[i / 8] |= u8::from(*covered) << (i % 8);
            if *covered {
                payload[i] = message[i];
            }
        }
        let number_covered = covered.iter().filter(|covered| **covered).count() as u64;
        let mut record = record::partial(&Record {
            publisher: KeptId::UInt16(7),
            group: None,
            writer,
            number: 1,
            total: message.len() as u64,
            covered: if random.one_in(8) { random.below(message.len() + 1) as u64 } else { number_covered },
        });
        match random.below(40) {
            0 => record[0] = 0,
            1 => record[64..72].copy_from_slice(&(message.len() as u64 + 1).to_le_bytes()),
            2 => record.truncate(random.below(record::PARTIAL_SIZE)),
            3 => marks.push(0),
            4 => record[40..48].fill(0),
            _ => {}
        }
        Self { record, payload, marks }
    }

    fn expected(&self, config: &Config) -> Result<(Salvage, usize)> {
        if self.record.len() < record::PARTIAL_SIZE {
            return Err(Number::Unsound.nowhere());
        }
        let known = record::partial_of(&self.record);
        PartialView { record: known.as_ref(), payload: &self.payload, marks: &self.marks }.sound()?;
        let Some(known) = known else { return Ok((Salvage::default(), 0)) };
        let total = known.total as usize;
        let covered: Vec<bool> = (0..total).map(|i| self.marks[i / 8] >> (i % 8) & 1 != 0).collect();
        expected_of(&self.payload[..total], &covered, config.types_of(Some(known.writer))).map(|salvage| (salvage, total))
    }

    fn judge(&self, tally: &mut Tally, random: &mut Random, config: &Config) {
        let config_record = record::config(config);
        let Self { record, payload, marks } = self;
        let input = [("record", &record[..]), ("payload", payload), ("marks", marks), ("configuration record", &config_record)];
        let kept = ReadOnly::keep(&input);
        let expected = self.expected(config);
        let entries = expected.as_ref().map_or(0, |(salvage, _)| salvage.holes.len() + salvage.fields.len());
        let needed = record::FIELD_SIZE * entries;
        let told_length = record_length(random, record::SALVAGE_SIZE);
        let list_length = if random.one_in(12) { random.within(0, needed) } else { needed + random.below(100) };
        let (told, list) = (Lent::of_length(random, told_length), Lent::of_length(random, list_length));
        let (mut told_after, mut list_after) = (told.clone(), list.clone());
        let answer = ffi::salvage(record, payload, marks, &config_record, told_after.middle_mut(), list_after.middle_mut());
        let expected = match expected {
            Err(refusal) => Found { answer: answer_of(Err(refusal)), areas: vec![told, list] },
            Ok(_) if told_length < record::SALVAGE_SIZE || list_length < needed => {
                Found { answer: answer_of(Err(Number::NoRoom.nowhere())), areas: vec![told, list] }
            }
            Ok((salvage, total)) => {
                let told = told.with(&bytes_of(&record::salvage(&salvage, total)));
                let list = list.with(&bytes_of(&record::salvaged(&salvage).concat()));
                Found { answer: Answer::done(entries as u64), areas: vec![told, list] }
            }
        };
        let found = Found { answer, areas: vec![told_after, list_after] };
        if tally.judge("salvage", &found, &expected, &input) {
            kept.judge(tally, "salvage", &input);
        }
    }
}
