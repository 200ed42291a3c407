//! Reassembly histories, cutting, and sequence numbers.
use super::{answer_of, buffer_length, record_length, Found, Lent, ReadOnly, Tally};
use crate::generate::{self, chunk_bytes, EnvelopeSpec, IdSpec, Random};
use crate::record::{self, bytes_of, number};
use crate::reference::config::Config;
use crate::reference::reassembly::{Partial, PartialView, Record};
use crate::reference::sequence::{note, Newness};
use crate::reference::{chunk, Number, Result};
use crate::tuned;
use uadp::ffi::{self, Answer};

/// A partial as it is lent to the library.
#[derive(Clone, Debug)]
struct LentPartial {
    record: Lent,
    payload: Lent,
    marks: Lent,
}

impl LentPartial {
    fn any(random: &mut Random, total: usize) -> Self {
        let length = match random.below(12) {
            0 => random.below(total + 1),
            1..=5 => total,
            _ => total + random.within(1, 12),
        };
        let marks_length = match random.below(25) {
            0 => random.pick(&[length, length / 8, length.div_ceil(8) + 1]),
            _ => length.div_ceil(8),
        };
        let payload = random.bytes(length);
        let mut marks = if random.one_in(2) { random.bytes(marks_length) } else { vec![0; marks_length] };
        if random.one_in(3) {
            marks.iter_mut().for_each(|byte| *byte = if *byte < 128 { 0 } else { 0xff });
        }
        let mut record = random.bytes(record::PARTIAL_SIZE);
        match random.below(10) {
            0 => record[..8].copy_from_slice(&1_u64.to_le_bytes()),
            1 => {
                let numbers = [1, random.below(7) as u64, random.edge(), random.number() & 0xffff, random.number() & 0xffff];
                record[..40].copy_from_slice(&bytes_of(&numbers));
                record[40..48].copy_from_slice(&(random.within(0, length + 1) as u64).to_le_bytes());
                record[48..64].copy_from_slice(&bytes_of(&[random.below(3) as u64, random.number() & 0x1_ffff]));
                record[64..72].copy_from_slice(&(random.within(0, length + 1) as u64).to_le_bytes());
            }
            2..=4 => {}
            _ => record[..8].fill(0),
        }
        if random.one_in(10) {
            record.extend(random.bytes(5));
        } else if random.one_in(40) {
            record.truncate(random.below(record::PARTIAL_SIZE));
        }
        Self {
            record: Lent::holding(random, &record),
            payload: Lent::holding(random, &payload),
            marks: Lent::holding(random, &marks),
        }
    }

    /// The record as the reference reads it; 12 for a short one.
    fn known(&self) -> Result<Option<Record>> {
        if self.record.length < record::PARTIAL_SIZE {
            return Err(Number::Unsound.nowhere());
        }
        Ok(record::partial_of(self.record.middle()))
    }

    fn view<'a>(&'a self, record: &'a Option<Record>) -> PartialView<'a> {
        PartialView { record: record.as_ref(), payload: self.payload.middle(), marks: self.marks.middle() }
    }

    fn areas(&self) -> Vec<Lent> {
        vec![self.record.clone(), self.payload.clone(), self.marks.clone()]
    }

    fn slices(&self) -> [&[u8]; 3] {
        [self.record.middle(), self.payload.middle(), self.marks.middle()]
    }

    /// What the reference makes of this partial.
    fn after(&self, change: impl FnOnce(&mut Partial) -> Result<()>) -> (Result<u64>, Self) {
        let mut after = self.clone();
        let mut known = match self.known() {
            Ok(known) => known,
            Err(refusal) => return (Err(refusal), after),
        };
        let before = known;
        let mut partial = Partial { record: &mut known, payload: after.payload.middle_mut(), marks: after.marks.middle_mut() };
        let result = change(&mut partial);
        match (before, known) {
            (None, Some(record)) => after.record = after.record.with(&record::partial(&record)),
            // Of a started record the number of covered bytes changes, and no other byte.
            (Some(_), Some(record)) => after.record.middle_mut()[64..72].copy_from_slice(&record.covered.to_le_bytes()),
            _ => {}
        }
        (result.map(|()| 0), after)
    }

    fn judge(
        &mut self, tally: &mut Tally, operation: &'static str, expected: (Result<u64>, Self), others: &[(&str, &[u8])],
        call: impl FnOnce(&mut Self) -> Answer,
    ) -> bool {
        let before = self.clone();
        let answer = call(self);
        let found = Found { answer, areas: self.areas() };
        let expected = Found { answer: answer_of(expected.0), areas: expected.1.areas() };
        let [record, payload, marks] = before.slices();
        let mut input = vec![("record", record), ("payload", payload), ("marks", marks)];
        input.extend_from_slice(others);
        tally.judge(operation, &found, &expected, &input)
    }

    /// What the tuned implementation makes of this partial, judged as the library is.
    fn judge_tuned(
        &self, tally: &mut Tally, operation: &'static str, expected: &(Result<u64>, Self), tuned: &(Result<u64>, Self),
    ) {
        let found = |side: &(Result<u64>, Self)| Found { answer: answer_of(side.0), areas: side.1.areas() };
        let [record, payload, marks] = self.slices();
        tally.judge(operation, &found(tuned), &found(expected), &[("record", record), ("payload", payload), ("marks", marks)]);
    }

    fn take_in(&mut self, tally: &mut Tally, datagram: &[u8], config: &Config) -> bool {
        let config_record = record::config(config);
        let expected = self.after(|partial| partial.take_in(datagram, config));
        self.judge_tuned(tally, "tuned take_in", &expected, &self.after(|partial| tuned::take_in(partial, datagram, config)));
        let others = [("datagram", datagram), ("configuration record", &config_record[..])];
        let kept = ReadOnly::keep(&others);
        let equal = self.judge(tally, "take_in", expected, &others, |partial| {
            let LentPartial { record, payload, marks } = partial;
            ffi::take_in(record.middle_mut(), payload.middle_mut(), marks.middle_mut(), datagram, &config_record)
        });
        equal && kept.judge(tally, "take_in", &others)
    }

    fn combine(&mut self, tally: &mut Tally, source: &Self) -> bool {
        let expected = match source.known() {
            Ok(known) => {
                let combined = self.after(|partial| partial.combine(source.view(&known)));
                self.judge_tuned(
                    tally,
                    "tuned combine",
                    &combined,
                    &self.after(|partial| tuned::combine(partial, source.view(&known))),
                );
                let (result, mut after) = combined;
                // A record that is taken over keeps the source's 64 bytes for a string as they are.
                if self.known().is_ok_and(|held| held.is_none()) && after.record != self.record {
                    after.record.middle_mut()[80..record::PARTIAL_SIZE]
                        .copy_from_slice(&source.record.middle()[80..record::PARTIAL_SIZE]);
                }
                (result, after)
            }
            Err(refusal) => (Err(refusal), self.clone()),
        };
        let [source_record, source_payload, source_marks] = source.slices();
        let others = [("source record", source_record), ("source payload", source_payload), ("source marks", source_marks)];
        let kept = ReadOnly::keep(&others);
        let equal = self.judge(tally, "combine", expected, &others, |partial| {
            let LentPartial { record, payload, marks } = partial;
            ffi::combine(record.middle_mut(), payload.middle_mut(), marks.middle_mut(), source.slices())
        });
        equal && kept.judge(tally, "combine", &others)
    }

    fn empty(&mut self, tally: &mut Tally) -> bool {
        let mut after = self.clone();
        if let Some(started) = after.record.middle_mut().get_mut(..8) {
            started.fill(0);
        }
        self.judge(tally, "empty", (Ok(0), after), &[], |partial| ffi::empty(partial.record.middle_mut()))
    }

    fn complete(&mut self, tally: &mut Tally) -> bool {
        let expected = self.known().and_then(|known| self.view(&known).complete()).map(u64::from);
        let expected = (expected, self.clone());
        let tuned = self.known().and_then(|known| tuned::complete(&self.view(&known))).map(u64::from);
        self.judge_tuned(tally, "tuned complete", &expected, &(tuned, self.clone()));
        self.judge(tally, "complete", expected, &[], |partial| {
            let [record, payload, marks] = partial.slices();
            ffi::complete(record, payload, marks)
        })
    }

    fn progress(&mut self, tally: &mut Tally) -> bool {
        let expected = self.known().and_then(|known| self.view(&known).progress());
        let expected = (expected, self.clone());
        self.judge(tally, "progress", expected, &[], |partial| {
            let [record, payload, marks] = partial.slices();
            ffi::progress(record, payload, marks)
        })
    }

    fn hand_out(&mut self, tally: &mut Tally) -> bool {
        let expected = self.known().and_then(|known| self.view(&known).hand_out()).map(|total| total as u64);
        let expected = (expected, self.clone());
        let tuned = self.known().and_then(|known| tuned::hand_out(&self.view(&known))).map(|total| total as u64);
        self.judge_tuned(tally, "tuned hand_out", &expected, &(tuned, self.clone()));
        self.judge(tally, "hand_out", expected, &[], |partial| {
            let [record, payload, marks] = partial.slices();
            ffi::hand_out(record, payload, marks)
        })
    }

    /// The caller writes into the partial.
    fn tamper(&mut self, random: &mut Random) {
        let area = match random.below(4) {
            0 => self.record.middle_mut(),
            1 => self.payload.middle_mut(),
            _ => self.marks.middle_mut(),
        };
        if !area.is_empty() {
            let at = random.below(area.len());
            area[at] = random.pick(&[0, 1, 2, 255, 5, 64, 128]);
        }
    }
}

/// A message that is sent in chunks.
#[derive(Clone, Debug)]
struct Sent {
    publisher: Option<IdSpec>,
    group: Option<u16>,
    writer: u16,
    number: u16,
    payload: Vec<u8>,
}

impl Sent {
    fn any(random: &mut Random) -> Self {
        let length = match random.below(200) {
            0 => random.pick(&[16_383, 16_384, 16_385]),
            1..=8 => random.within(200, 1500),
            9..=60 => random.pick(&[1, 7, 8, 9, 15, 16, 17, 63, 64, 65]),
            _ => random.within(1, 24),
        };
        let publisher = (!random.one_in(4)).then(|| generate::publisher(random));
        let publisher = publisher.filter(|(_, id)| id.len() <= 64);
        let group = random.maybe(2, |random| random.pick(&[0, 1, 256, 65_535]));
        let (writer, number) = (random.number() as u16, random.number() as u16);
        Self { publisher, group, writer, number, payload: random.bytes(length) }
    }

    /// Another message that is like this one but for one thing.
    fn other(&self, random: &mut Random) -> Self {
        let mut other = self.clone();
        match random.below(8) {
            6 => other.group = other.group.map_or(Some(0), |group| Some(group ^ (1 << random.below(16)))),
            7 => other.group = if other.group.is_none() { Some(0) } else { None },
            0 => other.publisher = Some(generate::publisher(random)).filter(|(_, id)| id.len() <= 64),
            1 => other.writer ^= 1 << random.below(16),
            2 => other.number ^= 1 << random.below(16),
            3 => other.payload.push(random.number() as u8),
            4 => {
                let at = random.below(other.payload.len());
                other.payload[at] ^= 1;
            }
            _ => match &mut other.publisher {
                // The same number in a wider type, or another string.
                Some((kind, id)) if *kind < 3 => {
                    id.extend(vec![0; id.len()]);
                    *kind += 1;
                }
                Some((_, id)) => id.iter_mut().take(1).for_each(|byte| *byte ^= 1),
                None => other.publisher = Some((4, Vec::new())),
            },
        }
        other
    }

    /// A datagram with the chunk at an offset.
    fn datagram(&self, random: &mut Random, offset: usize, length: usize) -> Vec<u8> {
        let data = &self.payload[offset..][..length];
        self.carry(random, chunk_bytes(self.number, offset as u32, self.payload.len() as u32, data))
    }

    /// A datagram with a chunk payload.
    fn carry(&self, random: &mut Random, chunk: Vec<u8>) -> Vec<u8> {
        let mut spec = EnvelopeSpec::with_chunk(random, self.writer, chunk);
        spec.payload_header = true;
        spec.publisher.clone_from(&self.publisher);
        if spec.timestamp.is_none() {
            spec.picoseconds = None;
        }
        if spec.group.is_some_and(|(_, _, number, _)| number == Some(0)) {
            spec.group = None;
        }
        // Without a group id there is a group header or not.
        spec.group = match (self.group, spec.group) {
            (None, None) => None,
            (group, header) => {
                let (_, version, number, sequence) = header.unwrap_or_default();
                Some((group, version, number, sequence))
            }
        };
        spec.bytes()
    }

    fn any_chunk(&self, random: &mut Random) -> Vec<u8> {
        let total = self.payload.len();
        let offset = if random.one_in(4) { 0 } else { random.below(total) };
        let length = if random.one_in(4) { total - offset } else { random.within(1, total - offset) };
        let mut datagram = self.datagram(random, offset, length);
        if random.one_in(8) {
            // A number of the chunk payload, which ends the datagram, or another byte.
            if random.one_in(2) {
                let at = datagram.len() - length - 14 + random.below(14);
                datagram[at] = random.pick(&[0, 1, 0xff, 0x40, 0x80]);
            } else {
                generate::damage(random, &mut datagram);
            }
        }
        datagram
    }
}

/// A history of calls on two partials.
pub fn history(tally: &mut Tally, random: &mut Random) {
    let first = Sent::any(random);
    let second = first.other(random);
    let mut partials = [LentPartial::any(random, first.payload.len()), LentPartial::any(random, first.payload.len())];
    let config = Config::default();
    for _ in 0..random.within(3, 24) {
        let k = random.below(2);
        let equal = match random.below(24) {
            0..=12 => {
                let sent = if random.one_in(6) { &second } else { &first };
                let datagram = match random.below(40) {
                    0 => generate::Scenario::any(random).datagram,
                    _ => sent.any_chunk(random),
                };
                partials[k].take_in(tally, &datagram, &config)
            }
            13..=16 => {
                let source = partials[1 - k].clone();
                partials[k].combine(tally, &source)
            }
            17 => partials[k].empty(tally),
            18 => partials[k].progress(tally),
            19 | 20 => partials[k].complete(tally),
            21 | 22 => partials[k].hand_out(tally),
            _ => {
                partials[k].tamper(random);
                true
            }
        };
        if !equal {
            return;
        }
    }
}

/// A payload cut, and its chunks taken in in any order.
pub fn cut(tally: &mut Tally, random: &mut Random) {
    let sent = Sent::any(random);
    let mut payload = sent.payload.clone();
    if random.one_in(15) {
        payload.clear();
    }
    let size = match random.below(12) {
        0 => 0,
        1 => random.edge(),
        _ => (payload.len() / random.within(1, 6)).max(1) as u64,
    };
    let count = (payload.len() as u64).checked_div(size).unwrap_or(0) + 2;
    let count = count.min(12);
    let mut chunks = Vec::new();
    for k in 0..count {
        let k = if random.one_in(30) { random.edge() } else { k };
        if let Some(chunk) = cut_one(tally, random, &payload, sent.number, size, k) {
            chunks.push(chunk);
        }
    }
    let mut partial = LentPartial::any(random, payload.len());
    partial.empty(tally);
    while !chunks.is_empty() {
        let chunk = chunks.swap_remove(random.below(chunks.len()));
        let datagram = sent.carry(random, chunk);
        if !partial.take_in(tally, &datagram, &Config::default()) || !partial.complete(tally) {
            return;
        }
    }
    partial.hand_out(tally);
}

/// Chunk k, where it was cut by the library as by the reference.
fn cut_one(tally: &mut Tally, random: &mut Random, payload: &[u8], sequence: u16, size: u64, k: u64) -> Option<Vec<u8>> {
    let needed = chunk::cut(payload, sequence, size, k, &mut vec![0; payload.len() + 14]).unwrap_or(20);
    let length = buffer_length(random, needed);
    let mut expected_area = Lent::of_length(random, length);
    let mut area = expected_area.clone();
    let answer = ffi::cut(payload, sequence, size, k, area.middle_mut());
    let expected = answer_of(chunk::cut(payload, sequence, size, k, expected_area.middle_mut()).map(|length| length as u64));
    let numbers = bytes_of(&[sequence.into(), size, k]);
    let input = [("payload", payload), ("number, size, k", &numbers[..])];
    let chunk = area.middle()[..(answer.value() as usize).min(length)].to_vec();
    let found = Found { answer, areas: vec![area] };
    let equal = tally.judge("cut", &found, &Found { answer: expected, areas: vec![expected_area] }, &input);
    (equal && answer.number() == 0).then_some(chunk)
}

/// Over all bytes: every received number after some last ones.
pub fn every_newness(tally: &mut Tally, random: &mut Random, byte: u8) {
    for last in [0, 5, 32_768, 65_535] {
        for low in 0..=255 {
            let before = Lent::holding(random, &bytes_of(&[1, last]));
            let mut lent = before.clone();
            judge_newness(tally, &before, &mut lent, u16::from_le_bytes([low, byte]));
        }
    }
}

/// Sequence numbers judged one after the other by one record.
pub fn newness(tally: &mut Tally, random: &mut Random) {
    let length = record_length(random, record::SEQUENCE_SIZE);
    let mut lent = Lent::of_length(random, length);
    if length >= 16 && random.one_in(2) {
        lent = lent.with(&bytes_of(&[random.below(2) as u64, random.number() & 0xffff]));
    }
    for _ in 0..random.within(1, 8) {
        let before = lent.clone();
        let last = last_of(&before);
        let step = random.pick(&[0, 1, 2, 5, 16_383, 16_384, 16_385, 16_386, 49_152, 49_153, 49_154, 49_155, 65_535]);
        let received = if random.one_in(3) { random.number() as u16 } else { last.unwrap_or(0).wrapping_add(step) };
        if !judge_newness(tally, &before, &mut lent, received) {
            return;
        }
    }
}

fn judge_newness(tally: &mut Tally, before: &Lent, lent: &mut Lent, received: u16) -> bool {
    let mut last = last_of(before);
    let answer = ffi::newness(lent.middle_mut(), received);
    let expected = if before.length < record::SEQUENCE_SIZE {
        Found { answer: answer_of(Err(Number::NoRoom.nowhere())), areas: vec![before.clone()] }
    } else {
        let (value, after) = match note(&mut last, received) {
            Newness::Newer => (0, before.with(&bytes_of(&[1, received.into()]))),
            Newness::OldOrSame => (1, before.clone()),
            Newness::Invalid => (2, before.clone()),
        };
        Found { answer: Answer::done(value), areas: vec![after] }
    };
    let input = [("record", before.middle()), ("received", &received.to_le_bytes())];
    tally.judge("newness", &Found { answer, areas: vec![lent.clone()] }, &expected, &input)
}

/// The last number that a sequence number record holds.
fn last_of(lent: &Lent) -> Option<u16> {
    (number(lent.middle(), 0) != 0).then(|| number(lent.middle(), 1) as u16)
}
