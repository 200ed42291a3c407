//! The configuration, listing, reading, walking, and rewriting of datagrams.
use super::{answer_of, buffer_length, probes, record_length, Found, Lent, ReadOnly, Tally};
use crate::generate::{self, Random, Scenario};
use crate::record::{self, bytes_of, number};
use crate::reference::config::Config;
use crate::reference::message::Message;
use crate::reference::network::{self, MessagePlace, PayloadHeader};
use crate::reference::{chunk, listing, message, message_writer, network_writer, Number, Result};
use crate::tuned;
use uadp::ffi::{self, Answer};

/// A record filled by the library, judged against the expected value and record.
pub(super) fn judge_filled(
    tally: &mut Tally, random: &mut Random, operation: &'static str, layout: usize, expected: Result<(u64, Vec<u8>)>,
    input: &[(&str, &[u8])], call: impl FnOnce(&mut [u8]) -> Answer,
) -> bool {
    let length = record_length(random, layout);
    let before = Lent::of_length(random, length);
    let mut after = before.clone();
    let kept = ReadOnly::keep(input);
    let answer = call(after.middle_mut());
    let expected = match expected {
        Ok((value, record)) if length >= layout => Found { answer: Answer::done(value), areas: vec![before.with(&record)] },
        Ok(_) => Found { answer: answer_of(Err(Number::NoRoom.nowhere())), areas: vec![before] },
        Err(refusal) => Found { answer: answer_of(Err(refusal)), areas: vec![before] },
    };
    tally.judge(operation, &Found { answer, areas: vec![after] }, &expected, input) && kept.judge(tally, operation, input)
}

/// A buffer filled by the library, judged against what the reference puts into the same buffer.
pub(super) fn judge_put(
    tally: &mut Tally, random: &mut Random, operation: &'static str, needed: usize, input: &[(&str, &[u8])],
    reference: impl FnOnce(&mut [u8]) -> Result<usize>, call: impl FnOnce(&mut [u8]) -> Answer,
) -> bool {
    let length = buffer_length(random, needed);
    let mut expected_area = Lent::of_length(random, length);
    let mut area = expected_area.clone();
    let kept = ReadOnly::keep(input);
    let answer = call(area.middle_mut());
    let expected = answer_of(reference(expected_area.middle_mut()).map(|length| length as u64));
    let expected = Found { answer: expected, areas: vec![expected_area] };
    tally.judge(operation, &Found { answer, areas: vec![area] }, &expected, input) && kept.judge(tally, operation, input)
}

/// A configuration text, valid or not.
pub fn config(tally: &mut Tally, random: &mut Random) {
    let text = generate::config_text(random);
    let expected = Config::parse(&text).map(|config| (0, record::config(&config)));
    judge_filled(tally, random, "config", record::CONFIG_SIZE, expected, &[("text", &text)], |area| ffi::config(&text, area));
}

/// A datagram listed, read and walked, and rewritten.
pub fn datagram(tally: &mut Tally, random: &mut Random) {
    let Scenario { text, datagram } = Scenario::any(random);
    let config_record = config_record(random, &text);
    let config = record::config_of(&config_record);
    let case = Case { datagram: &datagram, config: &config, record: &config_record };
    case.list(tally, random);
    case.walk_all(tally, random);
    case.rewrite(tally, random);
    case.read(tally, random);
    case.chunk(tally, random);
    probes::read(tally, random, &datagram, &config, &config_record);
    if random.one_in(4) {
        let writer = u32::from(generate::writer_id(random, &generate::ConfigSpec::default()));
        case.message(tally, random, &datagram, writer);
    }
}

/// The record of a valid text; sometimes longer, short or damaged.
fn config_record(random: &mut Random, text: &[u8]) -> Vec<u8> {
    let mut record = record::config(&Config::parse(text).expect("made valid"));
    match random.below(40) {
        0 => record.truncate(random.below(record::CONFIG_SIZE)),
        1 => record.extend([7; 5]),
        2 | 3 => {
            for _ in 0..random.within(1, 4) {
                let at =
                    if random.one_in(2) { random.pick(&[0, 1, 2, 34, 66, 67, 82]) } else { random.below(record::CONFIG_SIZE) };
                record[at] = random.number() as u8;
            }
        }
        4 => record = random.bytes(record::CONFIG_SIZE),
        _ => {}
    }
    record
}

/// The length of a walk's records: too short for them, just enough, or longer by up to some records.
fn walk_length(random: &mut Random, needed: usize) -> usize {
    match random.below(8) {
        0 | 1 => random.within(0, needed),
        2 => needed.saturating_sub(1),
        3..=5 => needed,
        _ => needed + random.within(1, 200),
    }
}

/// Over all bytes: every value of the flag bytes, the envelope's three and a message's two, and every first byte of a Variant.
pub fn every_flag(tally: &mut Tally, random: &mut Random, byte: u8) {
    let config = Config::parse(b"writer\t21\t-\nfield\t7\n").expect("valid");
    let record = record::config(&config);
    let tail = [4, 0, 0, 0, 1, 0, 9, 0, 2, 0, 21, 0, 1, 0, 1, 0, 1, 1, 21, 0, 1, 0, 0, 0, 1, 0, 5, 1, 0, 0];
    let judge = |tally: &mut Tally, random: &mut Random, front: &[u8]| {
        let datagram = [front, &tail].concat();
        let case = Case { datagram: &datagram, config: &config, record: &record };
        case.read(tally, random);
        case.walk_all(tally, random);
        case.rewrite(tally, random);
    };
    judge(tally, random, &[byte]);
    for first in (0..=255).filter(|first| first & 0x8f == 0x81) {
        judge(tally, random, &[first, byte]);
        let last = if byte & 0x80 != 0 { 255 } else { 0 };
        (1..=last).for_each(|extended2| judge(tally, random, &[first, byte, extended2]));
    }
    let case = Case { datagram: &[], config: &config, record: &record };
    for second in 0..=255 {
        let message = [&[byte, second], &tail[..]].concat();
        case.message(tally, random, &message, 21);
    }
    for length in [1, 2, 3, 5, 9, 17, 24] {
        case.message(tally, random, &[&[1, 1, 0, byte], &tail[..length]].concat(), 21);
    }
}

struct Case<'a> {
    datagram: &'a [u8],
    config: &'a Config,
    record: &'a [u8],
}

impl Case<'_> {
    fn input(&self) -> [(&'static str, &[u8]); 2] {
        [("datagram", self.datagram), ("configuration record", self.record)]
    }

    fn list(&self, tally: &mut Tally, random: &mut Random) {
        let lines = listing::list(self.datagram, self.config);
        let reference = |out: &mut [u8]| {
            let out = out.get_mut(..lines.len()).ok_or(Number::NoRoom.nowhere())?;
            out.copy_from_slice(lines.as_bytes());
            Ok(lines.len())
        };
        let mut tuned = Vec::new();
        tuned::list_into(&mut tuned, self.datagram, self.config);
        tally.judge_equal("tuned list", 0, tuned == lines.as_bytes(), &self.input());
        let of = |answer| Found { answer, areas: Vec::new() };
        let length = ffi::list_length(self.datagram, self.record);
        tally.judge("list_length", &of(length), &of(answer_of(Ok(lines.len() as u64))), &self.input());
        judge_put(tally, random, "list", lines.len(), &self.input(), reference, |out| ffi::list(self.datagram, self.record, out));
    }

    /// All messages and fields in one call: the records that fit whole are put, and all are counted.
    fn walk_all(&self, tally: &mut Tally, random: &mut Random) {
        let records =
            network::read(self.datagram, self.config).map(|envelope| record::walk(self.datagram, self.config, &envelope));
        let mut tuned = Vec::new();
        let tuned = tuned::walk_into(&mut tuned, self.datagram, self.config).map(|()| tuned);
        let number = records.as_ref().map_or_else(|refusal| refusal.number as u8, |_| 0);
        tally.judge_equal("tuned walk", number, tuned == records, &self.input());
        let length = walk_length(random, record::WALK_SIZE * records.as_ref().map_or(3, Vec::len));
        let before = Lent::of_length(random, length);
        let mut after = before.clone();
        let kept = ReadOnly::keep(&self.input());
        let answer = ffi::walk(self.datagram, self.record, after.middle_mut());
        let expected_area = match &records {
            Ok(records) => {
                before.with(&bytes_of(&records.concat())[..(length / record::WALK_SIZE).min(records.len()) * record::WALK_SIZE])
            }
            Err(_) => before,
        };
        let expected = Found { answer: answer_of(records.map(|records| records.len() as u64)), areas: vec![expected_area] };
        if tally.judge("walk", &Found { answer, areas: vec![after] }, &expected, &self.input()) {
            kept.judge(tally, "walk", &self.input());
        }
    }

    fn rewrite(&self, tally: &mut Tally, random: &mut Random) {
        let reference = |out: &mut [u8]| network_writer::rewrite(self.datagram, self.config, out);
        let call = |out: &mut [u8]| ffi::rewrite(self.datagram, self.record, out);
        judge_put(tally, random, "rewrite", self.datagram.len(), &self.input(), reference, call);
    }

    /// The datagram read as a chunk.
    fn chunk(&self, tally: &mut Tally, random: &mut Random) {
        let expected = network::read(self.datagram, self.config).and_then(|envelope| {
            let PayloadHeader::ChunkOf(writer) = envelope.payload_header else {
                return Err(Number::NotTaken.nowhere());
            };
            let chunk = chunk::read(self.datagram, envelope.payload_start)?;
            Ok((chunk.number.into(), bytes_of(&record::chunk(self.datagram, &envelope, writer, &chunk))))
        });
        let call = |area: &mut [u8]| ffi::chunk(self.datagram, self.record, area);
        judge_filled(tally, random, "chunk", record::CHUNK_SIZE, expected, &self.input(), call);
    }

    fn read(&self, tally: &mut Tally, random: &mut Random) {
        let envelope = network::read(self.datagram, self.config);
        let expected = envelope.map(|envelope| (envelope.message_count as u64, bytes_of(&record::envelope(&envelope))));
        let call = |area: &mut [u8]| ffi::read(self.datagram, self.record, area);
        judge_filled(tally, random, "read", record::ENVELOPE_SIZE, expected, &self.input(), call);
        let Ok(envelope) = envelope else {
            return;
        };
        let mut walked = Lent::holding(random, &bytes_of(&record::envelope(&envelope)));
        for place in envelope.messages(self.datagram, self.config) {
            if !self.next_message(tally, random, &mut walked, Ok(place)) {
                return;
            }
            let writer = place.writer.map_or(record::NO_WRITER, u32::from);
            self.message(tally, random, &self.datagram[place.offset..][..place.length], writer);
        }
        self.next_message(tally, random, &mut walked, Err(()));
    }

    /// Steps to the next message; none is expected after the last.
    fn next_message(
        &self, tally: &mut Tally, random: &mut Random, walked: &mut Lent, expected: std::result::Result<MessagePlace, ()>,
    ) -> bool {
        let layout = record::PLACE_SIZE;
        let length = record_length(random, layout);
        let before = Lent::of_length(random, length);
        let walked_before = walked.clone();
        let mut after = before.clone();
        let answer = ffi::next_message(self.datagram, self.record, walked.middle_mut(), after.middle_mut());
        let refused = |number: Number| (answer_of(Err(number.nowhere())), walked_before.clone(), before.clone());
        let (expected_answer, expected_walked, expected_place) = match expected {
            Err(()) => refused(Number::OverLimit),
            Ok(_) if length < layout => refused(Number::NoRoom),
            Ok(place) => {
                let mut envelope = walked_before.clone();
                envelope.middle_mut()[208..216].copy_from_slice(&(place.number as u64 + 1).to_le_bytes());
                envelope.middle_mut()[216..224].copy_from_slice(&((place.offset + place.length) as u64).to_le_bytes());
                (Answer::done(place.number as u64), envelope, before.with(&bytes_of(&record::place(&place))))
            }
        };
        let found = Found { answer, areas: vec![walked.clone(), after] };
        let expected = Found { answer: expected_answer, areas: vec![expected_walked, expected_place] };
        if !tally.judge("next_message", &found, &expected, &self.input()) {
            return false;
        }
        // A step that had no room is taken again.
        if answer.number() == Number::NoRoom as u8 {
            let again = ffi::next_message(self.datagram, self.record, walked.middle_mut(), &mut [0; 32]);
            return again.number() == 0;
        }
        true
    }

    fn message(&self, tally: &mut Tally, random: &mut Random, message: &[u8], writer: u32) {
        let types = self.config.types_of(u16::try_from(writer).ok());
        let writer_bytes = writer.to_le_bytes();
        let input = [("message", message), ("configuration record", self.record), ("writer", &writer_bytes[..])];
        let read = message::read(message, types);
        let expected = read.map(|read| (u64::from(read.is_some()), bytes_of(&record::head(read.as_ref()))));
        let call = |area: &mut [u8]| ffi::read_message(message, self.record, writer, area);
        judge_filled(tally, random, "read_message", record::HEAD_SIZE, expected, &input, call);

        let front = message::front(message, types);
        let expected = front.map(|front| (u64::from(front.is_some()), bytes_of(&record::head(front.as_ref()))));
        let call = |area: &mut [u8]| ffi::open_message(message, self.record, writer, area);
        judge_filled(tally, random, "open_message", record::HEAD_SIZE, expected, &input, call);
        if let Ok(Some(front)) = front {
            self.walk_opened(tally, random, message, types, writer, &front);
        }

        let count = read.ok().flatten().map_or(0, |read| read.fields.count);
        let k = random.within(0, count + 1);
        let k = if random.one_in(50) { random.number() as usize } else { k };
        let expected =
            message::field(message, types, k).map(|(field, _)| (field.offset as u64, bytes_of(&record::field(&field))));
        let call = |area: &mut [u8]| ffi::field(message, self.record, writer, k as u64, area);
        judge_filled(tally, random, "field", record::FIELD_SIZE, expected, &input, call);

        let reference = |out: &mut [u8]| message_writer::rewrite(message, types, out);
        let call = |out: &mut [u8]| ffi::rewrite_message(message, self.record, writer, out);
        judge_put(tally, random, "rewrite_message", message.len(), &input, reference, call);

        if let Ok(Some(read)) = read {
            self.walk(tally, random, message, types, writer, &read);
        }
    }

    /// An opened message walked over, its end asked after any number of steps; after the last the library says of the message what
    /// reading it whole does.
    fn walk_opened(&self, tally: &mut Tally, random: &mut Random, message: &[u8], types: &[u8], writer: u32, front: &Message) {
        let mut head = Lent::holding(random, &bytes_of(&record::head(Some(front))));
        let asked = random.within(0, front.fields.count);
        for k in 0..front.fields.count {
            if k == asked {
                judge_end(tally, message, &head);
            }
            if !step(tally, random, (message, self.record, types, writer), &mut head) {
                return;
            }
        }
        let whole = answer_of(message::read(message, types).map(|read| read.map_or(0, |read| read.end as u64)));
        let input = [("message", message), ("configuration record", self.record), ("head record", head.middle())];
        let ended = Found { answer: ffi::end_message(message, head.middle()), areas: vec![] };
        tally.judge("end_message of all fields", &ended, &Found { answer: whole, areas: vec![] }, &input);
    }

    fn walk(&self, tally: &mut Tally, random: &mut Random, message: &[u8], types: &[u8], writer: u32, read: &Message) {
        let mut head = Lent::holding(random, &bytes_of(&record::head(Some(read))));
        for _ in 0..=read.fields.count {
            if !step(tally, random, (message, self.record, types, writer), &mut head) {
                return;
            }
        }
    }
}

/// One step of the field cursor in a head record; false ends the walk.
fn step(
    tally: &mut Tally, random: &mut Random, (message, config, types, writer): (&[u8], &[u8], &[u8], u32), head: &mut Lent,
) -> bool {
    let writer_bytes = writer.to_le_bytes();
    let head_before = head.clone();
    let layout = record::FIELD_SIZE;
    let length = record_length(random, layout);
    let before = Lent::of_length(random, length);
    let mut after = before.clone();
    let answer = ffi::next_field(message, config, writer, head.middle_mut(), after.middle_mut());
    let room = length >= layout && head_before.length >= record::HEAD_SIZE;
    let refused = |refusal| Found { answer: answer_of(Err(refusal)), areas: vec![head_before.clone(), before.clone()] };
    let expected = match record::cursor_of(head_before.middle()).step(message, types) {
        Err(refusal) => refused(refusal),
        Ok(_) if !room => refused(Number::NoRoom.nowhere()),
        Ok((field, next)) => {
            let mut head_after = head_before.clone();
            head_after.middle_mut()[96..104].copy_from_slice(&(next.next as u64).to_le_bytes());
            head_after.middle_mut()[112..120].copy_from_slice(&(next.at as u64).to_le_bytes());
            let areas = vec![head_after, before.with(&bytes_of(&record::field(&field)))];
            Found { answer: Answer::done(field.offset as u64), areas }
        }
    };
    let input = [
        ("message", message),
        ("configuration record", config),
        ("writer", &writer_bytes[..]),
        ("head record", head_before.middle()),
    ];
    tally.judge("next_field", &Found { answer, areas: vec![head.clone(), after] }, &expected, &input) && answer.number() == 0
}

/// The end of a message by any head record.
fn judge_end(tally: &mut Tally, message: &[u8], head: &Lent) {
    let cursor = record::cursor_of(head.middle());
    let expected = if cursor.at > message.len() {
        Err(Number::CutShort.at(cursor.at))
    } else if cursor.next < cursor.count {
        Err(Number::Disagree.at(cursor.at))
    } else if let Some(other) = message[cursor.at..].iter().position(|byte| *byte != 0) {
        Err(Number::LeftOver.at(cursor.at + other))
    } else if head.length < record::HEAD_SIZE {
        Err(Number::NoRoom.nowhere())
    } else {
        Ok(cursor.at as u64)
    };
    let input = [("message", message), ("head record", head.middle())];
    let found = Found { answer: ffi::end_message(message, head.middle()), areas: vec![] };
    tally.judge("end_message", &found, &Found { answer: answer_of(expected), areas: vec![] }, &input);
}

/// A made-up head record.
pub fn made_up_field_cursor(tally: &mut Tally, random: &mut Random) {
    let config = generate::ConfigSpec::any(random);
    let id = generate::writer_id(random, &config);
    let message = generate::message(random, config.types_of(id));
    let config = Config::parse(&config.text()).expect("made valid");
    let types = config.types_of(Some(id));
    let mut numbers: Vec<u64> = (0..20).map(|_| random.edge()).collect();
    if let (Ok(Some(read)), true) = (message::read(&message, types), random.one_in(2)) {
        numbers = record::head(Some(&read)).to_vec();
        let i = random.within(10, 14);
        numbers[i] = random.edge();
    } else {
        numbers[14] = random.within(0, message.len() + 2) as u64;
    }
    let length = if random.one_in(10) { random.below(record::HEAD_SIZE) } else { record::HEAD_SIZE };
    let mut head = Lent::holding(random, &bytes_of(&numbers)[..length]);
    let record = record::config(&config);
    for _ in 0..3 {
        judge_end(tally, &message, &head);
        if !step(tally, random, (&message, &record, types, id.into()), &mut head) {
            return;
        }
    }
}

/// What the reference answers for the cursor of any envelope record.
pub fn next_message_of(envelope: &[u8], datagram: &[u8], config: &Config) -> Result<MessagePlace> {
    let n = |i: usize| number(envelope, i) as usize;
    let (next, at) = (n(26), n(27));
    if next >= n(22) {
        return Err(Number::OverLimit.nowhere());
    }
    if at > datagram.len() {
        return Err(Number::CutShort.at(at));
    }
    let pair = |at: usize| datagram.get(at..)?.first_chunk().map(|pair| u16::from_le_bytes(*pair));
    let entry = |start: usize| next.checked_mul(2).and_then(|skip| start.checked_add(skip)).and_then(pair);
    let length = match n(23) {
        1 => entry(n(24)).map_or(0, usize::from),
        2 => config.writers().get(next).and_then(|writer| writer.size).map_or(0, usize::from),
        _ => datagram.len() - at,
    };
    if length > datagram.len() - at {
        return Err(Number::CutShort.at(at));
    }
    let writer = match n(12) {
        1 => n(13).checked_mul(2).and_then(|length| n(14).checked_sub(length)).and_then(entry),
        2 => Some(n(13) as u16),
        3 => None,
        _ => config.writers().get(next).map(|writer| writer.id),
    };
    Ok(MessagePlace { number: next, offset: at, length, writer })
}

/// A made-up envelope record.
pub fn made_up_message_cursor(tally: &mut Tally, random: &mut Random) {
    let Scenario { text, datagram } = Scenario::any(random);
    let config = Config::parse(&text).expect("made valid");
    let Ok(envelope) = network::read(&datagram, &config) else {
        return;
    };
    let mut numbers = record::envelope(&envelope);
    let i = random.pick(&[22, 23, 26, 27]);
    numbers[i] = match i {
        22 => random.below(300) as u64,
        23 => random.below(5) as u64,
        26 => random.below(20) as u64,
        _ if random.one_in(10) => random.edge(),
        _ => random.below(datagram.len() + 3) as u64,
    };
    let before = Lent::holding(random, &bytes_of(&numbers));
    let place_before = Lent::of_length(random, record::PLACE_SIZE);
    let (mut after, mut place_after) = (before.clone(), place_before.clone());
    let config_record = record::config(&config);
    let answer = ffi::next_message(&datagram, &config_record, after.middle_mut(), place_after.middle_mut());
    let expected = match next_message_of(before.middle(), &datagram, &config) {
        Err(refusal) => Found { answer: answer_of(Err(refusal)), areas: vec![before.clone(), place_before] },
        Ok(place) => {
            let mut envelope = before.clone();
            envelope.middle_mut()[208..216].copy_from_slice(&(place.number as u64 + 1).to_le_bytes());
            envelope.middle_mut()[216..224].copy_from_slice(&((place.offset + place.length) as u64).to_le_bytes());
            let areas = vec![envelope, place_before.with(&bytes_of(&record::place(&place)))];
            Found { answer: Answer::done(place.number as u64), areas }
        }
    };
    let input = [("datagram", &datagram[..]), ("configuration record", &config_record), ("envelope record", before.middle())];
    tally.judge("next_message", &Found { answer, areas: vec![after, place_after] }, &expected, &input);
}
