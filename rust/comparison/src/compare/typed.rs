//! The crate's types: what they tell of an input, and what its builders write, beside the reference.
use super::Tally;
use crate::generate::{self, Random, Scenario};
use crate::reference;
use crate::reference::config::Config;
use crate::reference::message::{Field, Header, Message};
use crate::reference::network::{Envelope, Group, MessagePlace, PublisherId};
use crate::reference::value::{Shape, LOCALIZED_TEXT, QUALIFIED_NAME};
use crate::reference::{listing, message, message_writer, network, network_writer, told};
use uadp::walk::{Entries, Entry, Outcome, Record};
use uadp::{Chunks, DatagramBuilder, Information, MessageBuilder, Probe, ProbeBuilder, Refusal, Strings, Values, MOST_DATAGRAM};

/// A refusal as number and place.
fn of_crate(refusal: Refusal) -> (u8, usize) {
    (refusal.number(), refusal.place)
}

fn of_reference(refusal: reference::Refusal) -> (u8, usize) {
    (refusal.number as u8, refusal.place)
}

fn number_of<T>(result: &Result<T, (u8, usize)>) -> u8 {
    result.as_ref().map_or_else(|(number, _)| *number, |_| 0)
}

/// A configuration text, its writers, and a datagram under it.
pub fn typed(tally: &mut Tally, random: &mut Random) {
    let Scenario { text, datagram } = Scenario::any(random);
    let text = if random.one_in(4) { generate::config_text(random) } else { text };
    let input = [("text", &text[..]), ("datagram", &datagram[..])];
    let (ours, expected) = (uadp::Config::parse(&text).map_err(of_crate), Config::parse(&text).map_err(of_reference));
    let number = number_of(&expected);
    let equal = match (&ours, &expected) {
        (Ok(ours), Ok(expected)) => same_writers(ours, expected),
        (ours, expected) => ours.as_ref().err() == expected.as_ref().err(),
    };
    tally.judge_equal("Config", number, equal, &input);
    let (Ok(ours), Ok(expected)) = (ours, expected) else { return };
    let case = Case { datagram: &datagram, ours: &ours, config: &expected };
    tally.judge_equal("Listing", 0, case.lists_alike(), &input);
    case.read(tally, random, &input);
}

fn same_writers(ours: &uadp::Config, expected: &Config) -> bool {
    ours.writers().len() == expected.writers().len()
        && ours.writers().zip(expected.writers()).all(|(ours, writer)| {
            let types = expected.types_of(Some(writer.id)).iter().copied();
            (ours.id, ours.size) == (writer.id, writer.size) && ours.types().map(uadp::Type::number).eq(types)
        })
}

struct Case<'a> {
    datagram: &'a [u8],
    ours: &'a uadp::Config,
    config: &'a Config,
}

impl Case<'_> {
    fn lists_alike(&self) -> bool {
        let expected = listing::list(self.datagram, self.config);
        let mut out = vec![0; expected.len()];
        uadp::list(self.datagram, self.ours, &mut out) == Ok(&expected)
    }

    fn read(&self, tally: &mut Tally, random: &mut Random, input: &[(&str, &[u8])]) {
        let found = uadp::Datagram::read(self.datagram, self.ours);
        let expected = network::read(self.datagram, self.config);
        let (Ok(found), Ok(expected)) = (&found, &expected) else {
            let (found, expected) = (found.map(drop).map_err(of_crate), expected.map(drop).map_err(of_reference));
            tally.judge_equal("Datagram", number_of(&expected), found == expected, input);
            return;
        };
        tally.judge_equal("Datagram", 0, same_envelope(found, expected), input);
        tally.judge_equal("DatagramBuilder", 0, self.built_alike(found), input);
        tally.judge_equal("Probe", 0, same_probe(found, self.datagram, self.config), input);
        let places: Vec<MessagePlace> = expected.messages(self.datagram, self.config).collect();
        let walked = found.messages().zip(&places).all(|(part, place)| same_place(part, place));
        tally.judge_equal("Messages", 0, walked && found.messages().len() == places.len(), input);
        for part in found.messages() {
            self.message(tally, random, part, input);
        }
        tally.judge_equal("Walk", 0, self.walked_alike(found), input);
    }

    /// The datagram built again from what was read of it.
    fn built_alike(&self, found: &uadp::Datagram) -> bool {
        let mut expected = vec![0; self.datagram.len()];
        let Ok(length) = network_writer::rewrite(self.datagram, self.config, &mut expected) else { return false };
        let expected = &expected[..length];
        let mut out = vec![0; self.datagram.len()];
        let rewritten = found.rewrite(&mut out) == Ok(expected);
        let builder = DatagramBuilder::new()
            .publisher(found.publisher())
            .class_id(found.class_id())
            .group(found.group())
            .timestamp(found.timestamp())
            .picoseconds(found.picoseconds())
            .promoted(found.promoted());
        let mut out = vec![0; self.datagram.len()];
        rewritten && self.payload_built(found, &builder, &mut out) == Ok(expected)
    }

    fn payload_built<'b>(
        &self, found: &uadp::Datagram, builder: &DatagramBuilder, out: &'b mut [u8],
    ) -> Result<&'b [u8], Refusal> {
        if let Some(writer) = found.chunk_writer() {
            return builder.write_chunk(writer, found.payload(), out);
        }
        if let Some(probe) = found.probe() {
            return builder.write_probe(probe_built(&probe, &mut vec![0; self.datagram.len()])?, out);
        }
        let messages: Vec<u8> = found.messages().flat_map(|part| part.bytes().iter().copied()).collect();
        if self.datagram[0] & 0x40 == 0 {
            return builder.write_configured(self.ours, &messages, out);
        }
        let writers: Vec<u16> = found.messages().filter_map(|part| part.writer()).collect();
        if let [writer] = writers[..] {
            return builder.write_message(writer, &messages, out);
        }
        let lengths: Vec<u16> = found.messages().map(|part| part.bytes().len() as u16).collect();
        builder.write_messages(&writers, &lengths, &messages, out)
    }

    fn message(&self, tally: &mut Tally, random: &mut Random, part: uadp::MessagePart, input: &[(&str, &[u8])]) {
        let types = self.config.types_of(part.writer());
        let found = part.read().map_err(of_crate);
        let expected = message::read(part.bytes(), types).map_err(of_reference);
        let number = number_of(&expected);
        let equal = match (&found, &expected) {
            (Ok(Some(found)), Ok(Some(expected))) => same_header(found, &expected.header) && same_fields(found, expected, types),
            (Ok(None), Ok(None)) => true,
            (found, expected) => found.as_ref().err() == expected.as_ref().err(),
        };
        tally.judge_equal("Message", number, equal, input);
        let (Ok(Some(found)), Ok(Some(expected))) = (found, expected) else { return };
        let k = random.within(0, expected.fields.count);
        let field = message::field(part.bytes(), types, k).ok();
        let equal = match (found.field(k), field) {
            (Some(found), Some((expected, _))) => same_field(&found, &expected),
            (found, expected) => found.is_none() && expected.is_none(),
        };
        tally.judge_equal("Field", 0, equal, input);
        tally.judge_equal("MessageBuilder", 0, self.message_built(&found, expected.heartbeat, types), input);
    }

    /// The message built again from what was read of it.
    fn message_built(&self, found: &uadp::Message, heartbeat: bool, types: &[u8]) -> bool {
        let part = found.part();
        let mut expected = vec![0; part.bytes().len()];
        let rewritten = message_writer::rewrite(part.bytes(), types, &mut expected) == Ok(part.bytes().len());
        let (mut bytes, mut lengths) = (vec![0; part.bytes().len()], vec![0; found.fields().len()]);
        let mut values = Values::new(&mut bytes, &mut lengths);
        let pushed = found.fields().all(|field| values.push(field.bytes).is_ok());
        let indices: Vec<u16> = found.fields().map(|field| field.index as u16).collect();
        let indices = if found.kind() == uadp::Kind::Delta { &indices[..] } else { &[] };
        let builder = match heartbeat {
            true => MessageBuilder::heartbeat().encoding(found.encoding()),
            false => {
                MessageBuilder::new(found.kind(), found.encoding()).fields(&values).indices(indices).padding(found.padding())
            }
        };
        let builder = builder
            .sequence(found.sequence())
            .timestamp(found.timestamp())
            .picoseconds(found.picoseconds())
            .status(found.status())
            .major_version(found.major_version())
            .minor_version(found.minor_version());
        let (mut out, mut again) = (expected.clone(), expected.clone());
        rewritten
            && pushed
            && builder.write(self.ours, part.writer(), &mut out) == Ok(&expected[..])
            && part.rewrite(&mut again) == Ok(&expected[..])
    }

    /// One call tells what stepping tells.
    fn walked_alike(&self, found: &uadp::Datagram) -> bool {
        let mut room: Vec<Record> = vec![[0; uadp::ffi::WALK_SIZE]; self.datagram.len()];
        let Ok(walk) = uadp::walk(self.datagram, self.ours, &mut room) else { return false };
        let mut entries = walk.entries();
        let equal = found.messages().all(|part| {
            let Some(Entry::Message(walked)) = entries.next() else { return false };
            let read = part.read();
            let outcome = match &read {
                Ok(Some(message)) => {
                    Outcome::Accepted { kind: message.kind(), encoding: message.encoding(), sequence: message.sequence() }
                }
                Ok(None) => Outcome::NotValid,
                Err(refusal) => Outcome::Refused(*refusal),
            };
            let place = (walked.number, walked.writer, walked.offset, walked.bytes);
            if place != (part.number(), part.writer(), part.offset(), part.bytes()) || walked.outcome != outcome {
                return false;
            }
            let Ok(message) = read else { return self.salvaged_alike(&mut entries, part) };
            { message }.into_iter().flat_map(|message| message.fields()).all(|mut expected| {
                expected.offset += part.offset();
                entries.next() == Some(Entry::Field { message: part.number(), field: expected })
            })
        });
        equal && entries.next().is_none() && walk.is_whole()
    }

    /// The fields that follow a refused message are those before its fault.
    fn salvaged_alike(&self, entries: &mut Entries, part: uadp::MessagePart) -> bool {
        let types = self.config.types_of(part.writer());
        let Ok(Some(front)) = message::front(part.bytes(), types) else { return true };
        front.walk(part.bytes(), types).all(|mut expected| {
            expected.offset += part.offset();
            let Some(Entry::Field { message, field }) = entries.next() else { return false };
            message == part.number() && field.encoding as u8 == front.header.encoding as u8 && same_field(&field, &expected)
        })
    }
}

/// A probe built again from what was read of it.
fn probe_built<'b>(found: &Probe, out: &'b mut [u8]) -> Result<&'b [u8], Refusal> {
    let ids: Vec<u16> = found.ids().collect();
    let mut room = vec![0; out.len()];
    let mut strings = Strings::new(&mut room);
    found.strings().try_for_each(|string| strings.push(string))?;
    let builder = match (found.information(), found.is_null()) {
        (Information::MetaData, false) => ProbeBuilder::meta_data(&ids),
        (Information::MetaData, true) => ProbeBuilder::meta_data_of_null(),
        (Information::Writers, false) => ProbeBuilder::writers(&ids),
        (Information::Writers, true) => ProbeBuilder::writers_of_null(),
        (Information::WriterGroup, _) => ProbeBuilder::writer_group(found.writer_group_id().unwrap_or_default()),
        (Information::Connections, false) => ProbeBuilder::connections_of(&strings),
        (Information::Connections, true) => ProbeBuilder::connections(),
    };
    let groups = found.include_writer_groups().unwrap_or_default();
    let writers = found.include_data_set_writers().unwrap_or_default();
    builder.include_writer_groups(groups).include_data_set_writers(writers).write(out)
}

/// A datagram's probe, with what it lists.
fn same_probe(found: &uadp::Datagram, datagram: &[u8], config: &Config) -> bool {
    let (Some(found), Ok((_, expected))) = (found.probe(), network::read_probe(datagram, config)) else {
        return found.probe().is_none() && network::read_probe(datagram, config).is_err();
    };
    let mut at = expected.list;
    let items: Vec<reference::probe::Item> = (0..expected.count)
        .map_while(|k| {
            let (item, next) = reference::probe::item(datagram, expected.information, expected.count, k, at).ok()?;
            at = next;
            Some(item)
        })
        .collect();
    let connections = expected.information == reference::probe::CONNECTIONS;
    let (ids, strings) = if connections { (&[][..], &items[..]) } else { (&items[..], &[][..]) };
    let text = |item: &reference::probe::Item| (item.value == 0).then(|| &datagram[item.offset..][..item.length]);
    let group = expected.information == reference::probe::GROUP;
    found.information() as u8 == expected.information
        && found.is_null() == expected.null
        && (found.ids().len(), found.strings().len()) == (ids.len(), strings.len())
        && found.ids().eq(ids.iter().map(|item| item.value))
        && found.strings().eq(strings.iter().map(text))
        && found.writer_group_id() == group.then_some(expected.group)
        && found.include_writer_groups() == connections.then_some(expected.writer_groups)
        && found.include_data_set_writers() == (group || connections).then_some(expected.data_set_writers)
}

fn publisher_of(id: uadp::PublisherId) -> PublisherId {
    match id {
        uadp::PublisherId::Byte(id) => PublisherId::Byte(id),
        uadp::PublisherId::UInt16(id) => PublisherId::UInt16(id),
        uadp::PublisherId::UInt32(id) => PublisherId::UInt32(id),
        uadp::PublisherId::UInt64(id) => PublisherId::UInt64(id),
        uadp::PublisherId::String(id) => PublisherId::String(id),
    }
}

fn group_of(group: uadp::Group) -> Group {
    let uadp::Group { writer_group_id, version, message_number, sequence } = group;
    Group { writer_group_id, version, message_number, sequence }
}

fn same_envelope(found: &uadp::Datagram, expected: &Envelope) -> bool {
    let chunk_writer = match expected.payload_header {
        network::PayloadHeader::ChunkOf(writer) => Some(writer),
        _ => None,
    };
    found.publisher().map(publisher_of) == expected.publisher
        && found.class_id() == expected.class_id.copied()
        && found.group().map(group_of) == expected.group
        && (found.is_chunk(), found.chunk_writer()) == (expected.chunk, chunk_writer)
        && (found.timestamp(), found.picoseconds()) == (expected.timestamp, expected.picoseconds)
        && found.promoted() == expected.promoted
        && found.payload() == &found.bytes()[expected.payload_start..]
}

fn same_place(found: uadp::MessagePart, expected: &MessagePlace) -> bool {
    let found = (found.number(), found.offset(), found.bytes().len(), found.writer());
    found == (expected.number, expected.offset, expected.length, expected.writer)
}

fn same_header(found: &uadp::Message, expected: &Header) -> bool {
    found.encoding() as u8 == expected.encoding as u8
        && found.kind() as u8 == expected.kind as u8
        && (found.sequence(), found.timestamp()) == (expected.sequence, expected.timestamp)
        && (found.picoseconds(), found.status()) == (expected.picoseconds, expected.status)
        && (found.major_version(), found.minor_version()) == (expected.major, expected.minor)
}

fn same_fields(found: &uadp::Message, expected: &Message, types: &[u8]) -> bool {
    let bytes = found.part().bytes();
    let fields: Vec<Field> = expected.walk(bytes, types).collect();
    found.padding() == bytes.len() - expected.end
        && found.fields().len() == fields.len()
        && found.fields().count() == fields.len()
        && found
            .fields()
            .zip(&fields)
            .all(|(found, expected)| same_field(&found, expected) && found.bytes == &bytes[expected.offset..][..expected.length])
}

fn same_field(found: &uadp::Field, expected: &Field) -> bool {
    let shape = match expected.value.shape {
        Shape::Scalar => uadp::Shape::Scalar,
        Shape::NullArray => uadp::Shape::NullArray,
        Shape::Array(count) => uadp::Shape::Array(count),
    };
    (found.index, found.offset, found.bytes.len()) == (expected.index, expected.offset, expected.length)
        && (found.value_type.number(), found.shape, found.dimensions) == (expected.value.kind, shape, expected.value.dimensions)
        && same_value(found)
}

/// A name's parts.
fn same_name(value: &uadp::Value, expected: &told::Told, bytes: &[u8]) -> bool {
    let string = |(start, length): (usize, usize)| (start > 0).then(|| &bytes[start..][..length]);
    let scalar = |kind| expected.shape == Shape::Scalar && expected.kind == kind;
    let (locale, text) = (string(expected.name.locale), string(expected.name.text));
    let name = uadp::QualifiedName { namespace_index: expected.name.number, name: text };
    value.as_qualified_name() == scalar(QUALIFIED_NAME).then_some(name)
        && value.as_localized_text() == scalar(LOCALIZED_TEXT).then_some(uadp::LocalizedText { locale, text })
}

/// An array's dimensions.
fn same_sizes(value: &uadp::Value, expected: &told::Told, bytes: &[u8]) -> bool {
    let elements = if let Shape::Array(count) = expected.shape { count } else { 0 };
    let listed =
        |k| bytes[expected.sizes + 4 * k..].iter().take(4).rev().fold(0, |number, byte| number << 8 | usize::from(*byte));
    let size = |k| if expected.sizes == 0 { elements } else { listed(k) };
    value.dimensions() == expected.dimensions && value.sizes().eq((0..expected.dimensions).map(size))
}

/// A field's value told apart: what it is, its bytes and elements, and a DataValue's other parts.
fn same_value(found: &uadp::Field) -> bool {
    let expected = told::field(found.bytes, 0, found.encoding as u32, found.value_type.number().into());
    let (Ok(value), Ok(expected)) = (found.value(), expected) else { return false };
    let [_, status, source_time, source_picoseconds, server_time, server_picoseconds] = expected.places;
    let part = |place: usize, width: usize| {
        let number = found.bytes[place..].iter().take(width).rev().fold(0, |number, byte| number << 8 | u64::from(*byte));
        (place > 0).then_some(number)
    };
    let bytes = &found.bytes[expected.first..expected.last];
    let width = Some(expected.width).filter(|width| *width > 0);
    (value.value_type().number(), value.is_null(), value.width()) == (expected.kind, expected.null, width)
        && (value.first(), value.end(), value.bytes()) == (expected.first, expected.end, bytes)
        && same_name(&value, &expected, found.bytes)
        && same_sizes(&value, &expected, found.bytes)
        && (expected.width != 4 || value.elements::<4>().flatten().eq(bytes.iter().copied()))
        && value.status().map(u64::from) == part(status, 4)
        && value.source_time().map(|time| time as u64) == part(source_time, 8)
        && value.source_picoseconds().map(u64::from) == part(source_picoseconds, 2)
        && value.server_time().map(|time| time as u64) == part(server_time, 8)
        && value.server_picoseconds().map(u64::from) == part(server_picoseconds, 2)
}

/// A payload cut, sent as datagrams and put together again in any order, in two partials that are combined.
pub fn reassembled(tally: &mut Tally, random: &mut Random) {
    let length = random.within(1, 600);
    let payload = random.bytes(length);
    let (size, writer, number) = (random.within(1, 200), random.number() as u16, random.number() as u16);
    let id = generate::publisher(random);
    let text = &id.1[..id.1.len().min(64)];
    let publisher = random.pick(&[uadp::PublisherId::UInt32(7), uadp::PublisherId::String(text)]);
    let group = random.maybe(2, |random| random.pick(&[0, 21, 65_535]));
    let equal = reassemble(random, &payload, size, (group, writer, number), publisher);
    tally.judge_equal("Partial", 0, equal == Ok(true), &[("payload", &payload), ("text", text)]);
}

fn reassemble(
    random: &mut Random, payload: &[u8], size: usize, (group, writer, number): (Option<u16>, u16, u16),
    publisher: uadp::PublisherId,
) -> Result<bool, Refusal> {
    let (config, builder) = (uadp::Config::new(), DatagramBuilder::new().publisher(publisher));
    let builder = builder.group(group.map(|id| uadp::Group { writer_group_id: Some(id), ..uadp::Group::default() }));
    let (mut chunk, mut out) = (vec![0; size + 14], vec![0; MOST_DATAGRAM]);
    let (mut chunks, mut datagrams) = (Chunks::new(payload, number, size), Vec::new());
    while let Some(chunk) = chunks.next_into(&mut chunk)? {
        let datagram = builder.write_chunk(writer, chunk, &mut out)?;
        datagrams.push(datagram.to_vec());
    }
    let mut equal = datagrams.len() == payload.len().div_ceil(size);
    let mut whole = uadp::Partial::new(vec![7; payload.len()], vec![1; uadp::marks_size(payload.len())]);
    let mut other = whole.clone();
    equal &= (whole.is_started(), whole.writer(), whole.writer_group_id(), whole.publisher()) == (false, None, None, None);
    let read = uadp::Chunk::read(&datagrams[0], &config)?;
    equal &= (read.writer_group_id, read.writer, read.number) == (group, writer, number);
    for left in (1..=datagrams.len()).rev() {
        equal &= !whole.is_complete()?;
        let datagram = datagrams.swap_remove(random.below(left));
        if random.one_in(3) {
            other.take_in(&datagram, &config)?;
        } else {
            whole.take_in(&datagram, &config)?;
        }
    }
    whole.combine(&other)?;
    let message = whole.message(&config)?;
    equal &= (message.bytes(), message.writer()) == (payload, Some(writer)) && whole.is_complete()?;
    equal &= (whole.number(), whole.total(), whole.publisher()) == (Some(number), Some(payload.len()), Some(publisher));
    equal &= whole.writer_group_id() == group && whole.progress()? == (payload.len(), payload.len());
    whole.empty();
    Ok(equal && whole.hand_out().map_err(of_crate) == Err((15, 0)))
}
