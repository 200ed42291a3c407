//! Datagrams and messages written from parts, right and wrong ones.
use super::reading::judge_put;
use super::Tally;
use crate::generate::{self, ConfigSpec, EnvelopeSpec, MessageSpec, Random};
use crate::record::{self, bytes_of};
use crate::reference::config::Config;
use crate::reference::{message_writer, network_writer};
use uadp::ffi::{self, EnvelopeParts, MessageParts};

fn pairs(numbers: &[u16]) -> Vec<u8> {
    numbers.iter().flat_map(|number| number.to_le_bytes()).collect()
}

fn present<T: Copy + Into<u64>>(item: Option<T>) -> [u64; 2] {
    item.map_or([0, 0], |item| [1, item.into()])
}

/// Parts of a datagram as the library takes them.
struct DatagramParts {
    numbers: Vec<u64>,
    record_length: usize,
    text: Vec<u8>,
    ids: Vec<u8>,
    promoted: Vec<u8>,
    lengths: Vec<u8>,
    messages: Vec<u8>,
}

impl DatagramParts {
    fn of(random: &mut Random, spec: &EnvelopeSpec) -> Self {
        // Numbers that are not read hold anything.
        let mut numbers: Vec<u64> = (0..record::ENVELOPE_SIZE / 8).map(|_| random.number()).collect();
        let (kind, id) = spec.publisher.clone().unwrap_or_default();
        let is_string = kind == 4 && spec.publisher.is_some();
        numbers[0] = if spec.publisher.is_some() { u64::from(kind) + 1 } else { 0 };
        numbers[1] =
            if is_string { id.len() as u64 } else { id.iter().rev().fold(0, |number, byte| number << 8 | u64::from(*byte)) };
        numbers[3] = spec.class_id.is_some().into();
        if let Some(class_id) = spec.class_id {
            let number = u128::from_le_bytes(class_id);
            (numbers[4], numbers[5]) = (number as u64, (number >> 64) as u64);
        }
        numbers[6] = 0;
        if let Some((group, version, number, sequence)) = spec.group {
            let items = [group.map(u64::from), version.map(u64::from), number.map(u64::from), sequence.map(u64::from)];
            numbers[6] = 16 + (0..4).filter(|k| items[*k].is_some()).map(|k| 1 << k).sum::<u64>();
            (0..4).for_each(|k| numbers[7 + k] = items[k].unwrap_or(0));
        }
        numbers[11] = spec.chunk.into();
        (numbers[12], numbers[13]) = match (spec.payload_header, spec.chunk) {
            _ if spec.probe => (3, random.edge()),
            (false, _) => (0, 0),
            (true, false) => (1, spec.ids.len() as u64),
            (true, true) => (2, spec.ids[0].into()),
        };
        numbers[15..17].copy_from_slice(&present(spec.timestamp));
        numbers[17..19].copy_from_slice(&present(spec.picoseconds));
        numbers[19..21].copy_from_slice(&present(spec.promoted.as_ref().map(|promoted| promoted.len() as u64)));
        let several = !spec.chunk && spec.messages.len() > 1;
        let lengths: Vec<u16> = spec.messages.iter().filter(|_| several).map(|message| message.len() as u16).collect();
        Self {
            numbers,
            record_length: record::ENVELOPE_SIZE,
            text: if is_string { id } else { Vec::new() },
            ids: if spec.chunk || spec.probe { Vec::new() } else { pairs(&spec.ids) },
            promoted: spec.promoted.clone().unwrap_or_default(),
            lengths: pairs(&lengths),
            messages: spec.messages.concat(),
        }
    }

    /// Makes the parts wrong in one way, or nearly so.
    fn make_wrong(&mut self, random: &mut Random) {
        match random.below(21) {
            0 => self.numbers[13] = random.pick(&[0, 1, 2, 3, 255, 256, 257, 65_535, 65_536, 65_537, u64::MAX]),
            1 => self.numbers[1] = if random.one_in(2) { random.below(70) as u64 } else { random.edge() },
            2 => {
                let (given, said) = (random.pick(&[3, 63, 64, 65, 300]), random.pick(&[3, 63, 64, 65, 300]));
                self.text = random.bytes(given);
                (self.numbers[0], self.numbers[1]) = (5, if random.one_in(2) { given as u64 } else { said });
            }
            3 => (self.numbers[17], self.numbers[18]) = (1, random.pick(&[9_999, 10_000, 65_535, 65_536, 70_000])),
            4 if self.numbers[19] != 0 => self.numbers[20] += random.pick(&[0, 1, 65_536, u64::MAX - 65_536]),
            5 => generate::damage(random, &mut self.lengths),
            6 => self.lengths.truncate(random.within(0, self.lengths.len())),
            7 => generate::damage(random, &mut self.ids),
            8 => generate::damage(random, &mut self.messages),
            9 => self.numbers[12] = random.below(5) as u64,
            10 => self.numbers[11] ^= 1,
            11 => (self.numbers[6], self.numbers[9]) = (random.pick(&[20, 31]), 0),
            12 => (self.numbers[15], self.numbers[17], self.numbers[18]) = (0, 1, 5),
            13 => self.be_many(random.pick(&[254, 255, 256, 257])),
            14 => self.messages.clear(),
            15 if random.one_in(4) => self.messages.resize(random.pick(&[65_000, 65_520, 65_535, 65_536, 70_000]), 0),
            16 => self.record_length = random.below(record::ENVELOPE_SIZE),
            17 => {
                let i = random.pick(&[0, 1, 3, 6, 7, 8, 9, 10, 11, 12, 13, 15, 16, 17, 18, 19, 20]);
                self.numbers[i] = random.edge();
            }
            // An item's number at the end of its range.
            18 => {
                let i = random.pick(&[7, 8, 9, 10]);
                let most = if i == 8 { u64::from(u32::MAX) } else { u64::from(u16::MAX) };
                self.numbers[6] = random.pick(&[16, 31, self.numbers[6]]);
                self.numbers[i] = random.pick(&[most, most + 1, most + 2, most << 8, u64::MAX]);
            }
            19 => {
                let most: u64 = random.pick(&[255, 65_535, 4_294_967_295]);
                (self.numbers[0], self.numbers[1]) = (random.within(1, 4) as u64, random.pick(&[most, most + 1, most + 45]));
            }
            _ => self.numbers[0] = random.below(8) as u64,
        }
    }

    /// So many messages of one byte.
    fn be_many(&mut self, count: usize) {
        (self.numbers[12], self.numbers[13], self.numbers[11]) = (1, count as u64, 0);
        self.ids = vec![1; 2 * count];
        self.lengths = pairs(&vec![1; count]);
        self.messages = vec![0; count];
    }
}

/// A datagram written from parts.
pub fn write_datagram(tally: &mut Tally, random: &mut Random) {
    let mut config = ConfigSpec::any(random);
    let spec = match random.below(5) {
        0 if random.one_in(2) => EnvelopeSpec::with_probe(random),
        0 => {
            let length = random.within(0, 30);
            let payload = random.bytes(length);
            EnvelopeSpec::with_chunk(random, 7, payload)
        }
        _ => EnvelopeSpec::with_messages(random, &mut config),
    };
    let mut owned = DatagramParts::of(random, &spec);
    let wrongs = random.pick(&[0, 0, 0, 1, 1, 1, 1, 2, 3]);
    (0..wrongs).for_each(|_| owned.make_wrong(random));
    if random.one_in(30) {
        config = ConfigSpec::any(random);
    }
    let config = Config::parse(&config.text()).expect("made valid");
    let config_record = record::config(&config);
    let envelope = bytes_of(&owned.numbers)[..owned.record_length].to_vec();
    let parts = EnvelopeParts {
        envelope: &envelope,
        text: &owned.text,
        ids: &owned.ids,
        promoted: &owned.promoted,
        lengths: &owned.lengths,
        messages: &owned.messages,
    };
    let mut class_id = [0; 16];
    let reference_parts = record::parts_of(&parts, &mut class_id);
    let needed = network_writer::write(&reference_parts, &config, &mut vec![0; 65_535]).unwrap_or(20);
    let input = [
        ("envelope record", &envelope[..]),
        ("text", &owned.text),
        ("ids", &owned.ids),
        ("promoted", &owned.promoted),
        ("lengths", &owned.lengths),
        ("messages", &owned.messages),
        ("configuration record", &config_record),
    ];
    let reference = |out: &mut [u8]| network_writer::write(&reference_parts, &config, out);
    judge_put(tally, random, "write", needed, &input, reference, |out| ffi::write(&parts, &config_record, out));
}

/// Parts of a message as the library takes them.
struct OwnedMessageParts {
    numbers: Vec<u64>,
    record_length: usize,
    heartbeat: u32,
    values: Vec<u8>,
    lengths: Vec<usize>,
    indices: Vec<u16>,
    padding: u64,
}

impl OwnedMessageParts {
    fn of(random: &mut Random, spec: &MessageSpec) -> Self {
        let mut numbers: Vec<u64> = (0..20).map(|_| random.number()).collect();
        let items = [
            spec.sequence.map(u64::from),
            spec.timestamp,
            spec.picoseconds.map(u64::from),
            spec.status.map(u64::from),
            spec.major.map(u64::from),
            spec.minor.map(u64::from),
        ];
        (numbers[1], numbers[2]) = (spec.encoding.into(), spec.kind.into());
        numbers[3] = (0..6).filter(|k| items[*k].is_some()).map(|k| 1 << k).sum();
        (0..6).for_each(|k| numbers[4 + k] = items[k].unwrap_or(0));
        Self {
            numbers,
            record_length: record::HEAD_SIZE,
            heartbeat: spec.heartbeat.into(),
            values: spec.values.concat(),
            lengths: spec.values.iter().map(Vec::len).collect(),
            indices: spec.indices.clone(),
            padding: spec.padding as u64,
        }
    }

    fn make_wrong(&mut self, random: &mut Random) {
        let count = self.lengths.len();
        match random.below(21) {
            0 if count > 0 => {
                let k = random.below(count);
                self.lengths[k] = random.pick(&[0, 1, self.lengths[k] + 1, self.lengths[k].saturating_sub(1), usize::MAX]);
            }
            1 => self.lengths.push(random.below(3)),
            2 => {
                self.lengths.pop();
            }
            3 => self.indices.push(5),
            4 => {
                self.indices.pop();
            }
            5 | 6 => {
                // One value damaged, its length kept true.
                if count > 0 {
                    let k = random.below(count);
                    let start: usize = self.lengths[..k].iter().fold(0, |sum, length| sum.saturating_add(*length));
                    if let Some(value) = self.values.get(start..start.saturating_add(self.lengths[k])) {
                        let mut value = value.to_vec();
                        let before = value.len();
                        generate::damage(random, &mut value);
                        self.lengths[k] = value.len();
                        self.values.splice(start..start + before, value);
                    }
                }
            }
            7 => generate::damage(random, &mut self.values),
            8 => self.padding = random.pick(&[1, 2, 1000, 65_500, 65_534, 65_536, 1 << 20, 1 << 63, u64::MAX]),
            9 => {
                self.heartbeat = 1;
                self.numbers[2] = 0;
                (self.values, self.lengths, self.indices) = Default::default();
                self.padding = random.below(4) as u64;
            }
            10 => self.numbers[2] = random.below(5) as u64,
            11 => self.numbers[1] = random.below(4) as u64,
            12 => {
                self.numbers[3] |= 4;
                self.numbers[6] = random.pick(&[9_999, 10_000, 65_535, 65_536, 70_000]);
            }
            13 => self.record_length = random.below(record::HEAD_SIZE),
            14 => {
                let i = random.within(3, 9);
                self.numbers[i] = random.edge();
            }
            15 => self.lose_field(random),
            16 => {
                // A field more, of zeros or not.
                let bytes = if random.one_in(2) { vec![0; random.below(5)] } else { random.bytes(3) };
                self.lengths.push(bytes.len());
                self.values.extend(bytes);
            }
            17 => {
                // A keep alive with fields, of zeros or not.
                self.numbers[2] = 3;
                self.indices.clear();
                if random.one_in(2) {
                    self.values.fill(0);
                }
            }
            18 => {
                // RawData with padding alone, or with nothing.
                (self.numbers[1], self.numbers[2], self.heartbeat) = (1, 0, 0);
                (self.values, self.lengths, self.indices) = Default::default();
                self.padding = random.pick(&[0, 0, 1, 2, 4, 40, 1000]);
            }
            // An item's number at the end of its range.
            19 => {
                let i = random.pick(&[4, 6, 7, 8, 9]);
                let most = if i >= 8 { u64::from(u32::MAX) } else { u64::from(u16::MAX) };
                self.numbers[3] |= random.pick(&[0, 1 << (i - 4)]);
                self.numbers[i] = random.pick(&[most, most + 1, most + 2, most << 8, u64::MAX]);
            }
            _ => self.heartbeat = 1,
        }
    }

    /// The last field is missing, and padding may stand in its place.
    fn lose_field(&mut self, random: &mut Random) {
        if let Some(length) = self.lengths.pop() {
            self.values.truncate(self.values.len().saturating_sub(length));
            self.indices.pop();
            self.padding = random.pick(&[0, 1, length.saturating_sub(1) as u64, length as u64, length.saturating_add(1) as u64]);
        }
    }
}

/// A message written from parts.
pub fn write_message(tally: &mut Tally, random: &mut Random) {
    let config = ConfigSpec::any(random);
    let id = generate::writer_id(random, &config);
    let mut owned = {
        let spec = MessageSpec::any(random, config.types_of(id));
        OwnedMessageParts::of(random, &spec)
    };
    let wrongs = random.pick(&[0, 0, 0, 1, 1, 1, 1, 2, 3]);
    (0..wrongs).for_each(|_| owned.make_wrong(random));
    let writer = match random.below(20) {
        0 => u32::from(generate::writer_id(random, &config)),
        1 | 2 => record::NO_WRITER + random.below(3) as u32,
        _ => id.into(),
    };
    let config = Config::parse(&config.text()).expect("made valid");
    let config_record = record::config(&config);
    let types = config.types_of(u16::try_from(writer).ok());
    let head = bytes_of(&owned.numbers)[..owned.record_length].to_vec();
    let parts = MessageParts {
        head: &head,
        heartbeat: owned.heartbeat,
        values: &owned.values,
        lengths: &owned.lengths,
        indices: &owned.indices,
        padding: owned.padding,
    };
    let reference_parts = message_writer::Parts {
        header: record::header_of(&head),
        heartbeat: owned.heartbeat != 0,
        values: &owned.values,
        lengths: &owned.lengths,
        indices: &owned.indices,
        padding: owned.padding,
        all_fit: record::head_fits(&head),
    };
    let needed = message_writer::write(&reference_parts, types, &mut vec![0; 65_535]).unwrap_or(20);
    let lengths = bytes_of(&owned.lengths.iter().map(|length| *length as u64).collect::<Vec<_>>());
    let (heartbeat, padding) = (owned.heartbeat.to_le_bytes(), owned.padding.to_le_bytes());
    let writer_bytes = writer.to_le_bytes();
    let input = [
        ("head record", &head[..]),
        ("heartbeat", &heartbeat),
        ("values", &owned.values),
        ("lengths", &lengths),
        ("indices", &pairs(&owned.indices)),
        ("padding", &padding),
        ("configuration record", &config_record),
        ("writer", &writer_bytes),
    ];
    let reference = |out: &mut [u8]| message_writer::write(&reference_parts, types, out);
    let call = |out: &mut [u8]| ffi::write_message(&parts, &config_record, writer, out);
    judge_put(tally, random, "write_message", needed, &input, reference, call);
}
