//! Inputs made from a seed: configuration texts, datagrams, messages, values, chunks, and damages of them.
use crate::reference::value::{width, BYTE_STRING, DATA_VALUE, LOCALIZED_TEXT, QUALIFIED_NAME, STRING, VARIANT};

/// The fixed types.
pub const FIXED: [u8; 14] = [1, 2, 3, 4, 5, 6, 7, 8, 9, 10, 11, 13, 14, 19];

/// SplitMix64.
#[derive(Clone, Debug)]
pub struct Random(u64);

impl Random {
    pub const fn new(seed: u64) -> Self {
        Self(seed)
    }

    pub fn number(&mut self) -> u64 {
        self.0 = self.0.wrapping_add(0x9e37_79b9_7f4a_7c15);
        let mixed = (self.0 ^ self.0 >> 30).wrapping_mul(0xbf58_476d_1ce4_e5b9);
        let mixed = (mixed ^ mixed >> 27).wrapping_mul(0x94d0_49bb_1331_11eb);
        mixed ^ mixed >> 31
    }

    /// A number below `end`.
    pub fn below(&mut self, end: usize) -> usize {
        (self.number() % end as u64) as usize
    }

    /// A number from `low` to `high`.
    pub fn within(&mut self, low: usize, high: usize) -> usize {
        low + self.below(high - low + 1)
    }

    /// True once in `n`.
    pub fn one_in(&mut self, n: usize) -> bool {
        self.below(n) == 0
    }

    pub fn pick<T: Copy>(&mut self, from: &[T]) -> T {
        from[self.below(from.len())]
    }

    pub fn bytes(&mut self, count: usize) -> Vec<u8> {
        (0..count).map(|_| self.number() as u8).collect()
    }

    pub fn maybe<T>(&mut self, one_in: usize, make: impl FnOnce(&mut Self) -> T) -> Option<T> {
        self.one_in(one_in).then(|| make(self))
    }

    /// A number that stands at an edge, or any.
    pub fn edge(&mut self) -> u64 {
        match self.below(4) {
            0 => self.below(6) as u64,
            1 => self.pick(&[16, 23, 64, 65, 100, 255, 256, 1 << 16, 1 << 31, 1 << 32, (1 << 56) - 1, 1 << 56, u64::MAX]),
            2 => self.below(300) as u64,
            _ => self.number(),
        }
    }
}

/// A configured writer.
#[derive(Clone, Debug)]
pub struct WriterSpec {
    pub id: u16,
    pub size: Option<u16>,
    pub types: Vec<u8>,
}

/// A configuration.
#[derive(Clone, Debug, Default)]
pub struct ConfigSpec {
    pub writers: Vec<WriterSpec>,
}

impl ConfigSpec {
    pub fn any(random: &mut Random) -> Self {
        let count = match random.below(10) {
            0 => 0,
            1..=4 => 1,
            5..=8 => random.within(2, 4),
            _ => random.within(5, 16),
        };
        let first = random.pick(&[0, 21, 300, 65_500]);
        let mut fields_left = 64;
        let writers = (0..count).map(|k| {
            let size = random.maybe(2, |random| random.within(1, 40) as u16);
            let most = fields_left.min(if random.one_in(20) { 64 } else { 5 });
            let types: Vec<u8> = (0..random.within(0, most)).map(|_| random.pick(&FIXED)).collect();
            fields_left -= types.len();
            WriterSpec { id: first + 2 * k as u16, size, types }
        });
        Self { writers: writers.collect() }
    }

    pub fn text(&self) -> Vec<u8> {
        let mut text = String::new();
        for writer in &self.writers {
            let size = writer.size.map_or("-".into(), |size| size.to_string());
            text += &format!("writer\t{}\t{size}\n", writer.id);
            text.extend(writer.types.iter().map(|kind| format!("field\t{kind}\n")));
        }
        text.into_bytes()
    }

    pub fn types_of(&self, id: u16) -> &[u8] {
        self.writers.iter().find(|writer| writer.id == id).map_or(&[], |writer| &writer.types)
    }
}

/// A line that breaks a rule, or may.
fn strange_line(random: &mut Random) -> Vec<u8> {
    let number =
        random.pick(&["0", "00", "01", "65535", "65536", "100000", "-", "-1", "+1", " 1", "1 ", "", "12", "20", "64", "1x"]);
    let other = random.pick(&["0", "1", "65535", "65536", "-", "--", "", "007", "9"]);
    let word = random.pick(&["writer", "field", "Writer", "fields", "writ", "", "write\0"]);
    let end = random.pick(&["\n", "\r\n", "\t\n", "", "\n\n", "\tx\n"]);
    let line = if random.one_in(2) { format!("{word}\t{number}\t{other}{end}") } else { format!("{word}\t{number}{end}") };
    line.into_bytes()
}

/// A configuration text, often valid.
pub fn config_text(random: &mut Random) -> Vec<u8> {
    let mut text = ConfigSpec::any(random).text();
    match random.below(10) {
        0..=3 => {}
        4 | 5 => damage(random, &mut text),
        6 => {
            let starts: Vec<usize> = text.iter().enumerate().filter(|(_, byte)| **byte == b'\n').map(|(i, _)| i + 1).collect();
            let at = if starts.is_empty() { 0 } else { random.pick(&starts) };
            let line = strange_line(random);
            text.splice(at..at, line);
        }
        7 => text.extend(strange_line(random)),
        8 => text.extend(many_lines(random)),
        _ => {
            let length = random.within(0, 30);
            text = random.bytes(length);
        }
    }
    text
}

/// About as many writers or fields as there may be.
fn many_lines(random: &mut Random) -> Vec<u8> {
    let mut lines = String::new();
    if random.one_in(2) {
        let count = random.within(8, 18);
        lines.extend((0..count).map(|k| format!("writer\t{}\t-\n", 5000 + k)));
    } else {
        let count = random.within(40, 68);
        lines.extend((0..count).map(|_| "field\t7\n"));
    }
    lines.into_bytes()
}

/// Puts a Variant that nests at most `levels` deep.
pub fn variant(random: &mut Random, out: &mut Vec<u8>, levels: usize) {
    if random.one_in(6) {
        return named_or_matrix(random, out, levels);
    }
    match random.below(if levels > 1 { 12 } else { 9 }) {
        0 => out.push(0),
        1..=3 => {
            let kind = random.pick(&FIXED);
            out.push(kind);
            out.extend(random.bytes(width(kind).unwrap_or(0)));
        }
        4 | 5 => {
            out.push(random.pick(&[STRING, BYTE_STRING]));
            string(random, out);
        }
        6 | 7 => {
            let kind = random.pick(&FIXED);
            out.push(0x80 | kind);
            let count = array_length(random, out);
            out.extend(random.bytes(count * width(kind).unwrap_or(0)));
        }
        8 => {
            out.push(0x80 | random.pick(&[STRING, BYTE_STRING]));
            (0..array_length(random, out)).for_each(|_| string(random, out));
        }
        9 => {
            out.push(DATA_VALUE);
            data_value(random, out, levels - 1);
        }
        10 => {
            out.push(0x80 | DATA_VALUE);
            (0..array_length(random, out)).for_each(|_| data_value(random, out, levels - 1));
        }
        _ => {
            out.push(0x80 | VARIANT);
            (0..array_length(random, out)).for_each(|_| variant(random, out, levels - 1));
        }
    }
}

/// Puts a length, -1 among them; the number of elements.
fn array_length(random: &mut Random, out: &mut Vec<u8>) -> usize {
    if random.one_in(6) {
        out.extend((-1_i32).to_le_bytes());
        return 0;
    }
    let count = random.pick(&[0, 1, 1, 2, 2, 3, 4, 7]);
    out.extend((count as i32).to_le_bytes());
    count
}

/// Puts a name, an array of names, or any array with a dimensions list, good or at the edge of a rule.
fn named_or_matrix(random: &mut Random, out: &mut Vec<u8>, levels: usize) {
    match random.below(4) {
        0 => {
            let kind = random.pick(&[QUALIFIED_NAME, LOCALIZED_TEXT]);
            out.push(kind);
            name(random, out, kind);
        }
        1 => {
            let kind = random.pick(&[QUALIFIED_NAME, LOCALIZED_TEXT]);
            out.push(0x80 | kind);
            (0..array_length(random, out)).for_each(|_| name(random, out, kind));
        }
        _ => matrix(random, out, levels),
    }
}

fn name(random: &mut Random, out: &mut Vec<u8>, kind: u8) {
    if kind == QUALIFIED_NAME {
        out.extend(random.bytes(2));
        return string(random, out);
    }
    let mask = if random.one_in(30) { random.below(256) as u8 } else { random.below(4) as u8 };
    out.push(mask);
    (0..(mask & 3).count_ones()).for_each(|_| string(random, out));
}

/// Puts an array with dimensions, mostly such that their product is its number of elements.
fn matrix(random: &mut Random, out: &mut Vec<u8>, levels: usize) {
    let kind = match random.below(if levels > 1 { 8 } else { 5 }) {
        0..=2 => random.pick(&FIXED),
        3 => random.pick(&[STRING, BYTE_STRING]),
        4 => random.pick(&[QUALIFIED_NAME, LOCALIZED_TEXT]),
        5 => DATA_VALUE,
        _ => VARIANT,
    };
    let rank = random.pick(&[0, 1, 1, 2, 2, 2, 3, 3, 4, 9]);
    let mut sizes: Vec<i32> = (0..rank).map(|_| random.pick(&[1, 1, 2, 2, 3, 4])).collect();
    let count = sizes.iter().product::<i32>().min(300);
    out.push(0xc0 | kind);
    out.extend(if random.one_in(20) { (-1_i32).to_le_bytes() } else { count.to_le_bytes() });
    let null = out.ends_with(&(-1_i32).to_le_bytes());
    for _ in 0..if null { 0 } else { count } {
        match kind {
            STRING | BYTE_STRING => string(random, out),
            QUALIFIED_NAME | LOCALIZED_TEXT => name(random, out, kind),
            DATA_VALUE => data_value(random, out, levels - 1),
            VARIANT => variant(random, out, levels - 1),
            _ => out.extend(random.bytes(width(kind).unwrap_or(0))),
        }
    }
    if random.one_in(6) && !sizes.is_empty() {
        let k = random.below(sizes.len());
        sizes[k] = random.pick(&[0, -1, i32::MIN, i32::MAX, 1 << 30, 65_536, 2, 5]);
    }
    let listed = if random.one_in(20) { random.pick(&[-1, -2, 0, i32::MAX]) } else { rank };
    out.extend(listed.to_le_bytes());
    sizes.iter().for_each(|size| out.extend(size.to_le_bytes()));
}

fn string(random: &mut Random, out: &mut Vec<u8>) {
    let length = array_length(random, out);
    out.extend(random.bytes(length));
}

/// Puts a DataValue that nests at most `levels` deep.
pub fn data_value(random: &mut Random, out: &mut Vec<u8>, levels: usize) {
    let mut mask = random.below(64) as u8;
    if levels <= 1 {
        mask &= 0x3e;
    }
    out.push(mask);
    if mask & 1 != 0 {
        variant(random, out, levels - 1);
    }
    let widths = [(2, 4), (4, 8), (16, 2), (8, 8), (32, 2)];
    let length = widths.iter().filter(|(flag, _)| mask & flag != 0).map(|(_, width)| width).sum();
    out.extend(random.bytes(length));
}

/// Puts a Variant that nests about as deep as it may.
pub fn deep_variant(random: &mut Random, out: &mut Vec<u8>) {
    let mut left = random.within(96, 104);
    while left > 1 {
        if left > 2 && random.one_in(3) {
            out.extend([DATA_VALUE, 1]);
            left -= 2;
        } else {
            out.extend([0x80 | VARIANT, 1, 0, 0, 0]);
            left -= 1;
        }
    }
    let last = random.pick(&[0, 0x98, 0x05]);
    out.push(last);
    out.extend_from_slice(if last == 0x98 { &[0xff; 4] } else { &[0; 2][..if last == 5 { 2 } else { 0 }] });
}

/// Encoded value of a field: 0 Variant, 1 RawData of a type, 2 DataValue.
pub fn field_value(random: &mut Random, encoding: u8, kind: u8) -> Vec<u8> {
    let mut value = Vec::new();
    match encoding {
        0 if random.one_in(60) => deep_variant(random, &mut value),
        0 => variant(random, &mut value, 4),
        1 => value = random.bytes(width(kind).unwrap_or(1)),
        _ => data_value(random, &mut value, 4),
    }
    value
}

/// The parts of a DataSetMessage.
#[derive(Clone, Debug)]
pub struct MessageSpec {
    pub encoding: u8,
    pub kind: u8,
    pub sequence: Option<u16>,
    pub timestamp: Option<u64>,
    pub picoseconds: Option<u16>,
    pub status: Option<u16>,
    pub major: Option<u32>,
    pub minor: Option<u32>,
    pub heartbeat: bool,
    pub indices: Vec<u16>,
    pub values: Vec<Vec<u8>>,
    pub padding: usize,
}

impl MessageSpec {
    /// A message that is valid but for rare faults of its flags.
    pub fn any(random: &mut Random, types: &[u8]) -> Self {
        let mut encoding = random.pick(&[0, 0, 1, 1, 2]);
        if encoding == 1 && types.is_empty() && !random.one_in(8) {
            encoding = 0;
        }
        let mut kind = random.pick(&[0, 0, 0, 1, 2, 3]);
        if (kind == 2 && encoding != 0 || kind == 1 && encoding == 1) && !random.one_in(12) {
            kind = 0;
        }
        let heartbeat = kind == 0 && random.one_in(10);
        let count = match (heartbeat || kind == 3, encoding) {
            (true, _) => 0,
            (_, 1) => types.len(),
            _ if random.one_in(40) => random.within(20, 90),
            _ => random.within(0, 5),
        };
        let values = (0..count).map(|k| field_value(random, encoding, types.get(k).copied().unwrap_or(0))).collect();
        let indices = if kind == 1 { (0..count).map(|_| random.number() as u16).collect() } else { Vec::new() };
        Self {
            encoding,
            kind,
            sequence: random.maybe(2, |random| random.number() as u16),
            timestamp: random.maybe(3, Random::number),
            picoseconds: random.maybe(3, picoseconds),
            status: random.maybe(3, |random| random.number() as u16),
            major: random.maybe(4, |random| random.number() as u32),
            minor: random.maybe(4, |random| random.number() as u32),
            heartbeat,
            indices,
            values,
            padding: if heartbeat || !random.one_in(4) { 0 } else { random.within(1, 6) },
        }
    }

    pub fn bytes(&self) -> Vec<u8> {
        let flag = |present: bool, flag: u8| if present { flag } else { 0 };
        let flags2 = self.kind | flag(self.timestamp.is_some(), 16) | flag(self.picoseconds.is_some(), 32);
        let flags1 = 1
            | self.encoding << 1
            | flag(self.sequence.is_some(), 8)
            | flag(self.status.is_some(), 16)
            | flag(self.major.is_some(), 32)
            | flag(self.minor.is_some(), 64)
            | flag(flags2 != 0, 128);
        let mut bytes = vec![flags1];
        bytes.extend((flags2 != 0).then_some(flags2));
        bytes.extend(self.sequence.iter().flat_map(|item| item.to_le_bytes()));
        bytes.extend(self.timestamp.iter().flat_map(|item| item.to_le_bytes()));
        bytes.extend(self.picoseconds.iter().flat_map(|item| item.to_le_bytes()));
        bytes.extend(self.status.iter().flat_map(|item| item.to_le_bytes()));
        bytes.extend(self.major.iter().flat_map(|item| item.to_le_bytes()));
        bytes.extend(self.minor.iter().flat_map(|item| item.to_le_bytes()));
        if !self.heartbeat && self.kind != 3 && self.encoding != 1 {
            bytes.extend((self.values.len() as u16).to_le_bytes());
        }
        for (k, value) in self.values.iter().enumerate() {
            bytes.extend(self.indices.get(k).iter().flat_map(|index| index.to_le_bytes()));
            bytes.extend(value);
        }
        bytes.extend(vec![0; self.padding]);
        bytes
    }
}

fn picoseconds(random: &mut Random) -> u16 {
    if random.one_in(4) {
        random.pick(&[10_000, 10_001, 16_384, 65_534, 65_535])
    } else {
        random.pick(&[0, 1, 9_998, 9_999, 5_000])
    }
}

/// A message's bytes, sometimes damaged or not valid.
pub fn message(random: &mut Random, types: &[u8]) -> Vec<u8> {
    let mut bytes = MessageSpec::any(random, types).bytes();
    if random.one_in(15) {
        damage(random, &mut bytes);
    }
    if random.one_in(20) && !bytes.is_empty() {
        bytes[0] &= 0xfe;
    }
    bytes
}

/// A PublisherId: its type from 0 to 4, and its bytes without a string's length.
pub type IdSpec = (u8, Vec<u8>);

pub fn publisher(random: &mut Random) -> IdSpec {
    let kind = random.below(5) as u8;
    let length = match kind {
        4 if random.one_in(12) => random.pick(&[63, 64, 65, 66, 300]),
        4 => random.within(0, 8),
        _ => 1 << kind,
    };
    (kind, random.bytes(length))
}

/// The four items of a group header.
pub type GroupSpec = (Option<u16>, Option<u32>, Option<u16>, Option<u16>);

/// The parts of a datagram.
#[derive(Clone, Debug, Default)]
pub struct EnvelopeSpec {
    pub publisher: Option<IdSpec>,
    pub class_id: Option<[u8; 16]>,
    pub group: Option<GroupSpec>,
    pub chunk: bool,
    pub probe: bool,
    pub payload_header: bool,
    /// A chunk has one.
    pub ids: Vec<u16>,
    pub timestamp: Option<u64>,
    pub picoseconds: Option<u16>,
    pub promoted: Option<Vec<u8>>,
    /// A chunk's payload is one, and so is a probe.
    pub messages: Vec<Vec<u8>>,
}

impl EnvelopeSpec {
    /// An envelope without its payload, valid but for rare faults.
    pub fn front(random: &mut Random) -> Self {
        let timestamp = random.maybe(3, Random::number);
        let with_picoseconds = if timestamp.is_some() { random.one_in(2) } else { random.one_in(80) };
        Self {
            publisher: (!random.one_in(4)).then(|| publisher(random)),
            class_id: random.maybe(6, |random| [random.number() as u8; 16]),
            group: random.maybe(3, |random| {
                let group = random.maybe(2, |random| random.number() as u16);
                let version = random.maybe(2, |random| random.number() as u32);
                let number = random.maybe(2, |random| if random.one_in(15) { 0 } else { random.number() as u16 });
                (group, version, number, random.maybe(2, |random| random.number() as u16))
            }),
            timestamp,
            picoseconds: with_picoseconds.then(|| picoseconds(random)),
            ..Self::default()
        }
    }

    /// A datagram with messages; without a PayloadHeader the configuration is made to fit, mostly.
    pub fn with_messages(random: &mut Random, config: &mut ConfigSpec) -> Self {
        let mut spec = Self::front(random);
        spec.payload_header = config.writers.is_empty() && !random.one_in(5) || !random.one_in(3);
        if spec.payload_header {
            let count = match random.below(20) {
                0..=8 => 1,
                9..=17 => random.within(2, 4),
                18 => random.within(5, 20),
                _ => random.pick(&[0, 1, 2]),
            };
            spec.ids = (0..count).map(|_| writer_id(random, config)).collect();
        } else {
            spec.ids = config.writers.iter().map(|writer| writer.id).collect();
        }
        spec.messages = spec.ids.iter().map(|id| message(random, config.types_of(*id))).collect();
        if !spec.payload_header {
            fit_sizes(random, config, &spec.messages);
        }
        let promotes = if spec.messages.len() == 1 { random.one_in(5) } else { random.one_in(40) };
        spec.promoted = promotes.then(|| small_bytes(random));
        spec
    }

    /// A datagram with a chunk.
    pub fn with_chunk(random: &mut Random, writer: u16, payload: Vec<u8>) -> Self {
        let mut spec = Self::front(random);
        spec.chunk = true;
        spec.payload_header = !random.one_in(30);
        spec.ids = vec![writer];
        spec.messages = vec![payload];
        spec.promoted = random.maybe(8, small_bytes);
        spec
    }

    /// A datagram with a probe, valid but for rare faults.
    pub fn with_probe(random: &mut Random) -> Self {
        let mut spec = Self::front(random);
        spec.probe = true;
        spec.chunk = random.one_in(60);
        spec.payload_header = random.one_in(60);
        spec.ids = vec![3; usize::from(spec.payload_header)];
        spec.messages = vec![probe(random)];
        spec.promoted = random.maybe(60, small_bytes);
        spec
    }

    pub fn bytes(&self) -> Vec<u8> {
        let flag = |present: bool, flag: u8| if present { flag } else { 0 };
        let extended2 = flag(self.chunk, 1) | flag(self.promoted.is_some(), 2) | flag(self.probe, 4);
        let extended1 = self.publisher.as_ref().map_or(0, |(kind, _)| *kind)
            | flag(self.class_id.is_some(), 8)
            | flag(self.timestamp.is_some(), 32)
            | flag(self.picoseconds.is_some(), 64)
            | flag(extended2 != 0, 128);
        let first = 1
            | flag(self.publisher.is_some(), 16)
            | flag(self.group.is_some(), 32)
            | flag(self.payload_header, 64)
            | flag(extended1 != 0, 128);
        let mut bytes = vec![first];
        bytes.extend((extended1 != 0).then_some(extended1));
        bytes.extend((extended2 != 0).then_some(extended2));
        if let Some((kind, id)) = &self.publisher {
            if *kind == 4 {
                bytes.extend((id.len() as u32).to_le_bytes());
            }
            bytes.extend(id);
        }
        bytes.extend(self.class_id.iter().flatten());
        bytes.extend(self.group_bytes());
        if self.payload_header {
            bytes.extend((!self.chunk).then_some(self.ids.len() as u8));
            bytes.extend(self.ids.iter().flat_map(|id| id.to_le_bytes()));
        }
        bytes.extend(self.timestamp.iter().flat_map(|item| item.to_le_bytes()));
        bytes.extend(self.picoseconds.iter().flat_map(|item| item.to_le_bytes()));
        if let Some(promoted) = &self.promoted {
            bytes.extend((promoted.len() as u16).to_le_bytes());
            bytes.extend(promoted);
        }
        if self.payload_header && self.messages.len() > 1 {
            bytes.extend(self.messages.iter().flat_map(|message| (message.len() as u16).to_le_bytes()));
        }
        bytes.extend(self.messages.iter().flatten());
        bytes
    }

    fn group_bytes(&self) -> Vec<u8> {
        let Some((group, version, number, sequence)) = self.group else {
            return Vec::new();
        };
        let present = [group.is_some(), version.is_some(), number.is_some(), sequence.is_some()];
        let mut bytes = vec![present.iter().rev().fold(0, |flags, present| 2 * flags + u8::from(*present))];
        bytes.extend(group.iter().flat_map(|item| item.to_le_bytes()));
        bytes.extend(version.iter().flat_map(|item| item.to_le_bytes()));
        bytes.extend(number.iter().flat_map(|item| item.to_le_bytes()));
        bytes.extend(sequence.iter().flat_map(|item| item.to_le_bytes()));
        bytes
    }
}

fn small_bytes(random: &mut Random) -> Vec<u8> {
    let length = random.within(0, 9);
    random.bytes(length)
}

/// A configured writer's id, or any.
pub fn writer_id(random: &mut Random, config: &ConfigSpec) -> u16 {
    if config.writers.is_empty() || random.one_in(6) {
        return random.number() as u16;
    }
    config.writers[random.below(config.writers.len())].id
}

/// Sets the configured sizes to the messages' lengths; a single one may stay without.
fn fit_sizes(random: &mut Random, config: &mut ConfigSpec, messages: &[Vec<u8>]) {
    if random.one_in(8) {
        return;
    }
    let single = messages.len() == 1;
    for (writer, message) in config.writers.iter_mut().zip(messages) {
        let size = u16::try_from(message.len()).ok().filter(|size| *size > 0);
        writer.size = size.filter(|_| !(single && random.one_in(2)));
    }
    if random.one_in(12) {
        let k = random.below(config.writers.len().max(1));
        if let Some(writer) = config.writers.get_mut(k) {
            writer.size = writer.size.map(|size| size.wrapping_add(1).max(1));
        }
    }
}

/// A datagram and the configuration text that it is read under.
#[derive(Clone, Debug)]
pub struct Scenario {
    pub text: Vec<u8>,
    pub datagram: Vec<u8>,
}

impl Scenario {
    pub fn any(random: &mut Random) -> Self {
        let mut config = ConfigSpec::any(random);
        let mut datagram = match random.below(8) {
            0 => {
                let payload = chunk_payload(random);
                let writer = writer_id(random, &config);
                EnvelopeSpec::with_chunk(random, writer, payload).bytes()
            }
            1 => EnvelopeSpec::with_probe(random).bytes(),
            _ => EnvelopeSpec::with_messages(random, &mut config).bytes(),
        };
        match random.below(20) {
            0..=6 => {}
            7..=10 => damage(random, &mut datagram),
            11..=13 => (0..random.within(2, 4)).for_each(|_| damage(random, &mut datagram)),
            14 | 15 => front_damage(random, &mut datagram),
            16..=18 => datagram.truncate(random.within(0, datagram.len())),
            _ => {
                let length = random.within(0, 60);
                datagram = random.bytes(length);
                if let Some(first) = datagram.first_mut().filter(|_| !random.one_in(4)) {
                    *first = *first & 0xf0 | 1;
                }
            }
        }
        if random.one_in(3000) {
            datagram.resize(random.pick(&[65_534, 65_535, 65_536, 70_000]), 0);
        }
        Self { text: config.text(), datagram }
    }
}

/// The parts of a probe: its InformationType, its list's count and elements, and what stands behind them.
#[derive(Clone, Debug)]
pub struct ProbeSpec {
    pub information: u8,
    /// None for a null list, and for a WriterGroup, which has no list.
    pub count: Option<usize>,
    /// Ids of 2 bytes, or strings each after its length.
    pub list: Vec<u8>,
    pub group: u16,
    pub booleans: [u8; 2],
}

impl ProbeSpec {
    pub fn any(random: &mut Random) -> Self {
        let information = random.pick(&[2, 3, 4, 5, 5]);
        let count = if random.one_in(20) { random.within(20, 300) } else { random.within(0, 4) };
        let count = (information != 4 && !random.one_in(6)).then_some(count);
        let mut list = Vec::new();
        for _ in 0..count.unwrap_or(0) {
            if information == 5 {
                string(random, &mut list);
            } else {
                list.extend((random.number() as u16).to_le_bytes());
            }
        }
        let boolean = |random: &mut Random| if random.one_in(3) { random.number() as u8 } else { random.below(2) as u8 };
        Self { information, count, list, group: random.number() as u16, booleans: [boolean(random), boolean(random)] }
    }

    pub fn bytes(&self) -> Vec<u8> {
        let mut bytes = vec![1, self.information];
        if self.information == 4 {
            bytes.extend(self.group.to_le_bytes());
        } else {
            bytes.extend(self.count.map_or(-1, |count| count as i32).to_le_bytes());
            bytes.extend(&self.list);
        }
        let first = match self.information {
            4 => 1,
            5 => 0,
            _ => 2,
        };
        bytes.extend(&self.booleans[first..]);
        bytes
    }
}

/// A probe, rarely of another type than is taken, or damaged.
fn probe(random: &mut Random) -> Vec<u8> {
    let mut bytes = ProbeSpec::any(random).bytes();
    match random.below(30) {
        0 => bytes[0] = random.below(4) as u8,
        1 => bytes[1] = random.pick(&[0, 1, 6, 7, 255]),
        2 | 3 => damage(random, &mut bytes),
        _ => {}
    }
    bytes
}

/// A chunk payload, sometimes with other numbers than it should have.
fn chunk_payload(random: &mut Random) -> Vec<u8> {
    let total = random.within(1, 40);
    let offset = random.below(total);
    let length = random.within(1, total - offset);
    let data = random.bytes(length);
    let number = random.number() as u16;
    chunk_bytes(number, offset as u32, total as u32, &data)
}

/// The bytes of a chunk payload.
pub fn chunk_bytes(number: u16, offset: u32, total: u32, data: &[u8]) -> Vec<u8> {
    let mut bytes = number.to_le_bytes().to_vec();
    bytes.extend(offset.to_le_bytes());
    bytes.extend(total.to_le_bytes());
    bytes.extend((data.len() as u32).to_le_bytes());
    bytes.extend(data);
    bytes
}

/// Damages one of the first bytes.
fn front_damage(random: &mut Random, bytes: &mut [u8]) {
    let end = bytes.len().min(4);
    if end > 0 {
        let at = random.below(end);
        bytes[at] = if random.one_in(3) { random.number() as u8 } else { bytes[at] ^ 1 << random.below(8) };
    }
}

/// Damages bytes in one place.
pub fn damage(random: &mut Random, bytes: &mut Vec<u8>) {
    let at = random.within(0, bytes.len());
    let kind = random.below(8);
    if kind == 0 || bytes.is_empty() {
        bytes.insert(at, random.number() as u8);
        return;
    }
    let at = at.min(bytes.len() - 1);
    match kind {
        1 => {
            bytes.remove(at);
        }
        2 => bytes.truncate(at),
        3 => {
            let extra = small_bytes(random);
            bytes.extend(extra);
        }
        4 => bytes[at] ^= 1 << random.below(8),
        5 => {
            let length = random.pick(&[-1, -2, 0, 1, 2, i32::MAX, i32::MIN, 65_536, 1 << 28]);
            bytes.iter_mut().skip(at).zip(length.to_le_bytes()).for_each(|(byte, new)| *byte = new);
        }
        6 => bytes[at] = random.pick(&[0, 1, 0xff, 0x7f, 0x80, 0x18, 0x98, 0x17, 0xc5, 0x45, 0x0c]),
        _ => bytes[at] = random.number() as u8,
    }
}
