//! What is timed.
use uadp_comparison::generate::{chunk_bytes, variant, EnvelopeSpec, MessageSpec, Random, FIXED};
use uadp_comparison::record;
use uadp_comparison::reference::config::Config;
use uadp_comparison::reference::message::{self, Encoding};
use uadp_comparison::reference::reassembly::{KeptId, Record};
use uadp_comparison::reference::wire::Reader;

/// A datagram with the configuration that it is read under.
pub struct Input {
    pub datagram: Vec<u8>,
    pub config: Config,
    pub config_record: Vec<u8>,
}

impl Input {
    fn new(datagram: Vec<u8>, text: &[u8]) -> Self {
        let config = Config::parse(text).expect("a valid text");
        Self { datagram, config_record: record::config(&config), config }
    }
}

const EXAMPLE: [u8; 20] =
    [0xD1, 0x01, 0x67, 0x12, 0x01, 0x15, 0x00, 0x09, 0x05, 0x00, 0x02, 0x00, 0x05, 0x03, 0x00, 0x0A, 0x00, 0x00, 0x00, 0x3F];

/// An input with its name, made when it is timed.
pub type Named = (&'static str, fn() -> Input);

/// The inputs of the tables.
pub fn standard() -> Vec<Named> {
    vec![
        ("document 01's example", || Input::new(EXAMPLE.to_vec(), b"")),
        ("100 mixed Variants", mixed_variants),
        ("1,000 UInt32", || of_variants(vec![vec![7, 1, 2, 3, 4]; 1_000])),
        ("500 Strings", || of_variants(vec![vec![12, 8, 0, 0, 0, 1, 2, 3, 4, 5, 6, 7, 8]; 500])),
        ("500 arrays of one element", || of_variants(vec![vec![0x87, 1, 0, 0, 0, 1, 2, 3, 4]; 500])),
        ("200 DataValues", data_values),
        ("a delta of 500 UInt32", delta),
        ("2,000 fields of random fixed types", || random_types(1)),
        ("2,000 fields of random types", || random_types(2)),
        ("20 messages of 5 fields", || {
            let message = key_frame(0, vec![vec![7, 1, 2, 3, 4]; 5]);
            Input::new(datagram((0..20).map(|id| (id, message.clone())).collect()), b"")
        }),
        ("16 RawData messages", raw_messages),
        ("60,000 bytes of one array", || one_array(60_000)),
        ("100 levels", hundred_levels),
        ("a string id", || without_header(Some((4, b"adapter".to_vec())), true)),
        ("no PayloadHeader", || without_header(Some((1, vec![0x67, 0x12])), false)),
    ]
}

/// A datagram with one key frame of encoded Variants.
fn of_variants(values: Vec<Vec<u8>>) -> Input {
    Input::new(datagram(vec![(21, key_frame(0, values))]), b"")
}

/// 10 UInt32 of one writer, which is configured, or named in a PayloadHeader.
fn without_header(publisher: Option<(u8, Vec<u8>)>, payload_header: bool) -> Input {
    let messages = vec![key_frame(0, vec![vec![7, 1, 2, 3, 4]; 10])];
    let spec = EnvelopeSpec { publisher, payload_header, ids: vec![21], messages, ..EnvelopeSpec::default() };
    Input::new(spec.bytes(), b"writer\t21\t-\n")
}

/// A Double with status and source time each.
fn data_values() -> Input {
    let value = [&[7, 11][..], &[0x3f; 8], &[0; 4], &[1; 8]].concat();
    Input::new(datagram(vec![(21, key_frame(2, vec![value; 200]))]), b"")
}

fn delta() -> Input {
    let values = vec![vec![7, 1, 2, 3, 4]; 500];
    let spec = MessageSpec { kind: 1, indices: (0..500).collect(), values, ..plain_message() };
    Input::new(datagram(vec![(21, spec.bytes())]), b"")
}

/// Whether these bytes are one Variant that is accepted: the generator draws refused ones too.
fn accepted(value: &[u8]) -> bool {
    let mut reader = Reader::new(value);
    message::field_value(&mut reader, Encoding::Variant, None).is_ok() && reader.position() == value.len()
}

/// Variants of random types: fixed ones, or with Strings and arrays among them.
fn random_types(levels: usize) -> Input {
    let mut random = Random::new(2_000);
    let values = (0..2_000).map(|_| {
        let mut value = Vec::new();
        while !accepted(&value) || (levels == 1 && !(1..64).contains(&value[0])) || value.len() > 30 {
            value.clear();
            variant(&mut random, &mut value, 1);
        }
        value
    });
    of_variants(values.collect())
}

/// A datagram of messages, each with its writer's id.
fn datagram(messages: Vec<(u16, Vec<u8>)>) -> Vec<u8> {
    let (ids, messages) = messages.into_iter().unzip();
    let publisher = Some((1, 4711_u16.to_le_bytes().to_vec()));
    EnvelopeSpec { publisher, payload_header: true, ids, messages, ..EnvelopeSpec::default() }.bytes()
}

/// A key frame of encoded values.
fn key_frame(encoding: u8, values: Vec<Vec<u8>>) -> Vec<u8> {
    MessageSpec { encoding, values, ..plain_message() }.bytes()
}

/// A key frame of no Variants.
const fn plain_message() -> MessageSpec {
    MessageSpec {
        encoding: 0,
        kind: 0,
        sequence: Some(5),
        timestamp: None,
        picoseconds: None,
        status: None,
        major: None,
        minor: None,
        heartbeat: false,
        indices: Vec::new(),
        values: Vec::new(),
        padding: 0,
    }
}

fn mixed_variants() -> Input {
    let mut random = Random::new(100);
    let values = (0..100).map(|_| {
        let mut value = Vec::new();
        while !accepted(&value) {
            value.clear();
            variant(&mut random, &mut value, 3);
        }
        value
    });
    of_variants(values.collect())
}

fn raw_messages() -> Input {
    let types = [11, 10, 7, 1];
    let mut text = String::new();
    let messages = (0..16).map(|id: u16| {
        text += &format!("writer\t{id}\t-\n");
        text.extend(types.map(|kind| format!("field\t{kind}\n")));
        (id, key_frame(1, vec![vec![1; 8], vec![2; 4], vec![3; 4], vec![1]]))
    });
    let messages = messages.collect();
    Input::new(datagram(messages), text.as_bytes())
}

/// A datagram of about so many bytes: one array of Doubles.
pub fn one_array(length: usize) -> Input {
    let count = (length - 24) / 8;
    let value = [&[0x8b][..], &(count as u32).to_le_bytes(), &vec![0x3f; 8 * count]].concat();
    of_variants(vec![value])
}

/// A datagram of about so many bytes: Variants of 5 bytes each.
pub fn small_fields(length: usize) -> Input {
    of_variants(vec![vec![7, 1, 2, 3, 4]; (length - 24) / 5])
}

fn hundred_levels() -> Input {
    let value = [[0x98, 1, 0, 0, 0].repeat(99), vec![0]].concat();
    of_variants(vec![value])
}

/// 16 writers with 4 fields each.
pub fn full_text() -> Vec<u8> {
    let mut text = String::new();
    for k in 0..16 {
        text += &format!("writer\t{}\t{}\n", 1000 + 97 * k, 40 + k);
        text.extend((0..4).map(|i| format!("field\t{}\n", FIXED[(4 * k + i) % FIXED.len()])));
    }
    text.into_bytes()
}

/// A marks area with its name: how many bytes it is for, and the place of one that is missing.
pub type Marks = (&'static str, usize, Option<usize>);

/// Areas that are complete, or miss one byte.
pub const MARKS: [Marks; 6] = [
    ("16,384 bytes", TOTAL, None),
    ("16,384 bytes, the first missing", TOTAL, Some(0)),
    ("16,384 bytes, the middle one missing", TOTAL, Some(TOTAL / 2)),
    ("16,384 bytes, the last missing", TOTAL, Some(TOTAL - 1)),
    ("16,383 bytes", TOTAL - 1, None),
    ("7 bytes", 7, None),
];

/// The marks of such an area, and how many bytes it is for.
pub fn marks(length: usize, missing: Option<usize>) -> (Vec<u8>, usize) {
    let mut marks = vec![0; length.div_ceil(8)];
    for at in (0..length).filter(|at| Some(*at) != missing) {
        marks[at / 8] |= 1 << (at % 8);
    }
    (marks, length)
}

/// A message of 16,384 bytes of which some are missing: as many holes of so many bytes, from byte 8,000 on and each 8 bytes after the last.
#[derive(Clone)]
pub struct Ping {
    pub record: Vec<u8>,
    pub payload: Vec<u8>,
    pub marks: Vec<u8>,
}

/// 1,000 settings of 5 bytes, and a column that takes the rest.
pub fn ping(holes: usize, length: usize) -> Ping {
    let mut payload = vec![1];
    payload.extend(1_001_u16.to_le_bytes());
    (0..1_000_u32).for_each(|k| payload.extend([&[7][..], &k.to_le_bytes()].concat()));
    payload.push(15);
    payload.extend(((TOTAL - payload.len() - 4) as u32).to_le_bytes());
    payload.resize(TOTAL, 9);
    let mut marks = vec![0xff_u8; TOTAL / 8];
    for at in (0..holes).flat_map(|hole| 8_000 + 8 * hole..8_000 + 8 * hole + length) {
        marks[at / 8] &= !(1 << (at % 8));
    }
    let covered = marks.iter().map(|byte| u64::from(byte.count_ones())).sum();
    let publisher = KeptId::UInt16(4711);
    let record = Record { publisher, group: None, writer: 21, number: 7, total: TOTAL as u64, covered };
    Ping { record: record::partial(&record), payload, marks }
}

pub const TOTAL: usize = 16_384;
const PART: usize = 1_024;

/// 16 chunks of 1,024 bytes.
pub fn chunk_datagrams() -> Vec<Vec<u8>> {
    let payload = Random::new(16).bytes(TOTAL);
    let carried = payload.chunks(PART).enumerate().map(|(k, data)| EnvelopeSpec {
        publisher: Some((1, 4711_u16.to_le_bytes().to_vec())),
        chunk: true,
        payload_header: true,
        ids: vec![21],
        messages: vec![chunk_bytes(7, (k * PART) as u32, TOTAL as u32, data)],
        ..EnvelopeSpec::default()
    });
    carried.map(|spec| spec.bytes()).collect()
}
