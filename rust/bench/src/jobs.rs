//! What is done with the inputs, by the library and in tuned Rust. Both sides of a pair answer a number that has to be the same.
use crate::by_one;
use crate::inputs::{Input, Ping, TOTAL};
use std::cell::RefCell;
use std::hint::black_box;
use std::rc::Rc;
use uadp::ffi;
use uadp_comparison::record::{self, number};
use uadp_comparison::reference::config::Config;
use uadp_comparison::reference::reassembly::{Partial, Record};
use uadp_comparison::reference::{message, network};
use uadp_comparison::tuned;

/// What one call does.
pub type Job = Box<dyn FnMut() -> u64>;

/// The same job, by the library and in Rust.
pub struct Pair {
    pub ours: Job,
    pub rust: Job,
}

impl Pair {
    fn new(ours: impl FnMut() -> u64 + 'static, rust: impl FnMut() -> u64 + 'static) -> Self {
        Self { ours: Box::new(ours), rust: Box::new(rust) }
    }
}

/// Mixes two answers.
fn mix(sum: u64, a: u64, b: u64) -> u64 {
    sum.wrapping_mul(31).wrapping_add(a).wrapping_mul(31).wrapping_add(b)
}

/// More records than any datagram of the table has.
const RECORDS: usize = 65_535;
/// What the walk record of a refused message begins with.
const REFUSED: u64 = 3;
/// Room for any datagram.
const ROOM: usize = 65_535;
/// Room for any listing.
const TEXT: usize = 2_000_000;

/// The walk in Rust, which puts the records of all messages and fields into memory; it answers how many.
fn walk_in_rust(input: &Input) -> impl FnMut() -> u64 + 'static {
    let (datagram, config) = (input.datagram.clone(), input.config.clone());
    let mut records = Vec::with_capacity(RECORDS);
    move || {
        records.clear();
        let walked = tuned::walk_into(&mut records, black_box(&datagram), &config);
        black_box(&records);
        walked.map_or(u64::MAX, |()| records.len() as u64)
    }
}

/// All records by one call. Each record is compared before it is timed.
pub fn walk(input: Input) -> Pair {
    let mut records = vec![0; RECORDS * record::WALK_SIZE];
    let mut expected = Vec::new();
    tuned::walk_into(&mut expected, &input.datagram, &input.config).expect("an accepted datagram");
    assert!(expected.iter().all(|record| record[0] != REFUSED), "no message is refused");
    ffi::walk(&input.datagram, &input.config_record, &mut records);
    let expected = record::bytes_of(expected.as_flattened());
    assert_eq!(records[..expected.len()], expected, "the records are the same");
    let rust = walk_in_rust(&input);
    let ours = move || {
        let answer = ffi::walk(black_box(&input.datagram), &input.config_record, &mut records);
        black_box(&records);
        answer.value()
    };
    Pair::new(ours, rust)
}

/// No room for records: all messages and fields are walked over, nothing is stored, and it answers how many there are.
pub fn count(input: Input) -> Pair {
    let (datagram, config) = (input.datagram.clone(), input.config.clone());
    let ours = move || ffi::walk(black_box(&input.datagram), &input.config_record, &mut []).value();
    Pair::new(ours, move || tuned::count(black_box(&datagram), &config).unwrap_or(u64::MAX))
}

/// The whole listing; it answers how long it is.
pub fn list(input: Input) -> Pair {
    let (datagram, config) = (input.datagram.clone(), input.config.clone());
    let (mut out, mut text) = (vec![0; TEXT], Vec::with_capacity(TEXT));
    let ours = move || {
        let answer = ffi::list(black_box(&input.datagram), &input.config_record, &mut out);
        black_box(&out);
        answer.value()
    };
    let rust = move || {
        text.clear();
        tuned::list_into(&mut text, black_box(&datagram), &config);
        black_box(&text);
        text.len() as u64
    };
    Pair::new(ours, rust)
}

/// A call for each message and each field by the library, which opens a message and asks for its end; one pass in Rust. Both answer how
/// many messages and fields there are.
pub fn by_calls(input: Input) -> Pair {
    let mut envelope = [0; record::ENVELOPE_SIZE];
    let mut place = [0; record::PLACE_SIZE];
    let mut head = [0; record::HEAD_SIZE];
    let mut field = [0; record::FIELD_SIZE];
    let rust = walk_in_rust(&input);
    let ours = move || {
        let datagram = black_box(&input.datagram[..]);
        let config = &input.config_record[..];
        let mut count = 0;
        ffi::read(datagram, config, &mut envelope);
        while ffi::next_message(datagram, config, &mut envelope, &mut place).number() == 0 {
            let message = &datagram[number(&place, 1) as usize..][..number(&place, 2) as usize];
            let writer = number(&place, 3) as u32;
            count += 1;
            if ffi::open_message(message, config, writer, &mut head).number() != 0 {
                continue;
            }
            while ffi::next_field(message, config, writer, &mut head, &mut field).number() == 0 {
                black_box(&field);
                count += 1;
            }
            black_box(ffi::end_message(message, &head));
        }
        count
    };
    Pair::new(ours, rust)
}

/// A buffer that both sides write into, one after the other: where it lies changes how long a copy takes.
type Buffer = Rc<RefCell<Vec<u8>>>;

fn buffer() -> (Buffer, Buffer) {
    let buffer = Rc::new(RefCell::new(vec![0; ROOM]));
    (Rc::clone(&buffer), buffer)
}

/// A datagram written again; in Rust it is read and copied, which gives the same bytes as its PublisherId is there. Both sides read the same
/// bytes and write into the same buffer.
pub fn rewrite(input: Input) -> Pair {
    let (input, (out, copy)) = (Rc::new(input), buffer());
    let same = Rc::clone(&input);
    let ours = move || {
        let mut out = out.borrow_mut();
        let answer = ffi::rewrite(black_box(&input.datagram), &input.config_record, &mut out);
        black_box(&out);
        answer.value()
    };
    let rust = move || {
        let (datagram, mut copy) = (black_box(&same.datagram), copy.borrow_mut());
        let read = network::read(datagram, &same.config);
        copy[..datagram.len()].copy_from_slice(datagram);
        black_box(&copy);
        read.map_or(u64::MAX, |_| datagram.len() as u64)
    };
    Pair::new(ours, rust)
}

/// The first message written again; in Rust it is read and copied.
pub fn rewrite_message(input: Input) -> Pair {
    let envelope = network::read(&input.datagram, &input.config).expect("an accepted datagram");
    let place = envelope.messages(&input.datagram, &input.config).next().expect("a message");
    let message = Rc::new(input.datagram[place.offset..][..place.length].to_vec());
    let (same, config, writer, (out, copy)) = (Rc::clone(&message), input.config.clone(), place.writer, buffer());
    let ours = move || {
        let (id, mut out) = (u32::from(writer.unwrap_or(0)), out.borrow_mut());
        let answer = ffi::rewrite_message(black_box(&message), &input.config_record, id, &mut out);
        black_box(&out);
        answer.value()
    };
    let rust = move || {
        let (message, mut copy) = (black_box(&same), copy.borrow_mut());
        let read = tuned::count_message(message, config.types_of(writer));
        copy[..message.len()].copy_from_slice(message);
        black_box(&copy);
        read.map_or(u64::MAX, |_| message.len() as u64)
    };
    Pair::new(ours, rust)
}

/// A configuration text; both answer the number.
pub fn config(text: Vec<u8>) -> Pair {
    let mut config = [0; record::CONFIG_SIZE];
    let copied = text.clone();
    let ours = move || {
        let answer = ffi::config(black_box(&text), &mut config);
        black_box(&config);
        u64::from(answer.number())
    };
    let rust = move || match black_box(Config::parse(black_box(&copied))) {
        Ok(_) => 0,
        Err(refusal) => refusal.number as u64,
    };
    Pair::new(ours, rust)
}

/// A partial of the library.
struct Ours {
    record: [u8; record::PARTIAL_SIZE],
    payload: Vec<u8>,
    marks: Vec<u8>,
}

impl Ours {
    fn new() -> Self {
        Self { record: [0; record::PARTIAL_SIZE], payload: vec![0; TOTAL], marks: vec![0; TOTAL / 8] }
    }

    fn filled(datagrams: &[Vec<u8>]) -> Self {
        let mut partial = Self::new();
        for datagram in datagrams {
            partial.take_in(datagram);
        }
        partial
    }

    fn take_in(&mut self, datagram: &[u8]) -> u64 {
        u64::from(ffi::take_in(&mut self.record, &mut self.payload, &mut self.marks, black_box(datagram), &[]).number())
    }

    fn complete(&self) -> u64 {
        ffi::complete(black_box(&self.record), &self.payload, &self.marks).value()
    }

    fn hand_out(&self) -> u64 {
        ffi::hand_out(black_box(&self.record), &self.payload, &self.marks).value()
    }
}

/// A partial in Rust.
struct Rust {
    record: Option<Record>,
    payload: Vec<u8>,
    marks: Vec<u8>,
}

impl Rust {
    fn new() -> Self {
        Self { record: None, payload: vec![0; TOTAL], marks: vec![0; TOTAL / 8] }
    }

    fn filled(datagrams: &[Vec<u8>]) -> Self {
        let mut partial = Self::new();
        for datagram in datagrams {
            partial.take_in(datagram);
        }
        partial
    }

    fn lent(&mut self) -> Partial<'_> {
        Partial { record: &mut self.record, payload: &mut self.payload, marks: &mut self.marks }
    }

    fn take_in(&mut self, datagram: &[u8]) -> u64 {
        tuned::take_in(&mut self.lent(), black_box(datagram), &Config::default())
            .map_or_else(|refusal| refusal.number as u64, |()| 0)
    }

    fn complete(&mut self) -> u64 {
        u64::from(tuned::complete(&black_box(self.lent()).view()) == Ok(true))
    }

    fn hand_out(&mut self) -> u64 {
        tuned::hand_out(&black_box(self.lent()).view()).map_or(0, |total| total as u64)
    }
}

/// Chunks taken in from empty, completeness asked after each or not.
pub fn take_in(datagrams: Vec<Vec<u8>>, asked: bool) -> Pair {
    let (mut partial, mut other, copied) = (Ours::new(), Rust::new(), datagrams.clone());
    let ours = move || {
        ffi::empty(&mut partial.record);
        datagrams.iter().fold(0, |sum, datagram| {
            let taken = partial.take_in(datagram);
            mix(sum, taken, if asked { partial.complete() } else { 0 })
        })
    };
    let rust = move || {
        other.record = None;
        copied.iter().fold(0, |sum, datagram| {
            let taken = other.take_in(datagram);
            mix(sum, taken, if asked { other.complete() } else { 0 })
        })
    };
    Pair::new(ours, rust)
}

pub fn complete(datagrams: Vec<Vec<u8>>) -> Pair {
    let (partial, mut other) = (Ours::filled(&datagrams), Rust::filled(&datagrams));
    Pair::new(move || partial.complete(), move || other.complete())
}

/// How many bytes of an area are marked, as handing out counts them; the other side one mark after another.
pub fn marks_by_one((marks, length): (Vec<u8>, usize)) -> Pair {
    let same = marks.clone();
    Pair::new(move || by_one::by_eight_bytes(black_box(&marks), length), move || by_one::one_by_one(black_box(&same), length))
}

/// How many bytes of an area are marked; in Rust eight bytes of marks at a time too.
pub fn marks((marks, length): (Vec<u8>, usize)) -> Pair {
    let same = marks.clone();
    Pair::new(move || by_one::by_eight_bytes(black_box(&marks), length), move || tuned::count_marked(black_box(&same), length))
}

/// What came of a message: holes by the marks' eight bytes at a time, fields one after the other.
fn salvage_in_rust(ping: &Ping, entries: &mut Vec<[u64; record::FIELD_SIZE / 8]>) -> u64 {
    entries.clear();
    let mut start = None;
    for (word, eight) in ping.marks.chunks_exact(8).enumerate() {
        let mut changes = u64::from_le_bytes(eight.try_into().unwrap_or_default());
        changes ^= changes << 1 | u64::from(start.is_none());
        while changes != 0 {
            let at = 64 * word + changes.trailing_zeros() as usize;
            changes &= changes - 1;
            match start.take() {
                None => start = Some(at),
                Some(from) => entries.push([0, 0, 0, 0, from as u64, (at - from) as u64, 0, 0]),
            }
        }
    }
    entries.extend(start.map(|from| [0, 0, 0, 0, from as u64, (TOTAL - from) as u64, 0, 0]));
    let front = entries.first().map_or(TOTAL, |hole| hole[4] as usize);
    let Ok(Some(message)) = message::front(&ping.payload[..front], &[]) else { return 0 };
    entries.extend(message.walk(&ping.payload[..front], &[]).map(|field| record::field(&field)));
    entries.len() as u64
}

/// A message with holes salvaged.
pub fn salvage(ping: Ping) -> Pair {
    let (mut told, mut list, other) = ([0; record::SALVAGE_SIZE], vec![0; record::FIELD_SIZE * TOTAL], ping.clone());
    let ours = move || ffi::salvage(black_box(&ping.record), &ping.payload, &ping.marks, &[], &mut told, &mut list).value();
    let mut entries = Vec::with_capacity(TOTAL);
    let rust = move || {
        let count = salvage_in_rust(black_box(&other), &mut entries);
        black_box(&entries);
        count
    };
    Pair::new(ours, rust)
}

/// A complete message handed out.
pub fn hand_out(datagrams: Vec<Vec<u8>>) -> Pair {
    let (partial, mut other) = (Ours::filled(&datagrams), Rust::filled(&datagrams));
    Pair::new(move || partial.hand_out(), move || other.hand_out())
}

/// A complete partial combined into an empty one, or into one that is the same.
pub fn combine(datagrams: Vec<Vec<u8>>, empty_first: bool) -> Pair {
    let (source, mut target) = (Ours::filled(&datagrams), Ours::filled(&datagrams));
    let (mut rust_source, mut rust_target) = (Rust::filled(&datagrams), Rust::filled(&datagrams));
    let ours = move || {
        if empty_first {
            ffi::empty(&mut target.record);
        }
        let from = [&source.record[..], &source.payload, &source.marks];
        let answer = ffi::combine(&mut target.record, &mut target.payload, &mut target.marks, black_box(from));
        u64::from(answer.number())
    };
    let rust = move || {
        if empty_first {
            rust_target.record = None;
        }
        let lent = rust_source.lent();
        tuned::combine(&mut rust_target.lent(), black_box(lent.view())).map_or_else(|refusal| refusal.number as u64, |()| 0)
    };
    Pair::new(ours, rust)
}
