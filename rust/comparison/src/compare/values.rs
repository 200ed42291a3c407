//! Values told apart and put, and chunks counted.
use super::reading::{judge_filled, judge_put};
use super::{answer_of, Found, Tally};
use crate::generate::{self, Random};
use crate::record::{self, bytes_of, VALUE_SIZE};
use crate::reference::chunk::LONGEST_PAYLOAD;
use crate::reference::told::{self, Told};
use crate::reference::value::{Shape, BYTE_STRING, LOCALIZED_TEXT, QUALIFIED_NAME, STRING};
use crate::reference::{Number, Result};
use uadp::ffi;

fn filling(told: &Result<Told>) -> Result<(u64, Vec<u8>)> {
    (*told).map(|told| (told.end as u64, bytes_of(&record::value(&told))))
}

/// A type: mostly one that is taken.
fn kind(random: &mut Random) -> u32 {
    match random.below(8) {
        0 => random.edge() as u32,
        1 => random.below(64) as u32,
        _ => random.pick(&[0, 1, 2, 3, 4, 5, 6, 7, 8, 9, 10, 11, 12, 13, 14, 15, 19, 20, 21, 23, 24]),
    }
}

/// Bytes with a value among them, good or damaged, told at its place or anywhere.
pub fn value(tally: &mut Tally, random: &mut Random) {
    let (encoding, kind) = (if random.one_in(20) { random.edge() as u32 } else { random.below(3) as u32 }, kind(random));
    let before = if random.one_in(2) { 0 } else { random.below(9) };
    let mut bytes = random.bytes(before);
    let mut value =
        if random.one_in(8) { texts(random) } else { generate::field_value(random, encoding.min(2) as u8, kind.min(255) as u8) };
    if random.one_in(3) {
        generate::damage(random, &mut value);
    }
    bytes.extend(value);
    let after = random.below(4);
    bytes.extend(random.bytes(after));
    let at = if random.one_in(30) { random.edge() } else { before as u64 };
    let input = [("bytes", &bytes[..]), ("place", &at.to_le_bytes()[..])];
    let expected = told::field(&bytes, at as usize, encoding, kind);
    let call = |area: &mut [u8]| ffi::value(&bytes, at, encoding, kind, area);
    judge_filled(tally, random, "value", VALUE_SIZE, filling(&expected), &input, call);
    match expected {
        Ok(Told { kind: STRING | BYTE_STRING | QUALIFIED_NAME | LOCALIZED_TEXT, shape: Shape::Array(count), first, .. }) => {
            elements(tally, random, &bytes, first, count as u64);
        }
        _ if random.one_in(10) => {
            let (place, count) = (random.below(bytes.len() + 2), random.edge());
            elements(tally, random, &bytes, place, count);
        }
        _ => {}
    }
}

/// An array of Strings or ByteStrings, some of them null or empty.
fn texts(random: &mut Random) -> Vec<u8> {
    let count = random.below(6);
    let mut value = vec![random.pick(&[0x80 | STRING, 0x80 | BYTE_STRING])];
    value.extend((count as i32).to_le_bytes());
    for _ in 0..count {
        let length = random.below(5);
        value.extend(if random.one_in(4) { (-1i32).to_le_bytes() } else { (length as i32).to_le_bytes() });
        if value.ends_with(&(length as i32).to_le_bytes()) {
            value.extend(random.bytes(length));
        }
    }
    value
}

fn elements(tally: &mut Tally, random: &mut Random, bytes: &[u8], first: usize, count: u64) {
    let kind = kind(random);
    let k = if random.one_in(20) { random.edge().min(1 << 20) } else { random.below(count.min(8) as usize + 2) as u64 };
    let expected = told::element(bytes, first, kind, count, k);
    let call = |area: &mut [u8]| ffi::element(bytes, first as u64, kind, count, k, area);
    judge_filled(tally, random, "element", VALUE_SIZE, filling(&expected), &[("bytes", bytes)], call);
}

/// A value put as a Variant, of any type and shape and with any number of bytes, and told again.
pub fn put_value(tally: &mut Tally, random: &mut Random) {
    let (kind, shape) = (kind(random), if random.one_in(20) { random.edge() as u32 } else { random.below(3) as u32 });
    let null = if random.one_in(3) { random.edge() as u32 } else { 0 };
    let length = match random.below(12) {
        0 => random.within(65_520, 65_545),
        1..=3 => random.below(40),
        4..=6 => random.pick(&[0, 1, 2, 4, 8, 16]),
        _ => random.below(20) * random.pick(&[1, 2, 4, 8, 16]),
    };
    let bytes = random.bytes(length);
    let input = [("bytes", &bytes[..]), ("type and shape", &[kind as u8, shape as u8, null as u8][..])];
    let reference = |out: &mut [u8]| told::put(kind, shape, null, &bytes, out);
    let call = |out: &mut [u8]| ffi::put_value(kind, shape, null, &bytes, out);
    judge_put(tally, random, "put_value", length + 5, &input, reference, call);
}

/// A name put as a Variant, of any type, number and Strings.
pub fn put_name(tally: &mut Tally, random: &mut Random) {
    let kind = if random.one_in(8) { kind(random) } else { random.pick(&[20, 21, 21]) };
    let number = if random.one_in(3) { random.edge() as u32 } else { random.below(5) as u32 };
    let text = |random: &mut Random| {
        let length = match random.below(16) {
            0 => random.within(65_520, 65_545),
            1..=6 => 0,
            _ => random.below(12),
        };
        random.bytes(length)
    };
    let (locale, text) = (text(random), text(random));
    let input = [("locale", &locale[..]), ("text", &text[..]), ("type and number", &[kind as u8, number as u8][..])];
    let reference = |out: &mut [u8]| told::put_name(kind, number, &locale, &text, out);
    let call = |out: &mut [u8]| ffi::put_name(kind, number, &locale, &text, out);
    judge_put(tally, random, "put_name", locale.len() + text.len() + 10, &input, reference, call);
}

/// A matrix put as a Variant, of any type, dimensions and number of bytes; half of them agree.
pub fn put_matrix(tally: &mut Tally, random: &mut Random) {
    let kind = if random.one_in(4) { kind(random) } else { random.within(1, 11) as u32 };
    let mut sizes: Vec<i32> = (0..random.below(5)).map(|_| random.below(6) as i32).collect();
    if random.one_in(8) {
        sizes.push(random.edge() as i32);
    }
    let product = sizes.iter().fold(1usize, |product, &size| product.saturating_mul(size.max(0) as usize));
    let width = uadp_width(kind);
    let length = match random.below(8) {
        0 => random.within(65_520, 65_545),
        1 | 2 => random.below(60),
        _ => product.saturating_mul(width).min(70_000),
    };
    let bytes = random.bytes(length);
    let mut sizes: Vec<u8> = sizes.iter().flat_map(|size| size.to_le_bytes()).collect();
    if random.one_in(12) {
        sizes.push(0);
    }
    let input = [("sizes", &sizes[..]), ("bytes", &bytes[..]), ("type", &[kind as u8][..])];
    let reference = |out: &mut [u8]| told::put_matrix(kind, &sizes, &bytes, out);
    let call = |out: &mut [u8]| ffi::put_matrix(kind, &sizes, &bytes, out);
    judge_put(tally, random, "put_matrix", length + sizes.len() + 9, &input, reference, call);
}

/// The width of a type, 1 where it has none.
fn uadp_width(kind: u32) -> usize {
    u8::try_from(kind).ok().and_then(crate::reference::value::width).unwrap_or(1)
}

/// How many chunks a message has.
pub fn chunks(tally: &mut Tally, random: &mut Random) {
    let total = if random.one_in(2) { random.within(16_380, 16_390) as u64 } else { random.edge() };
    let size = if random.one_in(2) { random.within(1, 40) as u64 } else { random.edge() };
    let expected = match total {
        _ if size == 0 || total == 0 => Err(Number::Disagree.nowhere()),
        total if total > LONGEST_PAYLOAD as u64 => Err(Number::OverLimit.nowhere()),
        total => Ok(total.div_ceil(size)),
    };
    let (found, expected) = (ffi::chunks(total, size), answer_of(expected));
    let of = |answer| Found { answer, areas: Vec::new() };
    tally.judge("chunks", &of(found), &of(expected), &[("total", &total.to_le_bytes()), ("size", &size.to_le_bytes())]);
}
