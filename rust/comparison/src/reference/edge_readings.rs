//! Document 01's example, its edge readings and its rewriting exception, with the values it gives.
use super::config::Config;
use super::reassembly::{Partial, Record};
use super::sequence::{judge, Newness};
use super::value::{variant, Value, LEVELS};
use super::wire::Reader;
use super::{chunk, listing, message, message_writer, network, network_writer, Number, Refusal, Result};
use crate::record;

const EXAMPLE: [u8; 20] =
    [0xD1, 0x01, 0x67, 0x12, 0x01, 0x15, 0x00, 0x09, 0x05, 0x00, 0x02, 0x00, 0x05, 0x03, 0x00, 0x0A, 0x00, 0x00, 0x00, 0x3F];

#[test]
fn example_lists() {
    let expected = "net\t20\tu16\t4711\t1\nset\t0\t21\t7\t13\tkey\tvariant\t5\n\
                    field\t0\t0\t5\t-\t12\t3\t0\nfield\t0\t1\t10\t-\t15\t5\t0\n";
    assert_eq!(listing::list(&EXAMPLE, &Config::default()), expected);
}

#[test]
fn example_walks() {
    let envelope = network::read(&EXAMPLE, &Config::default()).expect("accepted");
    let records = [[1, 0, 21, 0, 0, 5, 7, 13, 0, 0], [0, 0, 0, 5, 0, 0, 12, 3, 0, 0], [0, 0, 1, 10, 0, 0, 15, 5, 0, 0]];
    assert_eq!(record::walk(&EXAMPLE, &Config::default(), &envelope), records);
}

#[test]
fn example_is_rewritten_identically() {
    let mut out = [0; 32];
    assert_eq!(network_writer::rewrite(&EXAMPLE, &Config::default(), &mut out), Ok(20));
    assert_eq!(out[..20], EXAMPLE);
}

#[test]
fn every_prefix_of_the_example_is_cut_short() {
    for length in 0..8 {
        let refusal = network::read(&EXAMPLE[..length], &Config::default()).map(drop).unwrap_err();
        assert_eq!(refusal.number, Number::CutShort, "{length}");
    }
    for length in 1..13 {
        let refusal = message::read(&EXAMPLE[7..][..length], &[]).map(drop);
        assert!(matches!(refusal, Err(Refusal { number: Number::CutShort, .. })) || length == 3, "{length}");
    }
}

#[test]
fn n1_to_n7() {
    let newness = [6, 5, 16_389, 16_390, 49_158, 49_159].map(|received| judge(Some(5), received));
    let expected = [Newness::Newer, Newness::OldOrSame, Newness::Newer, Newness::Invalid, Newness::Invalid, Newness::OldOrSame];
    assert_eq!(newness, expected);
    assert_eq!(judge(Some(65_535), 0), Newness::Newer);
}

fn measure(bytes: &[u8]) -> Result<(Value, usize)> {
    let mut reader = Reader::new(bytes);
    let value = variant(&mut reader, LEVELS)?;
    Ok((value, reader.position()))
}

#[test]
fn v1_to_v3() {
    assert_eq!(measure(&[0]), Ok((Value::scalar(0), 1)));
    let null_array = Value::array(5, None);
    assert_eq!(measure(&[0x85, 0xFF, 0xFF, 0xFF, 0xFF]), Ok((null_array, 5)));
    assert_eq!(measure(&[0x18]), Err(Number::NotPermitted.at(0)));
}

/// Six Bytes, and the dimensions list that is given.
fn six_bytes(list: &[i32]) -> Vec<u8> {
    let mut bytes = vec![0xC3, 6, 0, 0, 0, 1, 2, 3, 4, 5, 6];
    bytes.extend(list.iter().flat_map(|number| number.to_le_bytes()));
    bytes
}

#[test]
fn matrices() {
    let two_by_three = Value { dimensions: 2, ..Value::array(3, Some(6)) };
    assert_eq!(measure(&six_bytes(&[2, 2, 3])), Ok((two_by_three, 23)));
    assert_eq!(measure(&six_bytes(&[2, 2, 2])), Err(Number::Disagree.at(15)));
    assert_eq!(measure(&six_bytes(&[2, 2, 0])), Err(Number::BadLength.at(15)));
    assert_eq!(measure(&six_bytes(&[0])), Err(Number::BadLength.at(11)));
    assert_eq!(measure(&six_bytes(&[2, 2, 3])[..18]), Err(Number::CutShort.at(15)));
}

/// Takes in two chunks of 3 bytes, at 0 and 2, of a payload of 5.
fn take_in_two(second: &[u8; 3]) -> (Result<()>, Result<bool>, [u8; 5]) {
    let (mut payload, mut marks) = ([0; 5], [0; 1]);
    let mut record: Option<Record> = None;
    let mut partial = Partial { record: &mut record, payload: &mut payload, marks: &mut marks };
    let config = Config::default();
    let taken = partial.take_in(&chunk_datagram(0, b"abc"), &config);
    assert_eq!((taken, partial.view().complete()), (Ok(()), Ok(false)));
    assert_eq!(partial.view().hand_out(), Err(Number::NotComplete.nowhere()));
    let taken = partial.take_in(&chunk_datagram(2, second), &config);
    let complete = partial.view().complete();
    (taken, complete, payload)
}

fn chunk_datagram(offset: u8, data: &[u8; 3]) -> Vec<u8> {
    let front = [0xC1, 0x80, 0x01, 21, 0, 7, 0, offset, 0, 0, 0, 5, 0, 0, 0, 3, 0, 0, 0];
    [&front[..], data].concat()
}

#[test]
fn r1_and_r2() {
    assert_eq!(take_in_two(b"cde"), (Ok(()), Ok(true), *b"abcde"));
    assert_eq!(take_in_two(b"xde"), (Err(Number::ByteDiffers.nowhere()), Ok(false), *b"abc\0\0"));
}

#[test]
fn rewriting_exception() {
    let (config, mut out) = (Config::default(), [0xAA; 16]);
    // ExtendedFlags1 holds ignored type bits only: the byte is left out.
    assert_eq!(network_writer::rewrite(&[0xC1, 0x05, 1, 21, 0, 0], &config, &mut out), Ok(5));
    assert_eq!(out[..6], [0x41, 1, 21, 0, 0, 0xAA]);
    // With a Timestamp the byte stays, its type bits 0.
    let datagram = [0xC1, 0x27, 1, 21, 0, 1, 2, 3, 4, 5, 6, 7, 8, 0];
    assert_eq!(network_writer::rewrite(&datagram, &config, &mut out), Ok(14));
    assert_eq!(out[..14], [0xC1, 0x20, 1, 21, 0, 1, 2, 3, 4, 5, 6, 7, 8, 0]);
}

/// A datagram with a Timestamp and these PicoSeconds, whose message has the same picoseconds in its header.
fn with_picoseconds(picoseconds: u16) -> Vec<u8> {
    let [low, high] = picoseconds.to_le_bytes();
    [&[0xD1, 0x60, 9, 1, 21, 0, 1, 2, 3, 4, 5, 6, 7, 8, low, high][..], &[0x81, 0x20, low, high]].concat()
}

#[test]
fn picoseconds() {
    let (config, mut out) = (Config::default(), [0xAA; 20]);
    for (sent, read) in [(0, 0), (9_999, 9_999), (10_000, 9_999), (10_001, 9_999), (65_535, 9_999)] {
        let datagram = with_picoseconds(sent);
        assert_eq!(network::read(&datagram, &config).map(|envelope| envelope.picoseconds), Ok(Some(read)));
        // The envelope holds what was read; the message keeps its own, and holds it where it is rewritten alone.
        assert_eq!(network_writer::rewrite(&datagram, &config, &mut out), Ok(20));
        assert_eq!(out, [&with_picoseconds(read)[..16], &datagram[16..]].concat()[..]);
        assert_eq!(message_writer::rewrite(&datagram[16..], &[], &mut out), Ok(4));
        assert_eq!(out[..4], with_picoseconds(read)[16..]);
    }
    assert_eq!(network::read(&with_picoseconds(10_000)[..15], &config).map(drop), Err(Number::CutShort.at(14)));
    assert_eq!(message::read(&with_picoseconds(10_000)[16..19], &[]).map(drop), Err(Number::CutShort.at(2)));
}

#[test]
fn configuration_lines() {
    let bad = |text: &str| Config::parse(text.as_bytes()).map(drop).map_err(|refusal| refusal.place);
    assert_eq!(bad(""), Ok(()));
    assert_eq!(bad("writer\t21\t-\nfield\t10\nwriter\t0\t65535\n"), Ok(()));
    for text in
        ["\n", "writer\t21\t-", "writer\t21\t0\n", "writer\t021\t-\n", "writer\t65536\t-\n", "field\t1\n", "writer\t1\t-\t\n"]
    {
        assert_eq!(bad(text), Err(1), "{text:?}");
    }
    for line in ["writer\t1\t5\n", "field\t12\n", "field\t01\n", "field\t+1\n", "field\t1\r\n", " field\t1\n", "field\t64\n"] {
        assert_eq!(bad(&format!("writer\t1\t-\n{line}")), Err(2), "{line:?}");
    }
}

#[test]
fn levels() {
    // n arrays of one Variant each, and a null inside: n + 1 levels.
    let nested = |n: usize| [[0x98, 1, 0, 0, 0].repeat(n), vec![0]].concat();
    assert_eq!(measure(&nested(99)).map(|(_, length)| length), Ok(496));
    assert_eq!(measure(&nested(100)), Err(Number::TooDeep.at(500)));
    assert_eq!(measure(&nested(100)[..500]), Err(Number::CutShort.at(500)));
}

#[test]
fn cut_chunks() {
    let mut out = [0xAA; 20];
    assert_eq!(chunk::cut(b"abcde", 7, 3, 1, &mut out), Ok(16));
    assert_eq!(out[..17], [7, 0, 3, 0, 0, 0, 5, 0, 0, 0, 2, 0, 0, 0, b'd', b'e', 0xAA]);
    assert_eq!(chunk::cut(b"abcde", 7, 3, 2, &mut out), Err(Number::OverLimit.nowhere()));
    assert_eq!(chunk::cut(b"abcde", 7, 0, 0, &mut out), Err(Number::Disagree.nowhere()));
    assert_eq!(chunk::cut(b"abcde", 7, 3, 0, &mut out[..16]), Err(Number::NoRoom.nowhere()));
}
