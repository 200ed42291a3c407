//! The reference against itself on generated inputs, and against the stored listings.
use super::config::Config;
use super::{chunk, listing, message, message_writer, network, network_writer};
use crate::generate::{MessageSpec, Random, Scenario};
use std::fs;
use std::path::Path;

/// Picoseconds of 10,000 and more at a place become 9,999.
fn hold(bytes: &mut [u8], at: usize) {
    if u16::from_le_bytes([bytes[at], bytes[at + 1]]) >= 10_000 {
        bytes[at..at + 2].copy_from_slice(&[0x0f, 0x27]);
    }
}

/// What a datagram is rewritten to: PicoSeconds, which stand behind the Timestamp, are held; with PublisherId off its type bits are 0, and
/// an ExtendedFlags1 of 0 is left out.
fn rewritten(datagram: &[u8], envelope: &network::Envelope) -> Vec<u8> {
    let mut bytes = datagram.to_vec();
    if envelope.picoseconds.is_some() {
        hold(&mut bytes, envelope.payload_header_end + 8);
    }
    if bytes[0] & 0x90 == 0x80 {
        bytes[1] &= 0xf8;
        if bytes[1] == 0 {
            bytes.remove(1);
            bytes[0] &= 0x7f;
        }
    }
    bytes
}

/// What a message is rewritten to: picoseconds, which stand behind two flag bytes, the sequence and the timestamp, are held.
fn rewritten_message(message: &[u8]) -> Vec<u8> {
    let mut bytes = message.to_vec();
    if bytes[0] & 0x80 != 0 && bytes[1] & 0x20 != 0 {
        let sequence = if bytes[0] & 0x08 != 0 { 2 } else { 0 };
        let timestamp = if bytes[1] & 0x10 != 0 { 8 } else { 0 };
        hold(&mut bytes, 2 + sequence + timestamp);
    }
    bytes
}

#[test]
fn accepted_datagrams_and_messages_are_rewritten() {
    let mut random = Random::new(3);
    let (mut datagrams, mut messages, mut exceptions, mut held) = (0, 0, 0, 0);
    let mut out = vec![0; 65_535];
    for _ in 0..40_000 {
        let Scenario { text, datagram } = Scenario::any(&mut random);
        let config = Config::parse(&text).expect("made valid");
        let Ok(envelope) = network::read(&datagram, &config) else {
            continue;
        };
        let length = network_writer::rewrite(&datagram, &config, &mut out).expect("accepted");
        assert_eq!(out[..length], rewritten(&datagram, &envelope));
        datagrams += 1;
        exceptions += usize::from(out[..length] != datagram);
        for place in envelope.messages(&datagram, &config) {
            let bytes = &datagram[place.offset..][..place.length];
            let types = config.types_of(place.writer);
            if let Ok(Some(_)) = message::read(bytes, types) {
                let length = message_writer::rewrite(bytes, types, &mut out).expect("accepted");
                assert_eq!(out[..length], rewritten_message(bytes));
                held += usize::from(out[..length] != *bytes);
                messages += 1;
            }
        }
    }
    assert!(datagrams > 5_000 && messages > 5_000, "{datagrams} {messages}");
    assert!(exceptions > 20 && held > 20, "{exceptions} {held}");
}

#[test]
fn messages_written_from_parts_are_those_put_together() {
    let mut random = Random::new(4);
    let (mut out, mut written) = (vec![0; 65_535], 0);
    for _ in 0..20_000 {
        let spec = MessageSpec::any(&mut random, &[7, 11, 1]);
        let bytes = spec.bytes();
        let Ok(Some(read)) = message::read(&bytes, &[7, 11, 1]) else {
            continue;
        };
        let lengths: Vec<usize> = spec.values.iter().map(Vec::len).collect();
        let parts = message_writer::Parts {
            header: read.header,
            heartbeat: spec.heartbeat,
            values: &spec.values.concat(),
            lengths: &lengths,
            indices: &spec.indices,
            padding: spec.padding as u64,
            all_fit: true,
        };
        let length = message_writer::write(&parts, &[7, 11, 1], &mut out).expect("accepted");
        assert_eq!(out[..length], rewritten_message(&bytes));
        written += 1;
    }
    assert!(written > 10_000, "{written}");
}

#[test]
fn cut_chunks_put_the_payload_together() {
    let mut random = Random::new(5);
    for length in [1, 2, 7, 100, 1_000, 16_384] {
        let payload = random.bytes(length);
        let size = random.within(1, length);
        let mut whole: Vec<u8> = Vec::new();
        for k in 0..length.div_ceil(size) {
            let mut out = vec![0; size + 14];
            let written = chunk::cut(&payload, 7, size as u64, k as u64, &mut out).expect("a chunk");
            let read = chunk::read(&out[..written], 0).expect("accepted");
            assert_eq!((read.number, read.offset, read.total as usize), (7, k * size, length));
            whole.extend(read.data);
        }
        assert_eq!(whole, payload);
    }
}

/// Bytes from hex digits; `#` starts a comment.
fn bytes_of_hex(text: &str) -> Vec<u8> {
    let lines = text.lines().map(|line| line.split('#').next().unwrap_or(""));
    let digits: Vec<u32> = lines.flat_map(str::chars).filter_map(|digit| digit.to_digit(16)).collect();
    digits.chunks(2).map(|pair| (16 * pair[0] + pair[1]) as u8).collect()
}

/// The datagram and configuration text of a stored case.
fn stored(case: &Path) -> (Vec<u8>, Vec<u8>) {
    let datagram = match fs::read_to_string(case.join("datagram.hex")) {
        Ok(text) => bytes_of_hex(&text),
        Err(_) => {
            let zeros = fs::read_to_string(case.join("datagram.zeros")).expect("a datagram");
            vec![0; zeros.trim().parse().expect("a number")]
        }
    };
    (datagram, fs::read(case.join("readers.txt")).unwrap_or_default())
}

#[test]
fn stored_cases_list_as_expected() {
    let cases = Path::new(env!("CARGO_MANIFEST_DIR")).join("../../tests/listing/cases");
    let mut compared = 0;
    for case in fs::read_dir(cases).expect("the stored cases") {
        let case = case.expect("a case").path();
        let (datagram, text) = stored(&case);
        let expected = fs::read_to_string(case.join("expected.txt")).expect("a listing");
        assert_eq!(listing::list_with_text(&datagram, &text), expected, "{}", case.display());
        compared += 1;
    }
    assert!(compared > 20, "{compared}");
}
