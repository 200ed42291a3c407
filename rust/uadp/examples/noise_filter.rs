//! `noise_filter FILE..`: what the module does. Each file is a datagram with a chunk of a ping, a key frame of Variants. One that is
//! complete and newer than the last is published as publisher 4712, in chunks of 64 bytes, printed in hex: its columns of Floats are
//! cleaned, every other field goes out as it stands.
use std::{env, error::Error, fs};
use uadp::{
    marks_size, Chunks, Config, DatagramBuilder, Encoding, Kind, LastSequence, Message, MessageBuilder, Newness, Partial,
    PublisherId, Reason, Refusal, Shape, Type, Value, Values, CHUNK_HEADER, MOST_DATAGRAM, MOST_PAYLOAD,
};

const CHUNK: usize = 64;

/// The one in the middle, so that no bit of a sample changes.
fn median(a: f32, b: f32, c: f32) -> f32 {
    match (a < b, b < c, a < c) {
        (true, true, _) | (false, false, false) => b,
        (true, false, true) | (false, true, false) => c,
        (true, false, false) | (false, _, true) => a,
    }
}

/// A column of Floats, each sample replaced by the median of itself and its neighbours.
fn cleaned(column: &Value) -> Vec<u8> {
    let samples: Vec<f32> = column.elements().map(f32::from_le_bytes).collect();
    let at = |k: usize| samples[k.min(samples.len() - 1)];
    (0..samples.len()).flat_map(|k| median(at(k.saturating_sub(1)), at(k), at(k + 1)).to_le_bytes()).collect()
}

/// Sends a message in chunks.
fn send(message: &[u8], number: u16, writer: u16) -> Result<(), Refusal> {
    let (mut chunk, mut out) = ([0; CHUNK_HEADER + CHUNK], [0; CHUNK_HEADER + CHUNK + 16]);
    let mut chunks = Chunks::new(message, number, CHUNK);
    while let Some(chunk) = chunks.next_into(&mut chunk)? {
        let datagram = DatagramBuilder::new().publisher(PublisherId::UInt16(4712)).write_chunk(writer, chunk, &mut out)?;
        println!("{}", datagram.iter().map(|byte| format!("{byte:02X}")).collect::<Vec<_>>().join(" "));
    }
    Ok(())
}

/// Publishes a complete ping.
fn publish(ping: &Partial<Vec<u8>>, last: &mut LastSequence, published: &mut u16, config: &Config) -> Result<(), Refusal> {
    let part = ping.message(config)?;
    let is_newer = |message: &Message| message.sequence().is_none_or(|sequence| last.judge(sequence) == Newness::Newer);
    let message = part.read()?.filter(|message| message.kind() == Kind::Key && message.encoding() == Encoding::Variant);
    let Some(message) = message.filter(is_newer) else {
        println!("ping left out");
        return Ok(());
    };
    let (mut bytes, mut lengths) = (vec![0; MOST_PAYLOAD], vec![0; message.fields().len()]);
    let mut values = Values::new(&mut bytes, &mut lengths);
    for field in message.fields() {
        match (field.value_type, field.shape) {
            (Type::FLOAT, Shape::Array(_)) => values.push_array(Type::FLOAT, &cleaned(&field.value()?))?,
            _ => values.push(field.bytes)?,
        }
    }
    *published = published.wrapping_add(1);
    let (builder, mut out) = (MessageBuilder::like(&message).sequence(*published), vec![0; MOST_DATAGRAM]);
    let written = builder.fields(&values).write(config, part.writer(), &mut out)?;
    send(written, *published, part.writer().unwrap_or(0))
}

fn main() -> Result<(), Box<dyn Error>> {
    let (config, mut last, mut published) = (Config::new(), LastSequence::new(), 0);
    let mut ping = Partial::new(vec![0; MOST_PAYLOAD], vec![0; marks_size(MOST_PAYLOAD)]);
    for file in env::args().skip(1) {
        let datagram = fs::read(file)?;
        let mut taken = ping.take_in(&datagram, &config);
        if let Err(Refusal { reason: Reason::OtherMessage, .. }) = taken {
            ping.empty(); // the ping before is given up
            taken = ping.take_in(&datagram, &config);
        }
        if taken.is_ok() && ping.is_complete()? {
            taken = publish(&ping, &mut last, &mut published, &config);
            ping.empty();
        }
        taken.unwrap_or_else(|refusal| println!("{refusal}"));
    }
    Ok(())
}
