//! The listing of a datagram.
use super::config::Config;
use super::message::{self, Encoding, Field, Kind};
use super::network::{self, Envelope, MessagePlace, PublisherId};
use super::value::Shape;
use super::Refusal;
use std::fmt::{self, Display, Formatter, Write};

/// An item, or `-` where it is absent.
struct Item<T>(Option<T>);

impl<T: Display> Display for Item<T> {
    fn fmt(&self, f: &mut Formatter) -> fmt::Result {
        match &self.0 {
            Some(item) => item.fmt(f),
            None => f.write_char('-'),
        }
    }
}

impl Display for Refusal {
    fn fmt(&self, f: &mut Formatter) -> fmt::Result {
        write!(f, "bad\t{}\t{}", self.number as u8, self.place)
    }
}

impl Display for PublisherId<'_> {
    fn fmt(&self, f: &mut Formatter) -> fmt::Result {
        match self {
            Self::Byte(id) => write!(f, "u8\t{id}"),
            Self::UInt16(id) => write!(f, "u16\t{id}"),
            Self::UInt32(id) => write!(f, "u32\t{id}"),
            Self::UInt64(id) => write!(f, "u64\t{id}"),
            Self::String(id) => {
                f.write_str("str\t")?;
                id.iter().try_for_each(|byte| write!(f, "{byte:02x}"))
            }
        }
    }
}

impl Display for Kind {
    fn fmt(&self, f: &mut Formatter) -> fmt::Result {
        f.write_str(match self {
            Self::Key => "key",
            Self::Delta => "delta",
            Self::Event => "event",
            Self::KeepAlive => "alive",
        })
    }
}

impl Display for Encoding {
    fn fmt(&self, f: &mut Formatter) -> fmt::Result {
        f.write_str(match self {
            Self::Variant => "variant",
            Self::RawData => "raw",
            Self::DataValue => "value",
        })
    }
}

impl Display for Shape {
    fn fmt(&self, f: &mut Formatter) -> fmt::Result {
        match self {
            Self::Scalar => f.write_str("-"),
            Self::NullArray => f.write_str("-1"),
            Self::Array(count) => count.fmt(f),
        }
    }
}

/// Lists a configuration text and a datagram.
pub fn list_with_text(datagram: &[u8], text: &[u8]) -> String {
    match Config::parse(text) {
        Ok(config) => list(datagram, &config),
        Err(refusal) => format!("{refusal}\n"),
    }
}

/// Lists a datagram.
pub fn list(datagram: &[u8], config: &Config) -> String {
    let mut out = String::new();
    put(&mut out, datagram, config).expect("a String takes any text");
    out
}

fn put(out: &mut String, datagram: &[u8], config: &Config) -> fmt::Result {
    match network::read(datagram, config) {
        Err(refusal) => writeln!(out, "{refusal}"),
        Ok(envelope) => {
            put_net(out, datagram.len(), &envelope)?;
            envelope.messages(datagram, config).try_for_each(|place| put_set(out, datagram, config, place))
        }
    }
}

fn put_net(out: &mut String, length: usize, envelope: &Envelope) -> fmt::Result {
    match envelope.publisher {
        Some(id) => writeln!(out, "net\t{length}\t{id}\t{}", envelope.message_count),
        None => writeln!(out, "net\t{length}\t-\t-\t{}", envelope.message_count),
    }
}

fn put_set(out: &mut String, datagram: &[u8], config: &Config, place: MessagePlace) -> fmt::Result {
    let MessagePlace { number, offset, length, writer } = place;
    write!(out, "set\t{number}\t{}\t{offset}\t{length}\t", Item(writer))?;
    let bytes = &datagram[offset..offset + length];
    let types = config.types_of(writer);
    match message::read(bytes, types) {
        Err(refusal) => writeln!(out, "{refusal}"),
        Ok(None) => writeln!(out, "invalid"),
        Ok(Some(message)) => {
            let header = message.header;
            writeln!(out, "{}\t{}\t{}", header.kind, header.encoding, Item(header.sequence))?;
            message.walk(bytes, types).try_for_each(|field| put_field(out, place, field))
        }
    }
}

fn put_field(out: &mut String, place: MessagePlace, field: Field) -> fmt::Result {
    let Field { value, index, offset, length } = field;
    let offset = place.offset + offset;
    writeln!(out, "field\t{}\t{index}\t{}\t{}\t{offset}\t{length}\t{}", place.number, value.kind, value.shape, value.dimensions)
}
