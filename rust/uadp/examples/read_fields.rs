//! `read_fields FILE`: reads the datagram in a file field by field, and prints what each is and its bytes.
use std::error::Error;
use std::{env, fs};
use uadp::{Config, Datagram, Encoding, Field, Kind, Message, MessagePart, PublisherId, Shape};

fn print_bytes(bytes: &[u8]) {
    bytes.iter().for_each(|byte| print!(" {byte:02X}"));
    println!();
}

/// A field's bytes are a whole Variant or DataValue, or the bare element of RawData.
fn print_field(field: &Field) {
    let shape = match field.shape {
        Shape::Scalar => String::new(),
        Shape::NullArray => ", null array".into(),
        Shape::Array(elements) => format!(", {elements} elements"),
    };
    print!("  field {}: type {}{shape}, at {}:", field.index, field.value_type.number(), field.offset);
    print_bytes(field.bytes);
}

fn print_message(message: &Message) {
    let kind = match message.kind() {
        Kind::Key => "key frame",
        Kind::Delta => "delta frame",
        Kind::Event => "event",
        Kind::KeepAlive => "keep alive",
    };
    let encoding = match message.encoding() {
        Encoding::Variant => "Variant",
        Encoding::RawData => "RawData",
        Encoding::DataValue => "DataValue",
    };
    let sequence = message.sequence().map_or(String::new(), |sequence| format!(", sequence {sequence}"));
    println!("{kind}, {encoding}{sequence}");
    message.fields().for_each(|field| print_field(&field));
}

fn print_part(part: &MessagePart) {
    let writer = part.writer().map_or(uadp::ffi::NONE, u32::from);
    match part.read() {
        Ok(Some(message)) => {
            print!("message of writer {writer}: ");
            print_message(&message);
        }
        Ok(None) => println!("message of writer {writer}: not valid"),
        Err(refusal) => println!("message {refusal}"),
    }
}

fn main() -> Result<(), Box<dyn Error>> {
    let name = env::args().nth(1).ok_or("usage: read_fields FILE")?;
    let (bytes, config) = (fs::read(name)?, Config::new());
    let datagram = Datagram::read(&bytes, &config).inspect_err(|refusal| println!("datagram {refusal}"))?;
    match datagram.publisher() {
        Some(PublisherId::String(text)) => {
            print!("datagram of");
            print_bytes(text);
        }
        Some(publisher) => println!("datagram of {publisher}"),
        None => {}
    }
    datagram.messages().for_each(|part| print_part(&part));
    Ok(())
}
