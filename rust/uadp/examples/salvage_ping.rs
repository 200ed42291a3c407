//! `salvage_ping FILE..`: takes the chunks of a ping in, each the datagram in a file, and saves what came: which bytes are missing, and the
//! settings before them that are whole.
use std::{env, fs, io};
use uadp::{marks_size, Config, Field, Partial, Refusal, Shape, MOST_PAYLOAD};

fn print_field(field: &Field) {
    let elements = match field.shape {
        Shape::Array(elements) => format!(", {elements} elements"),
        _ => String::new(),
    };
    let (index, number, length) = (field.index, field.value_type.number(), field.bytes.len());
    println!("field {index}: type {number}{elements}, at {} of {length} bytes", field.offset);
}

fn print_salvage(partial: &Partial<Vec<u8>>, config: &Config) -> Result<(), Refusal> {
    let mut room = vec![[0; 64]; MOST_PAYLOAD];
    let salvage = partial.salvage(config, &mut room)?;
    println!("{} of {} bytes", partial.progress()?.0, salvage.total());
    salvage.holes().for_each(|hole| println!("hole at {} of {} bytes", hole.offset, hole.length));
    match salvage.promised() {
        Some(promised) => println!("{} of {promised} fields", salvage.fields().len()),
        None => println!("the count of fields is missing"),
    }
    salvage.fields().for_each(|field| print_field(&field));
    Ok(())
}

fn main() -> io::Result<()> {
    let config = Config::new();
    let mut partial = Partial::new(vec![0; MOST_PAYLOAD], vec![0; marks_size(MOST_PAYLOAD)]);
    for name in env::args().skip(1) {
        if partial.take_in(&fs::read(name)?, &config).is_err() {
            println!("a chunk is left out");
        }
    }
    if let Err(refusal) = print_salvage(&partial, &config) {
        println!("{refusal}");
    }
    Ok(())
}
