//! `list_datagram [FILE]`: lists a datagram from the file or from standard input, under the configuration in readers.txt of the
//! working folder (empty if absent). A refused configuration, or else datagram, is the one line `bad`, number, place.
use std::error::Error;
use std::io::{self, ErrorKind, Read};
use std::{env, fs};
use uadp::{Config, MOST_LISTING};

fn main() -> Result<(), Box<dyn Error>> {
    let text = match fs::read("readers.txt") {
        Err(error) if error.kind() == ErrorKind::NotFound => Vec::new(),
        text => text?,
    };
    let config = match Config::parse(&text) {
        Ok(config) => config,
        Err(refusal) => {
            println!("bad\t{}\t{}", refusal.number(), refusal.place);
            return Ok(());
        }
    };
    let mut datagram = Vec::new();
    match env::args().nth(1) {
        Some(name) => datagram = fs::read(name)?,
        None => drop(io::stdin().read_to_end(&mut datagram)?),
    }
    print!("{}", uadp::list(&datagram, &config, &mut vec![0; MOST_LISTING])?);
    Ok(())
}
