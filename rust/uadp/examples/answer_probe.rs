//! `answer_probe FILE..`: reads each file as a discovery probe, and prints what it asks for: which writers, which WriterGroup, or which
//! connections.
use std::{env, fs, io};
use uadp::{Config, Datagram, Information, Probe, Reason, Refusal};

fn ids(probe: &Probe) -> String {
    let ids: String = probe.ids().map(|id| format!(" {id}")).collect();
    let null = if probe.is_null() { " none (null)" } else { "" };
    ids + null
}

/// Each string is that part of the datagram.
fn strings(probe: &Probe) -> String {
    let string = |string: Option<&[u8]>| match string {
        Some(string) => format!(" \"{}\"", String::from_utf8_lossy(string)),
        None => " null".into(),
    };
    let strings: String = probe.strings().map(string).collect();
    let null = if probe.is_null() { " any (null)" } else { "" };
    strings + null
}

fn answer(bytes: &[u8]) -> Result<String, Refusal> {
    let config = Config::new();
    let probe = Datagram::read(bytes, &config)?.probe().ok_or(Refusal { reason: Reason::NotTaken, place: 0 })?;
    let writers = probe.include_data_set_writers().unwrap_or_default();
    Ok(match probe.information() {
        Information::MetaData => format!("metadata of writers:{}", ids(&probe)),
        Information::Writers => format!("configuration of writers:{}", ids(&probe)),
        Information::WriterGroup => {
            format!("configuration of writer group {}, writers {writers}", probe.writer_group_id().unwrap_or_default())
        }
        Information::Connections => {
            let groups = probe.include_writer_groups().unwrap_or_default();
            format!("connections of profiles:{}, writer groups {groups}, writers {writers}", strings(&probe))
        }
    })
}

fn main() -> io::Result<()> {
    for name in env::args().skip(1) {
        match answer(&fs::read(name)?) {
            Ok(asked) => println!("{asked}"),
            Err(refusal) => println!("{refusal}"),
        }
    }
    Ok(())
}
