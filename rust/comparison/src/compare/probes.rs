//! Probes read, stepped through and written.
use super::reading::{judge_filled, judge_put};
use super::{answer_of, record_length, Found, Lent, Tally};
use crate::generate::{self, EnvelopeSpec, ProbeSpec, Random};
use crate::record::{self, bytes_of};
use crate::reference::config::Config;
use crate::reference::{network, probe, Number};
use uadp::ffi::{self, Answer};

/// A datagram read as a probe; what it lists is stepped through.
pub(super) fn read(tally: &mut Tally, random: &mut Random, datagram: &[u8], config: &Config, config_record: &[u8]) {
    let input = [("datagram", datagram), ("configuration record", config_record)];
    let read = network::read_probe(datagram, config);
    let expected = read.map(|(envelope, probe)| (envelope.payload_start as u64, bytes_of(&record::probe(&probe))));
    let call = |area: &mut [u8]| ffi::probe(datagram, config_record, area);
    judge_filled(tally, random, "probe", record::PROBE_SIZE, expected, &input, call);
    let Ok((_, probe)) = read else { return };
    let mut stepped = Lent::holding(random, &bytes_of(&record::probe(&probe)));
    while step(tally, random, datagram, &mut stepped) {}
}

/// One step of the cursor in a probe record; false ends the walk.
fn step(tally: &mut Tally, random: &mut Random, datagram: &[u8], stepped: &mut Lent) -> bool {
    let layout = record::PROBE_ITEM_SIZE;
    let length = record_length(random, layout);
    let (before, stepped_before) = (Lent::of_length(random, length), stepped.clone());
    let mut after = before.clone();
    let answer = ffi::next_probe_item(datagram, stepped.middle_mut(), after.middle_mut());
    let room = length >= layout && stepped_before.length >= record::PROBE_SIZE;
    let refused = |refusal| Found { answer: answer_of(Err(refusal)), areas: vec![stepped_before.clone(), before.clone()] };
    let expected = match record::probe_item(stepped_before.middle(), datagram) {
        Err(refusal) => refused(refusal),
        Ok(_) if !room => refused(Number::NoRoom.nowhere()),
        Ok((item, next)) => {
            let mut moved = stepped_before.clone();
            moved.middle_mut()[56..64].copy_from_slice(&(item[0] + 1).to_le_bytes());
            moved.middle_mut()[64..72].copy_from_slice(&(next as u64).to_le_bytes());
            Found { answer: Answer::done(item[0]), areas: vec![moved, before.with(&bytes_of(&item))] }
        }
    };
    let input = [("datagram", datagram), ("probe record", stepped_before.middle())];
    let found = Found { answer, areas: vec![stepped.clone(), after] };
    tally.judge("next_probe_item", &found, &expected, &input) && answer.number() == 0
}

/// A made-up probe record.
pub fn made_up_probe_cursor(tally: &mut Tally, random: &mut Random) {
    let datagram = EnvelopeSpec::with_probe(random).bytes();
    let config = Config::default();
    let mut numbers: Vec<u64> = (0..record::PROBE_SIZE / 8).map(|_| random.edge()).collect();
    if let (Ok((_, probe)), true) = (network::read_probe(&datagram, &config), random.one_in(2)) {
        numbers = record::probe(&probe).to_vec();
        let i = random.pick(&[0, 1, 2, 7, 8]);
        numbers[i] = random.edge();
    } else {
        numbers[0] = random.below(8) as u64;
        numbers[1] = random.below(3) as u64 / 2;
        numbers[7] = random.below(4) as u64;
        numbers[8] = random.within(0, datagram.len() + 2) as u64;
    }
    let length = if random.one_in(10) { random.below(record::PROBE_SIZE) } else { record::PROBE_SIZE };
    let mut stepped = Lent::holding(random, &bytes_of(&numbers)[..length]);
    for _ in 0..3 {
        if !step(tally, random, &datagram, &mut stepped) {
            return;
        }
    }
}

/// A probe written from its record and list, right and wrong ones.
pub fn put_probe(tally: &mut Tally, random: &mut Random) {
    let spec = ProbeSpec::any(random);
    let mut list = spec.list.clone();
    let mut numbers: Vec<u64> = (0..record::PROBE_SIZE / 8).map(|_| random.number()).collect();
    (numbers[0], numbers[1]) = (spec.information.into(), (spec.information != 4 && spec.count.is_none()).into());
    numbers[2] = spec.count.unwrap_or(0) as u64;
    (numbers[4], numbers[5], numbers[6]) = (spec.group.into(), spec.booleans[0].into(), spec.booleans[1].into());
    match random.below(16) {
        0 => numbers[0] = random.edge(),
        1 => numbers[0] = random.below(8) as u64,
        2 => numbers[1] = random.edge(),
        3 => numbers[2] = random.pick(&[0, 1, 2, 1 << 31, (1 << 31) - 1, 1 << 32, u64::MAX]),
        4 => numbers[2] = numbers[2].wrapping_add(random.pick(&[1, u64::MAX])),
        5 => generate::damage(random, &mut list),
        6 => {
            let i = random.within(4, 6);
            numbers[i] = random.pick(&[255, 256, 65_535, 65_536, u64::MAX]);
        }
        7 if random.one_in(8) => {
            // About as long as a probe may be.
            let count = random.pick(&[32_764, 32_765, 32_766, 40_000]);
            (numbers[0], numbers[1], numbers[2], list) = (2, 0, count as u64, vec![7; 2 * count]);
        }
        _ => {}
    }
    let length = if random.one_in(20) { random.below(record::PROBE_SIZE) } else { record::PROBE_SIZE };
    let record = bytes_of(&numbers)[..length].to_vec();
    let parts = record::probe_parts(&record, &list);
    let needed = probe::write(&parts, &mut vec![0; 65_535]).unwrap_or(20);
    let input = [("probe record", &record[..]), ("list", &list)];
    let reference = |out: &mut [u8]| probe::write(&parts, out);
    judge_put(tally, random, "put_probe", needed, &input, reference, |out| ffi::put_probe(&record, &list, out));
}
