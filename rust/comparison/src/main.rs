//! `uadp-comparison [COUNT] [SEED]`: compares the library with the reference on at least COUNT generated cases.
//! Its last line is `N passed, M failed`.
use std::process::ExitCode;
use std::sync::atomic::{AtomicUsize, Ordering};
use std::sync::OnceLock;
use std::thread;
use uadp_comparison::compare::{self, Tally};
use uadp_comparison::generate::Random;

const COUNT: u64 = 4_000_000;
const SEED: u64 = 1;
/// Each number has to be answered so often.
const OFTEN: u64 = 100;
/// The cases are drawn in so many shares, one for each byte, each by a generator of its own.
const SHARES: usize = 256;

type Compare = fn(&mut Tally, &mut Random);

/// The kinds of case, and how often each is drawn.
const KINDS: [(Compare, usize); 18] = [
    (compare::config, 12),
    (compare::datagram, 40),
    (compare::made_up_field_cursor, 5),
    (compare::made_up_message_cursor, 3),
    (compare::made_up_probe_cursor, 3),
    (compare::put_probe, 5),
    (compare::write_datagram, 14),
    (compare::write_message, 14),
    (compare::history, 8),
    (compare::salvage, 2),
    (compare::cut, 2),
    (compare::typed, 10),
    (compare::value, 16),
    (compare::put_value, 6),
    (compare::put_name, 6),
    (compare::put_matrix, 6),
    (compare::chunks, 1),
    (compare::reassembled, 1),
];

fn draw(tally: &mut Tally, random: &mut Random) {
    let mut left = random.below(KINDS.iter().map(|(_, weight)| weight).sum::<usize>() + 2);
    for (compare, weight) in KINDS {
        if left < weight {
            return compare(tally, random);
        }
        left -= weight;
    }
    compare::newness(tally, random);
}

/// What is exhausted for a byte, and drawn cases up to the share's count.
fn share(byte: u8, mut random: Random, count: u64) -> Tally {
    let mut tally = Tally::default();
    compare::every_flag(&mut tally, &mut random, byte);
    compare::every_newness(&mut tally, &mut random, byte);
    while tally.total() < count {
        draw(&mut tally, &mut random);
    }
    tally
}

/// All shares, added in their order: whichever thread takes one, the sum is the same.
fn compare_all(count: u64, seed: u64) -> Tally {
    let mut seeds = Random::new(seed);
    let starts: Vec<u64> = (0..SHARES).map(|_| seeds.number()).collect();
    let shares: Vec<OnceLock<Tally>> = (0..SHARES).map(|_| OnceLock::new()).collect();
    let next = AtomicUsize::new(0);
    let work = || loop {
        let k = next.fetch_add(1, Ordering::Relaxed);
        let (Some(cell), Some(start)) = (shares.get(k), starts.get(k)) else { return };
        let _ = cell.set(share(k as u8, Random::new(*start), count.div_ceil(SHARES as u64)));
    };
    thread::scope(|scope| {
        for _ in 0..thread::available_parallelism().map_or(1, usize::from) {
            scope.spawn(work);
        }
    });
    let mut tally = Tally::default();
    shares.into_iter().filter_map(OnceLock::into_inner).for_each(|share| tally.add(share));
    tally
}

fn main() -> ExitCode {
    let mut arguments = std::env::args().skip(1).map(|argument| argument.parse::<u64>());
    let (Ok(count), Ok(seed)) = (arguments.next().unwrap_or(Ok(COUNT)), arguments.next().unwrap_or(Ok(SEED))) else {
        eprintln!("usage: uadp-comparison [COUNT] [SEED]");
        return ExitCode::from(2);
    };
    let tally = compare_all(count, seed);
    println!("{}seed {seed}\n{}", tally.differences(), tally.table());
    let mut failed = tally.failed();
    for (number, times) in tally.counts().iter().enumerate().filter(|(_, times)| **times < OFTEN) {
        println!("number {number} was reached {times} times only");
        failed += 1;
    }
    println!("{} passed, {failed} failed", tally.total() - tally.failed());
    ExitCode::from(u8::from(failed > 0))
}
