//! Each operation of the library on an input, compared with the reference: the answer and every lent byte.
mod histories;
mod probes;
mod reading;
mod salvage;
mod typed;
mod values;
mod writing;

use crate::generate::Random;
use crate::reference::Result;
use std::collections::BTreeMap;
use std::fmt::Write;
use std::hint::black_box;
use uadp::ffi::Answer;

pub use histories::{cut, every_newness, history, newness};
pub use probes::{made_up_probe_cursor, put_probe};
pub use reading::{config, datagram, every_flag, made_up_field_cursor, made_up_message_cursor, next_message_of};
pub use salvage::salvage;
pub use typed::{reassembled, typed};
pub use values::{chunks, put_matrix, put_name, put_value, value};
pub use writing::{write_datagram, write_message};

/// How often each number was answered.
type Counts = [u64; 17];

/// What was compared.
#[derive(Debug, Default)]
pub struct Tally {
    operations: BTreeMap<&'static str, Counts>,
    failures: BTreeMap<&'static str, u64>,
    differences: BTreeMap<&'static str, Vec<String>>,
}

/// How many differences of an operation are printed.
const PRINTED: usize = 3;

impl Tally {
    /// Compared cases.
    pub fn total(&self) -> u64 {
        self.operations.values().flatten().sum()
    }

    /// Cases that differ.
    pub fn failed(&self) -> u64 {
        self.failures.values().sum()
    }

    /// Counts a difference, and keeps its text if it is to be printed.
    fn fail(&mut self, operation: &'static str, text: impl FnOnce() -> String) {
        *self.failures.entry(operation).or_default() += 1;
        let differences = self.differences.entry(operation).or_default();
        if differences.len() < PRINTED {
            differences.push(text());
        }
    }

    /// Adds what was compared after this.
    pub fn add(&mut self, later: Self) {
        for (operation, counts) in later.operations {
            let sums = self.operations.entry(operation).or_default();
            sums.iter_mut().zip(counts).for_each(|(sum, count)| *sum += count);
        }
        for (operation, count) in later.failures {
            *self.failures.entry(operation).or_default() += count;
        }
        for (operation, texts) in later.differences {
            let differences = self.differences.entry(operation).or_default();
            differences.extend(texts);
            differences.truncate(PRINTED);
        }
    }

    /// The first differences of each operation.
    pub fn differences(&self) -> String {
        self.differences.values().flatten().map(String::as_str).collect()
    }

    /// How often each number was answered.
    pub fn counts(&self) -> Counts {
        let mut sums = [0; 17];
        for counts in self.operations.values() {
            sums.iter_mut().zip(counts).for_each(|(sum, count)| *sum += count);
        }
        sums
    }

    /// A line for each operation, and one for all.
    pub fn table(&self) -> String {
        let line = |name: &str, counts: &Counts| {
            let numbers: String = counts.iter().map(|count| format!("{count:>8}")).collect();
            format!("{name:<20}{:>9}{numbers}\n", counts.iter().sum::<u64>())
        };
        let heading: String = (0..17).map(|number| format!("{number:>8}")).collect();
        let mut table = format!("{:<20}{:>9}{heading}\n", "operation", "cases");
        self.operations.iter().for_each(|(name, counts)| table += &line(name, counts));
        table += &line("all", &self.counts());
        table.extend(self.failures.iter().map(|(name, count)| format!("{name}: {count} differ\n")));
        table
    }

    /// Judges one case of which only is told whether both agree.
    fn judge_equal(&mut self, operation: &'static str, number: u8, equal: bool, input: &[(&str, &[u8])]) {
        self.operations.entry(operation).or_default()[usize::from(number.min(16))] += 1;
        if !equal {
            self.fail(operation, || {
                let inputs = input.iter().map(|(name, bytes)| format!("  {name} ({} bytes): {}\n", bytes.len(), hex(bytes)));
                format!("DIFFERENCE in {operation}\n{}", inputs.collect::<String>())
            });
        }
    }

    /// Judges one case; `input` names what the difference can be replayed with.
    fn judge(&mut self, operation: &'static str, found: &Found, expected: &Found, input: &[(&str, &[u8])]) -> bool {
        let counts = self.operations.entry(operation).or_default();
        counts[usize::from(expected.answer.number().min(16))] += 1;
        if found == expected {
            return true;
        }
        self.fail(operation, || difference(operation, found, expected, input));
        false
    }
}

/// An answer and the lent areas after it.
#[derive(Clone, Debug, PartialEq, Eq)]
struct Found {
    answer: Answer,
    areas: Vec<Lent>,
}

fn difference(operation: &str, found: &Found, expected: &Found, input: &[(&str, &[u8])]) -> String {
    let mut text = format!("DIFFERENCE in {operation}\n");
    for (name, bytes) in input {
        let _ = writeln!(text, "  {name} ({} bytes): {}", bytes.len(), hex(bytes));
    }
    for (name, side) in [("library", found), ("reference", expected)] {
        let _ = writeln!(text, "  {name}: number {} value or place {}", side.answer.number(), side.answer.value());
    }
    for (k, (found, expected)) in found.areas.iter().zip(&expected.areas).enumerate().filter(|(_, (a, b))| a != b) {
        let first = found.bytes.iter().zip(&expected.bytes).position(|(a, b)| a != b).unwrap_or(0);
        let place = first as i64 - found.start as i64;
        let _ = writeln!(text, "  area {k} differs first at byte {place} (number {})", place / 8);
        let _ = writeln!(text, "    library:   {}\n    reference: {}", hex(found.middle()), hex(expected.middle()));
    }
    text
}

/// Hex digits, long runs cut.
fn hex(bytes: &[u8]) -> String {
    let shown = &bytes[..bytes.len().min(3000)];
    let mut text: String = shown.iter().map(|byte| format!("{byte:02x}")).collect();
    if shown.len() < bytes.len() {
        text += "...";
    }
    text
}

/// An area that is lent, with guard bytes at both ends.
#[derive(Clone, Debug, PartialEq, Eq)]
struct Lent {
    bytes: Vec<u8>,
    start: usize,
    length: usize,
}

impl Lent {
    fn holding(random: &mut Random, content: &[u8]) -> Self {
        let (before, after) = (random.within(1, 16), random.within(1, 16));
        let bytes = [&random.bytes(before), content, &random.bytes(after)].concat();
        Self { bytes, start: before, length: content.len() }
    }

    /// An area of so many bytes of any content.
    fn of_length(random: &mut Random, length: usize) -> Self {
        let before = random.within(1, 16);
        let fill = random.number() as u8;
        let mut bytes: Vec<u8> = (0..length + 32).map(|i| (i as u8).wrapping_mul(37) ^ fill).collect();
        bytes[0] = random.number() as u8;
        Self { bytes, start: before, length }
    }

    fn middle(&self) -> &[u8] {
        &self.bytes[self.start..][..self.length]
    }

    fn middle_mut(&mut self) -> &mut [u8] {
        &mut self.bytes[self.start..][..self.length]
    }

    /// This area with these bytes at its start.
    fn with(&self, bytes: &[u8]) -> Self {
        let mut after = self.clone();
        after.middle_mut()[..bytes.len()].copy_from_slice(bytes);
        after
    }
}

/// The answer of a result.
fn answer_of(result: Result<u64>) -> Answer {
    match result {
        Ok(value) => Answer::done(value),
        Err(refusal) => Answer::refused(refusal.number as u8, refusal.place as u64),
    }
}

/// The length of a record to be filled: mostly its layout's or more.
fn record_length(random: &mut Random, layout: usize) -> usize {
    match random.below(24) {
        0 => random.below(layout),
        1 => layout - 1,
        2..=4 => layout + random.within(1, 20),
        _ => layout,
    }
}

/// The length of a buffer: mostly enough for what is written.
fn buffer_length(random: &mut Random, needed: usize) -> usize {
    match random.below(16) {
        0 => random.within(0, needed),
        1 => needed.saturating_sub(1),
        2..=9 => needed,
        _ => needed + random.within(1, 40),
    }
}

/// Inputs that the library only reads, kept to see that they stay as they were.
struct ReadOnly(Vec<Vec<u8>>);

impl ReadOnly {
    fn keep(inputs: &[(&str, &[u8])]) -> Self {
        Self(inputs.iter().map(|(_, input)| input.to_vec()).collect())
    }

    /// Judges that they are as they were.
    fn judge(&self, tally: &mut Tally, operation: &'static str, inputs: &[(&str, &[u8])]) -> bool {
        let unchanged = self.0.iter().zip(inputs).all(|(kept, (_, input))| kept == black_box(input));
        if !unchanged {
            tally.fail(operation, || format!("DIFFERENCE: {operation} changed what it only reads\n"));
        }
        unchanged
    }
}
