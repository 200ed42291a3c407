//! What a receiver is told of its writers.
use crate::ffi::{self, CONFIG_SIZE};
use crate::record::config::{FIELD_COUNT, IDS, MOST_FIELDS, MOST_WRITERS, SIZES, STARTS, TYPES, WRITER_COUNT};
use crate::{Refusal, Type};
use core::fmt;
use core::str::FromStr;

/// The configured writers: which messages a datagram without a PayloadHeader holds, and which fields RawData has.
///
/// Without any the configuration is empty, and datagrams that name their writers are read all the same.
#[derive(Clone, PartialEq, Eq)]
pub struct Config {
    record: [u8; CONFIG_SIZE],
}

impl Config {
    /// The configuration without writers.
    pub const fn new() -> Self {
        Self { record: [0; CONFIG_SIZE] }
    }

    /// Reads a configuration text: lines that end with a newline, their parts parted by tabs. `writer`, id, size (`-` for none);
    /// below it `field`, type number, for each of its fields.
    ///
    /// ```
    /// use uadp::{Config, Type};
    ///
    /// let config = Config::parse(b"writer\t21\t-\nfield\t5\nfield\t10\n")?;
    /// let writer = config.writers().next().expect("one writer");
    /// assert_eq!((writer.id, writer.size), (21, None));
    /// assert!(writer.types().eq([Type::UINT16, Type::FLOAT]));
    /// # Ok::<(), uadp::Refusal>(())
    /// ```
    ///
    /// # Errors
    ///
    /// [`BadLine`](crate::Reason::BadLine) with the line, counted from 1.
    pub fn parse(text: &[u8]) -> Result<Self, Refusal> {
        let mut config = Self::new();
        ffi::config(text, &mut config.record).into_result()?;
        Ok(config)
    }

    /// The writers, in the text's order.
    pub fn writers(&self) -> impl ExactSizeIterator<Item = Writer<'_>> {
        (0..self.writer_count()).map(|k| self.writer(k))
    }

    /// The record that the C functions take.
    pub const fn as_bytes(&self) -> &[u8; CONFIG_SIZE] {
        &self.record
    }

    /// The writers' ids, 2 bytes each.
    pub(crate) fn ids(&self) -> &[u8] {
        &self.record[IDS..][..2 * self.writer_count()]
    }

    /// The writers' sizes, 2 bytes each, 0 for none.
    pub(crate) fn sizes(&self) -> &[u8] {
        &self.record[SIZES..][..2 * self.writer_count()]
    }

    fn writer_count(&self) -> usize {
        usize::from(self.record[WRITER_COUNT]).min(MOST_WRITERS)
    }

    fn types(&self) -> &[u8] {
        &self.record[TYPES..][..usize::from(self.record[FIELD_COUNT]).min(MOST_FIELDS)]
    }

    fn pair(&self, at: usize) -> u16 {
        u16::from_le_bytes([self.record[at], self.record[at + 1]])
    }

    fn writer(&self, k: usize) -> Writer<'_> {
        let start = |k: usize| usize::from(self.record[STARTS + k]);
        let end = if k + 1 < self.writer_count() { start(k + 1) } else { self.types().len() };
        let size = self.pair(SIZES + 2 * k);
        Writer {
            id: self.pair(IDS + 2 * k),
            size: (size > 0).then_some(size),
            types: self.types().get(start(k)..end).unwrap_or_default(),
        }
    }
}

impl Default for Config {
    fn default() -> Self {
        Self::new()
    }
}

impl FromStr for Config {
    type Err = Refusal;

    fn from_str(text: &str) -> Result<Self, Refusal> {
        Self::parse(text.as_bytes())
    }
}

impl fmt::Debug for Config {
    fn fmt(&self, f: &mut fmt::Formatter<'_>) -> fmt::Result {
        f.debug_list().entries(self.writers()).finish()
    }
}

/// A configured writer.
#[derive(Clone, Copy, Debug, PartialEq, Eq)]
pub struct Writer<'a> {
    /// Its DataSetWriterId.
    pub id: u16,
    /// How many bytes its message has in a datagram without a PayloadHeader; `None` for the rest of the datagram.
    pub size: Option<u16>,
    types: &'a [u8],
}

impl<'a> Writer<'a> {
    /// The types of its RawData fields.
    pub fn types(self) -> impl ExactSizeIterator<Item = Type> + 'a {
        self.types.iter().map(|number| Type::from_number(*number))
    }
}
