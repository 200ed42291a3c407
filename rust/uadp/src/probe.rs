//! Publisher information probes: what a configuration tool asks a publisher for.
use crate::ffi::{self, PROBE_ITEM_SIZE, PROBE_SIZE};
use crate::record::{number, place, probe, probe_item, set};
use crate::{Reason, Refusal};
use core::fmt;
use core::iter::FusedIterator;

/// What a probe asks for, Part 14's InformationType.
#[derive(Clone, Copy, Debug, PartialEq, Eq, Hash)]
pub enum Information {
    /// The DataSetMetaData of the listed writers.
    MetaData = 2,
    /// The configuration of the listed writers.
    Writers = 3,
    /// The configuration of a WriterGroup.
    WriterGroup = 4,
    /// The configuration of the connections with one of the listed transport profiles.
    Connections = 5,
}

impl Information {
    fn of(number: u64) -> Self {
        match number {
            2 => Self::MetaData,
            3 => Self::Writers,
            4 => Self::WriterGroup,
            _ => Self::Connections,
        }
    }

    fn has_ids(self) -> bool {
        matches!(self, Self::MetaData | Self::Writers)
    }
}

/// The probe of an accepted datagram; [`Datagram::probe`](crate::Datagram::probe) reads it.
///
/// ```
/// use uadp::{Config, Datagram, Information};
///
/// let bytes = [0x91, 0x81, 0x04, 0x67, 0x12, 0x01, 0x03, 0x02, 0x00, 0x00, 0x00, 0x15, 0x00, 0x16, 0x00];
/// let config = Config::default();
/// let probe = Datagram::read(&bytes, &config)?.probe().expect("a probe");
/// assert_eq!(probe.information(), Information::Writers);
/// assert!(probe.ids().eq([21, 22]));
/// # Ok::<(), uadp::Refusal>(())
/// ```
#[derive(Clone, Copy)]
pub struct Probe<'a> {
    bytes: &'a [u8],
    record: [u8; PROBE_SIZE],
}

impl<'a> Probe<'a> {
    /// The probe of a datagram under a configuration record.
    pub(crate) fn read(bytes: &'a [u8], config: &[u8]) -> Result<Self, Refusal> {
        let mut record = [0; PROBE_SIZE];
        ffi::probe(bytes, config, &mut record).into_result()?;
        Ok(Self { bytes, record })
    }

    /// What it asks for.
    pub fn information(&self) -> Information {
        Information::of(number(&self.record, probe::INFORMATION_TYPE))
    }

    /// Whether its list is null, which lists nothing; an empty one is told apart.
    pub fn is_null(&self) -> bool {
        number(&self.record, probe::IS_NULL) != 0
    }

    /// The DataSetWriterIds that it lists; none of a probe that has no such list.
    pub fn ids(&self) -> ProbeIds<'a> {
        ProbeIds(self.items(self.information().has_ids()))
    }

    /// The strings that it lists, here the transport profiles, each as its part of the datagram; none of a probe that has no such list.
    pub fn strings(&self) -> ProbeStrings<'a> {
        ProbeStrings(self.items(self.information() == Information::Connections))
    }

    fn items(&self, listed: bool) -> Items<'a> {
        let mut record = self.record;
        if !listed {
            set(&mut record, probe::COUNT, 0);
        }
        Items { bytes: self.bytes, record }
    }

    /// The WriterGroupId that it asks for, of a WriterGroup.
    pub fn writer_group_id(&self) -> Option<u16> {
        let id = number(&self.record, probe::WRITER_GROUP_ID) as u16;
        (self.information() == Information::WriterGroup).then_some(id)
    }

    /// The byte that says whether the WriterGroups are to be told, of connections: any byte, by the standard 0 or 1.
    pub fn include_writer_groups(&self) -> Option<u8> {
        let byte = number(&self.record, probe::INCLUDE_WRITER_GROUPS) as u8;
        (self.information() == Information::Connections).then_some(byte)
    }

    /// The byte that says whether the DataSetWriters are to be told, of a WriterGroup and of connections: any byte, by the standard
    /// 0 or 1.
    pub fn include_data_set_writers(&self) -> Option<u8> {
        let byte = number(&self.record, probe::INCLUDE_DATA_SET_WRITERS) as u8;
        (!self.information().has_ids()).then_some(byte)
    }
}

impl fmt::Debug for Probe<'_> {
    fn fmt(&self, f: &mut fmt::Formatter<'_>) -> fmt::Result {
        f.debug_struct("Probe")
            .field("information", &self.information())
            .field("is_null", &self.is_null())
            .field("listed", &number(&self.record, probe::COUNT))
            .finish_non_exhaustive()
    }
}

/// The list of a probe.
#[derive(Clone)]
struct Items<'a> {
    bytes: &'a [u8],
    record: [u8; PROBE_SIZE],
}

impl Items<'_> {
    /// The next item's record. The list of an accepted probe lies in its datagram, so a step is refused after the last only.
    fn step(&mut self) -> Option<[u8; PROBE_ITEM_SIZE]> {
        let mut item = [0; PROBE_ITEM_SIZE];
        ffi::next_probe_item(self.bytes, &mut self.record, &mut item).into_result().ok()?;
        Some(item)
    }

    fn left(&self) -> usize {
        place(&self.record, probe::COUNT) - place(&self.record, probe::NEXT)
    }
}

/// The DataSetWriterIds that a probe lists.
#[derive(Clone)]
pub struct ProbeIds<'a>(Items<'a>);

impl Iterator for ProbeIds<'_> {
    type Item = u16;

    fn next(&mut self) -> Option<u16> {
        self.0.step().map(|item| number(&item, probe_item::VALUE) as u16)
    }

    fn size_hint(&self) -> (usize, Option<usize>) {
        (self.0.left(), Some(self.0.left()))
    }
}

impl ExactSizeIterator for ProbeIds<'_> {}
impl FusedIterator for ProbeIds<'_> {}

impl fmt::Debug for ProbeIds<'_> {
    fn fmt(&self, f: &mut fmt::Formatter<'_>) -> fmt::Result {
        f.debug_struct("ProbeIds").field("left", &self.len()).finish_non_exhaustive()
    }
}

/// The strings that a probe lists, each as its part of the datagram, which need not be UTF-8; `None` for a null one.
#[derive(Clone)]
pub struct ProbeStrings<'a>(Items<'a>);

impl<'a> Iterator for ProbeStrings<'a> {
    type Item = Option<&'a [u8]>;

    fn next(&mut self) -> Option<Option<&'a [u8]>> {
        let item = self.0.step()?;
        let bytes = &self.0.bytes[place(&item, probe_item::OFFSET)..][..place(&item, probe_item::LENGTH)];
        Some((number(&item, probe_item::VALUE) == 0).then_some(bytes))
    }

    fn size_hint(&self) -> (usize, Option<usize>) {
        (self.0.left(), Some(self.0.left()))
    }
}

impl ExactSizeIterator for ProbeStrings<'_> {}
impl FusedIterator for ProbeStrings<'_> {}

impl fmt::Debug for ProbeStrings<'_> {
    fn fmt(&self, f: &mut fmt::Formatter<'_>) -> fmt::Result {
        f.debug_struct("ProbeStrings").field("left", &self.len()).finish_non_exhaustive()
    }
}

/// Strings one after the other in a lent area, as a probe is written from them.
#[derive(Debug)]
pub struct Strings<'b> {
    bytes: &'b mut [u8],
    used: usize,
    count: usize,
}

impl<'b> Strings<'b> {
    /// None yet, with room in this area: each takes 4 bytes more than its own.
    pub fn new(bytes: &'b mut [u8]) -> Self {
        Self { bytes, used: 0, count: 0 }
    }

    /// Adds a string, or a null one.
    ///
    /// # Errors
    ///
    /// [`NoRoom`](Reason::NoRoom).
    pub fn push(&mut self, string: Option<&[u8]>) -> Result<(), Refusal> {
        let no_room = Refusal { reason: Reason::NoRoom, place: 0 };
        let length = string.map_or(Ok(-1), |string| i32::try_from(string.len())).map_err(|_| no_room)?;
        let string = string.unwrap_or_default();
        let room = self.bytes.get_mut(self.used..).and_then(|rest| rest.get_mut(..4 + string.len())).ok_or(no_room)?;
        room[..4].copy_from_slice(&length.to_le_bytes());
        room[4..].copy_from_slice(string);
        self.used += 4 + string.len();
        self.count += 1;
        Ok(())
    }

    /// The strings as they are encoded.
    pub fn bytes(&self) -> &[u8] {
        &self.bytes[..self.used]
    }

    /// How many there are.
    pub const fn count(&self) -> usize {
        self.count
    }
}

/// A probe to be written; [`DatagramBuilder::write_probe`](crate::DatagramBuilder::write_probe) puts the datagram around it.
///
/// ```
/// use uadp::{DatagramBuilder, ProbeBuilder, PublisherId};
///
/// let (mut body, mut out) = ([0; 64], [0; 64]);
/// let body = ProbeBuilder::writers(&[21, 22]).write(&mut body)?;
/// let datagram = DatagramBuilder::new().publisher(PublisherId::UInt16(4711)).write_probe(body, &mut out)?;
/// assert_eq!(datagram, [0x91, 0x81, 0x04, 0x67, 0x12, 0x01, 0x03, 0x02, 0x00, 0x00, 0x00, 0x15, 0x00, 0x16, 0x00]);
/// # Ok::<(), uadp::Refusal>(())
/// ```
#[derive(Clone, Copy, Debug)]
#[must_use = "nothing is written before `write`"]
pub struct ProbeBuilder<'a> {
    information: Information,
    null: bool,
    count: usize,
    list: &'a [u8],
    writer_group_id: u16,
    include_writer_groups: u8,
    include_data_set_writers: u8,
}

impl<'a> ProbeBuilder<'a> {
    const fn of(information: Information) -> Self {
        Self {
            information,
            null: true,
            count: 0,
            list: &[],
            writer_group_id: 0,
            include_writer_groups: 0,
            include_data_set_writers: 0,
        }
    }

    fn listing(mut self, count: usize, list: &'a [u8]) -> Self {
        (self.null, self.count, self.list) = (false, count, list);
        self
    }

    /// For the DataSetMetaData of these writers.
    pub fn meta_data(ids: &'a [u16]) -> Self {
        Self::of(Information::MetaData).listing(ids.len(), ffi::bytes_of(ids))
    }

    /// For the DataSetMetaData, with a null list.
    pub const fn meta_data_of_null() -> Self {
        Self::of(Information::MetaData)
    }

    /// For the configuration of these writers.
    pub fn writers(ids: &'a [u16]) -> Self {
        Self::of(Information::Writers).listing(ids.len(), ffi::bytes_of(ids))
    }

    /// For the configuration of writers, with a null list.
    pub const fn writers_of_null() -> Self {
        Self::of(Information::Writers)
    }

    /// For the configuration of a WriterGroup.
    pub const fn writer_group(id: u16) -> Self {
        let mut probe = Self::of(Information::WriterGroup);
        (probe.null, probe.writer_group_id) = (false, id);
        probe
    }

    /// For the configuration of the connections of all transport profiles: a null list.
    pub const fn connections() -> Self {
        Self::of(Information::Connections)
    }

    /// For the configuration of the connections with one of these transport profiles.
    pub fn connections_of(profiles: &'a Strings<'_>) -> Self {
        Self::of(Information::Connections).listing(profiles.count(), profiles.bytes())
    }

    /// With the byte that says whether the WriterGroups of connections are to be told; by the standard 0 or 1.
    pub const fn include_writer_groups(mut self, byte: u8) -> Self {
        self.include_writer_groups = byte;
        self
    }

    /// With the byte that says whether the DataSetWriters of connections or of a WriterGroup are to be told; by the standard 0 or 1.
    pub const fn include_data_set_writers(mut self, byte: u8) -> Self {
        self.include_data_set_writers = byte;
        self
    }

    /// Writes the probe, without its datagram, at the buffer's start.
    ///
    /// # Errors
    ///
    /// [`OverLimit`](Reason::OverLimit) above 65,535 bytes, [`NoRoom`](Reason::NoRoom).
    pub fn write<'b>(&self, out: &'b mut [u8]) -> Result<&'b [u8], Refusal> {
        let mut record = [0; PROBE_SIZE];
        set(&mut record, probe::INFORMATION_TYPE, self.information as u64);
        set(&mut record, probe::IS_NULL, self.null.into());
        set(&mut record, probe::COUNT, self.count as u64);
        set(&mut record, probe::WRITER_GROUP_ID, self.writer_group_id.into());
        set(&mut record, probe::INCLUDE_WRITER_GROUPS, self.include_writer_groups.into());
        set(&mut record, probe::INCLUDE_DATA_SET_WRITERS, self.include_data_set_writers.into());
        ffi::put_probe(&record, self.list, out).written(out)
    }
}
