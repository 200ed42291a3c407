//! The lent records' layouts: which number of a record stands where. include/uadp.h has the same names.

/// Number i of a record; 0 where it does not fit.
pub fn number(record: &[u8], i: usize) -> u64 {
    record.get(8 * i..).and_then(|rest| rest.first_chunk()).map_or(0, |bytes| u64::from_le_bytes(*bytes))
}

/// Number i of a record as a place in lent bytes.
pub fn place(record: &[u8], i: usize) -> usize {
    number(record, i) as usize
}

/// Stores number i of a record, where it fits.
pub fn set(record: &mut [u8], i: usize, value: u64) {
    if let Some(bytes) = record.get_mut(8 * i..).and_then(|rest| rest.first_chunk_mut()) {
        *bytes = value.to_le_bytes();
    }
}

/// Stores an item that may be absent: whether it is there, and the item itself.
pub fn set_present(record: &mut [u8], i: usize, value: Option<u64>) {
    set(record, i, value.is_some().into());
    set(record, i + 1, value.unwrap_or(0));
}

/// Byte offsets of a configuration record.
pub mod config {
    pub const WRITER_COUNT: usize = 0;
    pub const FIELD_COUNT: usize = 1;
    pub const IDS: usize = 2;
    pub const SIZES: usize = 34;
    pub const STARTS: usize = 66;
    pub const TYPES: usize = 82;
    pub const MOST_WRITERS: usize = 16;
    pub const MOST_FIELDS: usize = 64;
}

/// Numbers of an envelope record.
pub mod envelope {
    pub const PUBLISHER_TYPE: usize = 0;
    pub const PUBLISHER: usize = 1;
    pub const PUBLISHER_END: usize = 2;
    pub const HAS_CLASS_ID: usize = 3;
    pub const CLASS_ID: usize = 4;
    pub const GROUP: usize = 6;
    pub const WRITER_GROUP_ID: usize = 7;
    pub const GROUP_VERSION: usize = 8;
    pub const MESSAGE_NUMBER: usize = 9;
    pub const SEQUENCE: usize = 10;
    pub const IS_CHUNK: usize = 11;
    pub const PAYLOAD_HEADER: usize = 12;
    pub const COUNT: usize = 13;
    pub const HAS_TIMESTAMP: usize = 15;
    pub const TIMESTAMP: usize = 16;
    pub const HAS_PICOSECONDS: usize = 17;
    pub const PICOSECONDS: usize = 18;
    pub const HAS_PROMOTED: usize = 19;
    pub const PROMOTED_SIZE: usize = 20;
    pub const PAYLOAD: usize = 21;
    pub const MESSAGE_COUNT: usize = 22;
    pub const NEXT_MESSAGE: usize = 26;

    /// Values of `PAYLOAD_HEADER`.
    pub const HEADER_IDS: u64 = 1;
    pub const HEADER_CHUNK: u64 = 2;
    pub const HEADER_PROBE: u64 = 3;
    /// Bits of `GROUP`.
    pub const HAS_WRITER_GROUP_ID: u64 = 1;
    pub const HAS_GROUP_VERSION: u64 = 2;
    pub const HAS_MESSAGE_NUMBER: u64 = 4;
    pub const HAS_SEQUENCE: u64 = 8;
    pub const GROUP_PRESENT: u64 = 16;
}

/// Numbers of a message's place record.
pub mod message_place {
    pub const NUMBER: usize = 0;
    pub const OFFSET: usize = 1;
    pub const LENGTH: usize = 2;
    pub const WRITER: usize = 3;
}

/// Numbers of a message's head record.
pub mod head {
    pub const ENCODING: usize = 1;
    pub const KIND: usize = 2;
    pub const ITEMS: usize = 3;
    pub const SEQUENCE: usize = 4;
    pub const TIMESTAMP: usize = 5;
    pub const PICOSECONDS: usize = 6;
    pub const STATUS: usize = 7;
    pub const MAJOR_VERSION: usize = 8;
    pub const MINOR_VERSION: usize = 9;
    pub const NEXT_FIELD: usize = 12;
    pub const FIELD_COUNT: usize = 13;
    pub const FIELDS_END: usize = 15;

    /// Bits of `ITEMS`.
    pub const HAS_SEQUENCE: u64 = 1;
    pub const HAS_TIMESTAMP: u64 = 2;
    pub const HAS_PICOSECONDS: u64 = 4;
    pub const HAS_STATUS: u64 = 8;
    pub const HAS_MAJOR_VERSION: u64 = 16;
    pub const HAS_MINOR_VERSION: u64 = 32;
}

/// Numbers of a field record.
pub mod field {
    pub const TYPE: usize = 0;
    pub const SHAPE: usize = 1;
    pub const ELEMENTS: usize = 2;
    pub const INDEX: usize = 3;
    pub const OFFSET: usize = 4;
    pub const LENGTH: usize = 5;
    pub const DIMENSIONS: usize = 6;
}

/// Numbers of a walk record.
pub mod walked {
    pub const WHAT: usize = 0;
    pub const MESSAGE: usize = 1;
    pub const OFFSET: usize = 6;
    pub const LENGTH: usize = 7;
    /// Of a field.
    pub const INDEX: usize = 2;
    pub const TYPE: usize = 3;
    pub const SHAPE: usize = 4;
    pub const ELEMENTS: usize = 5;
    pub const DIMENSIONS: usize = 8;
    /// Of a message; of a refused one `KIND` and `ENCODING` are the refusal's number and place, `SEQUENCE` is how many of its fields
    /// follow, and `FIELDS_ENCODING` their encoding.
    pub const WRITER: usize = 2;
    pub const KIND: usize = 3;
    pub const ENCODING: usize = 4;
    pub const SEQUENCE: usize = 5;
    pub const FIELDS_ENCODING: usize = 8;

    /// Values of `WHAT`.
    pub const FIELD: u64 = 0;
    pub const VALID: u64 = 1;
    pub const NOT_VALID: u64 = 2;
}

/// Numbers of a partial's record; the text of a String PublisherId is bytes.
pub mod partial {
    pub const STARTED: usize = 0;
    pub const PUBLISHER_TYPE: usize = 1;
    pub const PUBLISHER: usize = 2;
    pub const WRITER: usize = 3;
    pub const NUMBER: usize = 4;
    pub const TOTAL: usize = 5;
    pub const HAS_GROUP: usize = 6;
    pub const WRITER_GROUP_ID: usize = 7;
    pub const TEXT_AT: usize = 80;
}

/// Numbers of a value record.
pub mod told {
    pub const TYPE: usize = 0;
    pub const SHAPE: usize = 1;
    pub const ELEMENTS: usize = 2;
    pub const WIDTH: usize = 3;
    pub const FIRST: usize = 4;
    pub const LENGTH: usize = 5;
    pub const NULL: usize = 6;
    pub const END: usize = 7;
    pub const STATUS: usize = 10;
    pub const SOURCE_TIME: usize = 11;
    pub const SOURCE_PICOSECONDS: usize = 12;
    pub const SERVER_TIME: usize = 13;
    pub const SERVER_PICOSECONDS: usize = 14;
    pub const DIMENSIONS: usize = 15;
    pub const SIZES: usize = 16;
    pub const NAME: usize = 17;
    pub const LOCALE: usize = 18;
    pub const LOCALE_LENGTH: usize = 19;
    pub const TEXT: usize = 20;
    pub const TEXT_LENGTH: usize = 21;
}

/// Numbers of a chunk record.
pub mod chunk {
    pub const PUBLISHER_TYPE: usize = 0;
    pub const PUBLISHER: usize = 1;
    pub const PUBLISHER_END: usize = 2;
    pub const WRITER: usize = 3;
    pub const NUMBER: usize = 4;
    pub const OFFSET: usize = 5;
    pub const TOTAL: usize = 6;
    pub const DATA: usize = 7;
    pub const DATA_LENGTH: usize = 8;
    pub const HAS_GROUP: usize = 9;
    pub const WRITER_GROUP_ID: usize = 10;
}

/// Numbers of a probe record.
pub mod probe {
    pub const INFORMATION_TYPE: usize = 0;
    pub const IS_NULL: usize = 1;
    pub const COUNT: usize = 2;
    pub const WRITER_GROUP_ID: usize = 4;
    pub const INCLUDE_WRITER_GROUPS: usize = 5;
    pub const INCLUDE_DATA_SET_WRITERS: usize = 6;
    pub const NEXT: usize = 7;
}

/// Numbers of a probe item record.
pub mod probe_item {
    pub const OFFSET: usize = 1;
    pub const LENGTH: usize = 2;
    pub const VALUE: usize = 3;
}

/// Numbers of a salvage record.
pub mod salvage {
    pub const HOLES: usize = 0;
    pub const FIELDS: usize = 1;
    pub const COUNT_KNOWN: usize = 2;
    pub const PROMISED: usize = 3;
    pub const FRONT: usize = 4;
    pub const TOTAL: usize = 5;
    pub const ENCODING: usize = 6;
}
