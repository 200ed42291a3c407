//! The functions of `include/uadp.h` over lent bytes, each with the library's own answer.
//!
//! What the types of this crate do not reach can be done here. Every function is safe and total: any bytes in any slice have an
//! answer, a record made up by a caller too. Where [`Answer::number`] is not 0 the call is refused, and every lent byte is as it was.
//! The layouts of the records stand in the header; their sizes are the constants below.
#![allow(unsafe_code)]
use core::ptr;

/// Bytes of a configuration record.
pub const CONFIG_SIZE: usize = 146;
/// Bytes of an envelope record.
pub const ENVELOPE_SIZE: usize = 256;
/// Bytes of a message's place record.
pub const PLACE_SIZE: usize = 32;
/// Bytes of a message's head record.
pub const HEAD_SIZE: usize = 160;
/// Bytes of a field record.
pub const FIELD_SIZE: usize = 64;
/// Bytes of a walk record.
pub const WALK_SIZE: usize = 80;
/// Bytes of a value record.
pub const VALUE_SIZE: usize = 192;
/// Bytes of a chunk record.
pub const CHUNK_SIZE: usize = 128;
/// Bytes of a probe record.
pub const PROBE_SIZE: usize = 128;
/// Bytes of the record of an item that a probe lists.
pub const PROBE_ITEM_SIZE: usize = 32;
/// Bytes of a partial's record.
pub const PARTIAL_SIZE: usize = 144;
/// Bytes of a salvage record; an entry of its list has those of a field record.
pub const SALVAGE_SIZE: usize = 64;
/// Bytes of the record of the last sequence number.
pub const SEQUENCE_SIZE: usize = 16;
/// The DataSetWriterId, or sequence number, that stands for none.
pub const NONE: u32 = 65_536;

/// A result as the library gives it: the number in the low byte, 0 for done; above it the value, or the place of the refusal.
#[derive(Clone, Copy, Debug, PartialEq, Eq)]
pub struct Answer(pub u64);

impl Answer {
    /// The highest place that an answer can hold.
    pub const HIGHEST_PLACE: u64 = (1 << 56) - 1;

    /// The answer of a call that is done.
    pub const fn done(value: u64) -> Self {
        Self(value << 8)
    }

    /// The answer of a refusal.
    pub const fn refused(number: u8, place: u64) -> Self {
        let place = if place > Self::HIGHEST_PLACE { Self::HIGHEST_PLACE } else { place };
        Self(place << 8 | number as u64)
    }

    /// The number, 0 for done; [`Reason`](crate::Reason) has the others.
    pub const fn number(self) -> u8 {
        self.0 as u8
    }

    /// The function's value where it is done, else the place of the refusal.
    pub const fn value(self) -> u64 {
        self.0 >> 8
    }
}

mod raw {
    extern "C" {
        pub fn uadp_config(text: *const u8, text_length: usize, config: *mut u8, config_length: usize) -> u64;
        pub fn uadp_list(
            datagram: *const u8, datagram_length: usize, config: *const u8, config_length: usize, out: *mut u8, out_length: usize,
        ) -> u64;
        pub fn uadp_list_length(datagram: *const u8, datagram_length: usize, config: *const u8, config_length: usize) -> u64;
        pub fn uadp_walk(
            datagram: *const u8, datagram_length: usize, config: *const u8, config_length: usize, records: *mut u8,
            records_length: usize,
        ) -> u64;
        pub fn uadp_read(
            datagram: *const u8, datagram_length: usize, config: *const u8, config_length: usize, envelope: *mut u8,
            envelope_length: usize,
        ) -> u64;
        pub fn uadp_next_message(
            datagram: *const u8, datagram_length: usize, config: *const u8, config_length: usize, envelope: *mut u8,
            envelope_length: usize, place: *mut u8, place_length: usize,
        ) -> u64;
        pub fn uadp_read_message(
            message: *const u8, message_length: usize, config: *const u8, config_length: usize, writer: u32, head: *mut u8,
            head_length: usize,
        ) -> u64;
        pub fn uadp_open_message(
            message: *const u8, message_length: usize, config: *const u8, config_length: usize, writer: u32, head: *mut u8,
            head_length: usize,
        ) -> u64;
        pub fn uadp_end_message(message: *const u8, message_length: usize, head: *const u8, head_length: usize) -> u64;
        pub fn uadp_next_field(
            message: *const u8, message_length: usize, config: *const u8, config_length: usize, writer: u32, head: *mut u8,
            head_length: usize, field: *mut u8, field_length: usize,
        ) -> u64;
        pub fn uadp_field(
            message: *const u8, message_length: usize, config: *const u8, config_length: usize, writer: u32, k: u64,
            field: *mut u8, field_length: usize,
        ) -> u64;
        pub fn uadp_rewrite(
            datagram: *const u8, datagram_length: usize, config: *const u8, config_length: usize, out: *mut u8, out_length: usize,
        ) -> u64;
        pub fn uadp_write(
            envelope: *const u8, envelope_length: usize, text: *const u8, text_length: usize, ids: *const u8, ids_length: usize,
            promoted: *const u8, promoted_length: usize, lengths: *const u8, lengths_length: usize, messages: *const u8,
            messages_length: usize, config: *const u8, config_length: usize, out: *mut u8, out_length: usize,
        ) -> u64;
        pub fn uadp_rewrite_message(
            message: *const u8, message_length: usize, config: *const u8, config_length: usize, writer: u32, out: *mut u8,
            out_length: usize,
        ) -> u64;
        pub fn uadp_write_message(
            head: *const u8, head_length: usize, heartbeat: u32, values: *const u8, values_length: usize, lengths: *const usize,
            lengths_count: usize, indices: *const u16, indices_count: usize, padding: u64, config: *const u8,
            config_length: usize, writer: u32, out: *mut u8, out_length: usize,
        ) -> u64;
        pub fn uadp_empty(record: *mut u8, record_length: usize) -> u64;
        pub fn uadp_take_in(
            record: *mut u8, record_length: usize, payload: *mut u8, payload_length: usize, marks: *mut u8, marks_length: usize,
            datagram: *const u8, datagram_length: usize, config: *const u8, config_length: usize,
        ) -> u64;
        pub fn uadp_combine(
            record: *mut u8, record_length: usize, payload: *mut u8, payload_length: usize, marks: *mut u8, marks_length: usize,
            source: *const u8, source_length: usize, source_payload: *const u8, source_payload_length: usize,
            source_marks: *const u8, source_marks_length: usize,
        ) -> u64;
        pub fn uadp_complete(
            record: *const u8, record_length: usize, payload: *const u8, payload_length: usize, marks: *const u8,
            marks_length: usize,
        ) -> u64;
        pub fn uadp_progress(
            record: *const u8, record_length: usize, payload: *const u8, payload_length: usize, marks: *const u8,
            marks_length: usize,
        ) -> u64;
        pub fn uadp_hand_out(
            record: *const u8, record_length: usize, payload: *const u8, payload_length: usize, marks: *const u8,
            marks_length: usize,
        ) -> u64;
        pub fn uadp_salvage(
            record: *const u8, record_length: usize, payload: *const u8, payload_length: usize, marks: *const u8,
            marks_length: usize, config: *const u8, config_length: usize, told: *mut u8, told_length: usize, list: *mut u8,
            list_length: usize,
        ) -> u64;
        pub fn uadp_cut(
            payload: *const u8, payload_length: usize, number: u16, size: u64, k: u64, out: *mut u8, out_length: usize,
        ) -> u64;
        pub fn uadp_chunks(length: u64, size: u64) -> u64;
        pub fn uadp_chunk(
            datagram: *const u8, datagram_length: usize, config: *const u8, config_length: usize, chunk: *mut u8,
            chunk_length: usize,
        ) -> u64;
        pub fn uadp_probe(
            datagram: *const u8, datagram_length: usize, config: *const u8, config_length: usize, probe: *mut u8,
            probe_length: usize,
        ) -> u64;
        pub fn uadp_next_probe_item(
            datagram: *const u8, datagram_length: usize, probe: *mut u8, probe_length: usize, item: *mut u8, item_length: usize,
        ) -> u64;
        pub fn uadp_put_probe(
            probe: *const u8, probe_length: usize, list: *const u8, list_length: usize, out: *mut u8, out_length: usize,
        ) -> u64;
        pub fn uadp_value(
            bytes: *const u8, length: usize, offset: u64, encoding: u32, kind: u32, value: *mut u8, value_length: usize,
        ) -> u64;
        pub fn uadp_element(
            bytes: *const u8, length: usize, offset: u64, kind: u32, elements: u64, k: u64, value: *mut u8, value_length: usize,
        ) -> u64;
        pub fn uadp_put_value(
            kind: u32, shape: u32, null: u32, bytes: *const u8, length: usize, out: *mut u8, out_length: usize,
        ) -> u64;
        pub fn uadp_put_name(
            kind: u32, number: u32, locale: *const u8, locale_length: usize, text: *const u8, text_length: usize, out: *mut u8,
            out_length: usize,
        ) -> u64;
        pub fn uadp_put_matrix(
            kind: u32, sizes: *const u8, sizes_length: usize, bytes: *const u8, length: usize, out: *mut u8, out_length: usize,
        ) -> u64;
        pub fn uadp_newness(record: *mut u8, record_length: usize, received: u16) -> u64;
    }
}

/// Numbers of 2 bytes as their bytes, lowest first.
pub(crate) fn bytes_of(numbers: &[u16]) -> &[u8] {
    // SAFETY: the bytes of the borrowed numbers, all of them initialised; a byte may stand anywhere.
    unsafe { core::slice::from_raw_parts(numbers.as_ptr().cast(), 2 * numbers.len()) }
}

/// Numbers of 4 bytes likewise.
pub(crate) fn bytes_of_sizes(numbers: &[i32]) -> &[u8] {
    // SAFETY: the bytes of the borrowed numbers, all of them initialised; a byte may stand anywhere.
    unsafe { core::slice::from_raw_parts(numbers.as_ptr().cast(), 4 * numbers.len()) }
}

fn lent<T>(slice: &[T]) -> *const T {
    if slice.is_empty() {
        ptr::null()
    } else {
        slice.as_ptr()
    }
}

fn lent_mut(slice: &mut [u8]) -> *mut u8 {
    if slice.is_empty() {
        ptr::null_mut()
    } else {
        slice.as_mut_ptr()
    }
}

// SAFETY, for every call below: each pointer is that of a borrowed slice with its length, and the areas that are written are
// borrowed mutably, so that they overlap no other.

/// Reads a configuration text into a configuration record.
pub fn config(text: &[u8], config: &mut [u8]) -> Answer {
    Answer(unsafe { raw::uadp_config(lent(text), text.len(), lent_mut(config), config.len()) })
}

/// Puts the whole listing of a datagram. Value: its length.
pub fn list(datagram: &[u8], config: &[u8], out: &mut [u8]) -> Answer {
    let (length, out_length) = (datagram.len(), out.len());
    Answer(unsafe { raw::uadp_list(lent(datagram), length, lent(config), config.len(), lent_mut(out), out_length) })
}

/// How long a datagram's listing is. Value: its length.
pub fn list_length(datagram: &[u8], config: &[u8]) -> Answer {
    Answer(unsafe { raw::uadp_list_length(lent(datagram), datagram.len(), lent(config), config.len()) })
}

/// Puts a walk record for each message and field. Value: how many there are in all.
pub fn walk(datagram: &[u8], config: &[u8], records: &mut [u8]) -> Answer {
    let (length, records_length) = (datagram.len(), records.len());
    Answer(unsafe { raw::uadp_walk(lent(datagram), length, lent(config), config.len(), lent_mut(records), records_length) })
}

/// Reads a datagram's envelope into an envelope record. Value: the number of messages.
pub fn read(datagram: &[u8], config: &[u8], envelope: &mut [u8]) -> Answer {
    let (length, envelope_length) = (datagram.len(), envelope.len());
    Answer(unsafe { raw::uadp_read(lent(datagram), length, lent(config), config.len(), lent_mut(envelope), envelope_length) })
}

/// Steps an envelope record's cursor over the next message, whose place record is filled. Value: its number.
pub fn next_message(datagram: &[u8], config: &[u8], envelope: &mut [u8], place: &mut [u8]) -> Answer {
    Answer(unsafe {
        raw::uadp_next_message(
            lent(datagram),
            datagram.len(),
            lent(config),
            config.len(),
            lent_mut(envelope),
            envelope.len(),
            lent_mut(place),
            place.len(),
        )
    })
}

/// Reads a DataSetMessage alone into a head record. Value: 1, or 0 for one that is not valid.
pub fn read_message(message: &[u8], config: &[u8], writer: u32, head: &mut [u8]) -> Answer {
    let (length, head_length) = (message.len(), head.len());
    Answer(unsafe {
        raw::uadp_read_message(lent(message), length, lent(config), config.len(), writer, lent_mut(head), head_length)
    })
}

/// Opens a DataSetMessage alone: its front fills a head record, and no field is read. Value: 1, or 0 for one that is not valid.
pub fn open_message(message: &[u8], config: &[u8], writer: u32, head: &mut [u8]) -> Answer {
    let (length, head_length) = (message.len(), head.len());
    Answer(unsafe {
        raw::uadp_open_message(lent(message), length, lent(config), config.len(), writer, lent_mut(head), head_length)
    })
}

/// The end of a message that was opened, by its head record's cursor after the last field. Value: where that ends.
pub fn end_message(message: &[u8], head: &[u8]) -> Answer {
    Answer(unsafe { raw::uadp_end_message(lent(message), message.len(), lent(head), head.len()) })
}

/// Steps a head record's cursor over the next field, whose record is filled. Value: the offset of its value.
pub fn next_field(message: &[u8], config: &[u8], writer: u32, head: &mut [u8], field: &mut [u8]) -> Answer {
    Answer(unsafe {
        raw::uadp_next_field(
            lent(message),
            message.len(),
            lent(config),
            config.len(),
            writer,
            lent_mut(head),
            head.len(),
            lent_mut(field),
            field.len(),
        )
    })
}

/// Field k of a message as a field record. Value: the offset of its value.
pub fn field(message: &[u8], config: &[u8], writer: u32, k: u64, field: &mut [u8]) -> Answer {
    let (length, field_length) = (message.len(), field.len());
    Answer(unsafe {
        raw::uadp_field(lent(message), length, lent(config), config.len(), writer, k, lent_mut(field), field_length)
    })
}

/// Writes an accepted datagram again. Value: how many bytes.
pub fn rewrite(datagram: &[u8], config: &[u8], out: &mut [u8]) -> Answer {
    let (length, out_length) = (datagram.len(), out.len());
    Answer(unsafe { raw::uadp_rewrite(lent(datagram), length, lent(config), config.len(), lent_mut(out), out_length) })
}

/// What `uadp_write` reads besides the configuration.
#[derive(Clone, Copy, Debug)]
pub struct EnvelopeParts<'a> {
    /// An envelope record.
    pub envelope: &'a [u8],
    /// A String PublisherId's bytes.
    pub text: &'a [u8],
    /// DataSetWriterIds, 2 bytes each.
    pub ids: &'a [u8],
    /// The promoted fields' bytes.
    pub promoted: &'a [u8],
    /// The lengths of several messages, 2 bytes each.
    pub lengths: &'a [u8],
    /// The messages one after the other, or a chunk's payload.
    pub messages: &'a [u8],
}

/// Writes a datagram from parts. Value: how many bytes.
pub fn write(parts: &EnvelopeParts, config: &[u8], out: &mut [u8]) -> Answer {
    let EnvelopeParts { envelope, text, ids, promoted, lengths, messages } = *parts;
    Answer(unsafe {
        raw::uadp_write(
            lent(envelope),
            envelope.len(),
            lent(text),
            text.len(),
            lent(ids),
            ids.len(),
            lent(promoted),
            promoted.len(),
            lent(lengths),
            lengths.len(),
            lent(messages),
            messages.len(),
            lent(config),
            config.len(),
            lent_mut(out),
            out.len(),
        )
    })
}

/// Writes an accepted, valid DataSetMessage again. Value: how many bytes.
pub fn rewrite_message(message: &[u8], config: &[u8], writer: u32, out: &mut [u8]) -> Answer {
    let (length, out_length) = (message.len(), out.len());
    Answer(unsafe {
        raw::uadp_rewrite_message(lent(message), length, lent(config), config.len(), writer, lent_mut(out), out_length)
    })
}

/// What `uadp_write_message` reads besides the configuration.
#[derive(Clone, Copy, Debug)]
pub struct MessageParts<'a> {
    /// A head record.
    pub head: &'a [u8],
    /// 0, or else a key frame ends after its header.
    pub heartbeat: u32,
    /// The fields' values one after the other.
    pub values: &'a [u8],
    /// How long each is.
    pub lengths: &'a [usize],
    /// A delta's indices.
    pub indices: &'a [u16],
    /// How many zero bytes follow the last field.
    pub padding: u64,
}

/// Writes a DataSetMessage from parts. Value: how many bytes.
pub fn write_message(parts: &MessageParts, config: &[u8], writer: u32, out: &mut [u8]) -> Answer {
    let MessageParts { head, heartbeat, values, lengths, indices, padding } = *parts;
    Answer(unsafe {
        raw::uadp_write_message(
            lent(head),
            head.len(),
            heartbeat,
            lent(values),
            values.len(),
            lent(lengths),
            lengths.len(),
            lent(indices),
            indices.len(),
            padding,
            lent(config),
            config.len(),
            writer,
            lent_mut(out),
            out.len(),
        )
    })
}

/// Empties a partial.
pub fn empty(record: &mut [u8]) -> Answer {
    Answer(unsafe { raw::uadp_empty(lent_mut(record), record.len()) })
}

/// Takes a chunk in from a datagram.
pub fn take_in(record: &mut [u8], payload: &mut [u8], marks: &mut [u8], datagram: &[u8], config: &[u8]) -> Answer {
    Answer(unsafe {
        raw::uadp_take_in(
            lent_mut(record),
            record.len(),
            lent_mut(payload),
            payload.len(),
            lent_mut(marks),
            marks.len(),
            lent(datagram),
            datagram.len(),
            lent(config),
            config.len(),
        )
    })
}

/// Combines another partial (record, payload, marks) into this one.
pub fn combine(record: &mut [u8], payload: &mut [u8], marks: &mut [u8], source: [&[u8]; 3]) -> Answer {
    let [source_record, source_payload, source_marks] = source;
    Answer(unsafe {
        raw::uadp_combine(
            lent_mut(record),
            record.len(),
            lent_mut(payload),
            payload.len(),
            lent_mut(marks),
            marks.len(),
            lent(source_record),
            source_record.len(),
            lent(source_payload),
            source_payload.len(),
            lent(source_marks),
            source_marks.len(),
        )
    })
}

/// Value: 1 where the partial is complete, else 0.
pub fn complete(record: &[u8], payload: &[u8], marks: &[u8]) -> Answer {
    Answer(unsafe { raw::uadp_complete(lent(record), record.len(), lent(payload), payload.len(), lent(marks), marks.len()) })
}

/// Value: how many bytes of the message have come in.
pub fn progress(record: &[u8], payload: &[u8], marks: &[u8]) -> Answer {
    Answer(unsafe { raw::uadp_progress(lent(record), record.len(), lent(payload), payload.len(), lent(marks), marks.len()) })
}

/// Value: how many bytes at the payload area's start are the complete payload.
pub fn hand_out(record: &[u8], payload: &[u8], marks: &[u8]) -> Answer {
    Answer(unsafe { raw::uadp_hand_out(lent(record), record.len(), lent(payload), payload.len(), lent(marks), marks.len()) })
}

/// Salvages what came of a message: a salvage record, and a field record for each hole and then for each field that is whole. Value: how
/// many these are.
pub fn salvage(record: &[u8], payload: &[u8], marks: &[u8], config: &[u8], told: &mut [u8], list: &mut [u8]) -> Answer {
    Answer(unsafe {
        raw::uadp_salvage(
            lent(record),
            record.len(),
            lent(payload),
            payload.len(),
            lent(marks),
            marks.len(),
            lent(config),
            config.len(),
            lent_mut(told),
            told.len(),
            lent_mut(list),
            list.len(),
        )
    })
}

/// Writes chunk k of a payload. Value: how many bytes.
pub fn cut(payload: &[u8], number: u16, size: u64, k: u64, out: &mut [u8]) -> Answer {
    let (length, out_length) = (payload.len(), out.len());
    Answer(unsafe { raw::uadp_cut(lent(payload), length, number, size, k, lent_mut(out), out_length) })
}

/// Judges a received sequence number. Value: 0 newer, 1 old or same, 2 invalid.
pub fn newness(record: &mut [u8], received: u16) -> Answer {
    Answer(unsafe { raw::uadp_newness(lent_mut(record), record.len(), received) })
}

/// How many chunks with so many bytes of data a message of so many bytes has. Value: that.
pub fn chunks(length: u64, size: u64) -> Answer {
    Answer(unsafe { raw::uadp_chunks(length, size) })
}

/// Reads a chunk's datagram into a chunk record. Value: the message's number.
pub fn chunk(datagram: &[u8], config: &[u8], chunk: &mut [u8]) -> Answer {
    let (length, chunk_length) = (datagram.len(), chunk.len());
    Answer(unsafe { raw::uadp_chunk(lent(datagram), length, lent(config), config.len(), lent_mut(chunk), chunk_length) })
}

/// Reads a probe's datagram into a probe record, whose cursor stands before the first item. Value: where the probe stands.
pub fn probe(datagram: &[u8], config: &[u8], probe: &mut [u8]) -> Answer {
    let (length, probe_length) = (datagram.len(), probe.len());
    Answer(unsafe { raw::uadp_probe(lent(datagram), length, lent(config), config.len(), lent_mut(probe), probe_length) })
}

/// Steps a probe record's cursor over the next id or string, whose record is filled. Value: its number, from 0.
pub fn next_probe_item(datagram: &[u8], probe: &mut [u8], item: &mut [u8]) -> Answer {
    let (length, probe_length, item_length) = (datagram.len(), probe.len(), item.len());
    Answer(unsafe {
        raw::uadp_next_probe_item(lent(datagram), length, lent_mut(probe), probe_length, lent_mut(item), item_length)
    })
}

/// Writes a probe, without its datagram, from a probe record and its list: ids of 2 bytes, or strings each after its length. Value: how
/// many bytes.
pub fn put_probe(probe: &[u8], list: &[u8], out: &mut [u8]) -> Answer {
    let out_length = out.len();
    Answer(unsafe { raw::uadp_put_probe(lent(probe), probe.len(), lent(list), list.len(), lent_mut(out), out_length) })
}

/// Tells the value at an offset of the bytes apart into a value record: 0 a Variant, 1 RawData's element of a type, 2 a DataValue.
/// Value: where it ends.
pub fn value(bytes: &[u8], offset: u64, encoding: u32, kind: u32, value: &mut [u8]) -> Answer {
    let value_length = value.len();
    Answer(unsafe { raw::uadp_value(lent(bytes), bytes.len(), offset, encoding, kind, lent_mut(value), value_length) })
}

/// Tells element k of an array of Strings or ByteStrings apart, whose first element stands at an offset. Value: where it ends.
pub fn element(bytes: &[u8], offset: u64, kind: u32, elements: u64, k: u64, value: &mut [u8]) -> Answer {
    let value_length = value.len();
    Answer(unsafe { raw::uadp_element(lent(bytes), bytes.len(), offset, kind, elements, k, lent_mut(value), value_length) })
}

/// Puts a value as a Variant: 0 a scalar, which may be null, 1 a null array, 2 an array. Value: how many bytes.
pub fn put_value(kind: u32, shape: u32, null: u32, bytes: &[u8], out: &mut [u8]) -> Answer {
    let out_length = out.len();
    Answer(unsafe { raw::uadp_put_value(kind, shape, null, lent(bytes), bytes.len(), lent_mut(out), out_length) })
}

/// Puts a QualifiedName by its index and, as text, its name, or a LocalizedText by its mask, locale and text. Value: how many bytes.
pub fn put_name(kind: u32, number: u32, locale: &[u8], text: &[u8], out: &mut [u8]) -> Answer {
    let out_length = out.len();
    Answer(unsafe {
        raw::uadp_put_name(kind, number, lent(locale), locale.len(), lent(text), text.len(), lent_mut(out), out_length)
    })
}

/// Puts an array with dimensions, 4 bytes each, lowest first. Value: how many bytes.
pub fn put_matrix(kind: u32, sizes: &[u8], bytes: &[u8], out: &mut [u8]) -> Answer {
    let out_length = out.len();
    Answer(unsafe { raw::uadp_put_matrix(kind, lent(sizes), sizes.len(), lent(bytes), bytes.len(), lent_mut(out), out_length) })
}
