//! OPC UA UADP datagrams read, walked, listed, written and reassembled, over a library that is proved to meet its contract for any
//! bytes.
//!
//! Nothing is copied, nothing is allocated, and no call keeps a state: what a call needs is lent to it, so threads are free. A
//! refused call leaves every lent byte as it was and answers a [`Refusal`]: why, and at which byte.
//!
//! # Reading
//!
//! ```
//! use uadp::{Config, Datagram, PublisherId, Type};
//!
//! # fn main() -> Result<(), uadp::Refusal> {
//! let bytes = [
//!     0xD1, 0x01, 0x67, 0x12, 0x01, 0x15, 0x00, 0x09, 0x05, 0x00, 0x02, 0x00, 0x05, 0x03, 0x00, 0x0A, 0x00, 0x00, 0x00, 0x3F,
//! ];
//! let config = Config::default();
//! let datagram = Datagram::read(&bytes, &config)?;
//! assert_eq!(datagram.publisher(), Some(PublisherId::UInt16(4711)));
//! for part in datagram.messages() {
//!     // A fault refuses only the message that has it.
//!     let Some(message) = part.read()? else { continue };
//!     assert_eq!((part.writer(), message.sequence()), (Some(21), Some(5)));
//!     let types: Vec<Type> = message.fields().map(|field| field.value_type).collect();
//!     assert_eq!(types, [Type::UINT16, Type::FLOAT]);
//! }
//! # Ok(()) }
//! ```
//!
//! # Parts
//!
//! | To | Use |
//! |---|---|
//! | read a configuration text | [`Config::parse`] |
//! | read a datagram, its messages and their fields | [`Datagram`], [`MessagePart`], [`Message`], [`Opened`], [`Field`] |
//! | learn of all messages and fields in one call | [`walk()`] |
//! | list a datagram as text | [`list`] |
//! | tell a field's value apart | [`Field::value`], [`Value`] |
//! | reassemble chunks | [`Partial`], [`Chunk`] |
//! | save what came of a message that never completes | [`Partial::salvage`], [`Salvage`] |
//! | tell whether a message is newer than the last | [`LastSequence`] |
//! | write a message and the datagram around it | [`MessageBuilder`], [`Values`], [`DatagramBuilder`] |
//! | cut a large message into chunks | [`Chunks`] |
//! | read and write a discovery probe | [`Datagram::probe`], [`Probe`], [`ProbeBuilder`] |
//! | write an accepted datagram or message again | [`Datagram::rewrite`], [`MessagePart::rewrite`] |
//! | call the C functions themselves | [`ffi`] |
//!
//! # Limits
//!
//! x86-64 only. Datagrams of at most 65,535 bytes, chunked messages of at most 16,384, String PublisherIds of at most 64 bytes,
//! values nested to 100 levels, 16 configured writers with 64 fields in all. A call takes at most 24 KB of stack.
#![no_std]

#[cfg(not(all(target_arch = "x86_64", target_pointer_width = "64", target_endian = "little")))]
compile_error!("the proved library is built for x86-64 only");

pub mod ffi;

mod config;
mod datagram;
mod listing;
mod message;
mod partial;
mod probe;
mod record;
mod refusal;
pub mod salvage;
mod sequence;
mod told;
mod value;
pub mod walk;
mod write;

pub use config::{Config, Writer};
pub use datagram::{Datagram, Group, MessagePart, Messages, PublisherId};
pub use listing::{list, list_length};
pub use message::{Encoding, Field, Fields, Kind, Message, Opened};
pub use partial::{marks_size, Chunk, Partial};
pub use probe::{Information, Probe, ProbeBuilder, ProbeIds, ProbeStrings, Strings};
pub use refusal::{Reason, Refusal};
pub use salvage::{Hole, Salvage};
pub use sequence::{LastSequence, Newness};
pub use told::{LocalizedText, QualifiedName, Value};
pub use value::{Shape, Type, Values};
pub use walk::walk;
pub use write::{Chunks, DatagramBuilder, MessageBuilder};

/// The version of this crate and of the library that it goes with.
pub const VERSION: &str = env!("CARGO_PKG_VERSION");
/// The longest datagram.
pub const MOST_DATAGRAM: usize = 65_535;
/// The longest message that travels in chunks.
pub const MOST_PAYLOAD: usize = 16_384;
/// How many bytes a chunk's payload has before its data.
pub const CHUNK_HEADER: usize = 14;
/// The longest String PublisherId.
pub const MOST_PUBLISHER_TEXT: usize = 64;
/// The most entries of a walk over a datagram.
pub const MOST_WALK: usize = 65_532;
/// Room that every listing fits in.
pub const MOST_LISTING: usize = 2_000_000;

/// The README's example.
#[cfg(doctest)]
#[doc = include_str!("../../../README.md")]
struct Readme;
