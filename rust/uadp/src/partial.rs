//! Reassembly of a message that travels in chunks.
use crate::ffi::{self, CHUNK_SIZE, PARTIAL_SIZE};
use crate::record::{chunk, number, partial, place};
use crate::salvage::Entry;
use crate::{Config, MessagePart, PublisherId, Refusal, Salvage, MOST_PUBLISHER_TEXT};
use core::fmt;

/// How long the marks area beside a payload area of so many bytes has to be: one eighth, rounded up.
pub const fn marks_size(room: usize) -> usize {
    room.div_ceil(8)
}

/// A chunk read from its datagram: whose it is, and its data. A receiver with several messages under way finds the partial to take it in
/// by these.
#[derive(Clone, Copy, Debug, PartialEq, Eq)]
#[non_exhaustive]
pub struct Chunk<'a> {
    /// Who publishes the message.
    pub publisher: Option<PublisherId<'a>>,
    /// The WriterGroupId of its group header, where it has one.
    pub writer_group_id: Option<u16>,
    /// The message's DataSetWriterId.
    pub writer: u16,
    /// The message's number, by which its chunks belong together.
    pub number: u16,
    /// Where the data stands in the message.
    pub offset: usize,
    /// How long the message is.
    pub total: usize,
    /// The data.
    pub data: &'a [u8],
}

impl<'a> Chunk<'a> {
    /// Reads a chunk's datagram.
    ///
    /// # Errors
    ///
    /// What [`Partial::take_in`] refuses of a datagram and of its chunk.
    pub fn read(datagram: &'a [u8], config: &Config) -> Result<Self, Refusal> {
        let mut record = [0; CHUNK_SIZE];
        ffi::chunk(datagram, config.as_bytes(), &mut record).into_result()?;
        let (id, end) = (number(&record, chunk::PUBLISHER), place(&record, chunk::PUBLISHER_END));
        Ok(Self {
            publisher: PublisherId::of(number(&record, chunk::PUBLISHER_TYPE), id, || &datagram[end - id as usize..end]),
            writer_group_id: (number(&record, chunk::HAS_GROUP) != 0).then(|| number(&record, chunk::WRITER_GROUP_ID) as u16),
            writer: number(&record, chunk::WRITER) as u16,
            number: number(&record, chunk::NUMBER) as u16,
            offset: place(&record, chunk::OFFSET),
            total: place(&record, chunk::TOTAL),
            data: &datagram[place(&record, chunk::DATA)..][..place(&record, chunk::DATA_LENGTH)],
        })
    }
}

/// A message of which chunks have come in: a record and two areas, for its payload and for the marks of the bytes that are there,
/// a bit for each. The marks area is [`marks_size`] of the payload area's length. An area is a `Vec<u8>`, an array, or a `&mut [u8]`; what it holds
/// at first plays no part.
///
/// ```
/// use uadp::{Chunk, Chunks, Config, DatagramBuilder, Partial, PublisherId, Reason};
///
/// let config = Config::default();
/// let message = [1, 2, 0, 5, 3, 0, 10, 0, 0, 0, 63]; // a key frame of two Variants
/// let builder = DatagramBuilder::new().publisher(PublisherId::UInt16(4711));
/// let mut partial = Partial::new([0; 64], [0; 8]);
/// let mut chunks = Chunks::new(&message, 7, 4);
/// let (mut payload, mut datagram) = ([0; 32], [0; 64]);
/// while let Some(chunk) = chunks.next_into(&mut payload)? {
///     assert_eq!(partial.hand_out().unwrap_err().reason, Reason::NotComplete);
///     let datagram = builder.write_chunk(21, chunk, &mut datagram)?;
///     assert_eq!((Chunk::read(datagram, &config)?.writer, Chunk::read(datagram, &config)?.total), (21, 11));
///     partial.take_in(datagram, &config)?;
/// }
/// assert_eq!(partial.progress()?, (11, 11));
/// assert_eq!(partial.hand_out()?, message);
/// let message = partial.message(&config)?.read()?.expect("valid");
/// assert_eq!((message.part().writer(), message.fields().len()), (Some(21), 2));
/// # Ok::<(), uadp::Refusal>(())
/// ```
#[derive(Clone)]
pub struct Partial<P, M = P> {
    record: [u8; PARTIAL_SIZE],
    payload: P,
    marks: M,
}

impl<P, M> Partial<P, M> {
    /// A partial that is not started, with these areas. A message that is longer than the payload area finds no room.
    pub const fn new(payload: P, marks: M) -> Self {
        Self { record: [0; PARTIAL_SIZE], payload, marks }
    }

    /// Empties it: it is not started, whatever the areas hold.
    pub fn empty(&mut self) {
        ffi::empty(&mut self.record);
    }

    /// Whether a chunk has been taken in since it was last emptied. What follows is told of a started one only.
    pub fn is_started(&self) -> bool {
        number(&self.record, partial::STARTED) == 1
    }

    fn item(&self, i: usize) -> Option<u64> {
        self.is_started().then(|| number(&self.record, i))
    }

    /// The message's WriterGroupId, where it has one; a message without any is another one than that of group 0.
    pub fn writer_group_id(&self) -> Option<u16> {
        let present = self.item(partial::HAS_GROUP)? != 0;
        present.then(|| number(&self.record, partial::WRITER_GROUP_ID) as u16)
    }

    /// The message's DataSetWriterId.
    pub fn writer(&self) -> Option<u16> {
        self.item(partial::WRITER).map(|item| item as u16)
    }

    /// The message's number, by which its chunks belong together.
    pub fn number(&self) -> Option<u16> {
        self.item(partial::NUMBER).map(|item| item as u16)
    }

    /// How long the message is.
    pub fn total(&self) -> Option<usize> {
        self.item(partial::TOTAL).map(|item| item as usize)
    }

    /// Who publishes the message.
    pub fn publisher(&self) -> Option<PublisherId<'_>> {
        let id = self.item(partial::PUBLISHER)?;
        let text = || &self.record[partial::TEXT_AT..][..(id as usize).min(MOST_PUBLISHER_TEXT)];
        PublisherId::of(number(&self.record, partial::PUBLISHER_TYPE), id, text)
    }
}

impl<P: AsRef<[u8]>, M: AsRef<[u8]>> Partial<P, M> {
    /// Whether every byte of the message has come in.
    ///
    /// # Errors
    ///
    /// [`Unsound`](crate::Reason::Unsound) where the areas' lengths don't fit each other.
    pub fn is_complete(&self) -> Result<bool, Refusal> {
        let answer = ffi::complete(&self.record, self.payload.as_ref(), self.marks.as_ref());
        answer.into_result().map(|complete| complete != 0)
    }

    /// How many bytes of the message have come in, and how many there are in all: 0 and 0 where it is not started.
    ///
    /// # Errors
    ///
    /// [`Unsound`](crate::Reason::Unsound) as in [`is_complete`](Self::is_complete).
    pub fn progress(&self) -> Result<(usize, usize), Refusal> {
        let answer = ffi::progress(&self.record, self.payload.as_ref(), self.marks.as_ref());
        answer.into_result().map(|covered| (covered as usize, self.total().unwrap_or(0)))
    }

    /// The complete message.
    ///
    /// # Errors
    ///
    /// [`Unsound`](crate::Reason::Unsound), [`NotComplete`](crate::Reason::NotComplete).
    pub fn hand_out(&self) -> Result<&[u8], Refusal> {
        ffi::hand_out(&self.record, self.payload.as_ref(), self.marks.as_ref()).written(self.payload.as_ref())
    }

    /// The complete message, to be read as that of its writer.
    ///
    /// # Errors
    ///
    /// As [`hand_out`](Self::hand_out).
    pub fn message<'a>(&'a self, config: &'a Config) -> Result<MessagePart<'a>, Refusal> {
        Ok(MessagePart::alone(self.hand_out()?, config, self.writer()))
    }

    /// What came of a message that is not complete, and may never be: its holes, and its leading fields that are whole. The room is for
    /// an entry for each.
    ///
    /// # Errors
    ///
    /// - [`Unsound`](crate::Reason::Unsound) as in [`is_complete`](Self::is_complete).
    /// - What [`MessagePart::read`] refuses, as far as the bytes before the first hole show it; the complete message would be refused
    ///   alike.
    /// - [`NoRoom`](crate::Reason::NoRoom).
    pub fn salvage<'r>(&self, config: &Config, room: &'r mut [Entry]) -> Result<Salvage<'_, 'r>, Refusal> {
        Salvage::of([&self.record, self.payload.as_ref(), self.marks.as_ref()], config, room)
    }
}

impl<P: AsRef<[u8]> + AsMut<[u8]>, M: AsRef<[u8]> + AsMut<[u8]>> Partial<P, M> {
    /// Takes a chunk in from a datagram.
    ///
    /// # Errors
    ///
    /// - [`Unsound`](crate::Reason::Unsound) where the areas' lengths don't fit each other.
    /// - What [`Datagram::read`](crate::Datagram::read) refuses; [`NotTaken`](crate::Reason::NotTaken) at 0 for a datagram that is
    ///   no chunk.
    /// - Of the chunk itself: [`CutShort`](crate::Reason::CutShort); [`Disagree`](crate::Reason::Disagree) for a total of 0, for no
    ///   data, and for data that reaches past the total; [`BadLength`](crate::Reason::BadLength); [`LeftOver`](crate::Reason::LeftOver)
    ///   for bytes after it; [`OverLimit`](crate::Reason::OverLimit) for a total above 16,384.
    /// - [`NoRoom`](crate::Reason::NoRoom) where the message is longer than the payload area.
    /// - [`OtherMessage`](crate::Reason::OtherMessage) where publisher, writer, number or total are not those of the started one.
    /// - [`ByteDiffers`](crate::Reason::ByteDiffers) where a byte that is there would get another content.
    pub fn take_in(&mut self, datagram: &[u8], config: &Config) -> Result<(), Refusal> {
        let (payload, marks) = (self.payload.as_mut(), self.marks.as_mut());
        ffi::take_in(&mut self.record, payload, marks, datagram, config.as_bytes()).into_result().map(drop)
    }

    /// Combines another partial into this one: each byte that the other has is taken in.
    ///
    /// # Errors
    ///
    /// As [`take_in`](Self::take_in), but for what it refuses of a datagram.
    pub fn combine<Q: AsRef<[u8]>, N: AsRef<[u8]>>(&mut self, other: &Partial<Q, N>) -> Result<(), Refusal> {
        let source = [&other.record[..], other.payload.as_ref(), other.marks.as_ref()];
        ffi::combine(&mut self.record, self.payload.as_mut(), self.marks.as_mut(), source).into_result().map(drop)
    }
}

impl<P, M> fmt::Debug for Partial<P, M> {
    fn fmt(&self, f: &mut fmt::Formatter<'_>) -> fmt::Result {
        f.debug_struct("Partial")
            .field("publisher", &self.publisher())
            .field("writer", &self.writer())
            .field("number", &self.number())
            .field("total", &self.total())
            .finish_non_exhaustive()
    }
}
