//! The receiver, which puts a file together from the blocks that come.

use crate::face::{self, RECEIVER_WORDS};
use crate::{Refusal, BLOCK_LEN};
use std::fmt;

/// Takes the blocks of a file as they come, in any order, some twice and some never, into a file
/// buffer and a delivery map that are lent to it (group 11 of the rules).
///
/// A [`start`](Receiver::start) says how long the file is, each [`block`](Receiver::block) goes to
/// its place, and [`received`](Receiver::received) gives file and map as
/// [`read_patchy`](crate::read_patchy) takes them, at any time. The map then has 1 for the blocks
/// that were accepted since the last accepted start, and for no others. What the file buffer holds
/// in the place of the others is what it held before.
///
/// A message that is refused changes nothing. Buffers of the longest file that is to come and of one
/// byte for each of its blocks are never too short.
///
/// ```
/// use chelmesut::{Receiver, Refusal};
///
/// let (mut file, mut map) = ([0; 1024], [0; 2]);
/// let mut receiver = Receiver::new(&mut file, &mut map);
/// assert_eq!(receiver.block(0, &[7; 512]), Err(Refusal::NoSuchBlock));
/// receiver.start(600)?;
/// receiver.block(1, &[9; 88])?;
/// assert_eq!(receiver.block(2, &[9; 88]), Err(Refusal::NoSuchBlock));
/// assert_eq!(receiver.block(0, &[7; 88]), Err(Refusal::BlockSize));
/// assert_eq!(receiver.start(1025), Err(Refusal::ReceiverTooSmall));
///
/// let received = receiver.received().unwrap();
/// assert_eq!(received.map, [0, 1]);
/// assert_eq!(received.file[512..], [9; 88]);
/// # Ok::<(), Refusal>(())
/// ```
///
/// No block can come while its file is read, since `received` borrows the receiver:
///
/// ```compile_fail,E0502
/// # let (mut file, mut map) = ([0; 1024], [0; 2]);
/// # let mut receiver = chelmesut::Receiver::new(&mut file, &mut map);
/// let received = receiver.received().unwrap();
/// receiver.block(0, &[7; 512]);
/// println!("{:?}", received.map);
/// ```
pub struct Receiver<'a> {
    file: &'a mut [u8],
    map: &'a mut [u8],
    words: [u64; RECEIVER_WORDS],
}

/// What a [`Receiver`] has of its file, as [`read_patchy`](crate::read_patchy) takes it.
#[derive(Clone, Copy, Debug, PartialEq, Eq)]
pub struct Received<'a> {
    /// As many bytes as the start said. A block that did not come is whatever was there before.
    pub file: &'a [u8],
    /// A byte for each block of these, 1 for one that came.
    pub map: &'a [u8],
}

impl<'a> Receiver<'a> {
    /// A receiver before any start. Both buffers may hold anything.
    pub fn new(file: &'a mut [u8], map: &'a mut [u8]) -> Receiver<'a> {
        Receiver::resume([0; RECEIVER_WORDS], file, map)
    }

    /// A receiver that goes on where another stood when it gave its [`words`](Receiver::words), with
    /// the same file and map or with copies of them.
    ///
    /// Any words and any buffers are taken: a first word other than 1 means that there was no start
    /// yet, and if the buffers are too short for the file that comes, then there is nothing to read
    /// and every block is refused with [`ReceiverTooSmall`](Refusal::ReceiverTooSmall).
    pub fn resume(
        words: [u64; RECEIVER_WORDS],
        file: &'a mut [u8],
        map: &'a mut [u8],
    ) -> Receiver<'a> {
        Receiver { file, map, words }
    }

    /// The state as the C face has it: 1 once a start was accepted, and the length that it gave.
    pub const fn words(&self) -> [u64; RECEIVER_WORDS] {
        self.words
    }

    /// The length of the file that comes, in bytes; none before a start was accepted.
    pub const fn length(&self) -> Option<u64> {
        match self.words {
            [1, length] => Some(length),
            _ => None,
        }
    }

    /// A file of this many bytes begins to come (rules 11.2 and 11.3): the whole map becomes 0, and
    /// the bytes of the file buffer stay.
    ///
    /// It refuses with [`ReceiverTooSmall`](Refusal::ReceiverTooSmall) if the file buffer is shorter,
    /// or the map has fewer bytes than the file has blocks; the file before then goes on. A length of
    /// 0 is always accepted, and no block is in it.
    pub fn start(&mut self, length: u64) -> Result<(), Refusal> {
        Refusal::told(face::receive_start(
            self.file,
            self.map,
            &mut self.words,
            length,
        ))
    }

    /// A block comes (rules 11.3 to 11.6): its bytes go to `512 number`, and the map says that it
    /// came. One that came before is overwritten.
    ///
    /// It refuses a block before any start with [`NoSuchBlock`](Refusal::NoSuchBlock), then in this
    /// order: buffers that are too short for the whole file, which only [`Receiver::resume`] can make
    /// so, [`ReceiverTooSmall`](Refusal::ReceiverTooSmall); a number outside the file,
    /// [`NoSuchBlock`](Refusal::NoSuchBlock); more or fewer bytes than that block has,
    /// [`BlockSize`](Refusal::BlockSize). It has [`BLOCK_LEN`], or for the last block what is left.
    pub fn block(&mut self, number: u64, bytes: &[u8]) -> Result<(), Refusal> {
        Refusal::told(face::receive_block(
            self.file,
            self.map,
            &mut self.words,
            number,
            bytes,
        ))
    }

    /// The replay of a recorded trace, message by message, from the state that the receiver has
    /// (rules 11.7 and 11.8). A start is a byte 1 and a length of 8 bytes; a block is a byte 2, a
    /// number of 8 bytes, a size of 2 bytes and so many bytes; numbers are little-endian.
    ///
    /// A message that [`start`](Receiver::start) or [`block`](Receiver::block) refuses changes
    /// nothing, and the replay goes on, so their three refusals are never its result. A message that
    /// is cut stops it with [`Truncated`](Refusal::Truncated), one that begins with another byte with
    /// [`Invalid`](Refusal::Invalid); what the messages before did stays.
    pub fn replay(&mut self, trace: &[u8]) -> Result<(), Refusal> {
        Refusal::told(face::replay(trace, self.file, self.map, &mut self.words))
    }

    /// What came of the file that the last accepted start began. None before a start was accepted, and
    /// none where [`Receiver::resume`] was given buffers that are too short for that file.
    pub fn received(&self) -> Option<Received<'_>> {
        // Nothing is cut off: this crate compiles only where a usize has 64 bits.
        let length = self.length()? as usize;
        Some(Received {
            file: self.file.get(..length)?,
            map: self.map.get(..length.div_ceil(BLOCK_LEN))?,
        })
    }
}

/// The state and how long the buffers are, not the bytes in them.
impl fmt::Debug for Receiver<'_> {
    fn fmt(&self, f: &mut fmt::Formatter<'_>) -> fmt::Result {
        f.debug_struct("Receiver")
            .field("length", &self.length())
            .field("file_len", &self.file.len())
            .field("map_len", &self.map.len())
            .finish_non_exhaustive()
    }
}
