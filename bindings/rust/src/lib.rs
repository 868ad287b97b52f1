#![doc = include_str!("../README.md")]
#![deny(missing_docs)]
#![deny(unsafe_code)]
// The calls have the arguments of the C face.
#![allow(clippy::too_many_arguments)]

#[cfg(not(target_pointer_width = "64"))]
compile_error!("the proved library counts in 64-bit numbers, its lengths of buffers included");

// The example in the repository's own README is compiled and run with these tests.
#[cfg(doctest)]
#[doc = include_str!("../../../README.md")]
struct Readme;

#[allow(unsafe_code)]
mod face;
mod handle;
mod quality;
mod receiver;
mod refusal;

pub use handle::{AlphaMode, Handle};
pub use quality::{NotAQuality, Quality};
pub use receiver::{Received, Receiver};
pub use refusal::Refusal;

/// The bytes of a block, the unit in which a file arrives (rule 8.2): block `i` is the bytes from
/// `512 i` to `512 i + 511`, the last block what is left. A delivery map has
/// `file.len().div_ceil(BLOCK_LEN)` bytes.
pub const BLOCK_LEN: usize = 512;

/// What a caller allows a file to ask for (rule 1.6). Each number is the most that is allowed, so 0
/// allows nothing.
///
/// More than a limit is refused with [`Refusal::Limit`]; a picture with a side above
/// `max_dimension` is refused with [`Refusal::Unsupported`]. A caller who lends buffers of
/// `max_output`, `max_output` and `max_segments` bytes for output, scratch and quality is never
/// refused for a short one.
#[derive(Clone, Copy, Debug, PartialEq, Eq, Hash)]
pub struct Limits {
    /// Bytes of the file.
    pub max_input: u64,
    /// Bytes of the picture, six for each pixel, and bytes of scratch, ten for each pixel of a
    /// segment; of a monochrome picture two and four.
    pub max_output: u64,
    /// Pixels of the picture's width, and of its height.
    pub max_dimension: u64,
    /// Directories on the way to a page, its own included: the page's number, counted from 0, must
    /// be below it.
    pub max_directories: u64,
    /// Entries of a directory, those of unknown tags included.
    pub max_tags: u64,
    /// Segments of the picture, which are its strips or its tiles.
    pub max_segments: u64,
}

impl Limits {
    /// Limits for the camera's pictures, of either head: 640 by 480 pixels in 60 strips, one picture
    /// in a file of at most 2 MiB, with at most 32 entries in its directory.
    pub const fn camera() -> Limits {
        Limits {
            max_input: 2 * 1024 * 1024,
            max_output: 640 * 480 * 6,
            max_dimension: 640,
            max_directories: 1,
            max_tags: 32,
            max_segments: 60,
        }
    }
}

/// Units of work that a caller grants and lends to each call. A call takes its charges in place,
/// also those before a refusal; a charge that cannot be met is not taken, not even in part.
///
/// `Budget { remaining: units }` and [`Budget::new`] make one, and `remaining` may be read and set
/// at any time. It is neither `Copy` nor `Clone`: charges to a copy would leave the original as it
/// was, and grant the same units twice.
///
/// ```compile_fail,E0599
/// let budget = chelmesut::Budget::new(1000);
/// let twice = budget.clone();
/// ```
#[derive(Debug, PartialEq, Eq, Hash)]
pub struct Budget {
    /// Units not yet charged.
    pub remaining: u64,
}

impl Budget {
    /// A budget of this many units. [`work_limit`] says how many suffice.
    #[must_use]
    pub const fn new(units: u64) -> Budget {
        Budget { remaining: units }
    }
}

/// What [`read_patchy`] answers (rule 8.9). Later versions may answer more.
#[derive(Clone, Copy, Debug, PartialEq, Eq, Hash)]
#[non_exhaustive]
pub struct Sizes {
    /// Pixels of a row of the picture. The output has `width height` pixels of
    /// [`pixel_bytes`](Sizes::pixel_bytes) bytes.
    pub width: u64,
    /// Rows of the picture.
    pub height: u64,
    /// Pixels of a row of a segment, those of a tile outside the picture included.
    pub block_width: u64,
    /// Rows of a segment; the last strip may have fewer, and a tile may reach below the picture.
    pub block_height: u64,
    /// Segments of the picture, each with its quality byte. They count from the left to the right
    /// and then from the top to the bottom.
    pub segments: u64,
    /// Samples of a pixel: 3, which are L, u and v, or 1 of a monochrome picture, which is L.
    pub channels: u64,
}

impl Sizes {
    /// Bytes of a pixel in the output, two for each of its [`channels`](Sizes::channels): 6, or 2 of
    /// a monochrome picture.
    pub const fn pixel_bytes(&self) -> usize {
        pixel_bytes(self.channels)
    }
}

/// Bytes of a pixel of so many samples. Numbers that no picture has are taken too.
const fn pixel_bytes(channels: u64) -> usize {
    // Nothing is cut off: this crate compiles only where a usize has 64 bits.
    channels.saturating_mul(2) as usize
}

/// The order of a sample's bytes, which the predictors are told. The calls that read a file find
/// its byte order in the file.
#[derive(Clone, Copy, Debug, PartialEq, Eq, Hash)]
pub enum ByteOrder {
    /// The least significant byte first.
    Little,
    /// The most significant byte first.
    Big,
}

/// Strict inspection of a page of a file that came whole (rule 7.1): every check, the packets of
/// every segment included, and no pixels yet. Pages count from 0.
///
/// A success has charged the directories up to the page, 128 units and the fee of every segment
/// (rule 5.4); [`work_limit`] bounds that. A refusal has charged what came before it. It refuses
/// with the numbers 1 to 5, and with 7, [`Budget`](Refusal::Budget).
pub fn inspect(
    file: &[u8],
    page: u64,
    limits: &Limits,
    budget: &mut Budget,
) -> Result<Handle, Refusal> {
    let mut words = [0; face::HANDLE_WORDS];
    let number = face::inspect(file, page, limits, &mut budget.remaining, &mut words);
    Refusal::told(number)?;
    Ok(Handle::inspected(words))
}

/// Strict decode of the picture that [`inspect`] gave the handle for, into the first
/// [`Handle::output_len`] bytes of `output` (rules 7.4 and 7.5).
///
/// It refuses, in this order: a handle that `inspect` does not give for this file, page and limits,
/// [`Invalid`](Refusal::Invalid); output or scratch shorter than the handle says,
/// [`OutputTooSmall`](Refusal::OutputTooSmall); less than [`Handle::decode_work_limit`] units,
/// [`Budget`](Refusal::Budget). A refusal charges nothing and leaves both buffers as they were. A
/// success charges [`Handle::decode_work_limit`] and zeroes the first [`Handle::scratch_len`] bytes
/// of `scratch`; the later bytes of both buffers stay.
///
/// To check the handle the page is inspected again, which is not charged: the limits bound that
/// work, `max_directories` where a file's directories form a loop.
pub fn decode(
    file: &[u8],
    page: u64,
    limits: &Limits,
    handle: &Handle,
    budget: &mut Budget,
    output: &mut [u8],
    scratch: &mut [u8],
) -> Result<(), Refusal> {
    let left = &mut budget.remaining;
    Refusal::told(face::decode(
        file,
        page,
        limits,
        &handle.words(),
        left,
        output,
        scratch,
    ))
}

/// The patchy reading (group 8 of the rules): a page of a file of which some blocks may not have
/// come. Pages count from 0.
///
/// `map` has a byte for each block of [`BLOCK_LEN`] bytes: 1 for one that came, any other value for
/// one that did not. A map of length 0 stands for a file that came whole. Bytes that did not come
/// have no influence, whatever stands in their place. Every segment gets a byte in `quality` (see
/// [`Quality`]), and the pixels of one that is not good are zero in `output`. No pixel of a good
/// segment of a colour picture is. **Of a monochrome picture it can be**, as L = 0 is no light: there
/// the quality byte alone tells a segment that is dark from one that did not come.
///
/// A success has charged the directories up to the page, 128 units, and for each segment its fee,
/// or 1 unit if it is [`Missing`](Quality::Missing) or [`Outside`](Quality::Outside). The quality
/// bytes after the last segment are then 0 and the scratch that was needed, ten bytes for each
/// pixel of a block or four of a monochrome picture, is zeroed; the later bytes of `output` and
/// `scratch` stay.
///
/// A refusal leaves `output` and `scratch` as they were and zeroes the whole of `quality`.
pub fn read_patchy(
    file: &[u8],
    map: &[u8],
    page: u64,
    limits: &Limits,
    budget: &mut Budget,
    output: &mut [u8],
    scratch: &mut [u8],
    quality: &mut [u8],
) -> Result<Sizes, Refusal> {
    let left = &mut budget.remaining;
    let mut answer = [0; face::ANSWER_WORDS];
    Refusal::told(face::read_patchy(
        file,
        map,
        page,
        limits,
        left,
        output,
        scratch,
        quality,
        &mut answer,
    ))?;
    let [width, height, block_width, block_height, segments, channels] = answer;
    Ok(Sizes {
        width,
        height,
        block_width,
        block_height,
        segments,
        channels,
    })
}

/// A bound on the units that an inspection, or a patchy reading, of this page of any file charges
/// under these limits (rule 5.7); [`Refusal::Limit`] if it is above 2^64-1.
///
/// A decode charges [`Handle::decode_work_limit`], which is part of what its inspection charged.
pub fn work_limit(page: u64, limits: &Limits) -> Result<u64, Refusal> {
    let mut limit = 0;
    Refusal::told(face::work_limit(page, limits, &mut limit))?;
    Ok(limit)
}

/// Predictor 64 (rules 9.1 to 9.3): samples of 64 bits from `raw`, row by row, into little-endian
/// samples in `output`, `8 width height channels` bytes of each.
///
/// `width` is in pixels, of `channels` samples each; `order` is the input's. With `predict` each
/// sample is added, mod 2^64, to the one before it in its row and channel; the sum starts anew
/// where the column is a multiple of `reset_width`. Without it samples are copied.
///
/// It refuses, in this order: channels that are not 1 to 4, [`Unsupported`](Refusal::Unsupported);
/// a width, height or reset width of 0, [`Invalid`](Refusal::Invalid); more than 2^64-1 bytes,
/// [`Limit`](Refusal::Limit); `raw` too short, [`Truncated`](Refusal::Truncated); `output` too
/// short, [`OutputTooSmall`](Refusal::OutputTooSmall). A refusal leaves `output` as it was; later
/// bytes of it stay.
pub fn predictor64(
    raw: &[u8],
    width: u64,
    height: u64,
    channels: u64,
    reset_width: u64,
    order: ByteOrder,
    predict: bool,
    output: &mut [u8],
) -> Result<(), Refusal> {
    Refusal::told(face::predictor64(
        raw,
        width,
        height,
        channels,
        reset_width,
        order == ByteOrder::Little,
        predict,
        output,
    ))
}

/// Predictor 3 (rules 9.4 and 9.5), for floating-point samples: rows of `row` bytes each are summed
/// mod 256 at distance `channels`, then their planes, most significant first, are gathered into
/// samples of `sample_bytes` bytes in the byte order `order`.
///
/// It refuses, in this order: samples that have not 2, 3, 4 or 8 bytes, channels that are not 1 to
/// 64 or a row of 0 bytes, [`Unsupported`](Refusal::Unsupported); a row that is no multiple of
/// `channels` times `sample_bytes` or an input that is no multiple of the row,
/// [`Invalid`](Refusal::Invalid); `scratch` or `output` shorter than `raw`,
/// [`OutputTooSmall`](Refusal::OutputTooSmall).
///
/// A success leaves the summed bytes in `scratch`. A refusal leaves both buffers as they were;
/// later bytes of both stay.
pub fn predictor3(
    raw: &[u8],
    row: u64,
    channels: u64,
    sample_bytes: u64,
    order: ByteOrder,
    scratch: &mut [u8],
    output: &mut [u8],
) -> Result<(), Refusal> {
    Refusal::told(face::predictor3(
        raw,
        row,
        channels,
        sample_bytes,
        order == ByteOrder::Little,
        scratch,
        output,
    ))
}
