//! The handle of a picture that inspection accepted.

use crate::face::HANDLE_WORDS;
use crate::{pixel_bytes, Limits, Refusal};

/// What inspection found of a picture: the 17 numbers of rule 7.2, as the C face has them.
///
/// [`inspect`](crate::inspect) gives a handle, with sizes that the limits of that call allow. Its
/// words may be stored or sent, and [`Handle::from_words`] makes a handle of them again: it takes
/// limits and refuses sizes above them. There is no other way to make one. So whoever wrote the
/// words, [`output_len`](Handle::output_len) and [`scratch_len`](Handle::scratch_len) are at most
/// the `max_output` with which the handle was made, and buffers of that many bytes are no more than
/// the caller allowed.
///
/// That bounds sizes and nothing else: words that were made up may pass it, and fit no file.
/// [`decode`](crate::decode) compares every word with an inspection that it makes anew, and refuses
/// a handle that `inspect` does not give for the same file, page and limits with
/// [`Refusal::Invalid`], before it looks at buffers or budget.
#[derive(Clone, Copy, Debug, PartialEq, Eq, Hash)]
pub struct Handle {
    words: [u64; HANDLE_WORDS],
}

/// Which kind of alpha channel a picture has. Later versions may name more kinds.
#[derive(Clone, Copy, Debug, PartialEq, Eq, Hash)]
#[non_exhaustive]
pub enum AlphaMode {
    /// Word 0: no alpha channel, which is all that inspection accepts.
    None,
    /// Another word, which no inspection gives. Decode refuses its handle.
    Unknown(u64),
}

impl Handle {
    /// A handle from stored words, held to limits.
    ///
    /// It refuses with [`Refusal::Limit`] a width or height above `max_dimension`, a number of
    /// directory entries above `max_tags` or of segments above `max_segments`, and output, scratch
    /// or a side of a block above `max_output`: no inspection under these limits gives such words.
    /// The page and the units that decode charges are no sizes, and are held to nothing here.
    pub fn from_words(words: [u64; HANDLE_WORDS], limits: &Limits) -> Result<Handle, Refusal> {
        let handle = Handle { words };
        let sizes = [
            (handle.width(), limits.max_dimension),
            (handle.height(), limits.max_dimension),
            (handle.directory_entry_count(), limits.max_tags),
            (handle.output_len() as u64, limits.max_output),
            (handle.scratch_len() as u64, limits.max_output),
            // Scratch has at least four bytes for each pixel of a block, so a side is below its length.
            (handle.block_width(), limits.max_output),
            (handle.block_height(), limits.max_output),
            (handle.segments(), limits.max_segments),
        ];
        if sizes.iter().any(|(size, most)| size > most) {
            return Err(Refusal::Limit);
        }
        Ok(handle)
    }

    /// The handle of an inspection, whose sizes the library has held to the limits.
    pub(crate) const fn inspected(words: [u64; HANDLE_WORDS]) -> Handle {
        Handle { words }
    }

    /// The words in the order of the C face, to be stored or sent.
    pub const fn words(&self) -> [u64; HANDLE_WORDS] {
        self.words
    }

    /// Pixels of a row of the picture.
    pub const fn width(&self) -> u64 {
        self.words[0]
    }

    /// Rows of the picture.
    pub const fn height(&self) -> u64 {
        self.words[1]
    }

    /// Samples of a pixel: 3, which are L, u and v, or 1 of a monochrome picture, which is L.
    pub const fn channels(&self) -> u64 {
        self.words[2]
    }

    /// Bytes of a pixel in the output, two for each of its [`channels`](Handle::channels): 6, or 2 of
    /// a monochrome picture.
    pub const fn pixel_bytes(&self) -> usize {
        pixel_bytes(self.channels())
    }

    /// Bits of a sample as the file declares them: 16.
    pub const fn bits_per_sample(&self) -> u64 {
        self.words[3]
    }

    /// Bits of a sample in the output: 16.
    pub const fn output_bits_per_sample(&self) -> u64 {
        self.words[4]
    }

    /// TIFF's planar configuration: 1, pixel by pixel.
    pub const fn planar_configuration(&self) -> u64 {
        self.words[5]
    }

    /// TIFF's number of the compression: 34676, SGILog.
    pub const fn compression(&self) -> u64 {
        self.words[6]
    }

    /// The page that was inspected, counted from 0.
    pub const fn page_index(&self) -> u64 {
        self.words[7]
    }

    /// Entries of the page's own directory, those of unknown tags included.
    pub const fn directory_entry_count(&self) -> u64 {
        self.words[8]
    }

    /// Whether there is an alpha channel, which inspection never accepts.
    pub const fn has_alpha(&self) -> bool {
        self.words[9] != 0
    }

    /// Which kind of alpha channel there is.
    pub const fn alpha_mode(&self) -> AlphaMode {
        match self.words[10] {
            0 => AlphaMode::None,
            other => AlphaMode::Unknown(other),
        }
    }

    /// Bytes of the decoded picture, six for each pixel or two of a monochrome picture. At most the
    /// `max_output` with which the handle was made.
    pub const fn output_len(&self) -> usize {
        // Nothing is cut off: this crate compiles only where a usize has 64 bits.
        self.words[11] as usize
    }

    /// Bytes of scratch that decode needs, ten for each pixel of a block or four of a monochrome
    /// picture. At most the `max_output` with which the handle was made.
    pub const fn scratch_len(&self) -> usize {
        self.words[12] as usize
    }

    /// Units that decode charges: the sum of the segments' fees (rule 5.3).
    pub const fn decode_work_limit(&self) -> u64 {
        self.words[13]
    }

    /// Pixels of a row of a segment, those of a tile outside the picture included.
    pub const fn block_width(&self) -> u64 {
        self.words[14]
    }

    /// Rows of a segment; the last strip may have fewer, and a tile may reach below the picture.
    pub const fn block_height(&self) -> u64 {
        self.words[15]
    }

    /// Segments of the picture, which are its strips or its tiles.
    pub const fn segments(&self) -> u64 {
        self.words[16]
    }
}

#[cfg(test)]
mod tests {
    use super::*;

    /// Limits that allow this much of everything.
    const fn all(most: u64) -> Limits {
        Limits {
            max_input: most,
            max_output: most,
            max_dimension: most,
            max_directories: most,
            max_tags: most,
            max_segments: most,
        }
    }

    #[test]
    fn each_getter_reads_its_own_word() {
        let words = std::array::from_fn(|place| 100 + place as u64);
        let h = Handle::inspected(words);
        assert_eq!(h.words(), words);
        assert!(h.has_alpha());
        assert_eq!(h.alpha_mode(), AlphaMode::Unknown(110));
        let read = [
            h.width(),
            h.height(),
            h.channels(),
            h.bits_per_sample(),
            h.output_bits_per_sample(),
            h.planar_configuration(),
            h.compression(),
            h.page_index(),
            h.directory_entry_count(),
            words[9],
            words[10],
            h.output_len() as u64,
            h.scratch_len() as u64,
            h.decode_work_limit(),
            h.block_width(),
            h.block_height(),
            h.segments(),
        ];
        assert_eq!(read, words);
        assert_eq!(h.pixel_bytes(), 204);
        let mut alpha = [0; HANDLE_WORDS];
        assert!(!Handle::inspected(alpha).has_alpha());
        assert_eq!(Handle::inspected(alpha).alpha_mode(), AlphaMode::None);
        alpha[9] = 1;
        assert!(Handle::inspected(alpha).has_alpha());
    }

    #[test]
    fn stored_words_are_held_to_the_limits_that_name_their_sizes() {
        // Four different limits on sizes, so that no two can stand for one another.
        let limits = Limits {
            max_output: 1000,
            max_dimension: 20,
            max_tags: 30,
            max_segments: 40,
            ..all(0)
        };
        let bounds = [
            (0, 20),
            (1, 20),
            (8, 30),
            (11, 1000),
            (12, 1000),
            (14, 1000),
            (15, 1000),
            (16, 40),
        ];
        let mut words = [u64::MAX; HANDLE_WORDS];
        for (place, most) in bounds {
            words[place] = most;
        }
        let stored = Handle::from_words(words, &limits).unwrap();
        assert_eq!(stored.words(), words);
        for (place, most) in bounds {
            for over in [most + 1, 1 << 32, 1 << 63, u64::MAX] {
                let mut forged = words;
                forged[place] = over;
                let refused = Handle::from_words(forged, &limits);
                assert_eq!(refused, Err(Refusal::Limit), "word {place} is {over}");
            }
        }
    }

    #[test]
    fn the_widest_limits_take_every_word_whole() {
        let words = [u64::MAX; HANDLE_WORDS];
        let stored = Handle::from_words(words, &all(u64::MAX)).unwrap();
        assert_eq!(stored.pixel_bytes() as u64, u64::MAX);
        assert_eq!(stored.output_len() as u64, u64::MAX);
        assert_eq!(stored.scratch_len() as u64, u64::MAX);
    }
}
