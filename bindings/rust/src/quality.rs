//! The quality byte of a segment.

use std::error::Error;
use std::fmt;

/// What the patchy reading says of a segment, by its quality byte (rule 8.6). The pixels of a
/// segment that is not good are zero in the output. Of a monochrome picture those of a good one can
/// be zero too, so ask this byte and not the pixels (rule 6.7).
///
/// These are all, so a `match` needs no arm for others: a further code would have to be looked at
/// by everyone who shows a picture.
#[derive(Clone, Copy, Debug, PartialEq, Eq, Hash)]
pub enum Quality {
    /// 0: no segment was read, after a refusal and after the last segment.
    Unread = 0,
    /// 1: the segment came, its packets are accepted, and its pixels are in the output.
    Good = 1,
    /// 2: a byte of the segment, or of its entries, is in a block that did not come.
    Missing = 2,
    /// 3: a byte of the segment, or of its entries, is outside the file.
    Outside = 3,
    /// 4: the segment came and its packets are not accepted.
    Rejected = 4,
}

impl TryFrom<u8> for Quality {
    type Error = NotAQuality;

    fn try_from(byte: u8) -> Result<Quality, NotAQuality> {
        Ok(match byte {
            0 => Quality::Unread,
            1 => Quality::Good,
            2 => Quality::Missing,
            3 => Quality::Outside,
            4 => Quality::Rejected,
            _ => return Err(NotAQuality(byte)),
        })
    }
}

impl From<Quality> for u8 {
    fn from(quality: Quality) -> u8 {
        quality as u8
    }
}

/// A byte above 4, which the patchy reading never writes: the byte itself.
#[derive(Clone, Copy, Debug, PartialEq, Eq, Hash)]
pub struct NotAQuality(pub u8);

impl fmt::Display for NotAQuality {
    fn fmt(&self, f: &mut fmt::Formatter<'_>) -> fmt::Result {
        write!(f, "{} is no quality byte, which are 0 to 4", self.0)
    }
}

impl Error for NotAQuality {}

#[cfg(test)]
mod tests {
    use super::*;

    #[test]
    fn every_byte_is_a_quality_or_is_said_not_to_be() {
        for byte in 0..=255 {
            match Quality::try_from(byte) {
                Ok(quality) => assert_eq!(u8::from(quality), byte),
                Err(NotAQuality(other)) => assert!(other == byte && byte > 4),
            }
        }
    }
}
