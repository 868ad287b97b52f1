//! The refusals and their numbers.

use std::error::Error;
use std::fmt;

/// Why a call refused, by the numbers of rule 1.1.
///
/// The checks of a call have a fixed order, and the first that fails gives the number. After a
/// refusal the lent buffers are as they were, but that a refused
/// [`read_patchy`](crate::read_patchy) sets the whole quality buffer to 0, and that a
/// [`replay`](crate::Receiver::replay) which stops keeps what its messages did before; what was
/// charged before it stays taken. Later versions may name more numbers, so a `match` needs an arm for
/// the rest.
#[derive(Clone, Copy, Debug, PartialEq, Eq, Hash)]
#[non_exhaustive]
pub enum Refusal {
    /// 1: bytes that lie outside the file, or packets or a trace that end too early.
    Truncated,
    /// 2: malformed entries, bad packets, a handle that no inspection gives, or bytes of a trace that
    /// are no message.
    Invalid,
    /// 3: a picture outside the profile, that is, of a kind that is not read.
    Unsupported,
    /// 4: more than a limit allows, or a sum or product above 2^64-1.
    Limit,
    /// 5: the chain of directories ends before the page.
    PageNotFound,
    /// 6: a lent buffer is too short, be it output, scratch or quality.
    OutputTooSmall,
    /// 7: fewer units are left than a charge asks for.
    Budget,
    /// 8: a byte that is needed before the segments is in a block that did not come.
    NotArrived,
    /// 9: the delivery map has the wrong length.
    MapSize,
    /// 10: the file buffer or the map of a receiver is too short for the file that is to come.
    ReceiverTooSmall,
    /// 11: a block outside the file that comes, or before any start.
    NoSuchBlock,
    /// 12: a block with more or fewer bytes than it has in the file that comes.
    BlockSize,
    /// A number that this version of the crate has no name for. The archive is then another
    /// version's, and nothing that the call did can be relied on: neither what it left in buffers
    /// and budget, nor what it means.
    ///
    /// No call, nor [`Refusal::from_number`], gives one for 0 or for a number that has a name.
    Unknown(u64),
}

impl Refusal {
    /// The number at the C face.
    pub const fn number(self) -> u64 {
        match self {
            Refusal::Truncated => 1,
            Refusal::Invalid => 2,
            Refusal::Unsupported => 3,
            Refusal::Limit => 4,
            Refusal::PageNotFound => 5,
            Refusal::OutputTooSmall => 6,
            Refusal::Budget => 7,
            Refusal::NotArrived => 8,
            Refusal::MapSize => 9,
            Refusal::ReceiverTooSmall => 10,
            Refusal::NoSuchBlock => 11,
            Refusal::BlockSize => 12,
            Refusal::Unknown(number) => number,
        }
    }

    /// The refusal that has this number: none for 0, which is an answer, and
    /// [`Unknown`](Refusal::Unknown) for one that has no name here.
    pub const fn from_number(number: u64) -> Option<Refusal> {
        Some(match number {
            0 => return None,
            1 => Refusal::Truncated,
            2 => Refusal::Invalid,
            3 => Refusal::Unsupported,
            4 => Refusal::Limit,
            5 => Refusal::PageNotFound,
            6 => Refusal::OutputTooSmall,
            7 => Refusal::Budget,
            8 => Refusal::NotArrived,
            9 => Refusal::MapSize,
            10 => Refusal::ReceiverTooSmall,
            11 => Refusal::NoSuchBlock,
            12 => Refusal::BlockSize,
            other => Refusal::Unknown(other),
        })
    }

    /// What a call of the C face told by its number.
    pub(crate) fn told(number: u64) -> Result<(), Refusal> {
        Refusal::from_number(number).map_or(Ok(()), Err)
    }

    const fn meaning(self) -> &'static str {
        match self {
            Refusal::Truncated => {
                "bytes outside the file, or packets or a trace that end too early"
            }
            Refusal::Invalid => {
                "malformed entries, bad packets, a handle that no inspection gives, or no message"
            }
            Refusal::Unsupported => "a picture of another kind",
            Refusal::Limit => "more than a limit allows, or a sum or product above 2^64-1",
            Refusal::PageNotFound => "no such page",
            Refusal::OutputTooSmall => "a lent buffer is too short",
            Refusal::Budget => "fewer units are left than the charge",
            Refusal::NotArrived => {
                "a byte that is needed before the segments is in a block that did not come"
            }
            Refusal::MapSize => "the delivery map has the wrong length",
            Refusal::ReceiverTooSmall => {
                "file buffer or map is too short for the file that is to come"
            }
            Refusal::NoSuchBlock => "a block outside the file that comes, or before any start",
            Refusal::BlockSize => "a block with more or fewer bytes than it has in the file",
            Refusal::Unknown(_) => "the archive is not the one that this crate was written for",
        }
    }
}

impl fmt::Display for Refusal {
    fn fmt(&self, f: &mut fmt::Formatter<'_>) -> fmt::Result {
        write!(
            f,
            "refusal {}, {:?}: {}",
            self.number(),
            self,
            self.meaning()
        )
    }
}

impl Error for Refusal {}

#[cfg(test)]
mod tests {
    use super::*;

    #[test]
    fn one_to_twelve_have_names_and_no_two_the_same() {
        let mut names = Vec::new();
        for number in 1..=12 {
            let refusal = Refusal::from_number(number).unwrap();
            assert_eq!(refusal.number(), number);
            assert_eq!(Refusal::told(number), Err(refusal));
            assert!(!matches!(refusal, Refusal::Unknown(_)));
            assert!(!names.contains(&refusal));
            names.push(refusal);
        }
    }

    #[test]
    fn zero_is_an_answer() {
        assert_eq!(Refusal::from_number(0), None);
        assert_eq!(Refusal::told(0), Ok(()));
    }

    #[test]
    fn a_number_without_a_name_is_carried() {
        for number in [13, 14, 100, 1 << 32, u64::MAX] {
            let unknown = Refusal::Unknown(number);
            assert_eq!(Refusal::from_number(number), Some(unknown));
            assert_eq!(Refusal::told(number), Err(unknown));
            assert_eq!(unknown.number(), number);
        }
    }

    #[test]
    fn a_refusal_says_its_number_and_its_meaning() {
        assert_eq!(
            Refusal::MapSize.to_string(),
            "refusal 9, MapSize: the delivery map has the wrong length"
        );
        assert_eq!(
            Refusal::Unknown(13).to_string(),
            "refusal 13, Unknown(13): the archive is not the one that this crate was written for"
        );
    }
}
