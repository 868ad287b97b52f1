//! The receiver: starts, blocks, the replay of a trace, and what is left in buffers and state.

use crate::files::STALE;
use chelmesut::{Received, Receiver, Refusal, BLOCK_LEN};

/// A file of two blocks, the second of which has nine bytes.
const LENGTH: u64 = BLOCK_LEN as u64 + 9;
const LAST: usize = 9;

/// Bytes of the lent buffers after those that the file needs.
const AFTER: usize = 3;

const TOO_SMALL: Result<(), Refusal> = Err(Refusal::ReceiverTooSmall);
const NO_SUCH_BLOCK: Result<(), Refusal> = Err(Refusal::NoSuchBlock);
const BLOCK_SIZE: Result<(), Refusal> = Err(Refusal::BlockSize);

/// A receiver's buffers and words, to be lent and looked at again and again.
#[derive(Clone, Debug, PartialEq)]
struct Lent {
    file: Vec<u8>,
    map: Vec<u8>,
    words: [u64; 2],
}

impl Lent {
    fn of(file_len: usize, map_len: usize) -> Lent {
        Lent {
            file: vec![STALE; file_len],
            map: vec![STALE; map_len],
            words: [0, 0],
        }
    }

    /// Enough for the file of two blocks.
    fn enough() -> Lent {
        Lent::of(LENGTH as usize + AFTER, 2 + AFTER)
    }

    /// The same after its start.
    fn started() -> Lent {
        Lent {
            map: vec![0; 2 + AFTER],
            words: [1, LENGTH],
            ..Lent::enough()
        }
    }

    fn with<T>(&mut self, act: impl FnOnce(&mut Receiver) -> T) -> T {
        let mut receiver = Receiver::resume(self.words, &mut self.file, &mut self.map);
        let answer = act(&mut receiver);
        self.words = receiver.words();
        answer
    }

    fn start(&mut self, length: u64) -> Result<(), Refusal> {
        self.with(|receiver| receiver.start(length))
    }

    fn block(&mut self, number: u64, bytes: &[u8]) -> Result<(), Refusal> {
        self.with(|receiver| receiver.block(number, bytes))
    }

    fn replay(&mut self, trace: &[u8]) -> Result<(), Refusal> {
        self.with(|receiver| receiver.replay(trace))
    }

    fn length(&mut self) -> Option<u64> {
        self.with(|receiver| receiver.length())
    }

    /// Nothing changes, and this is the answer.
    fn refuses(&self, message: &Message, answer: Result<(), Refusal>) {
        let mut after = self.clone();
        assert_eq!(message.send(&mut after), answer, "{message:?}");
        assert_eq!(&after, self, "{message:?}");
    }
}

#[derive(Clone, Debug)]
enum Message {
    Start(u64),
    Block(u64, Vec<u8>),
}

use Message::{Block, Start};

impl Message {
    fn send(&self, lent: &mut Lent) -> Result<(), Refusal> {
        match self {
            Start(length) => lent.start(*length),
            Block(number, bytes) => lent.block(*number, bytes),
        }
    }

    fn record(&self, trace: &mut Vec<u8>) {
        match self {
            Start(length) => {
                trace.push(1);
                trace.extend(length.to_le_bytes());
            }
            Block(number, bytes) => {
                trace.push(2);
                trace.extend(number.to_le_bytes());
                trace.extend((bytes.len() as u16).to_le_bytes());
                trace.extend(bytes);
            }
        }
    }
}

/// Bytes that differ from each other, and by the first one from those of other blocks.
fn some_bytes(first: u8, len: usize) -> Vec<u8> {
    (0..len).map(|i| first.wrapping_add(i as u8)).collect()
}

/// Every kind of message, accepted and refused, for the file of two blocks.
fn messages() -> Vec<Message> {
    vec![
        Block(0, some_bytes(1, BLOCK_LEN)),
        Start(LENGTH),
        Block(1, some_bytes(2, LAST)),
        Block(2, some_bytes(3, LAST)),
        Block(1 << 32, some_bytes(4, BLOCK_LEN)),
        Block(1, some_bytes(5, LAST)),
        Start(u64::MAX),
        Block(0, some_bytes(6, BLOCK_LEN - 1)),
        Block(0, some_bytes(7, BLOCK_LEN)),
        Block(1, Vec::new()),
        Block(1, some_bytes(8, 65535)),
        Start(BLOCK_LEN as u64),
        Block(0, some_bytes(9, BLOCK_LEN)),
        Block(1, Vec::new()),
        Start(0),
        Block(0, Vec::new()),
    ]
}

#[test]
fn before_any_start_there_is_no_block_and_nothing_to_read() {
    for (file_len, map_len) in [(0, 0), (LENGTH as usize, 2)] {
        let mut lent = Lent::of(file_len, map_len);
        let receiver = Receiver::new(&mut lent.file, &mut lent.map);
        assert_eq!(receiver.words(), [0, 0]);
        assert_eq!(receiver.length(), None);
        assert_eq!(receiver.received(), None);
        for number in [0, 1, 1 << 32, u64::MAX] {
            for len in [0, LAST, BLOCK_LEN] {
                lent.refuses(&Block(number, some_bytes(1, len)), NO_SUCH_BLOCK);
            }
        }
    }
}

#[test]
fn a_start_clears_the_whole_map_and_leaves_the_bytes() {
    let mut lent = Lent::enough();
    assert_eq!(lent.start(LENGTH), Ok(()));
    assert_eq!(lent, Lent::started());
    assert_eq!(lent.length(), Some(LENGTH));
    let mut exact = Lent::of(LENGTH as usize, 2);
    assert_eq!(exact.start(LENGTH), Ok(()));
    assert_eq!(exact.map, [0, 0]);
}

#[test]
fn a_start_that_does_not_fit_leaves_the_file_before() {
    let mut lent = Lent::started();
    lent.block(1, &some_bytes(1, LAST)).unwrap();
    let room = lent.file.len() as u64;
    for length in [room + 1, 1 << 32, (1 << 32) + LENGTH, u64::MAX] {
        lent.refuses(&Start(length), TOO_SMALL);
    }
    assert_eq!(lent.start(room), Ok(()));
    let short_map = Lent::of(3 * BLOCK_LEN, 2);
    short_map.refuses(&Start(2 * BLOCK_LEN as u64 + 1), TOO_SMALL);
    assert_eq!(short_map.clone().start(2 * BLOCK_LEN as u64), Ok(()));
    Lent::of(LENGTH as usize - 1, 2).refuses(&Start(LENGTH), TOO_SMALL);
    Lent::of(0, 0).refuses(&Start(1), TOO_SMALL);
    Lent::of(0, 9).refuses(&Start(1), TOO_SMALL);
    Lent::of(9, 0).refuses(&Start(1), TOO_SMALL);
}

#[test]
fn a_file_of_no_bytes_is_taken_by_any_buffers_and_has_no_block() {
    for (file_len, map_len) in [(0, 0), (LENGTH as usize, 2)] {
        let mut lent = Lent::of(file_len, map_len);
        assert_eq!(lent.start(0), Ok(()));
        assert_eq!(lent.length(), Some(0));
        assert_eq!(lent.map, vec![0; map_len]);
        lent.with(|receiver| {
            let nothing = Received {
                file: &[],
                map: &[],
            };
            assert_eq!(receiver.received(), Some(nothing));
        });
        lent.refuses(&Block(0, Vec::new()), NO_SUCH_BLOCK);
        lent.refuses(&Block(0, some_bytes(1, BLOCK_LEN)), NO_SUCH_BLOCK);
    }
}

#[test]
fn a_block_goes_to_its_place_and_is_marked() {
    for (number, len) in [(0, BLOCK_LEN), (1, LAST)] {
        let mut lent = Lent::started();
        for first in [1, 2] {
            let bytes = some_bytes(first, len);
            assert_eq!(lent.block(number as u64, &bytes), Ok(()));
            let mut expected = Lent::started();
            expected.file[number * BLOCK_LEN..][..len].copy_from_slice(&bytes);
            expected.map[number] = 1;
            assert_eq!(lent, expected);
        }
    }
}

#[test]
fn blocks_are_refused_in_the_order_of_the_rules() {
    let lent = Lent::started();
    for number in [2, 3, 1 << 32, (1 << 32) + 1, 1 << 55, u64::MAX] {
        for len in [0, LAST, BLOCK_LEN] {
            lent.refuses(&Block(number, some_bytes(1, len)), NO_SUCH_BLOCK);
        }
    }
    for len in [0, LAST, BLOCK_LEN - 1, BLOCK_LEN + 1] {
        lent.refuses(&Block(0, some_bytes(1, len)), BLOCK_SIZE);
    }
    for len in [0, LAST - 1, LAST + 1, BLOCK_LEN] {
        lent.refuses(&Block(1, some_bytes(1, len)), BLOCK_SIZE);
    }
    // A file that ends with its block: 512 bytes, and nothing after it.
    let mut whole = Lent::enough();
    whole.start(BLOCK_LEN as u64).unwrap();
    whole.refuses(&Block(0, Vec::new()), BLOCK_SIZE);
    whole.refuses(&Block(1, Vec::new()), NO_SUCH_BLOCK);
    assert_eq!(whole.block(0, &some_bytes(1, BLOCK_LEN)), Ok(()));
}

#[test]
fn buffers_that_became_too_short_take_no_block_and_give_nothing_to_read() {
    for (file_len, map_len) in [(LENGTH as usize - 1, 2), (LENGTH as usize, 1), (0, 0)] {
        let mut lent = Lent {
            words: [1, LENGTH],
            ..Lent::of(file_len, map_len)
        };
        // A number outside the file and a wrong size come after that.
        for number in [0, 1, 2] {
            lent.refuses(&Block(number, some_bytes(1, BLOCK_LEN)), TOO_SMALL);
        }
        assert_eq!(lent.length(), Some(LENGTH));
        lent.with(|receiver| assert_eq!(receiver.received(), None));
    }
    let mut endless = Lent {
        words: [1, u64::MAX],
        ..Lent::enough()
    };
    endless.refuses(&Block(0, some_bytes(1, BLOCK_LEN)), TOO_SMALL);
    endless.with(|receiver| assert_eq!(receiver.received(), None));
}

#[test]
fn a_first_word_other_than_one_means_no_start_yet() {
    for word in [0, 2, (1 << 32) + 1, u64::MAX] {
        let mut lent = Lent {
            words: [word, LENGTH],
            ..Lent::enough()
        };
        assert_eq!(lent.length(), None);
        lent.with(|receiver| assert_eq!(receiver.received(), None));
        lent.refuses(&Block(0, some_bytes(1, BLOCK_LEN)), NO_SUCH_BLOCK);
        lent.refuses(&Start(u64::MAX), TOO_SMALL);
        assert_eq!(lent.replay(&[]), Ok(()));
        assert_eq!(lent.words, [word, LENGTH]);
        assert_eq!(lent.start(LENGTH), Ok(()));
        assert_eq!(lent, Lent::started());
    }
}

#[test]
fn what_came_is_the_front_of_both_buffers() {
    let mut lent = Lent::started();
    let bytes = some_bytes(1, LAST);
    lent.block(1, &bytes).unwrap();
    let receiver = Receiver::resume(lent.words, &mut lent.file, &mut lent.map);
    let received = receiver.received().unwrap();
    assert_eq!(received.map, [0, 1]);
    assert_eq!(received.file, [vec![STALE; BLOCK_LEN], bytes].concat());
}

/// What a receiver is after each of the messages, one by one, and where each ends in their trace.
fn one_by_one(before: &Lent, messages: &[Message]) -> (Vec<u8>, Vec<(usize, Lent)>) {
    let mut trace = Vec::new();
    let mut lent = before.clone();
    let mut after = vec![(0, before.clone())];
    for message in messages {
        message.record(&mut trace);
        let _may_be_refused = message.send(&mut lent);
        after.push((trace.len(), lent.clone()));
    }
    (trace, after)
}

#[test]
fn a_replay_does_what_its_messages_do_one_by_one() {
    // Buffers that suffice for the whole, and some that do not; a receiver before a start and one after.
    for (file_len, map_len) in [
        (LENGTH as usize, 2),
        (BLOCK_LEN, 2),
        (LENGTH as usize, 1),
        (0, 0),
    ] {
        for words in [[0, 0], [1, LENGTH], [2, LENGTH]] {
            let before = Lent {
                words,
                ..Lent::of(file_len, map_len)
            };
            let (trace, after) = one_by_one(&before, &messages());
            for (end, expected) in after {
                let mut lent = before.clone();
                assert_eq!(lent.replay(&trace[..end]), Ok(()));
                assert_eq!(lent, expected);
            }
        }
    }
}

#[test]
fn a_trace_that_is_cut_keeps_what_came_before_the_cut() {
    let before = Lent::enough();
    // The block of 65535 bytes is left out: it would be cut at each of them.
    let short: Vec<Message> = messages()
        .into_iter()
        .filter(|message| !matches!(message, Block(_, bytes) if bytes.len() > BLOCK_LEN))
        .collect();
    let (trace, after) = one_by_one(&before, &short);
    for end in 0..=trace.len() {
        let (place, expected) = after.iter().rfind(|(place, _)| *place <= end).unwrap();
        let answer = if *place == end {
            Ok(())
        } else {
            Err(Refusal::Truncated)
        };
        let mut lent = before.clone();
        assert_eq!(lent.replay(&trace[..end]), answer, "cut at {end}");
        assert_eq!(&lent, expected, "cut at {end}");
    }
}

#[test]
fn a_byte_that_begins_no_message_stops_the_replay() {
    let before = Lent::enough();
    let (trace, after) = one_by_one(&before, &messages());
    for (end, expected) in &after {
        for first in (0..=255).filter(|first| !matches!(first, 1 | 2)) {
            // What comes after it is not looked at.
            let mut stopped = trace.clone();
            stopped.insert(*end, first);
            let mut lent = before.clone();
            assert_eq!(lent.replay(&stopped), Err(Refusal::Invalid));
            assert_eq!(&lent, expected);
        }
    }
}

#[test]
fn a_receiver_says_what_it_is_and_not_its_bytes() {
    let mut lent = Lent::started();
    let said = lent.with(|receiver| format!("{receiver:?}"));
    let expected = "Receiver { length: Some(521), file_len: 524, map_len: 5, .. }";
    assert_eq!(said, expected);
}
