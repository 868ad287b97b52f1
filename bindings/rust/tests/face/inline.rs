//! Two offsets or two counts in the field of their entry (rule 2.12): where they are read, and what
//! has no part in it.

use crate::files::*;
use crate::patchy::{numbers, strict, whole_map, Call};
use chelmesut::{inspect, Budget, Quality, Refusal, BLOCK_LEN};

/// A pixel of each segment: that of rule 10.1, and one with the first and the last of rule 10.8. Of a
/// monochrome picture the first two bytes alone.
const PIXELS: [[u8; 6]; 2] = [PIXEL_1, [0x09, 0x08, 0x27, 0x00, 0xC4, 0x4F]];

const GOOD: [Quality; 2] = [Quality::Good; 2];

/// Strips and tiles of both heads in both byte orders, with none, one and both of offsets and counts
/// in a field.
fn pairs() -> Vec<Pair> {
    let mut pairs = Vec::new();
    for (head, order) in heads_and_orders() {
        for tiled in [false, true] {
            for (offsets, counts) in [(false, false), (true, false), (false, true), (true, true)] {
                pairs.push(Pair::new(head, order, tiled, offsets, counts));
            }
        }
    }
    pairs
}

/// The bytes of one pixel for each pixel of a segment.
fn filled(pair: &Pair, pixel: [u8; 6]) -> Vec<u8> {
    pixel[..pair.head.pixel].repeat(usize::from(Pair::WIDTH * pair.rows()))
}

/// What directory and profile charge; tiles have an entry more.
fn front(pair: &Pair) -> u64 {
    DIRECTORY + u64::from(pair.tiled) + PROFILE
}

fn fee_of(pair: &Pair, segment: usize) -> u64 {
    let stored = pair.stored[segment].len();
    pair.head
        .fee(stored, Pair::WIDTH.into(), pair.rows().into())
}

fn read_strictly(pair: &Pair, file: &[u8]) {
    let (pixels, charged) = strict(file);
    assert_eq!(pixels, PIXELS.map(|pixel| filled(pair, pixel)).concat());
    assert_eq!(charged, front(pair) + fee_of(pair, 0) + fee_of(pair, 1));
}

fn read_patchily(pair: &Pair, file: &[u8], map: &[u8], qualities: [Quality; 2]) {
    let (width, rows) = (u64::from(Pair::WIDTH), u64::from(pair.rows()));
    let left = Call {
        output_len: 2 * filled(pair, PIXEL_1).len(),
        scratch_len: pair.head.scratch(width, rows),
        quality_len: 2,
        ..Call::of(file, map)
    }
    .read();
    let sizes = [width, 2 * rows, width, rows, 2, pair.head.samples.into()];
    assert_eq!(left.result.map(numbers), Ok(sizes));
    assert_eq!(left.quality, qualities.map(|quality| quality as u8));
    let mut charged = front(pair);
    let mut pixels = Vec::new();
    for (segment, quality) in qualities.into_iter().enumerate() {
        let good = quality == Quality::Good;
        charged += if good { fee_of(pair, segment) } else { 1 };
        pixels.extend(filled(pair, if good { PIXELS[segment] } else { [0; 6] }));
    }
    assert_eq!(left.charged, charged);
    assert_eq!(left.output, pixels);
}

#[test]
fn two_of_two_bytes_are_read_in_the_field_and_two_of_four_at_a_place() {
    for pair in pairs() {
        let file = pair.file();
        assert!(pair.places().iter().all(|place| *place > file.len()));
        read_strictly(&pair, &file);
        read_patchily(&pair, &file, &whole_map(&file), GOOD);
    }
}

#[test]
fn what_lies_where_the_field_would_point_has_no_influence() {
    for pair in pairs() {
        let mut file = pair.file();
        for place in pair.places() {
            file.resize(file.len().max(place + BLOCK_LEN), STALE);
        }
        read_strictly(&pair, &file);
        for place in pair.places() {
            let mut map = whole_map(&file);
            read_patchily(&pair, &file, &map, GOOD);
            map[place / BLOCK_LEN] = 0;
            read_patchily(&pair, &file, &map, GOOD);
        }
    }
}

#[test]
fn what_is_in_a_field_comes_with_the_directory() {
    for pair in pairs() {
        let file = pair.file();
        // The header with the near segment, and the directory.
        let map = [1, 0, 1, 0];
        let mut qualities = [Quality::Missing; 2];
        if pair.inline_offsets && pair.inline_counts {
            qualities[pair.near()] = Quality::Good;
        }
        read_patchily(&pair, &file, &map, qualities);
    }
}

#[test]
fn a_range_outside_the_file_stays_outside() {
    for mut pair in pairs() {
        let far = 1 - pair.near();
        pair.offsets[far] = 0xFFFF;
        let file = pair.file();
        let mut budget = Budget { remaining: PLENTY };
        let result = inspect(&file, 0, &WIDE, &mut budget);
        assert_eq!(result, Err(Refusal::Truncated));
        let mut qualities = GOOD;
        qualities[far] = Quality::Outside;
        read_patchily(&pair, &file, &whole_map(&file), qualities);
    }
}
