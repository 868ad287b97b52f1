//! The patchy reading: its agreement with strict reading, lost blocks, quality bytes and refusals.

use crate::files::*;
use chelmesut::{
    decode, inspect, read_patchy, Budget, ByteOrder, Limits, Quality, Refusal, Sizes, BLOCK_LEN,
};

const WIDTH: u64 = 9;
const HEIGHT: u64 = 9;
const ROWS: u64 = 2;
const STRIPS: usize = 5;
const OUTPUT: usize = (6 * WIDTH * HEIGHT) as usize;
const SCRATCH: usize = (10 * WIDTH * ROWS) as usize;

/// Bytes after those that a reading needs.
const AFTER: usize = 5;

/// The answer in the order of rule 8.9.
pub fn numbers(sizes: Sizes) -> [u64; 6] {
    [
        sizes.width,
        sizes.height,
        sizes.block_width,
        sizes.block_height,
        sizes.segments,
        sizes.channels,
    ]
}

fn rows_of(strip: usize) -> u64 {
    ROWS.min(HEIGHT - ROWS * strip as u64)
}

fn strips() -> Vec<Vec<u8>> {
    let strip = |k: usize| {
        let k8 = k as u8;
        let stored = [k8 + 1, 200 - k8, 10 * k8, 255 - k8];
        flat_strip(WIDTH as u8, rows_of(k) as usize, &stored)
    };
    (0..STRIPS).map(strip).collect()
}

fn picture(order: ByteOrder, strips: &[Vec<u8>]) -> Vec<u8> {
    Picture {
        head: COLOUR,
        order,
        width: WIDTH as u16,
        height: HEIGHT as u16,
        rows_per_strip: ROWS as u16,
        strips,
        align: BLOCK_LEN,
    }
    .file()
}

/// The picture of five strips, each in a block of its own after block 0, which has everything else.
fn five(order: ByteOrder) -> Vec<u8> {
    picture(order, &strips())
}

pub fn whole_map(file: &[u8]) -> Vec<u8> {
    vec![1; file.len().div_ceil(BLOCK_LEN)]
}

fn strip_bytes(strip: usize) -> std::ops::Range<usize> {
    let row = (6 * WIDTH) as usize;
    let first = row * ROWS as usize * strip;
    first..first + row * rows_of(strip) as usize
}

fn strip_fee(strip: usize) -> u64 {
    fee(strips()[strip].len(), WIDTH, rows_of(strip))
}

/// Everything that a reading leaves.
#[derive(Clone, Debug, PartialEq)]
pub struct Left {
    pub result: Result<Sizes, Refusal>,
    pub charged: u64,
    pub output: Vec<u8>,
    pub scratch: Vec<u8>,
    pub quality: Vec<u8>,
}

pub struct Call<'a> {
    pub file: &'a [u8],
    pub map: &'a [u8],
    pub page: u64,
    pub limits: Limits,
    pub granted: u64,
    pub output_len: usize,
    pub scratch_len: usize,
    pub quality_len: usize,
}

impl<'a> Call<'a> {
    pub fn of(file: &'a [u8], map: &'a [u8]) -> Call<'a> {
        Call {
            file,
            map,
            page: 0,
            limits: WIDE,
            granted: PLENTY,
            output_len: OUTPUT + AFTER,
            scratch_len: SCRATCH + AFTER,
            quality_len: STRIPS + AFTER,
        }
    }

    pub fn read(&self) -> Left {
        let mut budget = Budget {
            remaining: self.granted,
        };
        let mut output = vec![STALE; self.output_len];
        let mut scratch = vec![STALE; self.scratch_len];
        let mut quality = vec![STALE; self.quality_len];
        let result = read_patchy(
            self.file,
            self.map,
            self.page,
            &self.limits,
            &mut budget,
            &mut output,
            &mut scratch,
            &mut quality,
        );
        Left {
            result,
            charged: self.granted - budget.remaining,
            output,
            scratch,
            quality,
        }
    }

    /// The reading is refused: pixels and scratch stay, and the whole quality buffer is 0.
    pub fn refused(&self) -> (Refusal, u64) {
        let left = self.read();
        assert_eq!(left.output, vec![STALE; self.output_len]);
        assert_eq!(left.scratch, vec![STALE; self.scratch_len]);
        assert_eq!(left.quality, vec![0; self.quality_len]);
        (left.result.unwrap_err(), left.charged)
    }
}

/// What strict reading makes of the file, and what it charged for inspection.
pub fn strict(file: &[u8]) -> (Vec<u8>, u64) {
    let mut budget = Budget { remaining: PLENTY };
    let handle = inspect(file, 0, &WIDE, &mut budget).unwrap();
    let charged = PLENTY - budget.remaining;
    let mut output = vec![STALE; handle.output_len()];
    let mut scratch = vec![STALE; handle.scratch_len()];
    decode(
        file,
        0,
        &WIDE,
        &handle,
        &mut budget,
        &mut output,
        &mut scratch,
    )
    .unwrap();
    (output, charged)
}

/// A reading that answers, held to the strict picture and to the quality of each strip.
fn held_to(left: &Left, pixels: &[u8], qualities: &[Quality; STRIPS]) {
    let sizes = [WIDTH, HEIGHT, WIDTH, ROWS, STRIPS as u64, 3];
    assert_eq!(left.result.map(numbers), Ok(sizes));
    let mut charged = DIRECTORY + PROFILE;
    for (strip, quality) in qualities.iter().enumerate() {
        let place = strip_bytes(strip);
        assert_eq!(Quality::try_from(left.quality[strip]), Ok(*quality));
        if *quality == Quality::Good {
            assert_eq!(left.output[place.clone()], pixels[place]);
        } else {
            assert!(left.output[place].iter().all(|byte| *byte == 0));
        }
        charged += match quality {
            Quality::Missing | Quality::Outside => 1,
            _ => strip_fee(strip),
        };
    }
    assert_eq!(left.charged, charged);
    assert_eq!(left.output[OUTPUT..], [STALE; AFTER]);
    assert_eq!(left.scratch[..SCRATCH], [0; SCRATCH]);
    assert_eq!(left.scratch[SCRATCH..], [STALE; AFTER]);
    assert_eq!(left.quality[STRIPS..], [0; AFTER]);
}

#[test]
fn the_case_of_rule_10_1_is_read_in_both_byte_orders() {
    for order in BOTH {
        let file = two_pixels(order, &CASE_1);
        let map = whole_map(&file);
        let left = Call {
            output_len: 12,
            scratch_len: 20,
            quality_len: 1,
            ..Call::of(&file, &map)
        }
        .read();
        assert_eq!(left.result.map(numbers), Ok([2, 1, 2, 1, 1, 3]));
        assert_eq!(left.charged, DIRECTORY + PROFILE + 49);
        assert_eq!(left.output, PIXEL_1.repeat(2));
        assert_eq!(left.scratch, [0; 20]);
        assert_eq!(left.quality, [1]);
    }
}

#[test]
fn a_whole_file_reads_as_strict_reading_has_it() {
    for order in BOTH {
        let file = five(order);
        let (pixels, charged) = strict(&file);
        for map in [whole_map(&file), Vec::new()] {
            let left = Call::of(&file, &map).read();
            held_to(&left, &pixels, &[Quality::Good; STRIPS]);
            assert_eq!(left.charged, charged);
        }
    }
}

#[test]
fn a_lost_block_costs_its_own_strip_and_nothing_else() {
    for order in BOTH {
        let file = five(order);
        let (pixels, _) = strict(&file);
        for lost in 0..STRIPS {
            let mut qualities = [Quality::Good; STRIPS];
            qualities[lost] = Quality::Missing;
            // 1 alone says that a block arrived.
            for byte in [0, 2, 255] {
                let mut map = whole_map(&file);
                map[lost + 1] = byte;
                held_to(&Call::of(&file, &map).read(), &pixels, &qualities);
            }
        }
    }
}

#[test]
fn a_strip_is_missing_if_any_of_its_blocks_is() {
    let stored = [&CASE_1[..], &[0x01; BLOCK_LEN]].concat();
    let file = Picture {
        head: COLOUR,
        order: ByteOrder::Little,
        width: 2,
        height: 1,
        rows_per_strip: 1,
        strips: &[stored],
        align: BLOCK_LEN,
    }
    .file();
    assert_eq!(whole_map(&file).len(), 3);
    for lost in [1, 2] {
        let mut map = whole_map(&file);
        map[lost] = 0;
        let left = Call::of(&file, &map).read();
        assert_eq!(left.quality[0], Quality::Missing as u8);
        assert_eq!(left.output[..12], [0; 12]);
        assert_eq!(left.charged, DIRECTORY + PROFILE + 1);
    }
}

#[test]
fn what_stands_in_lost_blocks_has_no_influence() {
    let file = five(ByteOrder::Big);
    let mut map = whole_map(&file);
    map[2] = 0;
    map[4] = 0;
    let first = Call::of(&file, &map).read();
    let lost = [1024..1536, 2048..2560];
    for fill in [0x00, 0x01, 0x7F, 0x80, 0xFF] {
        let mut stale = file.clone();
        for place in lost.clone() {
            stale[place].fill(fill);
        }
        assert_eq!(Call::of(&stale, &map).read(), first);
    }
    let mut swapped = file.clone();
    swapped.copy_within(512..1024, 1024);
    swapped.copy_within(1536..2048, 2048);
    assert_ne!(swapped, file);
    assert_eq!(Call::of(&swapped, &map).read(), first);
}

#[test]
fn strips_outside_the_file_and_packets_not_accepted_are_marked() {
    for order in BOTH {
        let (pixels, _) = strict(&five(order));

        let file = five(order);
        let cut = &file[..file.len() - 1];
        let mut qualities = [Quality::Good; STRIPS];
        qualities[STRIPS - 1] = Quality::Outside;
        held_to(&Call::of(cut, &whole_map(cut)).read(), &pixels, &qualities);

        let mut bad = strips();
        bad[1][0] += 1;
        let file = picture(order, &bad);
        let map = whole_map(&file);
        let mut qualities = [Quality::Good; STRIPS];
        qualities[1] = Quality::Rejected;
        held_to(&Call::of(&file, &map).read(), &pixels, &qualities);
    }
}

#[test]
fn every_refusal_leaves_pixels_and_clears_the_quality() {
    for order in BOTH {
        let file = five(order);
        let map = whole_map(&file);
        let call = || Call::of(&file, &map);
        let profile = DIRECTORY + PROFILE;

        assert_eq!(Call::of(&[], &[]).refused(), (Refusal::Truncated, 0));
        let short = &file[..40];
        assert_eq!(Call::of(short, &[1]).refused(), (Refusal::Truncated, 0));
        let mut bad = file.clone();
        bad[1] = 0;
        assert_eq!(Call::of(&bad, &map).refused(), (Refusal::Invalid, 0));
        let limits = |limits| Call { limits, ..call() }.refused();
        let max_dimension = HEIGHT - 1;
        assert_eq!(
            limits(Limits {
                max_dimension,
                ..WIDE
            }),
            (Refusal::Unsupported, profile)
        );
        let max_input = file.len() as u64 - 1;
        assert_eq!(limits(Limits { max_input, ..WIDE }), (Refusal::Limit, 0));
        let max_output = OUTPUT as u64 - 1;
        assert_eq!(
            limits(Limits { max_output, ..WIDE }),
            (Refusal::Limit, profile)
        );
        assert_eq!(
            Call { page: 1, ..call() }.refused(),
            (Refusal::PageNotFound, DIRECTORY)
        );
        let output_len = OUTPUT - 1;
        assert_eq!(
            Call {
                output_len,
                ..call()
            }
            .refused(),
            (Refusal::OutputTooSmall, profile)
        );
        let scratch_len = SCRATCH - 1;
        assert_eq!(
            Call {
                scratch_len,
                ..call()
            }
            .refused(),
            (Refusal::OutputTooSmall, profile)
        );
        for quality_len in [0, STRIPS - 1] {
            assert_eq!(
                Call {
                    quality_len,
                    ..call()
                }
                .refused(),
                (Refusal::OutputTooSmall, profile)
            );
        }
        let mut lost = map.clone();
        lost[0] = 0;
        assert_eq!(Call::of(&file, &lost).refused(), (Refusal::NotArrived, 0));
        for blocks in [1, map.len() - 1, map.len() + 1] {
            let wrong = vec![1; blocks];
            assert_eq!(Call::of(&file, &wrong).refused(), (Refusal::MapSize, 0));
        }
        assert_eq!(Call::of(&[], &[1]).refused(), (Refusal::MapSize, 0));
    }
}

#[test]
fn the_segments_are_charged_at_once_or_not_at_all() {
    let file = five(ByteOrder::Little);
    let map = whole_map(&file);
    let fees = (0..STRIPS).map(strip_fee).sum();
    let charges = [DIRECTORY, PROFILE, fees];
    let total: u64 = charges.iter().sum();
    for granted in 0..total {
        let call = Call {
            granted,
            ..Call::of(&file, &map)
        };
        let charged = granted - left_after(granted, &charges);
        assert_eq!(call.refused(), (Refusal::Budget, charged));
    }
    let exact = Call {
        granted: total,
        ..Call::of(&file, &map)
    };
    assert_eq!(exact.read().charged, total);
}
