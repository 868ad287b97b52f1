//! Strict reading: inspection, its handle and its charge, and decode.

use crate::files::*;
use chelmesut::{decode, inspect, AlphaMode, Budget, ByteOrder, Handle, Limits, Refusal};

const FEE: u64 = 49;

/// Limits that allow everything.
pub const ENDLESS: Limits = Limits {
    max_input: u64::MAX,
    max_output: u64::MAX,
    max_dimension: u64::MAX,
    max_directories: u64::MAX,
    max_tags: u64::MAX,
    max_segments: u64::MAX,
};

pub fn inspected(file: &[u8]) -> Handle {
    inspect(file, 0, &WIDE, &mut Budget { remaining: PLENTY }).unwrap()
}

/// The outcome of an inspection, and what it charged.
fn outcome(file: &[u8], page: u64, limits: &Limits) -> (Result<Handle, Refusal>, u64) {
    let mut budget = Budget { remaining: PLENTY };
    let result = inspect(file, page, limits, &mut budget);
    (result, PLENTY - budget.remaining)
}

pub fn refused(file: &[u8], page: u64, limits: &Limits) -> (Refusal, u64) {
    let (result, charged) = outcome(file, page, limits);
    (result.unwrap_err(), charged)
}

#[test]
fn the_case_of_rule_10_1_is_read_in_both_byte_orders() {
    for order in BOTH {
        let file = two_pixels(order, &CASE_1);
        let mut budget = Budget { remaining: PLENTY };
        let handle = inspect(&file, 0, &WIDE, &mut budget).unwrap();
        assert_eq!(PLENTY - budget.remaining, DIRECTORY + PROFILE + FEE);
        assert_eq!(handle.decode_work_limit(), FEE);

        budget.remaining = FEE;
        let mut output = [STALE; 15];
        let mut scratch = [STALE; 23];
        let lent = (&mut output, &mut scratch);
        decode(&file, 0, &WIDE, &handle, &mut budget, lent.0, lent.1).unwrap();
        assert_eq!(budget.remaining, 0);
        assert_eq!(output[..12], PIXEL_1.repeat(2));
        assert_eq!(output[12..], [STALE; 3]);
        assert_eq!(scratch[..20], [0; 20]);
        assert_eq!(scratch[20..], [STALE; 3]);
    }
}

#[test]
fn a_handle_says_what_the_page_has() {
    let handle = inspected(&three_strips(ByteOrder::Big));
    assert_eq!((handle.width(), handle.height()), (7, 5));
    assert_eq!((handle.channels(), handle.pixel_bytes()), (3, 6));
    assert_eq!(handle.bits_per_sample(), 16);
    assert_eq!(handle.output_bits_per_sample(), 16);
    assert_eq!(handle.planar_configuration(), 1);
    assert_eq!(handle.compression(), 34676);
    assert_eq!(handle.page_index(), 0);
    assert_eq!(handle.directory_entry_count(), ENTRIES);
    assert_eq!(
        (handle.has_alpha(), handle.alpha_mode()),
        (false, AlphaMode::None)
    );
    assert_eq!(handle.output_len(), 6 * 7 * 5);
    assert_eq!(handle.scratch_len(), 10 * 7 * 2);
    let fees = fee(16, 7, 2) + fee(16, 7, 2) + fee(8, 7, 1);
    assert_eq!(handle.decode_work_limit(), fees);
    assert_eq!((handle.block_width(), handle.block_height()), (7, 2));
    assert_eq!(handle.segments(), 3);
}

#[test]
fn every_budget_that_is_too_small_is_left_as_the_charges_say() {
    let file = two_pixels(ByteOrder::Little, &CASE_1);
    let charges = [DIRECTORY, PROFILE, FEE];
    let total: u64 = charges.iter().sum();
    for granted in 0..total {
        let mut budget = Budget { remaining: granted };
        let result = inspect(&file, 0, &WIDE, &mut budget);
        assert_eq!(result, Err(Refusal::Budget));
        assert_eq!(budget.remaining, left_after(granted, &charges));
    }
    let mut budget = Budget { remaining: total };
    assert!(inspect(&file, 0, &WIDE, &mut budget).is_ok());
    assert_eq!(budget.remaining, 0);
}

#[test]
fn inspection_refuses_by_the_numbers_of_the_rules() {
    let whole = DIRECTORY + PROFILE + FEE;
    for order in BOTH {
        let good = two_pixels(order, &CASE_1);
        let size = good.len() as u64;
        let with = |place: usize, byte: u8| {
            let mut file = good.clone();
            file[place] = byte;
            file
        };

        assert_eq!(refused(&[], 0, &WIDE), (Refusal::Truncated, 0));
        assert_eq!(refused(&good[..7], 0, &WIDE), (Refusal::Truncated, 0));
        assert_eq!(refused(&good[..9], 0, &WIDE), (Refusal::Truncated, 0));
        assert_eq!(refused(&with(0, b'X'), 0, &WIDE), (Refusal::Invalid, 0));
        let version = if order == ByteOrder::Little { 2 } else { 3 };
        let bigger = with(version, 43);
        assert_eq!(refused(&bigger, 0, &WIDE), (Refusal::Unsupported, 0));

        let input = |max_input| Limits { max_input, ..WIDE };
        assert_eq!(refused(&good, 0, &input(size - 1)), (Refusal::Limit, 0));
        assert_eq!(outcome(&good, 0, &input(size)).1, whole);
        assert_eq!(refused(&good, 4, &WIDE), (Refusal::Limit, 0));
        assert_eq!(refused(&good, 1, &WIDE), (Refusal::PageNotFound, DIRECTORY));
        let tags = Limits {
            max_tags: ENTRIES - 1,
            ..WIDE
        };
        assert_eq!(refused(&good, 0, &tags), (Refusal::Limit, 0));
        let dimension = Limits {
            max_dimension: 1,
            ..WIDE
        };
        let profile = DIRECTORY + PROFILE;
        assert_eq!(
            refused(&good, 0, &dimension),
            (Refusal::Unsupported, profile)
        );
        let output = Limits {
            max_output: 11,
            ..WIDE
        };
        assert_eq!(refused(&good, 0, &output), (Refusal::Limit, profile));
        let segments = Limits {
            max_segments: 0,
            ..WIDE
        };
        assert_eq!(refused(&good, 0, &segments), (Refusal::Limit, profile));
    }
}

#[test]
fn packets_are_refused_after_their_fee() {
    let before = DIRECTORY + PROFILE;
    let mut long_run = CASE_1;
    long_run[0] = 0x83;
    let mut left_over = CASE_1.to_vec();
    left_over.extend([0x01, 0x09]);
    for (packets, refusal) in [
        (&long_run[..], Refusal::Invalid),
        (&CASE_1[..6], Refusal::Truncated),
        (&CASE_1[..7], Refusal::Truncated),
        (&left_over[..], Refusal::Invalid),
    ] {
        for order in BOTH {
            let charged = before + fee(packets.len(), 2, 1);
            let file = two_pixels(order, packets);
            assert_eq!(refused(&file, 0, &WIDE), (refusal, charged));
        }
    }
}

/// Decode is refused, and leaves budget and buffers as they were.
pub fn decode_refused(
    file: &[u8],
    handle: &Handle,
    granted: u64,
    output_len: usize,
    scratch_len: usize,
) -> Refusal {
    let mut budget = Budget { remaining: granted };
    let mut output = vec![STALE; output_len];
    let mut scratch = vec![STALE; scratch_len];
    let result = decode(
        file,
        0,
        &WIDE,
        handle,
        &mut budget,
        &mut output,
        &mut scratch,
    );
    assert_eq!(budget.remaining, granted);
    assert!(output.iter().chain(&scratch).all(|byte| *byte == STALE));
    result.unwrap_err()
}

#[test]
fn a_forged_handle_is_refused_before_buffers_and_budget() {
    let file = two_pixels(ByteOrder::Little, &CASE_1);
    let words = inspected(&file).words();
    for place in 0..words.len() {
        for other in [
            words[place] ^ 1,
            words[place].wrapping_sub(1),
            0x1_0000_0000 ^ words[place],
            u64::MAX,
        ] {
            let mut forged = words;
            forged[place] = other;
            // Limits that let every word pass, so that decode is what refuses.
            let forged = Handle::from_words(forged, &ENDLESS).unwrap();
            let refusal = decode_refused(&file, &forged, FEE, 12, 20);
            assert_eq!(refusal, Refusal::Invalid, "word {place} is {other}");
            let refusal = decode_refused(&file, &forged, 0, 0, 0);
            assert_eq!(refusal, Refusal::Invalid, "word {place} is {other}");
        }
    }
}

#[test]
fn a_stored_handle_decodes() {
    let file = two_pixels(ByteOrder::Little, &CASE_1);
    let words = inspected(&file).words();
    let stored = Handle::from_words(words, &WIDE).unwrap();
    let mut budget = Budget { remaining: FEE };
    let lent = (&mut [0; 12], &mut [0; 20]);
    assert_eq!(
        decode(&file, 0, &WIDE, &stored, &mut budget, lent.0, lent.1),
        Ok(())
    );
}

#[test]
fn no_words_make_a_handle_whose_buffers_are_above_the_limit() {
    let words = inspected(&two_pixels(ByteOrder::Little, &CASE_1)).words();
    // Output and scratch.
    for place in [11, 12] {
        for over in [WIDE.max_output + 1, u64::MAX] {
            let mut forged = words;
            forged[place] = over;
            let refused = Handle::from_words(forged, &WIDE);
            assert_eq!(refused, Err(Refusal::Limit), "word {place} is {over}");
        }
        let mut forged = words;
        forged[place] = WIDE.max_output;
        assert!(Handle::from_words(forged, &WIDE).is_ok());
    }
}

#[test]
fn a_handle_of_another_file_page_or_limit_is_refused() {
    let file = two_pixels(ByteOrder::Little, &CASE_1);
    let handle = inspected(&file);
    let mut longer = CASE_1.to_vec();
    longer.splice(0..2, [0x01, 0x07, 0x01, 0x07]);
    let other = two_pixels(ByteOrder::Little, &longer);
    assert_eq!(
        decode_refused(&other, &handle, FEE, 12, 20),
        Refusal::Invalid
    );
    assert_eq!(decode_refused(&[], &handle, FEE, 12, 20), Refusal::Invalid);
    let tight = Limits {
        max_output: 19,
        ..WIDE
    };
    for (page, limits) in [(1, &WIDE), (0, &tight)] {
        let mut budget = Budget { remaining: FEE };
        let lent = (&mut [STALE; 12], &mut [STALE; 20]);
        let result = decode(&file, page, limits, &handle, &mut budget, lent.0, lent.1);
        assert_eq!(result, Err(Refusal::Invalid));
        assert_eq!((*lent.0, *lent.1), ([STALE; 12], [STALE; 20]));
        assert_eq!(budget.remaining, FEE);
    }
}

#[test]
fn short_buffers_are_refused_before_the_budget() {
    let file = two_pixels(ByteOrder::Little, &CASE_1);
    let handle = inspected(&file);
    for (output_len, scratch_len) in [(11, 20), (12, 19), (0, 20), (12, 0), (0, 0)] {
        let refusal = decode_refused(&file, &handle, 0, output_len, scratch_len);
        assert_eq!(refusal, Refusal::OutputTooSmall);
    }
    let refusal = decode_refused(&file, &handle, FEE - 1, 12, 20);
    assert_eq!(refusal, Refusal::Budget);
}
