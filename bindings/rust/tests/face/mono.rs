//! Pictures of the monochrome head: their pixels, sizes and charges, what tells a dark strip from one
//! that did not come, and which tags are those of a head.

use crate::files::*;
use crate::patchy::{numbers, strict, whole_map, Call};
use crate::strict::{decode_refused, inspected, refused, ENDLESS};
use chelmesut::{
    decode, inspect, Budget, ByteOrder, Handle, Limits, Quality, Refusal, Sizes, BLOCK_LEN,
};

/// The packets of rule 10.14 and of rule 10.15: two pixels, a run for each plane.
const CASE_14: [u8; 4] = [0x80, 0x07, 0x80, 0x01];
const CASE_15: [u8; 4] = [0x80, 0x00, 0x80, 0x00];

/// What two pixels take.
const OUTPUT: usize = 4;
const SCRATCH: usize = 8;
const FEE: u64 = 21;

const FRONT: u64 = DIRECTORY + PROFILE;

/// Where a tag's entry begins in a file of a single directory, which stands at 8.
fn entry(file: &[u8], order: ByteOrder, tag: u16) -> usize {
    let bytes = match order {
        ByteOrder::Little => tag.to_le_bytes(),
        ByteOrder::Big => tag.to_be_bytes(),
    };
    let entries = (0..ENTRIES as usize).map(|k| 10 + 12 * k);
    let mut found = entries.filter(|place| file[*place..place + 2] == bytes);
    found.next().unwrap()
}

/// The file with a number of two bytes at a place of a tag's entry: 0 for the tag, 2 for the type, 8
/// for a value of type 3.
fn with(file: &[u8], order: ByteOrder, tag: u16, place: usize, value: u16) -> Vec<u8> {
    let mut file = file.to_vec();
    let at = entry(&file, order, tag) + place;
    file[at..at + 2].copy_from_slice(&match order {
        ByteOrder::Little => value.to_le_bytes(),
        ByteOrder::Big => value.to_be_bytes(),
    });
    file
}

fn monochrome(order: ByteOrder, packets: &[u8]) -> Vec<u8> {
    two_pixels_of(MONOCHROME, order, packets)
}

/// A patchy reading of two pixels with just the buffers that they need.
fn exact<'a>(file: &'a [u8], map: &'a [u8]) -> Call<'a> {
    Call {
        output_len: OUTPUT,
        scratch_len: SCRATCH,
        quality_len: 1,
        ..Call::of(file, map)
    }
}

#[test]
fn the_cases_of_rules_10_14_and_10_15_are_read_in_both_byte_orders() {
    for (packets, pixels) in [(CASE_14, [0x01, 0x07, 0x01, 0x07]), (CASE_15, [0; 4])] {
        for order in BOTH {
            let file = monochrome(order, &packets);
            let handle = inspected(&file);
            assert_eq!((handle.channels(), handle.pixel_bytes()), (1, 2));
            assert_eq!(handle.output_len(), OUTPUT);
            assert_eq!(handle.scratch_len(), SCRATCH);
            assert_eq!(handle.decode_work_limit(), FEE);

            let mut budget = Budget { remaining: FEE };
            let mut output = [STALE; OUTPUT + 3];
            let mut scratch = [STALE; SCRATCH + 3];
            let lent = (&mut output, &mut scratch);
            decode(&file, 0, &WIDE, &handle, &mut budget, lent.0, lent.1).unwrap();
            assert_eq!(budget.remaining, 0);
            assert_eq!(output[..OUTPUT], pixels);
            assert_eq!(output[OUTPUT..], [STALE; 3]);
            assert_eq!(scratch[..SCRATCH], [0; SCRATCH]);
            assert_eq!(scratch[SCRATCH..], [STALE; 3]);

            let map = whole_map(&file);
            let left = exact(&file, &map).read();
            assert_eq!(left.result.map(numbers), Ok([2, 1, 2, 1, 1, 1]));
            assert_eq!(left.result.map(|sizes| sizes.pixel_bytes()), Ok(2));
            assert_eq!(left.charged, FRONT + FEE);
            assert_eq!(left.output, pixels);
            assert_eq!(left.scratch, [0; SCRATCH]);
            assert_eq!(left.quality, [Quality::Good as u8]);
        }
    }
}

#[test]
fn the_high_plane_comes_first_in_the_file_and_the_low_byte_in_the_output() {
    // Two rows of three pixels, a literal for each plane.
    let strip = vec![
        3, 0x10, 0x11, 0x92, 3, 1, 2, 3, 3, 0x20, 0x21, 0x22, 3, 4, 5, 6,
    ];
    for order in BOTH {
        let file = Picture {
            head: MONOCHROME,
            order,
            width: 3,
            height: 2,
            rows_per_strip: 2,
            strips: std::slice::from_ref(&strip),
            align: 1,
        }
        .file();
        let (pixels, charged) = strict(&file);
        assert_eq!(
            pixels,
            [1, 0x10, 2, 0x11, 3, 0x92, 4, 0x20, 5, 0x21, 6, 0x22]
        );
        assert_eq!(charged, FRONT + 16 + 8 * 6 + 1);
    }
}

/// Three strips of three pixels, two rows each but the last of one, each in a block of its own.
fn three(order: ByteOrder, planes: [[u8; 2]; 3]) -> Vec<u8> {
    let strips = [
        flat_strip(3, 2, &planes[0]),
        flat_strip(3, 2, &planes[1]),
        flat_strip(3, 1, &planes[2]),
    ];
    Picture {
        head: MONOCHROME,
        order,
        width: 3,
        height: 5,
        rows_per_strip: 2,
        strips: &strips,
        align: BLOCK_LEN,
    }
    .file()
}

#[test]
fn a_lost_strip_is_two_zero_bytes_a_pixel_and_its_neighbours_stay() {
    let planes = [[0x11, 0x22], [0x33, 0x44], [0x55, 0x66]];
    for order in BOTH {
        let file = three(order, planes);
        for lost in 0..3 {
            let mut map = whole_map(&file);
            map[1 + lost] = 0;
            let left = Call {
                output_len: 2 * 15,
                scratch_len: 4 * 6,
                quality_len: 3,
                ..Call::of(&file, &map)
            }
            .read();
            assert_eq!(left.result.map(numbers), Ok([3, 5, 3, 2, 3, 1]));
            let mut pixels = Vec::new();
            let mut charged = FRONT;
            for (strip, rows) in [2, 2, 1].into_iter().enumerate() {
                let [high, low] = planes[strip];
                let pixel = if strip == lost { [0, 0] } else { [low, high] };
                pixels.extend(pixel.repeat(3 * rows));
                charged += match strip == lost {
                    true => 1,
                    false => 4 * rows as u64 + 8 * 3 * rows as u64 + 1,
                };
            }
            assert_eq!(left.output, pixels);
            assert_eq!(left.charged, charged);
            let quality = [0, 1, 2].map(|strip| if strip == lost { 2 } else { 1 });
            assert_eq!(left.quality, quality);
        }
    }
}

#[test]
fn a_tile_that_is_not_good_leaves_the_rows_of_the_one_beside_it() {
    for (head, order) in heads_and_orders() {
        let mut pair = Pair::new(head, order, true, true, true);
        pair.beside = true;
        let (whole, _) = strict(&pair.file());
        let tile = head.pixel * usize::from(Pair::WIDTH);
        for bad in 0..2 {
            // A run that is too long for its row.
            pair.stored[bad][0] += 1;
            let file = pair.file();
            pair.stored[bad][0] -= 1;
            let left = Call {
                output_len: whole.len(),
                scratch_len: head.scratch(16, 16),
                quality_len: 2,
                ..Call::of(&file, &whole_map(&file))
            }
            .read();
            let mut expected = whole.clone();
            for row in expected.chunks_mut(2 * tile) {
                row[tile * bad..][..tile].fill(0);
            }
            assert_eq!(left.output, expected);
            let quality = [0, 1].map(|segment| if segment == bad { 4 } else { 1 });
            assert_eq!(left.quality, quality);
        }
    }
}

#[test]
fn the_quality_byte_alone_tells_a_dark_strip_from_a_lost_one() {
    for order in BOTH {
        let file = three(order, [[0, 0]; 3]);
        let mut map = whole_map(&file);
        map[2] = 0;
        let lens = |map| Call {
            output_len: 2 * 15,
            scratch_len: 4 * 6,
            quality_len: 3,
            ..Call::of(&file, map)
        };
        let whole = whole_map(&file);
        let (came, lost) = (lens(&whole).read(), lens(&map).read());
        assert_eq!(came.output, [0; 30]);
        assert_eq!(came.output, lost.output);
        assert_eq!(came.result, lost.result);
        assert_eq!((came.quality, lost.quality), (vec![1, 1, 1], vec![1, 2, 1]));
        assert_eq!(strict(&file).0, [0; 30]);
    }
}

#[test]
fn buffers_of_the_colour_head_are_not_asked_for_and_one_byte_less_is_refused() {
    let file = monochrome(ByteOrder::Little, &CASE_14);
    let map = whole_map(&file);
    let handle = inspected(&file);
    for (output_len, scratch_len) in [(OUTPUT - 1, SCRATCH), (OUTPUT, SCRATCH - 1)] {
        let refusal = decode_refused(&file, &handle, FEE, output_len, scratch_len);
        assert_eq!(refusal, Refusal::OutputTooSmall);
        let call = Call {
            output_len,
            scratch_len,
            ..exact(&file, &map)
        };
        assert_eq!(call.refused(), (Refusal::OutputTooSmall, FRONT));
    }
    // Scratch is more than output here, and the limit is on both.
    let limits = |max_output| Limits { max_output, ..WIDE };
    assert_eq!(
        refused(&file, 0, &limits(SCRATCH as u64 - 1)),
        (Refusal::Limit, FRONT)
    );
    let mut budget = Budget { remaining: PLENTY };
    assert!(inspect(&file, 0, &limits(SCRATCH as u64), &mut budget).is_ok());
    let call = |max_output| Call {
        limits: limits(max_output),
        ..exact(&file, &map)
    };
    let refusal = call(SCRATCH as u64 - 1).refused();
    assert_eq!(refusal, (Refusal::Limit, FRONT));
    assert!(call(SCRATCH as u64).read().result.is_ok());
}

#[test]
fn every_budget_that_is_too_small_is_left_as_the_charges_say() {
    let file = monochrome(ByteOrder::Big, &CASE_14);
    let map = whole_map(&file);
    let charges = [DIRECTORY, PROFILE, FEE];
    for granted in 0..FRONT + FEE {
        let left = left_after(granted, &charges);
        let mut budget = Budget { remaining: granted };
        let result = inspect(&file, 0, &WIDE, &mut budget);
        assert_eq!((result, budget.remaining), (Err(Refusal::Budget), left));
        let call = Call {
            granted,
            ..exact(&file, &map)
        };
        assert_eq!(call.refused(), (Refusal::Budget, granted - left));
    }
}

/// The words of a handle with these channels, output and scratch.
fn forged(words: [u64; 17], channels: u64, output: usize, scratch: usize) -> Handle {
    let mut words = words;
    words[2] = channels;
    words[11] = output as u64;
    words[12] = scratch as u64;
    Handle::from_words(words, &ENDLESS).unwrap()
}

#[test]
fn a_handle_with_the_channels_of_the_other_head_is_refused() {
    for order in BOTH {
        let file = monochrome(order, &CASE_14);
        let words = inspected(&file).words();
        for handle in [
            forged(words, 3, OUTPUT, SCRATCH),
            forged(words, 3, 12, 20),
            forged(words, 1, 12, 20),
        ] {
            let refusal = decode_refused(&file, &handle, PLENTY, 12, 20);
            assert_eq!(refusal, Refusal::Invalid);
        }
        let colour = two_pixels(order, &CASE_1);
        let words = inspected(&colour).words();
        for handle in [
            forged(words, 1, 12, 20),
            forged(words, 1, OUTPUT, SCRATCH),
            forged(words, 3, OUTPUT, SCRATCH),
            inspected(&file),
        ] {
            let refusal = decode_refused(&colour, &handle, PLENTY, 12, 20);
            assert_eq!(refusal, Refusal::Invalid);
        }
    }
}

#[test]
fn each_word_of_a_monochrome_handle_is_compared() {
    let file = monochrome(ByteOrder::Little, &CASE_14);
    let words = inspected(&file).words();
    for place in 0..words.len() {
        for other in [words[place] ^ 1, words[place] ^ 2, u64::MAX] {
            let mut forged = words;
            forged[place] = other;
            let forged = Handle::from_words(forged, &ENDLESS).unwrap();
            let refusal = decode_refused(&file, &forged, FEE, OUTPUT, SCRATCH);
            assert_eq!(refusal, Refusal::Invalid, "word {place} is {other}");
        }
    }
}

/// Both readings refuse a picture of two pixels as one of another kind, after the profile's charge.
fn is_of_no_head(file: &[u8]) {
    let expected = (Refusal::Unsupported, FRONT);
    assert_eq!(refused(file, 0, &WIDE), expected);
    assert_eq!(Call::of(file, &whole_map(file)).refused(), expected);
}

#[test]
fn photometric_and_samples_must_be_those_of_one_head_together() {
    for order in BOTH {
        for (head, packets) in [(COLOUR, &CASE_1[..]), (MONOCHROME, &CASE_14[..])] {
            let good = two_pixels_of(head, order, packets);
            for photometric in [0, 1, 2, 32843, 32844, 32845, 32846, u16::MAX] {
                for samples in [0, 1, 2, 3, 4, u16::MAX] {
                    let file = with(&good, order, 262, 8, photometric);
                    let file = with(&file, order, 277, 8, samples);
                    if (photometric, samples) == (head.photometric, head.samples) {
                        assert_eq!(file, good);
                    } else {
                        // The other head's two numbers want another number of depths.
                        is_of_no_head(&file);
                    }
                }
            }
        }
    }
}

#[test]
fn without_tag_277_a_picture_has_one_sample() {
    const UNKNOWN: u16 = 65000;
    for order in BOTH {
        let said = monochrome(order, &CASE_14);
        let unsaid = with(&said, order, 277, 0, UNKNOWN);
        assert_eq!(inspected(&unsaid), inspected(&said));
        assert_eq!(strict(&unsaid), strict(&said));
        let map = whole_map(&said);
        assert_eq!(exact(&unsaid, &map).read(), exact(&said, &map).read());
        is_of_no_head(&with(&two_pixels(order, &CASE_1), order, 277, 0, UNKNOWN));
    }
}

#[test]
fn depth_and_format_are_one_value_each_and_stand_in_their_entries() {
    for order in BOTH {
        let good = monochrome(order, &CASE_14);
        for (tag, value) in [(258, 16), (339, 2)] {
            for other in [0, 1, value - 1, value + 1, 3 * value, u16::MAX] {
                is_of_no_head(&with(&good, order, tag, 8, other));
            }
            // Types other than 3 and 4, and a tag that is not there.
            for kind in [1, 2, 5, 8, u16::MAX] {
                is_of_no_head(&with(&good, order, tag, 2, kind));
            }
            is_of_no_head(&with(&good, order, tag, 0, 65000));
            // Counts of 0, 2 and 3; the count's low half is where the order has it.
            let half = if order == ByteOrder::Little { 4 } else { 6 };
            for count in [0, 2, 3] {
                is_of_no_head(&with(&good, order, tag, half, count));
            }
            // A value of type 4 fills the field.
            let mut long = with(&good, order, tag, 2, 4);
            let at = entry(&long, order, tag) + 8;
            long[at..at + 4].copy_from_slice(&match order {
                ByteOrder::Little => u32::from(value).to_le_bytes(),
                ByteOrder::Big => u32::from(value).to_be_bytes(),
            });
            assert_eq!(inspected(&long), inspected(&good));
        }
    }
}

#[test]
fn sizes_say_the_bytes_of_a_pixel() {
    let sizes = |head, packets: &[u8]| -> Sizes {
        let file = two_pixels_of(head, ByteOrder::Little, packets);
        let map = whole_map(&file);
        Call::of(&file, &map).read().result.unwrap()
    };
    let colour = sizes(COLOUR, &CASE_1);
    let single = sizes(MONOCHROME, &CASE_14);
    assert_eq!((colour.channels, colour.pixel_bytes()), (3, 6));
    assert_eq!((single.channels, single.pixel_bytes()), (1, 2));
}
