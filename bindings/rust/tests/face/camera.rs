//! The camera's picture, written by libtiff: 640 by 480 pixels, 60 strips of eight rows. The
//! checksum is that of the pixels that libtiff's own reader gives.

use crate::files::{crc32, STALE};
use chelmesut::{
    decode, inspect, read_patchy, work_limit, Budget, Limits, Quality, Receiver, Refusal, BLOCK_LEN,
};

const LIBTIFF: u32 = 0x81AC_5794;
const PICTURE: usize = 640 * 480 * 6;
const STRIP: usize = 640 * 8 * 6;
const STRIPS: usize = 60;
const SCRATCH: usize = 640 * 8 * 10;

fn camera() -> Vec<u8> {
    let path = concat!(
        env!("CARGO_MANIFEST_DIR"),
        "/../../crates/strips/data/camera.tif"
    );
    std::fs::read(path).unwrap_or_else(|error| panic!("{path}: {error}"))
}

fn word(file: &[u8], place: usize) -> usize {
    u32::from_le_bytes(file[place..place + 4].try_into().unwrap()) as usize
}

/// Where the strips' stored bytes lie, and where the directory begins, which stands after them.
fn strips_and_directory(file: &[u8]) -> (Vec<(usize, usize)>, usize) {
    let directory = word(file, 4);
    let count = u16::from_le_bytes([file[directory], file[directory + 1]]);
    let array = |tag: u16| {
        let entry = (0..usize::from(count))
            .map(|k| directory + 2 + 12 * k)
            .find(|entry| file[*entry..*entry + 2] == tag.to_le_bytes())
            .unwrap();
        assert_eq!(word(file, entry + 4), STRIPS);
        word(file, entry + 8)
    };
    let (offsets, counts) = (array(273), array(279));
    let strips = (0..STRIPS)
        .map(|k| (word(file, offsets + 4 * k), word(file, counts + 4 * k)))
        .collect();
    (strips, directory)
}

fn strict(file: &[u8]) -> (Vec<u8>, u64) {
    let limits = Limits::camera();
    let granted = work_limit(0, &limits).unwrap();
    let mut budget = Budget { remaining: granted };
    let handle = inspect(file, 0, &limits, &mut budget).unwrap();
    let charged = granted - budget.remaining;
    assert_eq!((handle.width(), handle.height()), (640, 480));
    assert_eq!(handle.segments(), STRIPS as u64);
    let mut output = vec![STALE; handle.output_len()];
    let mut scratch = vec![STALE; handle.scratch_len()];
    budget.remaining = handle.decode_work_limit();
    decode(
        file,
        0,
        &limits,
        &handle,
        &mut budget,
        &mut output,
        &mut scratch,
    )
    .unwrap();
    assert_eq!(budget.remaining, 0);
    (output, charged)
}

#[test]
fn strict_and_patchy_reading_give_the_pixels_of_libtiff() {
    let file = camera();
    let (pixels, charged) = strict(&file);
    assert_eq!((pixels.len(), crc32(&pixels)), (PICTURE, LIBTIFF));
    let mut budget = Budget { remaining: charged };
    let mut output = vec![STALE; PICTURE];
    let mut quality = [STALE; STRIPS];
    read_patchy(
        &file,
        &vec![1; file.len().div_ceil(BLOCK_LEN)],
        0,
        &Limits::camera(),
        &mut budget,
        &mut output,
        &mut [STALE; SCRATCH],
        &mut quality,
    )
    .unwrap();
    assert_eq!(budget.remaining, 0);
    assert_eq!(quality, [Quality::Good as u8; STRIPS]);
    assert!(output == pixels);
}

#[test]
fn each_block_lost_in_turn_costs_the_strips_that_have_bytes_in_it() {
    let file = camera();
    let (pixels, charged) = strict(&file);
    let (strips, directory) = strips_and_directory(&file);
    let blocks = file.len().div_ceil(BLOCK_LEN);
    let mut previous = vec![STALE; PICTURE];
    for lost in (0..blocks).rev() {
        let (from, to) = (lost * BLOCK_LEN, (lost + 1) * BLOCK_LEN);
        let mut stale = file.clone();
        let end = to.min(file.len());
        stale[from..end].fill(STALE);
        let mut map = vec![1; blocks];
        map[lost] = 0;
        let mut budget = Budget { remaining: charged };
        let before = previous.clone();
        let mut quality = [STALE; STRIPS];
        let result = read_patchy(
            &stale,
            &map,
            0,
            &Limits::camera(),
            &mut budget,
            &mut previous,
            &mut [STALE; SCRATCH],
            &mut quality,
        );
        // From the directory on every block has bytes that the profile needs.
        if lost == 0 || to > directory {
            assert_eq!(result, Err(Refusal::NotArrived));
            assert_eq!(quality, [Quality::Unread as u8; STRIPS]);
            assert!(previous == before);
            continue;
        }
        assert!(result.is_ok());
        for (strip, (offset, count)) in strips.iter().enumerate() {
            let touched = *offset < to && from < offset + count;
            let place = strip * STRIP..(strip + 1) * STRIP;
            if touched {
                assert_eq!(quality[strip], Quality::Missing as u8);
                assert!(previous[place].iter().all(|byte| *byte == 0));
            } else {
                assert_eq!(quality[strip], Quality::Good as u8);
                assert!(previous[place.clone()] == pixels[place]);
            }
        }
    }
}

#[test]
fn a_picture_received_without_one_block_lacks_strip_31_and_nothing_else() {
    const LOST: usize = 44;
    let file = camera();
    let (pixels, charged) = strict(&file);
    // Buffers for any file of the camera, with another file in them.
    let mut buffer = vec![STALE; 2 * 1024 * 1024];
    let mut map = vec![1; 4096];
    let mut receiver = Receiver::new(&mut buffer, &mut map);
    receiver.start(file.len() as u64).unwrap();
    for (number, bytes) in file.chunks(BLOCK_LEN).enumerate().rev() {
        if number != LOST {
            receiver.block(number as u64, bytes).unwrap();
        }
    }
    let received = receiver.received().unwrap();
    let mut budget = Budget { remaining: charged };
    let mut output = vec![STALE; PICTURE];
    let mut quality = [STALE; STRIPS];
    read_patchy(
        received.file,
        received.map,
        0,
        &Limits::camera(),
        &mut budget,
        &mut output,
        &mut [STALE; SCRATCH],
        &mut quality,
    )
    .unwrap();
    let mut qualities = [Quality::Good as u8; STRIPS];
    qualities[31] = Quality::Missing as u8;
    assert_eq!(quality, qualities);
    let mut expected = pixels;
    expected[31 * STRIP..32 * STRIP].fill(0);
    assert!(output == expected);
}
