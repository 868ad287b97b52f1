//! The C face: its nine functions declared as include/chelmesut.h has them, and a safe function over
//! each. All unsafe code is here.
//!
//! The C face takes any numbers and any bytes. What it asks of its caller:
//!
//! - No pointer is null, also where the length is 0, and behind each is as much as the length says,
//!   or the number of words that the declaration has.
//! - Nothing that it writes overlaps another buffer.
//! - A `bool` is 0 or 1.
//! - While a call runs nothing else writes what is lent to it, be it a thread, another process or a
//!   device. Packets are checked and then read again with no check of an index, since the proof
//!   covers that; after a write between the two it would read or write outside the buffers.
//!
//! Slices and references of Rust are all of this, those of length 0 included. The last point is part
//! of what a `&[u8]` promises, so it is up to whoever makes one of memory that others write; README
//! says so to those whose blocks come by DMA. The C face keeps no pointer after a call, and every
//! value of the bytes and words that it writes is a valid one.
//!
//! One thing no type can see to: the archive must be that of this version, since another may write
//! more words into a handle, an answer or a receiver than are lent to it here.

use crate::Limits;

/// The words of a handle (rule 7.2).
pub const HANDLE_WORDS: usize = 17;

/// The words of the patchy reading's answer (rule 8.9).
pub const ANSWER_WORDS: usize = 6;

/// The words of a receiver (rule 11.9).
pub const RECEIVER_WORDS: usize = 2;

extern "C" {
    fn chelmesut_inspect(
        file: *const u8,
        file_len: usize,
        page: u64,
        max_input: u64,
        max_output: u64,
        max_dimension: u64,
        max_directories: u64,
        max_tags: u64,
        max_segments: u64,
        budget: &mut u64,
        handle: &mut [u64; HANDLE_WORDS],
    ) -> u64;

    fn chelmesut_decode(
        file: *const u8,
        file_len: usize,
        page: u64,
        max_input: u64,
        max_output: u64,
        max_dimension: u64,
        max_directories: u64,
        max_tags: u64,
        max_segments: u64,
        handle: &[u64; HANDLE_WORDS],
        budget: &mut u64,
        output: *mut u8,
        output_len: usize,
        scratch: *mut u8,
        scratch_len: usize,
    ) -> u64;

    fn chelmesut_read_patchy(
        file: *const u8,
        file_len: usize,
        map: *const u8,
        map_len: usize,
        page: u64,
        max_input: u64,
        max_output: u64,
        max_dimension: u64,
        max_directories: u64,
        max_tags: u64,
        max_segments: u64,
        budget: &mut u64,
        output: *mut u8,
        output_len: usize,
        scratch: *mut u8,
        scratch_len: usize,
        quality: *mut u8,
        quality_len: usize,
        answer: &mut [u64; ANSWER_WORDS],
    ) -> u64;

    fn chelmesut_work_limit(
        page: u64,
        max_input: u64,
        max_output: u64,
        max_dimension: u64,
        max_directories: u64,
        max_tags: u64,
        max_segments: u64,
        limit: &mut u64,
    ) -> u64;

    fn chelmesut_receive_start(
        file: *mut u8,
        file_len: usize,
        map: *mut u8,
        map_len: usize,
        receiver: &mut [u64; RECEIVER_WORDS],
        length: u64,
    ) -> u64;

    fn chelmesut_receive_block(
        file: *mut u8,
        file_len: usize,
        map: *mut u8,
        map_len: usize,
        receiver: &mut [u64; RECEIVER_WORDS],
        number: u64,
        bytes: *const u8,
        bytes_len: usize,
    ) -> u64;

    fn chelmesut_replay(
        trace: *const u8,
        trace_len: usize,
        file: *mut u8,
        file_len: usize,
        map: *mut u8,
        map_len: usize,
        receiver: &mut [u64; RECEIVER_WORDS],
    ) -> u64;

    fn chelmesut_predictor64(
        raw: *const u8,
        raw_len: usize,
        width: u64,
        height: u64,
        channels: u64,
        reset_width: u64,
        little_endian: bool,
        predict: bool,
        output: *mut u8,
        output_len: usize,
    ) -> u64;

    fn chelmesut_predictor3(
        raw: *const u8,
        raw_len: usize,
        row: u64,
        channels: u64,
        sample_bytes: u64,
        little_endian: bool,
        scratch: *mut u8,
        scratch_len: usize,
        output: *mut u8,
        output_len: usize,
    ) -> u64;
}

pub fn inspect(
    file: &[u8],
    page: u64,
    limits: &Limits,
    budget: &mut u64,
    handle: &mut [u64; HANDLE_WORDS],
) -> u64 {
    // SAFETY: slices and references of Rust, see above.
    unsafe {
        chelmesut_inspect(
            file.as_ptr(),
            file.len(),
            page,
            limits.max_input,
            limits.max_output,
            limits.max_dimension,
            limits.max_directories,
            limits.max_tags,
            limits.max_segments,
            budget,
            handle,
        )
    }
}

pub fn decode(
    file: &[u8],
    page: u64,
    limits: &Limits,
    handle: &[u64; HANDLE_WORDS],
    budget: &mut u64,
    output: &mut [u8],
    scratch: &mut [u8],
) -> u64 {
    // SAFETY: slices and references of Rust, see above.
    unsafe {
        chelmesut_decode(
            file.as_ptr(),
            file.len(),
            page,
            limits.max_input,
            limits.max_output,
            limits.max_dimension,
            limits.max_directories,
            limits.max_tags,
            limits.max_segments,
            handle,
            budget,
            output.as_mut_ptr(),
            output.len(),
            scratch.as_mut_ptr(),
            scratch.len(),
        )
    }
}

pub fn read_patchy(
    file: &[u8],
    map: &[u8],
    page: u64,
    limits: &Limits,
    budget: &mut u64,
    output: &mut [u8],
    scratch: &mut [u8],
    quality: &mut [u8],
    answer: &mut [u64; ANSWER_WORDS],
) -> u64 {
    // SAFETY: slices and references of Rust, see above.
    unsafe {
        chelmesut_read_patchy(
            file.as_ptr(),
            file.len(),
            map.as_ptr(),
            map.len(),
            page,
            limits.max_input,
            limits.max_output,
            limits.max_dimension,
            limits.max_directories,
            limits.max_tags,
            limits.max_segments,
            budget,
            output.as_mut_ptr(),
            output.len(),
            scratch.as_mut_ptr(),
            scratch.len(),
            quality.as_mut_ptr(),
            quality.len(),
            answer,
        )
    }
}

pub fn work_limit(page: u64, limits: &Limits, limit: &mut u64) -> u64 {
    // SAFETY: numbers and a reference of Rust, see above.
    unsafe {
        chelmesut_work_limit(
            page,
            limits.max_input,
            limits.max_output,
            limits.max_dimension,
            limits.max_directories,
            limits.max_tags,
            limits.max_segments,
            limit,
        )
    }
}

pub fn receive_start(
    file: &mut [u8],
    map: &mut [u8],
    receiver: &mut [u64; RECEIVER_WORDS],
    length: u64,
) -> u64 {
    // SAFETY: numbers, slices and a reference of Rust, see above.
    unsafe {
        chelmesut_receive_start(
            file.as_mut_ptr(),
            file.len(),
            map.as_mut_ptr(),
            map.len(),
            receiver,
            length,
        )
    }
}

pub fn receive_block(
    file: &mut [u8],
    map: &mut [u8],
    receiver: &mut [u64; RECEIVER_WORDS],
    number: u64,
    bytes: &[u8],
) -> u64 {
    // SAFETY: numbers, slices and a reference of Rust, see above.
    unsafe {
        chelmesut_receive_block(
            file.as_mut_ptr(),
            file.len(),
            map.as_mut_ptr(),
            map.len(),
            receiver,
            number,
            bytes.as_ptr(),
            bytes.len(),
        )
    }
}

pub fn replay(
    trace: &[u8],
    file: &mut [u8],
    map: &mut [u8],
    receiver: &mut [u64; RECEIVER_WORDS],
) -> u64 {
    // SAFETY: slices and a reference of Rust, see above.
    unsafe {
        chelmesut_replay(
            trace.as_ptr(),
            trace.len(),
            file.as_mut_ptr(),
            file.len(),
            map.as_mut_ptr(),
            map.len(),
            receiver,
        )
    }
}

pub fn predictor64(
    raw: &[u8],
    width: u64,
    height: u64,
    channels: u64,
    reset_width: u64,
    little_endian: bool,
    predict: bool,
    output: &mut [u8],
) -> u64 {
    // SAFETY: numbers and slices of Rust, see above.
    unsafe {
        chelmesut_predictor64(
            raw.as_ptr(),
            raw.len(),
            width,
            height,
            channels,
            reset_width,
            little_endian,
            predict,
            output.as_mut_ptr(),
            output.len(),
        )
    }
}

pub fn predictor3(
    raw: &[u8],
    row: u64,
    channels: u64,
    sample_bytes: u64,
    little_endian: bool,
    scratch: &mut [u8],
    output: &mut [u8],
) -> u64 {
    // SAFETY: numbers and slices of Rust, see above.
    unsafe {
        chelmesut_predictor3(
            raw.as_ptr(),
            raw.len(),
            row,
            channels,
            sample_bytes,
            little_endian,
            scratch.as_mut_ptr(),
            scratch.len(),
            output.as_mut_ptr(),
            output.len(),
        )
    }
}

/// What the safe functions above this module cannot show: after a refusal words that were lent for
/// an answer stay.
#[cfg(test)]
mod tests {
    use super::*;

    const STOOD: u64 = 0xA5A5_A5A5_A5A5_A5A5;

    #[test]
    fn a_refused_inspection_leaves_the_handle() {
        let mut handle = [STOOD; HANDLE_WORDS];
        let number = inspect(b"II*", 0, &Limits::camera(), &mut 1000, &mut handle);
        assert_eq!((number, handle), (1, [STOOD; HANDLE_WORDS]));
    }

    #[test]
    fn a_refused_reading_leaves_the_answer() {
        let mut answer = [STOOD; ANSWER_WORDS];
        let number = read_patchy(
            b"II*",
            &[1],
            0,
            &Limits::camera(),
            &mut 1000,
            &mut [],
            &mut [],
            &mut [],
            &mut answer,
        );
        assert_eq!((number, answer), (1, [STOOD; ANSWER_WORDS]));
    }

    #[test]
    fn a_work_limit_above_a_word_leaves_the_limit() {
        let mut limit = STOOD;
        let limits = Limits {
            max_input: u64::MAX,
            ..Limits::camera()
        };
        assert_eq!((work_limit(0, &limits, &mut limit), limit), (4, STOOD));
    }
}
