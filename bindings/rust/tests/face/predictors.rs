//! The two predictors: rules 10.11 and 10.12, orders, prediction, and every refusal.

use crate::files::{BOTH, STALE};
use chelmesut::{predictor3, predictor64, ByteOrder, Refusal};

#[test]
fn the_case_of_rule_10_11() {
    let samples = [u64::MAX, 2];
    for order in BOTH {
        let raw = samples.map(|sample| match order {
            ByteOrder::Little => sample.to_le_bytes(),
            ByteOrder::Big => sample.to_be_bytes(),
        });
        let mut output = [STALE; 19];
        predictor64(&raw.concat(), 2, 1, 1, 2, order, true, &mut output).unwrap();
        assert_eq!(output[..8], u64::MAX.to_le_bytes());
        assert_eq!(output[8..16], 1u64.to_le_bytes());
        assert_eq!(output[16..], [STALE; 3]);

        predictor64(&raw.concat(), 2, 1, 1, 2, order, false, &mut output).unwrap();
        assert_eq!(output[8..16], 2u64.to_le_bytes());
        predictor64(&raw.concat(), 2, 1, 1, 1, order, true, &mut output).unwrap();
        assert_eq!(output[8..16], 2u64.to_le_bytes());
    }
}

#[test]
fn predictor_64_sums_each_row_and_channel_by_itself() {
    let raw: Vec<u8> = (1..=12u64).flat_map(u64::to_be_bytes).collect();
    let mut output = [0; 96];
    predictor64(&raw, 3, 2, 2, 3, ByteOrder::Big, true, &mut output).unwrap();
    let expected: Vec<u8> = [1u64, 2, 4, 6, 9, 12, 7, 8, 16, 18, 27, 30]
        .iter()
        .flat_map(|sample| sample.to_le_bytes())
        .collect();
    assert_eq!(output[..], expected);
}

#[test]
fn predictor_64_refuses_in_the_order_of_rule_9_1() {
    let huge = 1 << 31;
    for ((width, height, channels, reset), raw_len, output_len, refusal) in [
        ((0, 0, 0, 0), 0, 0, Refusal::Unsupported),
        ((2, 1, 5, 2), 80, 80, Refusal::Unsupported),
        ((0, 1, 1, 1), 0, 0, Refusal::Invalid),
        ((1, 0, 1, 1), 0, 0, Refusal::Invalid),
        ((2, 1, 1, 0), 16, 16, Refusal::Invalid),
        ((huge, huge, 1, 1), 0, 0, Refusal::Limit),
        ((u64::MAX, u64::MAX, 4, 1), 0, 0, Refusal::Limit),
        ((2, 1, 1, 2), 15, 15, Refusal::Truncated),
        ((2, 1, 1, 2), 16, 15, Refusal::OutputTooSmall),
    ] {
        for predict in [false, true] {
            let raw = vec![1; raw_len];
            let mut output = vec![STALE; output_len];
            let order = ByteOrder::Little;
            let result = predictor64(
                &raw,
                width,
                height,
                channels,
                reset,
                order,
                predict,
                &mut output,
            );
            assert_eq!(result, Err(refusal));
            assert!(output.iter().all(|byte| *byte == STALE));
        }
    }
}

#[test]
fn the_case_of_rule_10_12() {
    for (order, expected) in [
        (ByteOrder::Little, [3, 1, 4, 2]),
        (ByteOrder::Big, [1, 3, 2, 4]),
    ] {
        let mut scratch = [STALE; 6];
        let mut output = [STALE; 7];
        predictor3(&[1; 4], 4, 1, 2, order, &mut scratch, &mut output).unwrap();
        assert_eq!(output[..4], expected);
        assert_eq!(output[4..], [STALE; 3]);
        assert_eq!(scratch[..4], [1, 2, 3, 4]);
        assert_eq!(scratch[4..], [STALE; 2]);
    }
}

#[test]
fn predictor_3_takes_each_row_by_itself() {
    let mut scratch = [0; 16];
    let mut output = [0; 16];
    let raw = [200; 16];
    predictor3(&raw, 8, 2, 2, ByteOrder::Big, &mut scratch, &mut output).unwrap();
    let summed = [200, 200, 144, 144, 88, 88, 32, 32];
    assert_eq!(scratch[..], summed.repeat(2));
    let gathered = [200, 88, 200, 88, 144, 32, 144, 32];
    assert_eq!(output[..], gathered.repeat(2));
}

#[test]
fn predictor_3_refuses_in_the_order_of_rule_9_4() {
    for ((row, channels, bytes), raw_len, scratch_len, output_len, refusal) in [
        ((4, 1, 1), 4, 4, 4, Refusal::Unsupported),
        ((4, 1, 5), 4, 4, 4, Refusal::Unsupported),
        ((4, 0, 2), 4, 4, 4, Refusal::Unsupported),
        ((130, 65, 2), 130, 130, 130, Refusal::Unsupported),
        ((0, 1, 2), 3, 0, 0, Refusal::Unsupported),
        ((3, 1, 2), 3, 0, 0, Refusal::Invalid),
        ((4, 1, 2), 5, 0, 0, Refusal::Invalid),
        ((4, 1, 2), 4, 3, 4, Refusal::OutputTooSmall),
        ((4, 1, 2), 4, 4, 3, Refusal::OutputTooSmall),
    ] {
        let raw = vec![1; raw_len];
        let mut scratch = vec![STALE; scratch_len];
        let mut output = vec![STALE; output_len];
        let order = ByteOrder::Little;
        let result = predictor3(&raw, row, channels, bytes, order, &mut scratch, &mut output);
        assert_eq!(result, Err(refusal));
        assert!(scratch.iter().chain(&output).all(|byte| *byte == STALE));
    }
}

#[test]
fn predictor_3_of_nothing_is_nothing() {
    let order = ByteOrder::Little;
    assert_eq!(predictor3(&[], 4, 1, 2, order, &mut [], &mut []), Ok(()));
}
