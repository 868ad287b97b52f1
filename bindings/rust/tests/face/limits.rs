//! The six limits, in every call that takes them, and the work limit.

use crate::files::*;
use chelmesut::{
    decode, inspect, read_patchy, work_limit, Budget, ByteOrder, Handle, Limits, Refusal,
};

fn inspected(file: &[u8], limits: &Limits) -> Result<Handle, Refusal> {
    inspect(file, 0, limits, &mut Budget { remaining: PLENTY })
}

fn decoded(file: &[u8], limits: &Limits, handle: &Handle) -> Result<(), Refusal> {
    let mut budget = Budget { remaining: PLENTY };
    let lent = (&mut [0; 210], &mut [0; 140]);
    decode(file, 0, limits, handle, &mut budget, lent.0, lent.1)
}

fn patchy(file: &[u8], limits: &Limits) -> Result<(), Refusal> {
    let mut budget = Budget { remaining: PLENTY };
    let lent = (&mut [0; 210], &mut [0; 140], &mut [0; 3]);
    read_patchy(file, &[1], 0, limits, &mut budget, lent.0, lent.1, lent.2).map(drop)
}

#[test]
fn each_limit_is_met_exactly_and_bounds_what_it_names() {
    let file = three_strips(ByteOrder::Little);
    // Six different numbers, so that no two can stand for one another.
    let exact = Limits {
        max_input: file.len() as u64,
        max_output: 210,
        max_dimension: 7,
        max_directories: 1,
        max_tags: ENTRIES,
        max_segments: 3,
    };
    let handle = inspected(&file, &exact).unwrap();
    assert_eq!(decoded(&file, &exact, &handle), Ok(()));
    assert_eq!(patchy(&file, &exact), Ok(()));

    let lower: [fn(&mut Limits); 6] = [
        |limits| limits.max_input -= 1,
        |limits| limits.max_output -= 1,
        |limits| limits.max_dimension -= 1,
        |limits| limits.max_directories -= 1,
        |limits| limits.max_tags -= 1,
        |limits| limits.max_segments -= 1,
    ];
    for (place, lower) in lower.iter().enumerate() {
        let mut limits = exact;
        lower(&mut limits);
        let refusal = match place {
            2 => Refusal::Unsupported,
            _ => Refusal::Limit,
        };
        assert_eq!(inspected(&file, &limits), Err(refusal));
        assert_eq!(decoded(&file, &limits, &handle), Err(Refusal::Invalid));
        assert_eq!(patchy(&file, &limits), Err(refusal));
    }
}

#[test]
fn the_work_limit_is_the_formula_of_rule_5_7_or_too_large() {
    let limits = Limits {
        max_input: 1000,
        max_output: 600,
        max_dimension: 9,
        max_directories: 5,
        max_tags: 20,
        max_segments: 7,
    };
    assert_eq!(work_limit(3, &limits), Ok(4 * 21 + 128 + 7 * 2201));
    let mut one = Limits {
        max_input: 0,
        max_output: 0,
        max_tags: 0,
        max_segments: 1,
        ..limits
    };
    one.max_input = u64::MAX - 130;
    assert_eq!(work_limit(0, &one), Ok(u64::MAX));
    one.max_input += 1;
    assert_eq!(work_limit(0, &one), Err(Refusal::Limit));
    one.max_segments = 0;
    assert_eq!(work_limit(0, &one), Ok(129));
    assert_eq!(work_limit(u64::MAX, &limits), Err(Refusal::Limit));
}
