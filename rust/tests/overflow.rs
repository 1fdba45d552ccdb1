//! The overflow rule in plain Rust alone.

use core_trace::overflow::{DEPTH, HELPER, inverse, invert_deep_halts, is_deep_halt, is_inverse, overflow_rule};
use core_trace::profile::EXAMPLE;
use core_trace::random::Rng;
use core_trace::words::row;

const P: u64 = 18446744069414584321;
const HALF: u64 = 9223372034707292161;

/// A HALT row with a depth and a helper.
fn halt(depth: u64, helper: u64) -> [u64; 49] {
    let mut cells = row(EXAMPLE.halt, 0);
    (cells[DEPTH], cells[HELPER]) = (depth, helper);
    cells
}

#[test]
fn inverses() {
    for (number, wanted) in [(0, 0), (1, 1), (2, HALF), (P - 1, P - 1), (P, 0), (P + 1, 1), (P + 2, HALF)] {
        assert_eq!(inverse(number), wanted);
    }
    let rng = Rng::new(6);
    for number in (0..1000).map(|_| rng.next()).chain([1023, 1024, 4294967279, u64::MAX]) {
        let found = inverse(number);
        assert_eq!(u128::from(found) * u128::from(number) % u128::from(P), 1);
        assert!(is_inverse(found, number));
        assert!(!is_inverse((found + 1) % P, number));
    }
}

/// An inverse is below p; 0 and p have none but 0.
#[test]
fn no_inverses() {
    for (cell, number) in [(P + 1, 1), (1, 0), (P, 0), (1, P), (0, 1), (0, P + 1), (2, 2), (HALF + 1, 2)] {
        assert!(!is_inverse(cell, number), "{cell}, {number}");
    }
}

#[test]
fn rule() {
    let good = [halt(16, 0), halt(17, 1), halt(18, HALF), halt(P + 16, 0), halt(P + 18, HALF), halt(1039, inverse(1023))];
    assert_eq!(overflow_rule(good.as_flattened()), Ok(6));
    for (depth, helper) in [(16, 1), (16, P), (17, 0), (17, P + 1), (18, 2), (18, 0), (1039, 1023), (15, 0), (15, P - 1), (0, 0), (P, 0)] {
        let cells = [good[0], good[1], halt(depth, helper), good[2]];
        assert!(overflow_rule(cells.as_flattened()).is_err_and(|text| text.starts_with("row 2 ")), "{depth}, {helper}");
    }
}

/// What the comparison leaves out: HALT rows from depth 18 up, no other rows and no operation with HALT's opcode.
#[test]
fn deep_halts() {
    for depth in [18, 19, 1039, 4294967295] {
        assert!(is_deep_halt(&halt(depth, depth - 16)));
    }
    let with_depth = |mut cells: [u64; 49], depth: u64| {
        (cells[DEPTH], cells[HELPER]) = (depth, depth - 16);
        cells
    };
    let others = EXAMPLE.opcodes().into_iter().filter(|&opcode| opcode != EXAMPLE.halt).map(|opcode| with_depth(row(opcode, 0), 18));
    let others: Vec<_> = others.chain([halt(16, 0), halt(17, 1), with_depth(row(EXAMPLE.halt, 1), 18)]).collect();
    assert!(others.iter().all(|cells| !is_deep_halt(cells)));
    // Just their helpers are the documentation's.
    let mut cells = [&others[..], &[halt(18, 2)], &others].concat();
    invert_deep_halts(cells.as_flattened_mut());
    assert_eq!(cells, [&others[..], &[halt(18, HALF)], &others].concat());
}
