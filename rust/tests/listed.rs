//! The listed Rust over its stand-ins, alone.
#![cfg(listed)]

use core_trace::listed::convert;
use core_trace::listed::stand_ins::field::{Felt, P};
use core_trace::listed::whole;
use core_trace::overflow::{invert_deep_halts, overflow_rule};
use core_trace::profile::EXAMPLE;
use core_trace::random::{DEPTHS, Rng};
use core_trace::{calls, listing};

/// C10: the listing of document 01.
#[test]
fn listing() {
    let data = whole::trace(&listing::run(9), listing::HEIGHT).unwrap();
    let table = listing::table(&EXAMPLE, whole::rows(&data));
    println!("{table}");
    assert_eq!(table, listing::TABLE);
}

/// The stand-in field against 128-bit remainders.
#[test]
fn field() {
    let rng = Rng::new(5);
    for _ in 0..100_000 {
        let (a, b) = (rng.cell(), rng.cell());
        let (x, y) = (convert::felt(a), convert::felt(b));
        let modulo = |n: u128| Felt::new_unchecked((n % u128::from(P)) as u64);
        assert_eq!(x + y, modulo(u128::from(a) + u128::from(b)));
        assert_eq!(x - y, modulo(u128::from(a) + u128::from(P) - u128::from(b)));
        assert_eq!(x * y, modulo(u128::from(a) * u128::from(b)));
    }
    for a in [1, 2, 3, P - 1, 1 << 32, 0xffff_ffff] {
        assert_eq!(convert::felt(a) * convert::felt(a).inverse(), convert::felt(1));
    }
    assert_eq!(convert::felt(2).inverse(), convert::felt(9223372034707292161));
}

/// N4: from depth 18 up the HALT rows of the listed Rust break the overflow rule; with their helpers inverted they keep it.
#[test]
fn halts_break_the_overflow_rule() {
    for depth in DEPTHS {
        let mut run = listing::run(9);
        run.cycles_from_last().next().unwrap().stack.stack_depth = depth;
        let listed: Vec<u64> = whole::rows(&whole::trace(&run, 12).unwrap()).flatten().collect();
        let mut documented = listed.clone();
        invert_deep_halts(&mut documented);
        assert_eq!(overflow_rule(&documented), Ok(12));
        let changed: Vec<usize> = (0..listed.len()).filter(|&at| listed[at] != documented[at]).collect();
        let helpers = [9, 10, 11].map(|row| row * 49 + 48);
        assert!(helpers.iter().all(|&at| listed[at] == u64::from(depth) - 16));
        if depth < 18 {
            assert!(overflow_rule(&listed).is_ok() && changed.is_empty());
        } else {
            assert!(overflow_rule(&listed).is_err_and(|text| text.starts_with("row 9 ")) && changed == helpers);
        }
    }
}

/// C2 and C3.
#[test]
fn helpers() {
    let split = |lo, hi| convert::registers(calls::Registers { case: 2, cells: [lo, hi, 0, 0, 0, 0] }).to_user_op_helpers();
    assert_eq!(split(65538, 4294967295), [2, 1, 65535, 65535, 0, 0].map(convert::felt));
    assert_eq!(split(65538, 4294967294)[4], convert::felt(1));
}
