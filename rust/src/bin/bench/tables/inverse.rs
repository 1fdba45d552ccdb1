//! The inverse of a number, and that of a column: pass 3 by what stands in the helper cells.

use std::hint::black_box;

use core_trace::exports::{MODULUS, WIDTH, inverse, invert_helper_column};
use core_trace::listed::convert::felt;
use core_trace::listed::parallel::{CORE_STORAGE_WIDTH, passes};
use core_trace::listed::stand_ins::field::Felt;
use core_trace::listed::whole;
use core_trace::overflow::is_inverse;
use core_trace::random::Rng;

use super::aims::Aims;
use super::memory::Memory;
use super::rounds::{Times, columns_of, line, ns, power, rounds, section};

const TEXT: &str = "`inverse` of one number, beside the power p − 2 that stands in for the listed Rust's (1,024 random numbers in each time; nanoseconds \
a number). Then pass 3 (`core_invert_helper_column`), beside that of the listed Rust, which inverts the product of 1,024 helpers at a time, and a copy \
of the rows into a buffer that is there (nanoseconds a row).";
const NUMBERS: usize = 1024;
const NUMBER_ROUNDS: usize = 101;
const FRAGMENT: usize = 1 << 10;
const PROVED: usize = 0;
const LISTED: usize = 1;
const COPY: usize = 2;

fn one_number(kind: &str, least: u64, limit: u64) {
    let rng = Rng::new(7);
    let numbers: Vec<u64> = (0..NUMBERS).map(|_| least + rng.next() % (limit - least)).collect();
    let (mut ours, mut listed) = (vec![0; NUMBERS], Felt::zero_vec(NUMBERS));
    let mut times = Times::<2>::new();
    for _ in 0..NUMBER_ROUNDS {
        times.of(PROVED, || ours.iter_mut().zip(black_box(&numbers)).for_each(|(to, &x)| *to = inverse(x).unwrap()));
        times.of(LISTED, || listed.iter_mut().zip(black_box(&numbers)).for_each(|(to, &x)| *to = felt(x).inverse()));
        assert!(ours.iter().zip(&numbers).all(|(&y, &x)| is_inverse(y, x)), "no inverse");
        assert!(ours.iter().zip(&listed).all(|(y, z)| *y == z.as_canonical_u64()), "the two differ");
    }
    let [a, b] = [PROVED, LISTED].map(|k| ns(times.median(k, NUMBERS)));
    line([kind.into(), a, b, times.ratio(PROVED, LISTED).to_string()]);
}

/// The same rows as the listed Rust has them.
fn listed_rows(cells: &[u64]) -> Vec<Felt> {
    let beside = [0; CORE_STORAGE_WIDTH - WIDTH];
    cells.chunks(WIDTH).flat_map(|row| row.iter().chain(&beside).map(|&cell| felt(cell))).collect()
}

/// Holds both sides to each other, and each helper to the one before.
fn check(start: &[u64], cells: &[u64], data: &[Felt]) {
    assert!(cells.chunks(WIDTH).zip(whole::rows(data)).all(|(ours, listed)| ours == listed), "the two differ");
    let mut helpers = start.chunks(WIDTH).zip(cells.chunks(WIDTH)).map(|(before, after)| (before[WIDTH - 1], after[WIDTH - 1]));
    assert!(helpers.all(|(before, after)| is_inverse(after, before)), "no inverse");
}

fn column(kind: &str, limit: u64, log: usize) {
    let (rows, rng) = (1 << log, Rng::new(7));
    let start: Vec<u64> = (0..rows * WIDTH).map(|_| rng.next() % limit).collect();
    let (mut cells, listed) = (start.clone(), listed_rows(&start));
    let mut data = listed.clone();
    let mut times = Times::<3>::new();
    for _ in 0..rounds(log) {
        times.of(COPY, || black_box(&mut cells).copy_from_slice(black_box(&start)));
        times.of(PROVED, || invert_helper_column(black_box(&mut cells), rows).unwrap());
        data.copy_from_slice(&listed);
        times.of(LISTED, || passes::invert(black_box(&mut data), FRAGMENT, rows));
        check(&start, &cells, &data);
    }
    let [a, b, c] = [PROVED, LISTED, COPY].map(|k| ns(times.median(k, rows)));
    let [p, q] = [LISTED, COPY].map(|k| times.ratio(PROVED, k).to_string());
    line([kind.into(), power(log), a, b, c, p, q]);
}

pub fn print(most: usize, _: &mut Aims) {
    Memory::Kept.set();
    section("The inverse and pass 3", TEXT, "number | `inverse` | power p − 2 | `inverse` / power");
    one_number("1 to 127", 1, 128);
    one_number("128 to 1,023", 128, 1024);
    one_number("below 2^32", 1, 1 << 32);
    one_number("any", 1, MODULUS);
    columns_of("helper cells | rows | pass 3 | listed | copy | pass 3 / listed | pass 3 / copy");
    let logs = || [10, 14, 18, 20].into_iter().filter(|&log| log <= most);
    logs().for_each(|log| column("below 1,024", 1024, log));
    logs().for_each(|log| column("any", MODULUS, log));
}
