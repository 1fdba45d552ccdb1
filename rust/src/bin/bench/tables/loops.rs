//! Pass 2 beside a map and the finisher beside a copy, by how the loops lie.

use std::hint::black_box;

use core_trace::exports::{BUILT, WIDTH, finish, set_loop_body_multiplicities};
use core_trace::loops::{Order, count_by_map, loop_counts, loop_rows};
use core_trace::profile::EXAMPLE;

use super::aims::{Aim, Aims};
use super::memory::Memory;
use super::rounds::{Times, count, line, ns, power, rounds, section};

const TEXT: &str = "Pass 2 (`core_multiplicities`) beside counting with a map in plain Rust (`rust/src/loops.rs`), and the finisher beside a copy of the \
rows into a buffer that is there. The first of each 8 (or 1,024) rows is a LOOP, the fifth a flagged END; the others are operations of any opcode. The \
loops of the first three orders nest, as those of a proper run do. *In order*: the addresses behind the LOOP rows rise, each END is that of the LOOP \
before it, and the LOOP rows hold 0, as replay leaves them. *Nested, addresses fall*: the same rows, but for the addresses, which fall from LOOP to \
LOOP. *Counted before*: in order, but the last LOOP row holds a number already. Those of the other orders do not nest. \
*Shuffled*: the addresses behind LOOPs and behind ENDs are random permutations. *Early* and *late END*: in order, but for one more flagged END in the \
third row, or in the last but one. The map reads its cells modulo p. Fragments of 1,024 rows, helper \
cells below 1,024, a height of one more than the rows. Nanoseconds a row.";
const COLUMNS: &str = "order | LOOP every | rows | pass 2 | map | `finish` | copy | pass 2 / map | `finish` / copy";
const PASS: usize = 0;
const MAP: usize = 1;
const FINISH: usize = 2;
const COPY: usize = 3;
const FRAGMENT: usize = 1 << 10;

const RISING: Aim = Aim { text: "pass 2 / map from 2^14 rows up, in order (addresses rise)", limit: 1.0, on_most: false };
const BY_TABLES: Aim = Aim { text: "pass 2 / map from 2^14 rows up, nested, addresses fall, counted before", limit: 1.0, on_most: false };
const UNNESTED: Aim = Aim { text: "pass 2 / map from 2^14 rows up, shuffled, early END, late END", limit: 1.0, on_most: false };
const RISING_FINISH: Aim = Aim { text: "`finish` / copy at 2^18 rows, in order (addresses rise)", limit: 1.5, on_most: false };
const BY_TABLES_FINISH: Aim =
    Aim { text: "`finish` / copy at 2^18 rows, nested, addresses fall, counted before", limit: 1.5, on_most: false };
const UNNESTED_FINISH: Aim = Aim { text: "`finish` / copy at 2^18 rows, shuffled, early END, late END", limit: 1.5, on_most: false };

/// Rows to measure on, and what the finisher is handed with them.
struct Rows {
    rows: usize,
    start: Vec<u64>,
    counts: Vec<u32>,
    built: Vec<u64>,
}

impl Rows {
    fn new(log: usize, every: usize, order: Order) -> Self {
        let rows = (1 << log) - 1;
        let mut start = loop_rows(&EXAMPLE, rows, every, order);
        start.resize((rows + 1) * WIDTH, 0);
        let counts: Vec<u32> = (0..rows).step_by(FRAGMENT).map(|row| (rows - row).min(FRAGMENT) as u32).collect();
        Self { rows, start, built: vec![16; BUILT * counts.len()], counts }
    }

    /// One of the three on a copy of the rows; answers the counts of the LOOP rows.
    fn work(&self, k: usize, cells: &mut [u64], times: &mut Times<4>) -> Vec<u64> {
        let Self { rows, counts, built, .. } = self;
        times.of(k, || match k {
            PASS => set_loop_body_multiplicities(EXAMPLE, black_box(cells), *rows).unwrap(),
            MAP => count_by_map(&EXAMPLE, black_box(cells), *rows).unwrap(),
            _ => finish(EXAMPLE, black_box(cells), FRAGMENT, counts, built, &[5; 16], rows + 1).unwrap(),
        });
        loop_counts(&EXAMPLE, cells, *rows)
    }

    fn round(&self, cells: &mut [u64], times: &mut Times<4>) {
        times.of(COPY, || black_box(&mut *cells).copy_from_slice(black_box(&self.start)));
        let wanted = self.work(PASS, cells, times);
        for k in [MAP, FINISH] {
            cells.copy_from_slice(&self.start);
            assert!(self.work(k, cells, times) == wanted, "the three differ");
        }
    }
}

fn measure(log: usize, every: usize, order: Order, rounds: usize) -> Times<4> {
    let rows = Rows::new(log, every, order);
    let mut cells = rows.start.clone();
    let mut times = Times::new();
    (0..rounds).for_each(|_| rows.round(&mut cells, &mut times));
    let [a, b, c, d] = [PASS, MAP, FINISH, COPY].map(|k| ns(times.median(k, rows.rows)));
    let [p, q] = [(PASS, MAP), (FINISH, COPY)].map(|(i, j)| times.ratio(i, j).to_string());
    line([name(order).into(), count(every), power(log), a, b, c, d, p, q]);
    times
}

fn name(order: Order) -> &'static str {
    match order {
        Order::InOrder => "in order (addresses rise)",
        Order::Falling => "nested, addresses fall",
        Order::Counted => "counted before",
        Order::Shuffled => "shuffled",
        Order::EarlyEnd => "early END",
        Order::LateEnd => "late END",
    }
}

/// The aims of pass 2 and of the finisher.
fn aims_of(order: Order) -> (Aim, Aim) {
    match order {
        Order::InOrder => (RISING, RISING_FINISH),
        Order::Falling | Order::Counted => (BY_TABLES, BY_TABLES_FINISH),
        Order::Shuffled | Order::EarlyEnd | Order::LateEnd => (UNNESTED, UNNESTED_FINISH),
    }
}

fn hold(log: usize, every: usize, order: Order, times: &Times<4>, aims: &mut Aims) {
    let line = format!("{}, LOOP every {}, {} rows", name(order), count(every), power(log));
    let (pass, finish) = aims_of(order);
    if log >= 14 {
        aims.hold(pass, &line, times.ratio(PASS, MAP).medians);
    }
    if log == 18 {
        aims.hold(finish, &line, times.ratio(FINISH, COPY).medians);
    }
}

/// The logarithms of rows for such loops.
fn logs(order: Order, every: usize) -> &'static [usize] {
    match (order, every) {
        (Order::InOrder, _) => &[10, 12, 14, 16, 18, 20],
        (_, 8) => &[14, 18, 20],
        _ => &[18],
    }
}

pub fn print(most: usize, aims: &mut Aims) {
    Memory::Kept.set();
    section("Pass 2 and the finisher", TEXT, COLUMNS);
    for (order, every) in Order::ALL.into_iter().flat_map(|order| [(order, 8), (order, 1024)]) {
        logs(order, every).iter().filter(|&&log| log <= most).for_each(|&log| {
            let times = measure(log, every, order, rounds(log));
            hold(log, every, order, &times, aims);
        });
    }
}

pub fn once(log: usize, every: usize, order: &str) {
    let order =
        Order::ALL.into_iter().find(|o| format!("{o:?}") == order).expect("InOrder, Falling, Counted, Shuffled, EarlyEnd or LateEnd");
    measure(log, every, order, 1);
}
