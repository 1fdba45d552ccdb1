//! Writing and reading dumps beside plain Rust.

use std::hint::black_box;

use core_trace::dump;
use core_trace::exports::{WIDTH, dump_size, read_dump, write_dump};
use core_trace::overflow::overflow_rule;
use core_trace::random::Rng;

use super::aims::Aims;
use super::both::Both;
use super::memory::Memory;
use super::rounds::{Times, count, line, ns, power, rounds, section};

const TEXT: &str = "`write_dump` and `read_dump` beside a writer and a reader in plain Rust (`rust/src/dump.rs`: formatting into a list of bytes; \
splitting into lines), which allocate what they make. *Typical* rows are those of a finished trace whose stack holds random cells, *constant* rows are \
all equal, *random* rows have random numbers in every cell. Nanoseconds a row.";
const COLUMNS: &str =
    "rows are | rows | bytes a row | `write_dump` | plain | `write_dump` / plain | `read_dump` | plain | `read_dump` / plain";
const WRITE: usize = 0;
const PLAIN_WRITE: usize = 1;
const READ: usize = 2;
const PLAIN_READ: usize = 3;

/// A finished trace of so many rows.
fn trace(rows: usize) -> Vec<u64> {
    let cells = Both::new(10, rows - 1, rows, rows).proved();
    overflow_rule(&cells).unwrap();
    cells
}

fn round(cells: &[u64], text: &mut [u8], back: &mut [u64], times: &mut Times<4>) {
    let bytes = times.of(WRITE, || write_dump(black_box(cells), text));
    let wanted = times.of(PLAIN_WRITE, || black_box(dump::text_of(black_box(cells))));
    assert!(bytes == Ok(wanted.len()) && *text == wanted, "the two differ");
    let read = times.of(READ, || read_dump(black_box(text), back));
    let wanted = times.of(PLAIN_READ, || black_box(dump::cells_of(black_box(text))));
    assert!(read == Ok(cells.len() / WIDTH) && wanted.is_some_and(|cells| cells == back), "the two differ");
}

fn measure(kind: &str, log: usize, cells: &[u64]) {
    let rows = 1 << log;
    let mut text = vec![0; dump_size(cells).expect("whole rows")];
    let mut back = vec![0; cells.len()];
    let mut times = Times::new();
    // A row takes microseconds here, so fewer rounds will do.
    (0..rounds(log + 3).min(25)).for_each(|_| round(cells, &mut text, &mut back, &mut times));
    let [a, b, c, d] = [WRITE, PLAIN_WRITE, READ, PLAIN_READ].map(|k| ns(times.median(k, rows)));
    let [p, q] = [(WRITE, PLAIN_WRITE), (READ, PLAIN_READ)].map(|(i, j)| times.ratio(i, j).to_string());
    line([kind.into(), power(log), count(text.len() / rows), a, b, p, c, d, q]);
}

fn typical(log: usize) {
    measure("typical", log, &trace(1 << log));
}

fn constant(log: usize) {
    measure("constant", log, &trace(2)[..WIDTH].repeat(1 << log));
}

fn random(log: usize) {
    let rng = Rng::new(7);
    measure("random", log, &(0..WIDTH << log).map(|_| rng.next()).collect::<Vec<_>>());
}

pub fn print(most: usize, _: &mut Aims) {
    Memory::Kept.set();
    section("Dumps", TEXT, COLUMNS);
    [10, 14, 17, 20].into_iter().filter(|&log| log <= most).for_each(typical);
    [10, 20].into_iter().filter(|&log| log <= most).for_each(constant);
    // At 2^20 such a dump has 3 GiB.
    [10, 17].into_iter().filter(|&log| log <= most).for_each(random);
}
