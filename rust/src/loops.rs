//! Loop multiplicities, the second pass, in plain Rust: the counts by a map, whether the library counts without tables, and rows to try the pass on.

use std::collections::BTreeMap;

use crate::exports::{MODULUS, WIDTH};
use crate::profile::Profile;
use crate::random::{Rng, operation};

const ADDR: usize = 6;
const OP_BITS: usize = 7;
const H4: usize = 18;
const GROUP_COUNT: usize = 23;
const HELPER: usize = 48;
/// How many open LOOP rows the library keeps.
const MOST_OPEN: usize = 64;
/// So many rows have 5,000 loops where each eighth is a LOOP row: more than the 4,096 that a table of pass 2 has room for.
pub const MANY_ROWS: usize = 40_000;

fn cell(cells: &[u64], row: usize, column: usize) -> u64 {
    cells[row * WIDTH + column] % MODULUS
}

fn opcode(cells: &[u64], row: usize) -> u8 {
    (0..7).map(|bit| ((cell(cells, row, OP_BITS + bit) & 1) as u8) << bit).sum()
}

fn is_flagged_end(profile: &Profile, cells: &[u64], row: usize) -> bool {
    opcode(cells, row) == profile.end && cell(cells, row, H4) == 1
}

/// Each LOOP row but the last row gets the number of flagged ENDs whose successor has its successor's address. Where that is 0 for one of them,
/// nothing is said, and some rows may hold their counts. Both sweeps read each cell modulo p, as the library must; the listed Rust's
/// own pass reads field elements, and stands beside the library's in the bench's table of passes.
#[inline(never)]
pub fn count_by_map(profile: &Profile, cells: &mut [u64], rows: usize) -> Option<()> {
    let mut counts = BTreeMap::<u64, u64>::new();
    for row in 0..rows.saturating_sub(1) {
        if is_flagged_end(profile, cells, row) {
            *counts.entry(cell(cells, row + 1, ADDR)).or_default() += 1;
        }
    }
    for row in 0..rows.saturating_sub(1) {
        if opcode(cells, row) == profile.loop_op {
            cells[row * WIDTH + GROUP_COUNT] = *counts.get(&cell(cells, row + 1, ADDR))?;
        }
    }
    Some(())
}

/// The counts of the LOOP rows.
pub fn loop_counts(profile: &Profile, cells: &[u64], rows: usize) -> Vec<u64> {
    (0..rows).filter(|&row| opcode(cells, row) == profile.loop_op).map(|row| cells[row * WIDTH + GROUP_COUNT]).collect()
}

/// Whether the library counts in the LOOP rows, without tables. The loops nest: each flagged END ends the innermost open LOOP row's body, at most 64
/// LOOP rows are open at a time and none in the end, as in a proper run. The addresses behind LOOP rows rise, which a proper run's need not, as they
/// are lent. And the LOOP rows hold 0, as replay leaves them.
pub fn counts_in_place(profile: &Profile, cells: &[u64], rows: usize) -> bool {
    let (mut open, mut last) = (Vec::new(), None);
    for row in 0..rows.saturating_sub(1) {
        let next = cell(cells, row + 1, ADDR);
        if is_flagged_end(profile, cells, row) {
            if open.last() != Some(&next) {
                return false;
            }
            if opcode(cells, row + 1) != profile.repeat {
                open.pop();
            }
        } else if opcode(cells, row) == profile.loop_op {
            if open.len() == MOST_OPEN || last >= Some(next) || cells[row * WIDTH + GROUP_COUNT] != 0 {
                return false;
            }
            open.push(next);
            last = Some(next);
        }
    }
    open.is_empty()
}

/// The same rows behind a flagged END, which ends no loop.
pub fn behind_an_end(profile: &Profile, cells: &[u64]) -> Vec<u64> {
    let mut row = vec![0; WIDTH];
    make_flagged_end(profile, &mut row);
    row.extend(cells);
    row
}

/// The same rows, the addresses behind LOOP rows and ENDs, flagged or not, being shuffled.
pub fn shuffled(profile: &Profile, rng: &Rng, cells: &[u64]) -> Vec<u64> {
    let rows = cells.len() / WIDTH;
    let mut made = cells.to_vec();
    let is_one = |row: &usize| [profile.loop_op, profile.end].contains(&opcode(cells, *row));
    let behind: Vec<usize> = (0..rows.saturating_sub(1)).filter(is_one).map(|row| (row + 1) * WIDTH + ADDR).collect();
    for i in (1..behind.len()).rev() {
        made.swap(behind[i], behind[rng.below(i + 1)]);
    }
    made
}

/// The same rows, each address being as far below the greatest as it was above 0: those that rose fall, and equal ones stay equal.
pub fn falling(cells: &[u64]) -> Vec<u64> {
    let mut made = cells.to_vec();
    let greatest = (0..cells.len() / WIDTH).map(|row| cell(cells, row, ADDR)).max().unwrap_or(0);
    made.chunks_mut(WIDTH).for_each(|row| row[ADDR] = greatest - row[ADDR] % MODULUS);
    made
}

fn set_opcode(row: &mut [u64], opcode: u8) {
    (0..7).for_each(|bit| row[OP_BITS + bit] = u64::from(opcode >> bit & 1));
}

/// LOOP's op bits, and the count 0 that replay leaves.
fn make_loop(profile: &Profile, row: &mut [u64]) {
    set_opcode(row, profile.loop_op);
    row[GROUP_COUNT] = 0;
}

fn make_flagged_end(profile: &Profile, row: &mut [u64]) {
    set_opcode(row, profile.end);
    row[H4] = 1;
}

/// Rows of random loops that nest, each passed once or more often; now and then one is left open or over 64 are open, or the LOOP rows hold a number
/// already.
pub fn nested_rows(profile: &Profile, rng: &Rng, rows: usize) -> Vec<u64> {
    let mut cells: Vec<u64> = (0..rows * WIDTH).map(|_| rng.cell()).collect();
    let (mut open, mut addr, mut row) = (Vec::new(), 0, 0);
    let (loops, is_left_open, is_counted) = (rng.pick(&[2, 4, 8]), rng.one_in(8), rng.one_in(8));
    while row + 2 < rows {
        let (this, next) = cells[row * WIDTH..(row + 2) * WIDTH].split_at_mut(WIDTH);
        let must_end = !is_left_open && rows - row <= 2 * open.len() + 4;
        match open.last() {
            Some(&top) if must_end || rng.one_in(4) => {
                make_flagged_end(profile, this);
                next[ADDR] = top;
                let is_repeated = !must_end && rng.one_in(2);
                set_opcode(next, if is_repeated { profile.repeat } else { operation(rng) });
                if !is_repeated {
                    open.pop();
                }
                row += 2;
            }
            _ if !must_end && rng.below(8) < loops => {
                addr += 1 + rng.next() % 9;
                make_loop(profile, this);
                if is_counted {
                    this[GROUP_COUNT] = rng.cell();
                }
                next[ADDR] = addr;
                open.push(addr);
                row += 1;
            }
            _ => {
                set_opcode(this, operation(rng));
                row += 1;
            }
        }
    }
    (row..rows).for_each(|row| set_opcode(&mut cells[row * WIDTH..(row + 1) * WIDTH], operation(rng)));
    cells
}

/// How the loops of rows lie.
#[derive(Clone, Copy, Debug, PartialEq, Eq)]
pub enum Order {
    /// The addresses behind the LOOP rows rise, and each END is that of the LOOP row before it.
    InOrder,
    /// The loops nest in the same way, but the addresses behind the LOOP rows fall.
    Falling,
    /// In order, but the last LOOP row holds a number already.
    Counted,
    /// Both are random permutations, so that the loops do not nest.
    Shuffled,
    /// In order, but for one more flagged END in the third row.
    EarlyEnd,
    /// In order, but for one more flagged END in the last row but one.
    LateEnd,
}

impl Order {
    pub const ALL: [Self; 6] = [Self::InOrder, Self::Falling, Self::Counted, Self::Shuffled, Self::EarlyEnd, Self::LateEnd];
}

/// Rows with a LOOP row in the first of each `every`, its address in the second, a flagged END in the fifth and its address in the sixth. The
/// other rows are operations of any opcode, helper cells are below 1,024, the LOOP rows hold 0, and the cells left are random below p.
pub fn loop_rows(profile: &Profile, rows: usize, every: usize, order: Order) -> Vec<u64> {
    let rng = Rng::new(7);
    let mut cells: Vec<u64> = (0..rows * WIDTH).map(|_| rng.next() % MODULUS).collect();
    for (i, row) in cells.chunks_mut(WIDTH).enumerate() {
        let addr = 1 + 16 * (i / every) as u64;
        row[HELPER] = rng.next() % 1024;
        match i % every {
            0 => make_loop(profile, row),
            4 => make_flagged_end(profile, row),
            _ => set_opcode(row, operation(&rng)),
        }
        row[ADDR] = if matches!(i % every, 1 | 5) { addr } else { 2 + i as u64 };
    }
    match order {
        Order::InOrder => {}
        Order::Falling => cells = falling(&cells),
        Order::Counted => cells[(rows - 1) / every * every * WIDTH + GROUP_COUNT] = 1,
        Order::Shuffled => shuffle_pairs(&rng, &mut cells, every),
        Order::EarlyEnd => make_flagged_end(profile, &mut cells[2 * WIDTH..3 * WIDTH]),
        Order::LateEnd => make_flagged_end(profile, &mut cells[(rows - 2) * WIDTH..(rows - 1) * WIDTH]),
    }
    cells
}

/// Shuffles the addresses behind LOOP rows, and those behind ENDs by themselves, so that each LOOP row keeps an END.
fn shuffle_pairs(rng: &Rng, cells: &mut [u64], every: usize) {
    let groups = cells.len() / WIDTH / every;
    for behind in [1, 5] {
        let place = |k: usize| (k * every + behind) * WIDTH + ADDR;
        (1..groups).rev().for_each(|k| cells.swap(place(k), place(rng.below(k + 1))));
    }
}
