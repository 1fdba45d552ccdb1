//! Each pass, and the finisher, beside the same pass of the listed Rust.

use std::hint::black_box;

use core_trace::exports::{
    BUILT, WIDTH, fixup_stack_and_system_rows, invert_helper_column, pad_core_row_major, push_halt_opcode_row, set_loop_body_multiplicities,
};
use core_trace::listed::convert;
use core_trace::listed::parallel::{CORE_STORAGE_WIDTH, passes};
use core_trace::listed::stand_ins::air::{StackCols, SystemCols};
use core_trace::listed::stand_ins::field::Felt;
use core_trace::profile::EXAMPLE;

use super::aims::{Aim, Aims};
use super::both::{Both, Replayed, check_equal};
use super::memory::Memory;
use super::rounds::{Times, line, ns, power, rounds, section};

const TEXT: &str = "The rows of a run over 10 nodes in fragments of 1,024, as replay leaves them: half of the trace's rows, the other half is padded. \
Each pass of the proved library, and the finisher, beside the same pass of the listed Rust, and all five of it; buffers are kept and have room for the \
whole trace. Passes 1 and 4 are repeated inside a time, pass 1 where there are few fragments.";
const FRAGMENT: usize = 1 << 10;
const CALLS: usize = 1000;
/// The works: the five passes and the finisher, and as many of the listed Rust.
const WORKS: usize = 6;
const SECOND: usize = 1;
const FINISH: usize = 5;
const SECOND_AIM: Aim = Aim { text: "pass 2 / listed from 2^14 program rows up", limit: 1.0, on_most: false };
const NAMES: [(&str, &str); WORKS] = [
    ("1: stack and system cells of first rows", "a fragment"),
    ("2: loop counts", "a program row"),
    ("3: helper inverses", "a program row"),
    ("4: first HALT row", "a call"),
    ("5: padding", "a padded row"),
    ("all five (`finish`)", "a row of the trace"),
];

/// The rows of both sides as replay leaves them, and what the passes are handed.
struct Made {
    both: Both,
    left: Replayed,
    cells: Vec<u64>,
    data: Vec<Felt>,
    stack: Vec<StackCols<Felt>>,
    system: Vec<SystemCols<Felt>>,
    top: [Felt; 16],
    last: [u64; BUILT],
}

impl Made {
    fn new(height: usize) -> Self {
        let both = Both::new(10, height / 2, height, FRAGMENT);
        let mut cells = vec![0; height * WIDTH];
        let left = both.replay(&mut cells);
        let size = FRAGMENT * CORE_STORAGE_WIDTH;
        let mut data = Felt::zero_vec(left.counts.len() * size);
        let (stack, system) = both.replay_listed(&mut data, size).into_iter().map(|left| (left.stack, left.system)).unzip();
        let last = left.built[left.built.len() - BUILT..].try_into().unwrap();
        let top = both.run.first_stack_top.map(convert::felt);
        Self { both, left, cells, data, stack, system, top, last }
    }

    /// How often pass 1 is made in one time.
    fn repeats(&self) -> usize {
        1024usize.div_ceil(self.left.counts.len())
    }

    /// By what each work's time is told.
    fn by(&self) -> [usize; WORKS] {
        let (rows, height) = (self.left.rows, self.both.height);
        [self.left.counts.len() * self.repeats(), rows, rows, CALLS, height - rows - 1, height]
    }

    fn first(&self, cells: &mut [u64]) {
        let Replayed { counts, built, .. } = &self.left;
        fixup_stack_and_system_rows(cells, FRAGMENT, counts, built, &self.both.run.first_stack_top).unwrap();
    }

    fn first_listed(&self, data: &mut [Felt]) {
        passes::fixup(data, FRAGMENT, &self.stack, &self.system, &self.top);
    }

    /// Pass 4 of the listed Rust, which adds the row to the rows so far.
    fn fourth_listed(&self, data: &mut Vec<Felt>) {
        data.truncate(self.left.rows * CORE_STORAGE_WIDTH);
        passes::push_halt(data, self.left.rows, self.system.last().unwrap(), self.stack.last().unwrap());
    }

    fn proved(&self, cells: &mut [u64], times: &mut Times<{ 2 * WORKS }>) {
        let (rows, height) = (self.left.rows, self.both.height);
        times.of(0, || (0..self.repeats()).for_each(|_| self.first(black_box(cells))));
        times.of(SECOND, || set_loop_body_multiplicities(EXAMPLE, black_box(cells), rows).unwrap());
        times.of(2, || invert_helper_column(black_box(cells), rows).unwrap());
        times.of(3, || (0..CALLS).for_each(|_| push_halt_opcode_row(EXAMPLE, black_box(cells), rows, &self.last).unwrap()));
        times.of(4, || pad_core_row_major(EXAMPLE, black_box(cells), rows + 1, height).unwrap());
    }

    fn listed(&self, data: &mut Vec<Felt>, times: &mut Times<{ 2 * WORKS }>) {
        let rows = self.left.rows;
        times.of(WORKS, || (0..self.repeats()).for_each(|_| self.first_listed(black_box(data))));
        times.of(WORKS + SECOND, || passes::multiplicities(black_box(data), rows).unwrap());
        times.of(WORKS + 2, || passes::invert(black_box(data), FRAGMENT, rows));
        times.of(WORKS + 3, || (0..CALLS).for_each(|_| self.fourth_listed(black_box(data))));
        times.of(WORKS + 4, || passes::pad(black_box(data), self.both.height));
    }

    /// All passes of the listed Rust.
    fn listed_at_once(&self, data: &mut Vec<Felt>) {
        self.first_listed(data);
        passes::multiplicities(data, self.left.rows).unwrap();
        passes::invert(data, FRAGMENT, self.left.rows);
        self.fourth_listed(data);
        passes::pad(data, self.both.height);
    }
}

/// The rows as replay leaves them, in vectors with room for the whole trace.
fn reset(made: &Made, cells: &mut [u64], data: &mut Vec<Felt>) {
    cells.copy_from_slice(&made.cells);
    data.clear();
    data.extend_from_slice(&made.data);
}

fn round(made: &Made, cells: &mut [u64], data: &mut Vec<Felt>, times: &mut Times<{ 2 * WORKS }>) {
    reset(made, cells, data);
    made.proved(cells, times);
    made.listed(data, times);
    check_equal(cells, data);
    reset(made, cells, data);
    times.of(FINISH, || made.both.finish(black_box(cells), &made.left));
    times.of(WORKS + FINISH, || made.listed_at_once(black_box(data)));
    check_equal(cells, data);
}

/// The cells of each work for a trace of 2^log rows, half of them program rows.
fn measure(log: usize, aims: &mut Aims) -> [[String; 3]; WORKS] {
    let made = Made::new(1 << log);
    let mut cells = made.cells.clone();
    let mut data = Vec::with_capacity(made.data.len().max(CORE_STORAGE_WIDTH << log));
    let mut times = Times::new();
    (0..rounds(log)).for_each(|_| round(&made, &mut cells, &mut data, &mut times));
    if log > 14 {
        aims.hold(SECOND_AIM, &format!("{} program rows", power(log - 1)), times.ratio(SECOND, WORKS + SECOND).medians);
    }
    let by = made.by();
    core::array::from_fn(|k| {
        let [proved, listed] = [k, WORKS + k].map(|work| ns(times.median(work, by[k])));
        [proved, listed, times.ratio(k, WORKS + k).to_string()]
    })
}

pub fn print(most: usize, aims: &mut Aims) {
    Memory::Kept.set();
    let logs = || [10, 15, 20].into_iter().filter(|&log| log <= most);
    let measured: Vec<_> = logs().map(|log| measure(log, aims)).collect();
    let columns: String = logs().map(|log| format!(" | {} rows: proved | listed | proved / listed", power(log))).collect();
    section("Each pass", TEXT, &format!("pass | nanoseconds{columns}"));
    for (k, (name, by)) in NAMES.into_iter().enumerate() {
        let cells = measured.iter().flat_map(|works| works[k].clone());
        line([name.into(), by.into()].into_iter().chain(cells).collect::<Vec<String>>());
    }
}
