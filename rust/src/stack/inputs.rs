//! What each of the library's 15 calls takes of the stack, over inputs of each kind that they tell apart. Of each figure the greatest counts.

use std::collections::BTreeSet;

use super::{Stack, on_painted_stack};
use crate::calls::{Call, Positions, RECORD, records, stored_twice};
use crate::exports::{
    BUILT, Refusal, RefusedAt, WIDTH, build_index, dump_size, enclosing_block, finish, fixup_stack_and_system_rows, inverse,
    invert_helper_column, op_place, pad_core_row_major, push_halt_opcode_row, read_dump, read_trace, replay_calls, row,
    set_loop_body_multiplicities, write_dump,
};
use crate::forest::Forests;
use crate::loops::{MANY_ROWS as LOOP_ROWS, Order, loop_rows};
use crate::profile::EXAMPLE;
use crate::random::{Rng, Run, forest, proper_run, with_calls};
use crate::words::{Word, long_word, word};

const FRAGMENT: usize = 1 << 10;
const READ_ROWS: usize = 1 << 17;
/// The refusal of a trace with more open blocks than the library keeps, 64.
const TOO_DEEP: u32 = 15;
const DEEPEST: usize = 64;
const RUNS: usize = 200;
/// The kinds of rows: seven of starts, the END and the REPEAT of a loop, and seven of the other continuations.
const ROW_KINDS: usize = 16;
const HELPER_CASES: usize = 18;
/// Cells that are inverted.
const INVERTED: [u64; 6] = [0, 1, 40, 5000, 1 << 40, u64::MAX];
/// The numbers of two continuations in a record.
const START_NODE: u64 = 1;
const FINISH_LOOP: u64 = 4;

/// The name of a call and what it takes.
pub type Taken = (&'static str, Stack);

/// What a call takes that must be accepted.
fn of<T: Send, E: Send>(work: impl FnOnce() -> Result<T, E> + Send) -> Stack {
    let (stack, answer) = on_painted_stack(work);
    assert!(answer.is_ok(), "a call is refused");
    stack
}

/// What a call takes that must be refused, as the trace is too deep.
fn of_too_deep(work: impl FnOnce() -> Result<usize, RefusedAt> + Send) -> Stack {
    let (stack, answer) = on_painted_stack(work);
    assert_eq!(answer.map_err(|refused| refused.refusal), Err(Refusal(TOO_DEEP)));
    stack
}

fn greatest(all: impl Iterator<Item = Stack>) -> Stack {
    all.fold(Stack::default(), Stack::or)
}

// REPLAY
// ------------------------------------------------------------------------------------------------

/// The kind of a row: the number of its continuation, with that of the node for a start, and with the condition for the end of a loop's pass.
fn row_kind(lent: &Forests, forest: u32, stored: &[u64; RECORD]) -> [u64; 2] {
    let slot = lent.directory[6 * forest as usize] as usize + stored[2] as usize;
    let detail = match stored[1] {
        START_NODE => u64::from(lent.nodes[6 * slot]),
        FINISH_LOOP => stored[6],
        _ => 0,
    };
    [stored[1], detail]
}

/// The kinds of rows that calls write, and the cases of their helpers.
#[derive(Default)]
struct Kinds {
    rows: BTreeSet<[u64; 2]>,
    helpers: BTreeSet<u64>,
}

impl Kinds {
    fn add(&mut self, lent: &Forests, calls: &[Call]) {
        let mut stored = [0; RECORD];
        for call in calls {
            match call {
                Call::Store(_) => stored = call.record(),
                Call::Cycle(cycle) => {
                    self.rows.insert(row_kind(lent, cycle.forest, &stored));
                    self.helpers.insert(cycle.registers.case);
                }
            }
        }
    }
}

/// A run as one fragment, with its calls as they are and with each storing made twice, which the library takes one by one.
fn of_run(run: &Run, lent: &Forests, calls: &[Call]) -> Stack {
    let cycles = calls.iter().filter(|call| matches!(call, Call::Cycle(_))).count();
    let mut fragment = vec![0; cycles * WIDTH];
    let lists = [records(calls), records(&stored_twice(calls))];
    let replay = |list: &[u64], rows: &mut [u64]| replay_calls(lent, &run.queues, EXAMPLE, run.state, Positions::default(), list, rows);
    greatest(lists.iter().map(|list| of(|| replay(list, &mut fragment))))
}

/// Random proper runs, which have each kind of row and each case of helpers.
fn of_replay() -> Stack {
    let (rng, mut kinds, mut stack) = (Rng::new(7), Kinds::default(), Stack::default());
    for _ in 0..RUNS {
        let run = with_calls(proper_run(&rng, 400));
        let (lent, calls) = (Forests::new(&run.forests), run.fragments.concat());
        kinds.add(&lent, &calls);
        stack = stack.or(of_run(&run, &lent, &calls));
    }
    assert_eq!((kinds.rows.len(), kinds.helpers.len()), (ROW_KINDS, HELPER_CASES), "kinds of rows and cases of helpers");
    stack
}

// FINISHER AND PASSES
// ------------------------------------------------------------------------------------------------

/// Rows with loops of an order, and room for one more.
fn loop_cells(order: Order) -> Vec<u64> {
    let mut cells = loop_rows(&EXAMPLE, LOOP_ROWS, 8, order);
    cells.resize((LOOP_ROWS + 1) * WIDTH, 0);
    cells
}

/// The rows of each fragment, and what was built at each.
fn handed() -> (Vec<u32>, Vec<u64>) {
    let counts: Vec<u32> = (0..LOOP_ROWS).step_by(FRAGMENT).map(|row| (LOOP_ROWS - row).min(FRAGMENT) as u32).collect();
    let built = vec![40; BUILT * counts.len()];
    (counts, built)
}

fn of_writing() -> Vec<Taken> {
    let (counts, built) = handed();
    let all = |mut cells: Vec<u64>| of(|| finish(EXAMPLE, &mut cells, FRAGMENT, &counts, &built, &[5; 16], LOOP_ROWS + 1));
    vec![("core_replay", of_replay()), ("core_finish", greatest(Order::ALL.into_iter().map(loop_cells).map(all)))]
}

/// Pass 4 with several depths to invert.
fn of_halts(cells: &mut [u64]) -> Stack {
    greatest(INVERTED.into_iter().map(|cell| of(|| push_halt_opcode_row(EXAMPLE, cells, LOOP_ROWS, &[cell; BUILT]))))
}

fn of_passes() -> Vec<Taken> {
    let ((counts, built), mut cells) = (handed(), loop_cells(Order::InOrder));
    let pass_2 = |mut cells: Vec<u64>| of(|| set_loop_body_multiplicities(EXAMPLE, &mut cells, LOOP_ROWS));
    vec![
        ("core_fixup", of(|| fixup_stack_and_system_rows(&mut cells, FRAGMENT, &counts, &built, &[5; 16]))),
        ("core_multiplicities", greatest(Order::ALL.into_iter().map(loop_cells).map(pass_2))),
        ("core_invert_helper_column", of(|| invert_helper_column(&mut cells, LOOP_ROWS))),
        ("core_push_halt", of_halts(&mut cells)),
        ("core_pad", of(|| pad_core_row_major(EXAMPLE, &mut cells, LOOP_ROWS / 2, LOOP_ROWS))),
    ]
}

// READING
// ------------------------------------------------------------------------------------------------

/// Traces that are read: with as many open blocks as the library keeps, and a long one.
fn read_words(rng: &Rng) -> Vec<Word> {
    (0..8).map(|_| word(rng, DEEPEST)).chain([long_word(rng, READ_ROWS)]).collect()
}

fn of_read(words: &[Word], too_deep: &Word) -> Stack {
    let mut depths = vec![0; READ_ROWS];
    let refused = of_too_deep(|| read_trace(EXAMPLE, &too_deep.cells, &mut depths));
    greatest(words.iter().map(|word| of(|| read_trace(EXAMPLE, &word.cells, &mut depths)))).or(refused)
}

fn of_index(words: &[Word], too_deep: &Word, index: &mut [u32]) -> Stack {
    let refused = of_too_deep(|| build_index(EXAMPLE, &too_deep.cells, index));
    greatest(words.iter().map(|word| of(|| build_index(EXAMPLE, &word.cells, index)))).or(refused)
}

fn of_reading() -> Vec<Taken> {
    let rng = Rng::new(7);
    let (words, too_deep, mut index) = (read_words(&rng), word(&rng, DEEPEST + 1), vec![0; 3 * READ_ROWS]);
    let (read, indexed) = (of_read(&words, &too_deep), of_index(&words, &too_deep, &mut index));
    let cells = &words[0].cells;
    let blocks = build_index(EXAMPLE, cells, &mut index).unwrap();
    let enclosing = |row| of(|| enclosing_block(&index[..3 * blocks], row));
    vec![
        ("core_read_trace", read),
        ("core_row", of(|| Ok::<_, ()>(row(cells, 1).len()))),
        ("core_build_index", indexed),
        ("core_enclosing_block", greatest([0, 1, DEEPEST, READ_ROWS].into_iter().map(enclosing))),
    ]
}

// OTHERS
// ------------------------------------------------------------------------------------------------

fn of_op_places() -> Stack {
    let lent = Forests::new(&[forest(&Rng::new(7), 10)]);
    let batches = lent.batches_of(0);
    let ops = |record: usize| (0..batches[12 * record + 10]).map(move |op| (record, op));
    greatest((0..batches.len() / 12).flat_map(ops).map(|(record, op)| of(|| op_place(batches, record, op))))
}

fn of_others() -> Vec<Taken> {
    let mut cells = loop_cells(Order::InOrder);
    let mut text = vec![0; dump_size(&cells).unwrap()];
    vec![
        ("core_write_dump", of(|| write_dump(&cells, &mut text))),
        ("core_read_dump", of(|| read_dump(&text, &mut cells))),
        ("core_op_place", of_op_places()),
        ("core_inverse", greatest(INVERTED.into_iter().map(|cell| of(|| inverse(cell))))),
    ]
}

/// The calls by what they are for.
pub fn all_calls() -> [(&'static str, Vec<Taken>); 4] {
    [("replay and the finisher", of_writing()), ("passes", of_passes()), ("reading", of_reading()), ("others", of_others())]
}
