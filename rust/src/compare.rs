//! The comparison: the same calls and passes by the listed Rust and by the proved library, field by field. The listed Rust is given reduced
//! cells; the library is given the same or, in every second run, numbers from p on for some of them. What the library writes and answers is
//! compared as it stands. Left out is the helper cell of HALT rows from depth 18 up and no other: it is held to the documentation's overflow
//! rule alone, as every row of a finished trace is. A run ends where one side refuses; starting a SYSCALL node, of which the listed Rust writes
//! a row, must be refused with 31.

use std::collections::BTreeMap;
use std::panic::{AssertUnwindSafe, catch_unwind};
use std::sync::Arc;

use crate::calls::{Call, Positions, first_refused, records, stored_twice};
use crate::exports::{self, BUILT, Refusal, Replayed, WIDTH, replay_calls};
use crate::forest::Forests;
use crate::listed::convert;
use crate::listed::parallel::{CORE_STORAGE_WIDTH, passes};
use crate::listed::processor::CoreTraceFragmentContext;
use crate::listed::stand_ins::air::{StackCols, SystemCols};
use crate::listed::stand_ins::core_crate::mast::SparseMastForest;
use crate::listed::stand_ins::field::Felt;
use crate::listed::whole::{self, Start, refusal};
use crate::loops::{behind_an_end, count_by_map, counts_in_place, falling, loop_counts, nested_rows, shuffled};
use crate::overflow::{DEPTH, HELPER, is_deep_halt, is_inverse, overflow_rule};
use crate::profile::EXAMPLE;
use crate::random::{DEPTHS, Rng, Run, first_syscall, raised, raised_run, raised_state};
use crate::stack::{Stack, on_painted_stack};

const P: u64 = 18446744069414584321;
const IN_SPAN: usize = 22;
const GROUP_COUNT: usize = 23;
const STACK: usize = 30;
/// The refusal of a LOOP row without an END, and how many words the smaller of pass 2's tables has.
const NO_BODY_END: u32 = 14;
const TABLE_WORDS: usize = 4096;
/// The refusal of a start of a SYSCALL node, those before it that a run here can have, and what the listed Rust may answer where it is 31: a
/// row, or what would come behind it, an absent child or a full fragment.
const SYSCALL_START: u32 = 31;
const BEFORE_SYSCALL: [u32; 3] = [10, 20, 21];
const BEHIND_SYSCALL: [&str; 3] = [ACCEPTS, "invalid node ID stored in continuation", "panic: index out of range"];

/// The names of the 49 columns.
pub fn column(i: usize) -> String {
    match i {
        0 => "clk".into(),
        1 => "ctx".into(),
        2..=5 => format!("fn_hash{}", i - 2),
        6 => "addr".into(),
        7..=13 => format!("op_bit{}", i - 7),
        14..=21 => format!("h{}", i - 14),
        22 => "in_span".into(),
        23 => "group_count".into(),
        24 => "op_index".into(),
        25..=27 => format!("batch_flag{}", i - 25),
        28 | 29 => format!("extra{}", i - 28),
        30..=45 => format!("stack{}", i - 30),
        46 => "b0".into(),
        47 => "b1".into(),
        _ => "helper".into(),
    }
}

/// What replays went through. The library takes a storing and its cycle at once where they stand behind another cycle, and calls one by one
/// elsewhere, so also where each storing is made twice; the words of the stack that are touched tell the two ways apart.
#[derive(Clone, Copy, Default)]
pub struct Ways {
    /// Rows whose cycle and the one before have one storing between them.
    pub alternating: u64,
    /// Rows that were also replayed with each storing made twice.
    pub doubled: u64,
    /// Accepted first fragments of runs without a row of the first kind and with one, and how many of them touch other words of the stack when
    /// each storing is made twice.
    pub firsts: [u64; 2],
    pub apart: [u64; 2],
}

impl Ways {
    /// An accepted fragment that was replayed both ways; of a first one it is said whether the two touched the same words.
    fn add(&mut self, calls: &[Call], rows: usize, is_apart: Option<bool>) {
        let alternating = calls.windows(3).filter(|three| matches!(three, [Call::Cycle(_), Call::Store(_), Call::Cycle(_)])).count();
        self.alternating += alternating as u64;
        self.doubled += rows as u64;
        if let Some(is_apart) = is_apart {
            let kind = usize::from(alternating > 0);
            self.firsts[kind] += 1;
            self.apart[kind] += u64::from(is_apart);
        }
    }
    /// These and others.
    pub fn and(self, other: Self) -> Self {
        let sum = |a: [u64; 2], b: [u64; 2]| [a[0] + b[0], a[1] + b[1]];
        Self {
            alternating: self.alternating + other.alternating,
            doubled: self.doubled + other.doubled,
            firsts: sum(self.firsts, other.firsts),
            apart: sum(self.apart, other.apart),
        }
    }
    /// Whether rows of both kinds were replayed, and the stack showed two ways where there are two, and one where there is one.
    pub fn are_reached(&self) -> bool {
        let are_told_apart = self.apart == [0, self.firsts[1]] && !self.firsts.contains(&0);
        self.alternating > 0 && self.doubled > 0 && are_told_apart
    }
}

impl core::fmt::Display for Ways {
    fn fmt(&self, f: &mut core::fmt::Formatter<'_>) -> core::fmt::Result {
        let Self { alternating, doubled, firsts, apart } = self;
        write!(f, "{alternating} rows from records that alternate storing and cycle, {doubled} rows with each storing made twice; ")?;
        write!(f, "the stack shows two ways for {} of {} first fragments with such records, ", apart[1], firsts[1])?;
        write!(f, "for {} of {} without", apart[0], firsts[0])
    }
}

/// Does the work, on a painted stack where it is asked for.
fn on_stack<F: FnOnce() -> T + Send, T: Send>(is_painted: bool, work: F) -> (Option<Stack>, T) {
    if !is_painted {
        return (None, work());
    }
    let (stack, answer) = on_painted_stack(work);
    (Some(stack), answer)
}

/// What was compared.
#[derive(Default)]
pub struct Tally {
    pub runs: u64,
    /// Runs in which the library was given some cells from p on, how many of them came with the run, and how many in the rows and built cells
    /// that the passes were handed.
    pub raised: u64,
    pub run_cells: u64,
    pub row_cells: u64,
    /// Runs that went through to the padding.
    pub finished: u64,
    pub calls: u64,
    pub rows: u64,
    pub cells: u64,
    /// Cells that were left out: helpers of HALT rows from depth 18 up.
    pub left_out: u64,
    /// Rows of finished traces that were held to the overflow rule, each as the five calls and as the finisher leave it.
    pub rule_rows: u64,
    /// How often a finished run ended at which depth.
    pub depths: BTreeMap<u64, u64>,
    /// Starts of a SYSCALL node that the library refused with 31, and of how many of them the listed Rust wrote a row.
    pub syscalls: u64,
    pub syscall_rows: u64,
    /// Lists of rows as written, changed ones and random ones, on which pass 2 was held to a map in plain Rust; their LOOP rows; and on how many
    /// it filled no table.
    pub counted: [u64; 3],
    pub loops: [u64; 3],
    pub tableless: [u64; 3],
    pub ways: Ways,
    pub differences: u64,
    /// The first differences, in words.
    pub told: Vec<String>,
    /// How often the library answered the number and the listed Rust the text, 0 and "accepts" included.
    pub refusals: BTreeMap<(u32, String), u64>,
}

impl Tally {
    fn differ(&mut self, text: String) {
        self.differences += 1;
        if self.told.len() < 20 {
            self.told.push(format!("run {}: {text}", self.runs));
        }
    }
    fn same<T: PartialEq + core::fmt::Debug>(&mut self, what: &str, ours: T, listed: T) {
        if ours != listed {
            self.differ(format!("{what}: {ours:?}, the listed Rust {listed:?}"));
        }
    }
    /// The helper cell of a HALT row from depth 18 up: depth − 16 in the listed Rust, its inverse here.
    fn leave_out(&mut self, place: &str, ours: u64, listed: &[u64]) {
        self.left_out += 1;
        let above = listed[DEPTH] - 16;
        self.same(&format!("{place}: depth − 16"), above, listed[HELPER]);
        if !is_inverse(ours, above) {
            self.differ(format!("{place}: {ours} is not the inverse of {above}"));
        }
    }
    /// Every row of a finished trace keeps the overflow rule.
    fn hold_to_rule(&mut self, stage: &str, cells: &[u64]) {
        match overflow_rule(cells) {
            Ok(rows) => self.rule_rows += rows as u64,
            Err(text) => self.differ(format!("{stage}: {text}")),
        }
    }
    /// The first `rows` rows of both, field by field. A cell that the stage writes must be the listed Rust's; the others must be as they were
    /// before, and the listed Rust's modulo p. The helper of HALT rows from depth 18 up is left out.
    fn same_rows(
        &mut self,
        stage: &str,
        rows: usize,
        before: &[u64],
        ours: &[u64],
        listed: &[Felt],
        writes: impl Fn(usize, usize) -> bool,
    ) {
        for row in 0..rows {
            let a = &ours[row * WIDTH..][..WIDTH];
            let b: [u64; CORE_STORAGE_WIDTH] = core::array::from_fn(|i| listed[row * CORE_STORAGE_WIDTH + i].as_canonical_u64());
            let is_deep_halt = is_deep_halt(&b);
            for i in 0..WIDTH {
                let is_written = writes(row, i);
                let cell = if is_written { a[i] } else { a[i] % P };
                if is_deep_halt && i == HELPER {
                    self.leave_out(&format!("{stage}, row {row}, {}", column(i)), cell, &b);
                } else if cell != b[i] {
                    self.differ(format!("{stage}, row {row}, {}: {}, the listed Rust {}", column(i), a[i], b[i]));
                }
                if !is_written && a[i] != before[row * WIDTH + i] {
                    self.differ(format!("{stage}, row {row}, {}: {} was {}", column(i), a[i], before[row * WIDTH + i]));
                }
            }
            self.same("the two cells behind a row", &[0, 0][..], &b[WIDTH..]);
            self.cells += (WIDTH - usize::from(is_deep_halt)) as u64;
        }
        self.rows += rows as u64;
    }
    /// A run is finished. Nothing was left out but the helper of HALT: in its row behind pass 4, and there and in the padding behind pass 5 and
    /// the finisher.
    fn finish(&mut self, left_out: u64, depth: u64, halts: usize) {
        let wanted = if depth < 18 { 0 } else { 1 + 2 * halts as u64 };
        if left_out != wanted {
            self.differ(format!("{left_out} cells left out, not {wanted}, at depth {depth}"));
        }
        *self.depths.entry(depth).or_default() += 1;
        self.finished += 1;
    }
    /// How many finished runs ended at which depth, in words.
    fn ends(&self) -> String {
        let at = |depth: u32| self.depths.get(&depth.into()).copied().unwrap_or(0);
        let deep: u64 = self.depths.range(18..).map(|(_, runs)| runs).sum();
        let named = DEPTHS.map(|depth| format!("{depth}: {}", at(depth))).join(", ");
        format!("{named}, others: {}; 18 and up: {deep}", self.finished - DEPTHS.map(at).iter().sum::<u64>())
    }
    fn refused(&mut self, ours: u32, listed: &str) {
        *self.refusals.entry((ours, listed.into())).or_default() += 1;
    }
    /// Replays calls into a fragment, and with each storing made twice into a copy of it: the answers and all cells must be the same. The stack
    /// of both is looked at where it is asked for.
    fn replay_both_ways(
        &mut self,
        calls: &[Call],
        fragment: &mut [u64],
        is_painted: bool,
        replay: impl Fn(&[u64], &mut [u64]) -> Result<Replayed, Refusal> + Sync,
    ) -> Result<Replayed, Refusal> {
        let (numbers, doubled, mut copy) = (records(calls), records(&stored_twice(calls)), fragment.to_vec());
        // Both by the same code, so that their stacks differ by the library's way alone.
        let lists = [(&numbers, &mut *fragment), (&doubled, &mut copy)];
        let [(stack, answer), (other, told)] = lists.map(|(list, rows)| on_stack(is_painted, || replay(list, rows)));
        if told != answer || copy != *fragment {
            self.differ("pairs of calls and calls one by one differ".into());
        }
        if let Ok(made) = answer {
            self.ways.add(calls, made.rows, is_painted.then_some(stack != other));
        }
        answer
    }
    /// Pass 2, held to a map in plain Rust: its answer and every cell. It fills its tables where it does not count in place, and only there.
    fn hold_to_map(&mut self, kind: usize, given: &[u64]) {
        let rows = given.len() / WIDTH;
        let (mut made, mut wanted) = (given.to_vec(), given.to_vec());
        let (stack, answer) = on_painted_stack(|| exports::set_loop_body_multiplicities(EXAMPLE, &mut made, rows));
        let counted = count_by_map(&EXAMPLE, &mut wanted, rows).ok_or(NO_BODY_END);
        if counted.is_err() {
            wanted.copy_from_slice(given);
        }
        if answer.map_err(|refusal| refusal.0) != counted || made != wanted {
            self.differ(format!("pass 2: {answer:?}, a map: {counted:?}; or a cell differs"));
        }
        let (is_in_place, has_tables) = (counts_in_place(&EXAMPLE, given, rows), stack.words >= TABLE_WORDS);
        if is_in_place == has_tables {
            self.differ(format!("pass 2 counts in place: {is_in_place}; tables are filled: {has_tables}"));
        }
        self.counted[kind] += 1;
        self.loops[kind] += loop_counts(&EXAMPLE, given, rows).len() as u64;
        self.tableless[kind] += u64::from(!has_tables);
    }
    /// The same of the rows as they are, behind an END that ends no loop, and with the addresses behind LOOP rows and ENDs shuffled; and of random
    /// loops that nest, with addresses that rise, that fall, and shuffled.
    fn hold_all_to_map(&mut self, given: &[u64]) {
        let rng = Rng::new(self.runs);
        self.hold_to_map(0, given);
        self.hold_to_map(1, &behind_an_end(&EXAMPLE, given));
        self.hold_to_map(1, &shuffled(&EXAMPLE, &rng, given));
        let random = nested_rows(&EXAMPLE, &rng, 2 + rng.below(300));
        self.hold_to_map(2, &random);
        self.hold_to_map(2, &falling(&random));
        self.hold_to_map(2, &shuffled(&EXAMPLE, &rng, &random));
    }
    /// Holds the first refused call to N8: a start of a SYSCALL node that no earlier check refuses, on either side, gets 31, and no other
    /// call does. `row` is what the listed Rust writes of the call, where it does.
    fn hold_to_31(&mut self, is_syscall: bool, number: u32, listed: &str, row: Option<[u64; WIDTH]>) {
        match (is_syscall, number) {
            (true, SYSCALL_START) if BEHIND_SYSCALL.contains(&listed) => {
                self.syscalls += 1;
                self.syscall_rows += u64::from(row.is_some());
                let named = row.map(|cells| ((0..7).map(|i| cells[7 + i] << i).sum::<u64>(), cells[IN_SPAN]));
                let wanted = (listed == ACCEPTS).then_some((u64::from(EXAMPLE.syscall), 0));
                self.same("opcode and in_span of a SYSCALL start's row", wanted, named);
            }
            (true, number) if BEFORE_SYSCALL.contains(&number) && listed != ACCEPTS => {}
            (true, number) => self.differ(format!("a start of a SYSCALL node: number {number}, the listed Rust {listed}")),
            (false, SYSCALL_START) => self.differ("31, and no start of a SYSCALL node".into()),
            (false, _) => {}
        }
    }
}

impl core::fmt::Display for Tally {
    fn fmt(&self, f: &mut core::fmt::Formatter<'_>) -> core::fmt::Result {
        let Self { runs, finished, calls, rows, cells, left_out, rule_rows, differences, .. } = self;
        let Self { raised, run_cells, row_cells, told, refusals, .. } = self;
        write!(f, "{runs} runs, {finished} of them finished, {calls} calls, {rows} rows, {cells} cells compared, ")?;
        write!(f, "{left_out} helper cells of HALT rows from depth 18 up left out, {differences} differences")?;
        write!(
            f,
            "\n  overflow rule: {rule_rows} rows of the {finished} finished traces, as the five calls and as the finisher leave them"
        )?;
        write!(f, "\n  finished at depth {}", self.ends())?;
        let Self { syscalls, syscall_rows, .. } = self;
        write!(f, "\n  {syscalls} starts of a SYSCALL node refused with 31; of {syscall_rows} of them the listed Rust wrote a row")?;
        for (i, kind) in ["as written", "changed", "of random loops"].into_iter().enumerate() {
            let (lists, loops, tableless) = (self.counted[i], self.loops[i], self.tableless[i]);
            write!(
                f,
                "\n  pass 2 and a map, rows {kind}: {lists} lists with {loops} LOOP rows; {tableless} without a table, as loops nest, addresses rise and counts are 0"
            )?;
        }
        write!(f, "\n  replay: {}", self.ways)?;
        write!(
            f,
            "\n  {raised} of the {runs} runs with cells from p on: {run_cells} in the run, {row_cells} in the rows and built cells "
        )?;
        write!(f, "handed to the passes")?;
        told.iter().try_for_each(|text| write!(f, "\n  {text}"))?;
        refusals.iter().try_for_each(|((number, text), times)| write!(f, "\n  {times:6} times: number {number:2}, the listed Rust: {text}"))
    }
}

const ACCEPTS: &str = "accepts";

/// How many numbers of a run are cells from p on: all others that it has are of 32 bits.
fn cells_from_p_on(run: &Run, lent: &Forests) -> u64 {
    let queues = [&run.queues.addresses, &run.queues.parents, &run.queues.ends];
    let calls: Vec<u64> = run.fragments.iter().flat_map(|calls| records(calls)).collect();
    let state = [run.state.current_addr, run.state.parent_addr];
    let numbers = queues.into_iter().chain([&lent.digests, &lent.groups, &calls]).flatten().chain(&run.first_stack_top).chain(&state);
    numbers.filter(|&&number| number >= P).count() as u64
}

/// A finished trace; some of its cells may be from p on.
pub struct Finished {
    pub cells: Vec<u64>,
    /// The run was cut where 31 refuses: the trace is that of the calls before it.
    pub is_cut: bool,
}

/// Carries out a run on both sides, and its passes. Answers the finished trace, where there is one.
pub fn compare_run(run: &Run, rng: &Rng, tally: &mut Tally) -> Option<Finished> {
    tally.runs += 1;
    let is_raised = tally.runs.is_multiple_of(2);
    let given = if is_raised { raised_run(rng, run) } else { run.clone() };
    let lent = Forests::new(&given.forests);
    let above = cells_from_p_on(&given, &lent);
    tally.raised += u64::from(above > 0);
    tally.run_cells += above;
    let forests: Vec<_> = run.forests.iter().map(convert::forest).collect();
    let size = run.fragment_size;
    let cycles: usize = run.fragments.iter().flatten().filter(|call| matches!(call, Call::Cycle(_))).count();
    let height = cycles + 1 + if rng.one_in(3) { 0 } else { rng.below(40) };
    let buffer_rows = height + rng.below(3);
    // What stands in the buffer before is no matter, also from p on.
    let mut buffer: Vec<u64> = (0..buffer_rows * WIDTH).map(|_| rng.next()).collect();
    let mut data = Felt::zero_vec(run.fragments.len() * size * CORE_STORAGE_WIDTH);

    // The address state of the listed Rust and the library's.
    let (mut state, mut ours_state, mut at) = (run.state, given.state, Positions::default());
    let (mut counts, mut built) = (Vec::new(), Vec::new());
    let (mut stack_rows, mut system_rows, mut contexts) = (Vec::new(), Vec::new(), Vec::new());
    let mut is_cut = false;
    for (k, (calls, given_calls)) in run.fragments.iter().zip(&given.fragments).enumerate() {
        let place = k * size * CORE_STORAGE_WIDTH..(k + 1) * size * CORE_STORAGE_WIDTH;
        let end = ((k + 1) * size).min(buffer_rows);
        let ours = k * size * WIDTH..end * WIDTH;
        let listed_calls = convert::calls(calls, &run.forests);
        let before = buffer[ours.clone()].to_vec();
        let replay = |numbers: &[u64], fragment: &mut [u64]| replay_calls(&lent, &given.queues, EXAMPLE, ours_state, at, numbers, fragment);
        let mut answer = tally.replay_both_ways(given_calls, &mut buffer[ours.clone()], k == 0, replay);
        let mut listed = whole::fragment(run, &forests, &listed_calls, state, at, &mut data[place.clone()]);
        let mut accepted = calls.len();
        let is_refused = answer.is_err() || listed.refused.is_some();
        let syscall = first_syscall(calls, &run.forests);
        if is_refused {
            // Up to the first refused call of either side both accept; that much is compared, and the run ends there.
            let first = answer.err().map(|_| {
                if buffer[ours.clone()] != before {
                    tally.differ("a refused replay changed the fragment".into());
                }
                first_refused(given_calls, |calls| replay(&records(calls), &mut before.clone()).err().map(|refusal| refusal.0))
            });
            accepted = first.map_or(usize::MAX, |(at, _)| at).min(listed.refused.as_ref().map_or(usize::MAX, |(at, _)| *at));
            let number = first.filter(|(at, _)| *at == accepted).map_or(0, |(_, number)| number);
            let text = listed.refused.filter(|(at, _)| *at == accepted).map_or(ACCEPTS.into(), |(_, text)| text);
            tally.refused(number, &text);
            // What the listed Rust writes of the call.
            let mut next = Felt::zero_vec(size * CORE_STORAGE_WIDTH);
            let left = whole::fragment(run, &forests, &listed_calls[..=accepted], state, at, &mut next).left;
            let row = left.and_then(|left| whole::rows(&next).take(left.rows).last());
            tally.hold_to_31(syscall == Some(accepted), number, &text, row);
            is_cut = number == SYSCALL_START;
            buffer[ours.clone()].copy_from_slice(&before);
            data[place.clone()].fill(convert::felt(0));
            answer = replay(&records(&given_calls[..accepted]), &mut buffer[ours.clone()]);
            listed = whole::fragment(run, &forests, &listed_calls[..accepted], state, at, &mut data[place.clone()]);
        }
        if syscall.is_some_and(|place| place < accepted) {
            tally.differ("a SYSCALL node was started".into());
        }
        tally.calls += accepted as u64;
        let (Ok(answer), Some(left)) = (answer, listed.left) else {
            tally.differ("calls that were accepted are refused alone".into());
            return None;
        };
        let (rows, positions) = (left.rows, left.at);
        tally.same("rows of a fragment", answer.rows, rows);
        tally.same("built cells", answer.built, left.built);
        tally.same("address state", answer.state, left.state);
        tally.same("queue positions", answer.at, positions);
        tally.same_rows("replay", rows, &before, &buffer[ours.start..], &data[place], |_, _| true);
        if buffer[ours.start + rows * WIDTH..ours.end] != before[rows * WIDTH..] {
            tally.differ("replay changed a row behind its last".into());
        }
        if rows > 0 {
            contexts.push(whole::context(run, &Start { state, from: at, to: positions }, listed_calls[..accepted].into()));
            counts.push(rows as u32);
            built.extend(answer.built);
            stack_rows.push(left.stack);
            system_rows.push(left.system);
        }
        (state, at) = (left.state, answer.at);
        ours_state = if is_raised { raised_state(rng, answer.state) } else { answer.state };
        if is_refused || rows < size {
            break;
        }
    }
    let rows = counts.iter().sum::<u32>() as usize;
    if rows == 0 {
        return None;
    }
    data.truncate(counts.len() * size * CORE_STORAGE_WIDTH);
    if is_raised {
        // The passes are handed rows and built cells of anybody.
        for cell in buffer[..rows * WIDTH].iter_mut().chain(&mut built) {
            *cell = raised(rng, *cell);
            tally.row_cells += u64::from(*cell >= P);
        }
    }
    let top = given.first_stack_top;
    let made = Made { run, top, forests, rows, height, counts, built, stack_rows, system_rows, contexts };
    compare_passes(made, buffer, data, tally).map(|cells| Finished { cells, is_cut })
}

/// What both sides made of a run's fragments.
struct Made<'a> {
    run: &'a Run,
    /// The first stack top as the library is given it.
    top: [u64; 16],
    forests: Vec<Arc<SparseMastForest>>,
    rows: usize,
    height: usize,
    counts: Vec<u32>,
    built: Vec<u64>,
    stack_rows: Vec<StackCols<Felt>>,
    system_rows: Vec<SystemCols<Felt>>,
    contexts: Vec<CoreTraceFragmentContext>,
}

fn compare_passes(made: Made<'_>, mut buffer: Vec<u64>, mut data: Vec<Felt>, tally: &mut Tally) -> Option<Vec<u64>> {
    let Made { run, top, forests, rows, height, counts, built, stack_rows, system_rows, contexts } = made;
    let size = run.fragment_size;
    let left_out = tally.left_out;
    let replayed = buffer.clone();
    // What each pass writes.
    let is_loop = |row: usize| (0..7).all(|bit| replayed[row * WIDTH + 7 + bit] % P == u64::from(EXAMPLE.loop_op >> bit & 1));
    let fixes = |row: usize, i: usize| row.is_multiple_of(size) && (i >= STACK || row > 0 && i < 6);
    let counts_at = |row: usize, i: usize| i == GROUP_COUNT && row + 1 < rows && is_loop(row);
    let inverts = |_: usize, i: usize| i == HELPER;
    let any = |row: usize, i: usize| row >= rows || fixes(row, i) || counts_at(row, i) || inverts(row, i);
    let mut finished = buffer.clone();
    let all = exports::finish(EXAMPLE, &mut finished, size, &counts, &built, &top, height);
    let generated = refusal(catch_unwind(AssertUnwindSafe(|| passes::generate(contexts, size, &forests))));

    // Pass 1.
    let first = exports::fixup_stack_and_system_rows(&mut buffer, size, &counts, &built, &top);
    tally.same("pass 1", first, Ok(()));
    passes::fixup(&mut data, size, &stack_rows, &system_rows, &run.first_stack_top.map(convert::felt));
    tally.same_rows("pass 1", rows, &replayed, &buffer, &data, fixes);
    // Pass 2.
    let mut before = buffer.clone();
    tally.hold_all_to_map(&before[..rows * WIDTH]);
    let second = exports::set_loop_body_multiplicities(EXAMPLE, &mut buffer, rows);
    let listed = refusal(Ok(passes::multiplicities(&mut data, rows)));
    tally.same("the finisher and pass 2", all, second);
    tally.same("the whole listed run and its second pass", generated.as_ref().err(), listed.as_ref().err());
    if second.is_err() || listed.is_err() {
        tally.refused(second.err().map_or(0, |number| number.0), listed.as_ref().err().map_or(ACCEPTS, |text| text));
        if finished != replayed {
            tally.differ("a refused finisher changed the buffer".into());
        }
        return None;
    }
    tally.same_rows("pass 2", rows, &before, &buffer, &data, counts_at);
    // Pass 3.
    before.clone_from(&buffer);
    tally.same("pass 3", exports::invert_helper_column(&mut buffer, rows), Ok(()));
    passes::invert(&mut data, size, rows);
    tally.same_rows("pass 3", rows, &before, &buffer, &data, inverts);
    // Pass 4.
    before.clone_from(&buffer);
    let last: [u64; BUILT] = built[built.len() - BUILT..].try_into().unwrap();
    tally.same("pass 4", exports::push_halt_opcode_row(EXAMPLE, &mut buffer, rows, &last), Ok(()));
    data.truncate(rows * CORE_STORAGE_WIDTH);
    passes::push_halt(&mut data, rows, system_rows.last().unwrap(), stack_rows.last().unwrap());
    tally.same_rows("pass 4", rows + 1, &before, &buffer, &data, |row, _| row == rows);
    // Pass 5.
    before.clone_from(&buffer);
    tally.same("pass 5", exports::pad_core_row_major(EXAMPLE, &mut buffer, rows + 1, height), Ok(()));
    passes::pad(&mut data, height);
    tally.same_rows("pass 5", height, &before, &buffer, &data, |row, _| row > rows);
    // All at once.
    let mut generated = generated.expect("no pass was refused");
    passes::pad(&mut generated, height);
    tally.same_rows("finish", height, &replayed, &finished, &generated, any);
    if finished != buffer || finished[height * WIDTH..] != replayed[height * WIDTH..] {
        tally.differ("the finisher and the five passes leave different buffers".into());
    }
    tally.hold_to_rule("the five passes", &buffer[..height * WIDTH]);
    tally.hold_to_rule("finish", &finished[..height * WIDTH]);
    tally.finish(tally.left_out - left_out, stack_rows.last().unwrap().b0.as_canonical_u64(), height - rows);
    finished.truncate(height * WIDTH);
    Some(finished)
}
