//! One list of calls, cut by several fragment sizes and finished to one height by the proved library: the cells must be equal
//! (change request N11). A cut before a cycle without a storing of its own is refused with 23, since each fragment has a fresh tracer.

use core::fmt;

use crate::calls::{Call, Positions, first_refused, records};
use crate::exports::{
    self, BUILT, Refusal, WIDTH, fixup_stack_and_system_rows, invert_helper_column, pad_core_row_major, push_halt_opcode_row, replay_calls,
    set_loop_body_multiplicities,
};
use crate::forest::{Forests, Queues};
use crate::profile::EXAMPLE;
use crate::random::{Rng, Run, raised};

/// At how many sizes a run is written.
pub const SIZES: usize = 5;

/// What was compared.
#[derive(Default)]
pub struct Comparison {
    /// Runs that were tried, those that were written at five sizes, and those of them none of whose calls is refused.
    pub tried: u64,
    pub runs: u64,
    pub whole: u64,
    /// Runs that were left out: fewer than two cycles before the first refused call, or refused by pass 2 (14).
    pub short: u64,
    pub refused: u64,
    /// Finished traces, and those of them in more than one fragment.
    pub files: u64,
    pub in_several: u64,
    pub fragments: u64,
    pub rows: u64,
    /// Sizes that were refused with 23, as they must be: a cut stands before a cycle that reuses what is stored.
    pub reused: u64,
    pub differences: u64,
    /// The first differences, in words.
    pub told: Vec<String>,
}

impl fmt::Display for Comparison {
    fn fmt(&self, f: &mut fmt::Formatter<'_>) -> fmt::Result {
        let Self { tried, runs, whole, short, refused, files, in_several, fragments, rows, reused, differences, told } = self;
        write!(f, "{runs} of {tried} runs ({whole} whole, the others up to the first call that is refused), {files} files, ")?;
        write!(
            f,
            "{in_several} of them in more than one fragment, of {fragments} fragments and {rows} rows; {reused} sizes refused with 23; left out: {short} "
        )?;
        write!(f, "runs of fewer than two cycles up to there, {refused} that pass 2 refuses; {differences} differences")?;
        told.iter().try_for_each(|text| write!(f, "\n  {text}"))
    }
}

fn is_cycle(call: &Call) -> bool {
    matches!(call, Call::Cycle(_))
}

/// The calls, cut behind every so many cycles. Storings between the cycles stand on either side of a cut, but the last of them, which the
/// next cycle needs; those behind the last cycle stand in the last fragment.
pub fn cut(rng: &Rng, calls: &[Call], size: usize) -> Vec<Vec<Call>> {
    let cycles: Vec<usize> = (0..calls.len()).filter(|&i| is_cycle(&calls[i])).collect();
    let mut cuts = vec![0];
    for n in (size..cycles.len()).step_by(size) {
        let (behind, storings) = (cycles[n - 1] + 1, cycles[n] - cycles[n - 1] - 1);
        cuts.push(behind + rng.below(storings.max(1)));
    }
    cuts.push(calls.len());
    cuts.windows(2).map(|ends| calls[ends[0]..ends[1]].to_vec()).collect()
}

/// The first `height` rows of a run that is written in these fragments, from queue positions on, by the finisher or by the five calls. What
/// stood in the buffer is random, and the last fragment is lent its size or the rest of the buffer.
pub fn write(
    rng: &Rng,
    run: &Run,
    from: Positions,
    fragments: &[Vec<Call>],
    size: usize,
    height: usize,
    at_once: bool,
) -> Result<Vec<u64>, Refusal> {
    let lent = Forests::new(&run.forests);
    let buffer_rows = height + rng.below(3);
    let mut buffer: Vec<u64> = (0..buffer_rows * WIDTH).map(|_| raised(rng, rng.cell())).collect();
    let (mut state, mut at) = (run.state, from);
    let (mut counts, mut built) = (Vec::new(), Vec::new());
    for (k, calls) in fragments.iter().enumerate() {
        let is_rest = k + 1 == fragments.len() && rng.one_in(2);
        let end = if is_rest { buffer_rows } else { ((k + 1) * size).min(buffer_rows) };
        let left = replay_calls(&lent, &run.queues, EXAMPLE, state, at, &records(calls), &mut buffer[k * size * WIDTH..end * WIDTH])?;
        counts.push(left.rows as u32);
        built.extend(left.built);
        (state, at) = (left.state, left.at);
    }
    let top = &run.first_stack_top;
    if at_once {
        exports::finish(EXAMPLE, &mut buffer, size, &counts, &built, top, height)?;
    } else {
        let rows = counts.iter().sum::<u32>() as usize;
        let last: &[u64; BUILT] = built.last_chunk().expect("a fragment");
        fixup_stack_and_system_rows(&mut buffer, size, &counts, &built, top)?;
        set_loop_body_multiplicities(EXAMPLE, &mut buffer, rows)?;
        invert_helper_column(&mut buffer, rows)?;
        push_halt_opcode_row(EXAMPLE, &mut buffer, rows, last)?;
        pad_core_row_major(EXAMPLE, &mut buffer, rows + 1, height)?;
    }
    buffer.truncate(height * WIDTH);
    Ok(buffer)
}

/// The run with up to three used entries in front of each queue, and the positions behind them.
fn with_used_entries(rng: &Rng, run: &Run) -> (Run, Positions) {
    let cells = |most: usize| (0..rng.below(most)).map(|_| rng.cell()).collect::<Vec<_>>();
    let ends = (0..3 * rng.below(4)).map(|_| rng.cell()).collect();
    let used = Queues { addresses: cells(4), parents: cells(4), ends };
    (Run { queues: run.queues.behind(&used), ..run.clone() }, used.lengths())
}

/// How many of the calls one fragment accepts.
fn accepted_calls(run: &Run, from: Positions, calls: &[Call]) -> usize {
    let lent = Forests::new(&run.forests);
    let refused = |calls: &[Call]| {
        let mut fragment = vec![0; calls.len() * WIDTH];
        replay_calls(&lent, &run.queues, EXAMPLE, run.state, from, &records(calls), &mut fragment).err()
    };
    if refused(calls).is_none() { calls.len() } else { first_refused(calls, refused).0 }
}

impl Comparison {
    fn differ(&mut self, text: String) {
        self.differences += 1;
        if self.told.len() < 20 {
            self.told.push(format!("run {}: {text}", self.tried));
        }
    }

    /// The run's calls, up to the first that is refused, in one fragment and at four other sizes.
    pub fn all(&mut self, rng: &Rng, run: &Run) {
        self.tried += 1;
        let (run, from) = &with_used_entries(rng, run);
        let mut calls = run.fragments.concat();
        let whole = calls.len();
        calls.truncate(accepted_calls(run, *from, &calls));
        let rows = calls.iter().filter(|call| is_cycle(call)).count();
        if rows < 2 {
            self.short += 1;
            return;
        }
        let height = rows + 1 + if rng.one_in(3) { 0 } else { rng.below(40) };
        let file = match write(rng, run, *from, &[calls.clone()], rows, height, rng.one_in(2)) {
            Ok(file) => file,
            Err(Refusal(14)) => {
                self.refused += 1;
                return;
            }
            Err(Refusal(number)) => {
                self.differ(format!("one fragment: refused with {number}"));
                return;
            }
        };
        self.count(1, height);
        // Some below the number of rows, 1 first; from there on there is one fragment.
        let (mut tried, mut written) = (vec![rows], 1);
        let mut tries = (0..30).map(|n| if n == 0 { 1 } else { 1 + rng.below(rows) }).chain(rows + 1..);
        while written < SIZES {
            let size = tries.next().expect("no end");
            if !tried.contains(&size) {
                tried.push(size);
                written += usize::from(self.agrees(rng, (run, *from), &calls, size, height, &file));
            }
        }
        self.runs += 1;
        self.whole += u64::from(calls.len() == whole);
    }

    fn count(&mut self, fragments: usize, rows: usize) {
        self.files += 1;
        self.in_several += u64::from(fragments > 1);
        self.fragments += fragments as u64;
        self.rows += rows as u64;
    }

    /// Writes the calls at a size and compares the file. Answers whether there is one: a cut may be refused with 23.
    fn agrees(&mut self, rng: &Rng, (run, from): (&Run, Positions), calls: &[Call], size: usize, height: usize, file: &[u64]) -> bool {
        let fragments = cut(rng, calls, size);
        let reuses = fragments.iter().any(|calls| is_cycle(&calls[0]));
        match write(rng, run, from, &fragments, size, height, rng.one_in(2)) {
            Ok(_) if reuses => self.differ(format!("size {size}: no 23 for a cycle that reuses what is stored")),
            Ok(other) => {
                self.count(fragments.len(), height);
                if let Some(cell) = (0..file.len()).find(|&i| other.get(i) != Some(&file[i])) {
                    self.differ(format!("size {size}: row {}, column {}", cell / WIDTH, cell % WIDTH));
                }
            }
            Err(Refusal(23)) if reuses => {
                self.reused += 1;
                return false;
            }
            Err(Refusal(number)) => self.differ(format!("size {size}: refused with {number}")),
        }
        true
    }
}
