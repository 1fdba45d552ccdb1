//! `make_answers FOLDER [SEED [RUNS]]`: writes small runs with what the listed Rust makes of them, for a program that replays them without it.
//!
//! A file is text, every run of digits a number: how many runs there are, and for each
//! - profile (14), fragment size, height, first stack top (16), address state (2);
//! - nodes, digests, batches, groups, opcodes, directory, addresses, parents, ends, each with its length before it;
//! - how many fragments, and for each its records with their length before them, then rows, built cells (25), address state (2) and queue
//!   positions (3) after it;
//! - the cells of the finished trace with their number before them.
//!
//! In the files `runs_..` all cells are below p. In the files `cells_..` p is added to some of those that come in, the first address state
//! included; the answers are what the listed Rust makes of the reduced ones, and are expected as they stand.
//!
//! One cell is not the listed Rust's: the helper of HALT rows from depth 18 up is the documentation's, the inverse of depth − 16. A run that
//! starts a SYSCALL node, which is refused here, is written with CALL nodes in place of its SYSCALL nodes; it is chosen by what it shows with
//! these, so that the files have the runs that they had.

#[cfg(not(listed))]
fn main() {
    println!("make_answers: left out: the listed Rust is not there");
}

#[cfg(listed)]
fn main() {
    let words: Vec<String> = std::env::args().skip(1).collect();
    let number = |i: usize, default: u64| words.get(i).map_or(default, |word| word.parse().expect("a number"));
    let folder = words.first().expect("a folder");
    // A panic of the listed Rust is one of its refusals.
    std::panic::set_hook(Box::new(|_| {}));
    answers::write(std::path::Path::new(folder), number(1, 11), number(2, 36) as usize);
}

#[cfg(listed)]
mod answers {
    use std::collections::BTreeSet;
    use std::path::Path;

    use core_trace::calls::{Call, Positions, records};
    use core_trace::forest::Forests;
    use core_trace::listed::convert;
    use core_trace::listed::parallel::{CORE_STORAGE_WIDTH, passes};
    use core_trace::listed::stand_ins::field::Felt;
    use core_trace::listed::whole::{self, Start};
    use core_trace::listing;
    use core_trace::overflow::{invert_deep_halts, overflow_rule};
    use core_trace::profile::EXAMPLE;
    use core_trace::random::{Rng, Run, any_calls, changed_run, first_syscall, proper_run, raised_run, with_calls};

    /// What the program has room for: a run's cycles, slots, batch records and opcodes, a file's numbers and bytes.
    const CYCLES: usize = 24;
    const SLOTS: usize = 32;
    const RECORDS: usize = 16;
    const OPCODES: usize = 256;
    const NUMBERS: usize = 8000;
    const BYTES: usize = 60_000;
    /// What the files `cells_..` show besides.
    const KEPT: &str = "a fragment none of whose rows moves the address state, which is given from p on";

    /// The numbers of a run as it is given, and the answers to the run, where the listed Rust refuses nothing; and what it shows.
    fn answered(run: &Run, given: &Run, padding: usize) -> Option<(Vec<u64>, BTreeSet<String>)> {
        let lent = Forests::new(&given.forests);
        let cycles = run.fragments.iter().flatten().filter(|call| matches!(call, Call::Cycle(_))).count();
        let calls = run.fragments.iter().map(Vec::len).max()?;
        if cycles > CYCLES
            || calls > CYCLES * 2
            || lent.nodes.len() > 6 * SLOTS
            || lent.batches.len() > 12 * RECORDS
            || lent.ops.len() > OPCODES
        {
            return None;
        }
        let forests: Vec<_> = run.forests.iter().map(convert::forest).collect();
        let height = cycles + 1 + padding;
        let mut out: Vec<u64> = EXAMPLE.opcodes().iter().map(|&op| op.into()).collect();
        out.extend([EXAMPLE.step, run.fragment_size as u64, height as u64]);
        out.extend(given.first_stack_top);
        out.extend([given.state.current_addr, given.state.parent_addr]);
        let mut part = |numbers: Vec<u64>| {
            out.push(numbers.len() as u64);
            out.extend(numbers);
        };
        let wide = |numbers: &[u32]| numbers.iter().map(|&n| n.into()).collect();
        part(wide(&lent.nodes));
        part(lent.digests.clone());
        part(wide(&lent.batches));
        part(lent.groups.clone());
        part(lent.ops.iter().map(|&n| n.into()).collect());
        part(wide(&lent.directory));
        part(given.queues.addresses.clone());
        part(given.queues.parents.clone());
        part(given.queues.ends.clone());
        out.push(run.fragments.len() as u64);
        let (mut state, mut at, mut contexts) = (run.state, Positions::default(), Vec::new());
        let is_raised = given.state.current_addr != run.state.current_addr && given.state.parent_addr != run.state.parent_addr;
        let mut is_kept = false;
        for (k, calls) in run.fragments.iter().enumerate() {
            let listed = convert::calls(calls, &run.forests);
            let mut data = Felt::zero_vec(run.fragment_size * CORE_STORAGE_WIDTH);
            let left = whole::fragment(run, &forests, &listed, state, at, &mut data).left?;
            if left.rows == 0 || left.rows < run.fragment_size && k + 1 < run.fragments.len() {
                return None;
            }
            contexts.push(whole::context(run, &Start { state, from: at, to: left.at }, listed.into()));
            let numbers = records(&given.fragments[k]);
            out.push(numbers.len() as u64);
            out.extend(numbers);
            out.push(left.rows as u64);
            out.extend(left.built);
            out.extend([
                left.state.current_addr,
                left.state.parent_addr,
                left.at.addresses as u64,
                left.at.parents as u64,
                left.at.ends as u64,
            ]);
            (state, at) = (left.state, left.at);
            is_kept |= k == 0 && is_raised && at == Positions::default() && state == run.state;
        }
        let generated = std::panic::catch_unwind(std::panic::AssertUnwindSafe(|| passes::generate(contexts, run.fragment_size, &forests)));
        let mut data = generated.ok()?.ok()?;
        passes::pad(&mut data, height);
        let mut cells: Vec<u64> = whole::rows(&data).flatten().collect();
        invert_deep_halts(&mut cells);
        overflow_rule(&cells).unwrap();
        out.push(cells.len() as u64);
        out.extend(&cells);
        let mut shows = shown(run, &cells);
        if is_kept {
            shows.insert(KEPT.into());
        }
        if run.fragments.iter().any(|calls| first_syscall(calls, &run.forests).is_some()) {
            let (called, _) = answered(&with_calls(run.clone()), &with_calls(given.clone()), padding)?;
            return Some((called, shows));
        }
        Some((out, shows))
    }

    /// What a run shows: its opcodes among the control ones, the helper cases of its operations, its forests, small fragments, loop counts.
    fn shown(run: &Run, cells: &[u64]) -> BTreeSet<String> {
        let mut all = BTreeSet::new();
        for row in cells.chunks(49) {
            let opcode = (0..7).map(|i| (row[7 + i] as u8) << i).sum::<u8>();
            if EXAMPLE.opcodes().contains(&opcode) {
                all.insert(format!("opcode {opcode}, in_span {}", row[22]));
            }
            if opcode == EXAMPLE.loop_op {
                all.insert(format!("count {}", row[23].min(3)));
            }
        }
        let mut last = None;
        for call in run.fragments.iter().flatten() {
            match call {
                Call::Store(stored) => last = Some(stored.continuation),
                Call::Cycle(cycle) => {
                    if let Some(core_trace::calls::Continuation::ResumeBasicBlock { .. }) = last {
                        all.insert(format!("registers {}", cycle.registers.case));
                    }
                    all.insert(format!("forest {}", cycle.forest));
                }
            }
        }
        all.insert(format!("fragments {}", run.fragments.len().min(6)));
        all
    }

    pub fn write(folder: &Path, seed: u64, runs: usize) {
        let rng = Rng::small(seed);
        let kinds = [proper_run as fn(&Rng, usize) -> Run, proper_run, changed_run, any_calls];
        let mut seen = BTreeSet::new();
        let same = |run: &Run, padding: usize| answered(run, run, padding);
        let mut all = vec![same(&listing::run(9), 0).unwrap().0, same(&listing::run(4), 2).unwrap().0];
        let mut tried = 0;
        while all.len() < runs {
            let run = kinds[tried % kinds.len()](&rng, CYCLES);
            tried += 1;
            let Some((numbers, shows)) = same(&run, rng.below(3)) else {
                continue;
            };
            // First those that show something new, later any.
            if !shows.is_subset(&seen) || tried > 20_000 {
                seen.extend(shows);
                all.push(numbers);
            }
        }
        write_files(folder, "runs", all);
        println!("tried {tried}; shown: {}", seen.into_iter().collect::<Vec<_>>().join("; "));

        let above = |run: &Run| answered(run, &raised_run(&rng, run), rng.below(3));
        let mut seen = BTreeSet::new();
        let mut all = vec![above(&listing::run(9)).unwrap().0, above(&listing::run(4)).unwrap().0];
        while all.len() < runs / 3 || !seen.contains(KEPT) {
            let run = kinds[tried % kinds.len()](&rng, CYCLES);
            tried += 1;
            let is_room = all.len() < runs / 3;
            let is_new = |shows: &BTreeSet<String>| if is_room { !shows.is_subset(&seen) } else { shows.contains(KEPT) };
            if let Some((numbers, shows)) = above(&run).filter(|(_, shows)| is_new(shows)) {
                seen.extend(shows);
                all.push(numbers);
            }
        }
        write_files(folder, "cells", all);
    }

    /// The runs in files of at most so many numbers and bytes.
    fn write_files(folder: &Path, name: &str, all: Vec<Vec<u64>>) {
        let mut files: Vec<Vec<Vec<u64>>> = vec![Vec::new()];
        let bytes = |runs: &[Vec<u64>]| runs.iter().flatten().map(|n| n.to_string().len() + 1).sum::<usize>();
        for run in all {
            let last = files.last_mut().unwrap();
            let one = [run];
            if last.iter().flatten().count() + one[0].len() > NUMBERS || bytes(last) + bytes(&one) > BYTES {
                files.push(one.into());
            } else {
                last.extend(one);
            }
        }
        for (i, runs) in files.iter().enumerate() {
            let mut text = format!("{}\n", runs.len());
            for numbers in runs {
                for line in numbers.chunks(49) {
                    text += &(line.iter().map(u64::to_string).collect::<Vec<_>>().join(" ") + "\n");
                }
            }
            let name = format!("{name}_{:02}", i + 1);
            println!("{name}: {} runs, {} numbers, {} bytes", runs.len(), runs.iter().flatten().count() + 1, text.len());
            std::fs::write(folder.join(name), text).unwrap();
        }
    }
}
