//! `compare [SEED [RUNS]]`: random runs by the listed Rust and by the proved library, which in every second of them is given some cells with
//! p added, and the finished traces read by the proved library and by the checker, as they are and changed. Writes what was compared and left
//! out, the differences, and how often which side refused. Exits with 1 where there is a difference, and where 100 runs or more have not been
//! replayed both by pairs of calls and by calls one by one.
//!
//! Programs with SYSCALL are outside what is compared: a run ends where a SYSCALL node is started. The reader meets SYSCALL rows in traces
//! from the grammar, and in finished traces whose CALL rows are made SYSCALL rows.

#[cfg(not(all(listed, archive)))]
fn main() {
    println!("compare: left out: the listed Rust or the archive is not there");
}

#[cfg(all(listed, archive))]
fn main() {
    use core_trace::compare::{Tally, Ways, compare_run};
    use core_trace::random::{Rng, any_calls, changed_run, proper_run, with_depths};
    use core_trace::reading::{self, archived};
    use core_trace::words::word;

    let numbers: Vec<u64> = std::env::args().skip(1).map(|word| word.parse().expect("a number")).collect();
    let seed = numbers.first().copied().unwrap_or(1);
    let runs = numbers.get(1).copied().unwrap_or(3000);
    // A panic of the listed Rust is one of its refusals; it is counted and not shown.
    std::panic::set_hook(Box::new(|_| {}));
    let rng = Rng::new(seed);
    let reader_rng = Rng::new(!seed);
    println!("seed {seed}; {runs} runs of each kind");
    let mut bad = false;
    let (mut reads, mut ways) = (reading::Tally::default(), Ways::default());
    for (name, kind) in
        [("proper runs", proper_run as fn(&Rng, usize) -> _), ("changed runs", changed_run), ("calls of any kind", any_calls)]
    {
        let mut tally = Tally::default();
        for _ in 0..runs {
            let limit = rng.pick(&[20, 100, 400, 1500]);
            let run = with_depths(&rng, kind(&rng, limit));
            if let Some(trace) = compare_run(&run, &rng, &mut tally) {
                let cells = if reader_rng.one_in(4) { archived(trace.cells) } else { trace.cells };
                reads.all(&reader_rng, cells, run.nesting.as_deref().filter(|_| !trace.is_cut));
            }
        }
        println!("{name}: {tally}");
        bad |= tally.differences > 0;
        ways = ways.and(tally.ways);
    }
    println!("replay, all kinds: {ways}");
    if runs >= 100 && !ways.are_reached() {
        println!("replay was not seen to go both ways");
        bad = true;
    }
    // Traces from the grammar, half of them near the deepest that is read.
    for n in 0..runs as usize / 4 {
        let deep = if n.is_multiple_of(2) { 1 + n / 2 % 64 } else { reader_rng.pick(&[63, 64, 64, 64, 65, 66]) };
        let written = word(&reader_rng, deep);
        reads.all(&reader_rng, written.cells, Some(&written.depths[..written.program_rows]));
    }
    reads.long(&reader_rng);
    println!("traces as written: {}; of {} the nesting is known", reads.whole, reads.nested);
    println!("traces as written with SYSCALL rows: {}", reads.syscalls);
    println!("p added to cells: {}", reads.raised);
    println!("one cell of an accepted trace changed: {}", reads.damaged);
    println!("one cell of a refused trace changed: {}", reads.refused);
    println!("other changes: {}", reads.other);
    println!("{} rows read, {} row views, {} indexes, {} differences", reads.rows, reads.views, reads.indexes, reads.differences);
    for text in &reads.told {
        println!("  {text}");
    }
    bad |= reads.differences > 0;
    if bad {
        std::process::exit(1);
    }
}
