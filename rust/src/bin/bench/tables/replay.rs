//! Replay and finish beside the listed Rust and a copy, in fresh memory and in memory that was written before.

use std::hint::black_box;

use core_trace::exports::WIDTH;
use core_trace::random::{Addresses, Rng, long_run};

use super::aims::{Aim, Aims};
use super::both::{Both, check_equal};
use super::memory::Memory;
use super::rounds::{Times, count, line, ns, power, rounds, section};

const TEXT: &str = "The proved library (`replay_calls` for each fragment, then `finish`) beside the listed Rust over stand-ins with the same calls and \
passes, and a copy of the rows (392 bytes each). Each makes a zeroed buffer of its own; the calls are ready, as records and as values. *Fresh*: the \
buffer is mapped anew, so that the first write to each page is a page fault. *Kept*: its memory was written in the round before, and is zeroed \
again. The addresses of blocks rise from block to block, but on the line that says they are random. Nanoseconds a row.";
const COLUMNS: &str =
    "nodes | rows | fragment | fresh: proved | listed | copy | proved / listed | kept: proved | listed | copy | proved / listed";
const PAGE: u64 = 4096;
const PROVED: usize = 0;
const LISTED: usize = 1;
const COPY: usize = 2;

const FRESH: Aim = Aim { text: "replay + finish / listed on every line, fresh memory", limit: 1.0, on_most: false };
const FRESH_MOST: Aim = Aim { text: "replay + finish / listed on most lines, fresh memory", limit: 0.8, on_most: true };
const KEPT: Aim = Aim { text: "replay + finish / listed on every line, kept memory", limit: 1.0, on_most: false };
const KEPT_MOST: Aim = Aim { text: "replay + finish / listed on most lines, kept memory", limit: 0.8, on_most: true };

/// The nodes, the logarithm of the rows, the fragment size and the blocks' addresses of a line.
#[derive(Clone, Copy)]
struct Line {
    nodes: usize,
    log: usize,
    fragment: usize,
    addresses: Addresses,
}

impl Line {
    /// The run, whose trace has one row more than it.
    fn run(&self) -> Both {
        let rows = (1 << self.log) - 1;
        Both::of(long_run(&Rng::new(7), self.nodes, rows, self.fragment, self.addresses), rows + 1)
    }

    fn nodes(&self) -> String {
        let nodes = count(self.nodes);
        if self.addresses == Addresses::Random { nodes + ", random addresses" } else { nodes }
    }
}

/// The logarithms of rows and of a fragment's rows.
const SIZES: [(usize, usize); 7] = [(10, 10), (14, 10), (14, 14), (17, 10), (17, 17), (20, 10), (20, 20)];

fn lines(most: usize) -> Vec<Line> {
    let of = |nodes: usize| SIZES.map(|(log, fragment)| Line { nodes, log, fragment: 1 << fragment, addresses: Addresses::Rising });
    let random = Line { nodes: 10, log: 14, fragment: 1 << 10, addresses: Addresses::Random };
    of(10).into_iter().chain([random]).chain(of(10_000)).filter(|line| line.log <= most).collect()
}

fn round(both: &Both, memory: Memory, times: &mut Times<3>, is_first: bool) {
    let contexts = both.contexts();
    memory.set();
    let data = times.of(LISTED, || black_box(both.listed(contexts)));
    memory.set();
    let buffer = times.of(PROVED, || black_box(both.proved()));
    if is_first {
        check_equal(&buffer, &data);
    }
    drop(data);
    memory.set();
    times.of(COPY, || {
        let mut copy = vec![0; buffer.len()];
        copy.copy_from_slice(black_box(&buffer));
        black_box(copy)
    });
}

/// Measures in one kind of memory. The first round is not counted: it writes the memory that may be kept.
fn measure(of: &Line, memory: Memory) -> Times<3> {
    memory.set();
    let both = of.run();
    round(&both, memory, &mut Times::new(), true);
    let mut times = Times::new();
    (0..rounds(of.log)).for_each(|_| round(&both, memory, &mut times, false));
    let pages = ((8 * WIDTH) << of.log) as u64 / PAGE;
    let is_fresh = [PROVED, LISTED, COPY].map(|k| times.faults(k) > pages / 2);
    assert!(is_fresh == [memory == Memory::Fresh; 3], "other memory than told");
    times
}

/// The medians and the ratio of one kind of memory.
fn cells(of: &Line, times: &Times<3>) -> [String; 4] {
    let [a, b, c] = [PROVED, LISTED, COPY].map(|k| ns(times.median(k, 1 << of.log)));
    [a, b, c, times.ratio(PROVED, LISTED).to_string()]
}

fn print_line(of: &Line, fresh: &Times<3>, kept: &Times<3>, aims: &mut Aims) {
    let [a, b, c, d] = cells(of, fresh);
    let [e, f, g, h] = cells(of, kept);
    let name = format!("nodes: {}; {} rows, fragments of {}", of.nodes(), power(of.log), count(of.fragment));
    line([of.nodes(), power(of.log), count(of.fragment), a, b, c, d, e, f, g, h]);
    for (times, all, most) in [(fresh, FRESH, FRESH_MOST), (kept, KEPT, KEPT_MOST)] {
        let ratio = times.ratio(PROVED, LISTED).medians;
        aims.hold(all, &name, ratio);
        aims.hold(most, &name, ratio);
    }
}

/// The least and the greatest part of a work's time in fresh memory that it does not take in kept memory, in percent.
fn spared(k: usize, fresh: &[Times<3>], kept: &[Times<3>]) -> String {
    let parts = || fresh.iter().zip(kept).map(|(fresh, kept)| 100.0 * (1.0 - kept.median(k, 1) / fresh.median(k, 1)));
    format!("{:.0} to {:.0} %", parts().fold(f64::MAX, f64::min), parts().fold(f64::MIN, f64::max))
}

/// What page faults come to, over all lines, and how many there are on the last.
fn print_faults(of: &Line, fresh: &[Times<3>], kept: &[Times<3>]) {
    let [a, b, c] = [PROVED, LISTED, COPY].map(|k| spared(k, fresh, kept));
    let a_row = |faults: u64| format!("{:.3}", faults as f64 / (1 << of.log) as f64);
    let told = |times: &[Times<3>]| [PROVED, LISTED, COPY].map(|k| a_row(times.last().unwrap().faults(k))).join(", ");
    println!("\nPage faults: of its time in fresh memory kept memory spares the proved library {a}, the listed Rust {b}, the copy {c}.");
    let name = format!("{} rows in fragments of {}", power(of.log), count(of.fragment));
    println!("There are so many a row, at {name} (proved, listed, copy): fresh {}; kept {}.", told(fresh), told(kept));
}

pub fn print(most: usize, aims: &mut Aims) {
    let lines = lines(most);
    let [fresh, kept] = [Memory::Fresh, Memory::Kept].map(|memory| lines.iter().map(|of| measure(of, memory)).collect::<Vec<_>>());
    section("Replay and finish", TEXT, COLUMNS);
    for (of, (fresh, kept)) in lines.iter().zip(fresh.iter().zip(&kept)) {
        print_line(of, fresh, kept, aims);
    }
    if let Some(of) = lines.last() {
        print_faults(of, &fresh, &kept);
    }
}

pub fn once(log: usize, nodes: usize, fragment: usize) {
    let of = Line { nodes, log, fragment, addresses: Addresses::Rising };
    let mut times = Times::new();
    round(&of.run(), Memory::Fresh, &mut times, true);
    line(cells(&of, &times));
}
