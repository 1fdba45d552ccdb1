//! `bench [LOG2_MOST [TABLE…]]`: what replay, passes, inverse, reader, index, dumps and the scan of a forest cost, beside other ways to do the
//! same, for up to 2^20 rows or the power given. The output is Markdown, which docs/PERFORMANCE.md has word for word: the machine, a section for
//! each table (all of them, or those named: replay, scan, passes, loops, inverse, reader, dumps, stack), and the aims.
//!
//! Times are processor time of this thread in nanoseconds. The works of a line are made in turn, round by round; a figure is the median over the
//! rounds, a ratio that of the medians, with the least and the greatest of a round in brackets.
//!
//! `bench once TABLE LOG2 …` makes one round of one line, for a profiler: `once replay LOG2 NODES FRAGMENT`, `once loops LOG2 EVERY ORDER`,
//! `once reader LOG2`.

#[cfg(not(all(listed, archive)))]
fn main() {
    println!("bench: left out: the listed Rust or the archive is not there");
}

#[cfg(all(listed, archive))]
mod tables;

#[cfg(all(listed, archive))]
fn main() {
    let words: Vec<String> = std::env::args().skip(1).collect();
    match words.split_first() {
        Some((first, rest)) if first == "once" => tables::once(rest),
        Some((first, rest)) => tables::print(first.parse().expect("the logarithm of the most rows"), rest),
        None => tables::print(20, &[]),
    }
}
