//! `dumps [SEED [TEXTS]]`: traces and random buffers are written as dumps by the proved library and in plain Rust, and read back, as they are
//! and damaged, until so many damaged texts were read (100000). Writes what was compared and the differences; exits with 1 where there is one.

#[cfg(not(archive))]
fn main() {
    println!("dumps: left out: the archive is not there");
}

#[cfg(archive)]
fn main() {
    use core_trace::dumping::Tally;
    use core_trace::listing;
    use core_trace::random::{Rng, raised};
    use core_trace::words::word;

    let words: Vec<u64> = std::env::args().skip(1).map(|word| word.parse().expect("a number")).collect();
    let seed = words.first().copied().unwrap_or(1);
    let rng = Rng::new(seed.rotate_left(32));
    let mut tally = Tally::default();
    tally.all(&rng, &listing::trace());
    for deep in (1..=64).cycle().take(400) {
        tally.all(&rng, &word(&rng, deep).cells.iter().map(|&cell| raised(&rng, cell)).collect::<Vec<_>>());
    }
    tally.buffers(&rng, words.get(1).copied().unwrap_or(100_000));
    println!("dumps: {tally}");
    if tally.differences > 0 {
        std::process::exit(1);
    }
}
