//! `waves [SEED]`: dumps of traces and of random buffers go through GTKWave's vcd2fst and fst2vcd, and each value of all 49 variables at every
//! time is compared with the cells. Exits with 1 where there is a difference. Where the two programs are not there it says so.

#[cfg(not(archive))]
fn main() {
    println!("waves: left out: the archive is not there");
}

#[cfg(archive)]
fn main() {
    use core_trace::dumping::buffer;
    use core_trace::listing;
    use core_trace::random::{Rng, raised};
    use core_trace::waves::{compare, missing};
    use core_trace::words::word;

    if !missing().is_empty() {
        println!("waves: left out: not there (Debian's package gtkwave has them): {}", missing().join(", "));
        return;
    }
    let seed = std::env::args().nth(1).map_or(1, |word| word.parse().expect("a number"));
    let rng = Rng::new(seed);
    let traces = (1..=10).map(|deep| word(&rng, deep).cells.iter().map(|&cell| raised(&rng, cell)).collect());
    let buffers: Vec<Vec<u64>> = traces.chain([listing::trace()]).chain((0..30).map(|_| buffer(&rng))).collect();
    let mut values = 0;
    for cells in &buffers {
        match compare(cells) {
            Ok(compared) => values += compared,
            Err(text) => {
                println!("waves: {text}");
                std::process::exit(1);
            }
        }
    }
    println!("waves: {} dumps through vcd2fst and fst2vcd, {} rows, {values} values, 0 differences", buffers.len(), values / 49);
}
