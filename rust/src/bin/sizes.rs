//! `sizes [SEED [RUNS]]`: random runs, some with cells from p on, each written at five fragment sizes by the proved library. Writes what was
//! compared and the differences; exits with 1 where there is one or, of 100 runs or more, where fewer files in more than one fragment were
//! compared than there are runs.

#[cfg(not(archive))]
fn main() {
    println!("sizes: left out: the archive is not there");
}

#[cfg(archive)]
fn main() {
    use core_trace::random::{Rng, Run, any_calls, changed_run, proper_run, raised_run, with_calls, with_depths};
    use core_trace::sizes::Comparison;

    let numbers: Vec<u64> = std::env::args().skip(1).map(|word| word.parse().expect("a number")).collect();
    let seed = numbers.first().copied().unwrap_or(1);
    let runs = numbers.get(1).copied().unwrap_or(2000);
    let rng = Rng::new(seed.rotate_left(16));
    let mut bad = false;
    let proper: fn(&Rng, usize) -> Run = |rng, limit| with_calls(proper_run(rng, limit));
    for (name, kind) in [("proper runs", proper), ("changed runs", changed_run), ("calls of any kind", any_calls)] {
        let mut comparison = Comparison::default();
        for n in 0..runs {
            let limit = rng.pick(&[20, 100, 400]);
            let run = with_depths(&rng, kind(&rng, limit));
            comparison.all(&rng, &if n.is_multiple_of(2) { raised_run(&rng, &run) } else { run });
        }
        println!("sizes, {name}: {comparison}");
        let few = runs >= 100 && comparison.in_several < runs;
        if few {
            println!("sizes, {name}: too few files in more than one fragment");
        }
        bad |= comparison.differences > 0 || few;
    }
    if bad {
        std::process::exit(1);
    }
}
