//! Reading a trace and building its index, in the same rounds.

use std::hint::black_box;

use core_trace::checker::check;
use core_trace::exports::{build_index, enclosing_block, read_trace};
use core_trace::profile::EXAMPLE;
use core_trace::random::Rng;
use core_trace::reading::indexed;
use core_trace::words::{Word, long_word};

use super::aims::{Aim, Aims};
use super::memory::Memory;
use super::rounds::{Times, count, line, ns, power, rounds, section};

const TEXT: &str = "`read_trace` beside the checker in plain Rust (`rust/src/checker.rs`), and a copy of the rows into a buffer that is there. The trace \
is one loop with passes of up to 12 levels, and HALT rows to the height. The works of a round are made in turn, each round beginning with another. \
Nanoseconds a row.";
const COLUMNS: &str = "rows | `read_trace` | checker | copy | `read_trace` / checker | `read_trace` / copy";
const INDEX_TEXT: &str = "`build_index`, which reads the trace first, in the same rounds (nanoseconds a row); and `enclosing_block` for 1,000 random rows of \
the program (nanoseconds a look-up).";
const INDEX_COLUMNS: &str = "rows | blocks | `build_index` | `build_index` / `read_trace` | `build_index` / copy | `enclosing_block`";
const READ: usize = 0;
const CHECKER: usize = 1;
const COPY: usize = 2;
const INDEX: usize = 3;
const LOOK_UP: usize = 4;
const WORKS: usize = 5;
const LOOK_UPS: usize = 1000;

const TO_CHECKER: Aim = Aim { text: "`read_trace` / checker", limit: 1.0, on_most: false };
const TO_COPY: Aim = Aim { text: "`read_trace` / copy", limit: 3.0, on_most: false };

/// A trace, its index and the rows to look up, with the place of each one's block.
struct Trace {
    word: Word,
    index: Vec<u32>,
    rows: Vec<usize>,
    places: Vec<usize>,
}

/// What is written to.
struct Room {
    depths: Vec<u32>,
    index: Vec<u32>,
    copy: Vec<u64>,
}

#[inline(never)]
fn by_the_checker(cells: &[u64], depths: &mut [u32]) -> Option<usize> {
    check(&EXAMPLE, cells, depths).ok()
}

impl Trace {
    fn new(rows: usize) -> Self {
        let rng = Rng::new(7);
        let word = long_word(&rng, rows);
        let (index, blocks) = indexed(&EXAMPLE, &word.cells, word.program_rows);
        let rows: Vec<usize> = (0..LOOK_UPS).map(|_| rng.below(word.program_rows)).collect();
        let places = rows.iter().map(|&row| blocks[row]).collect();
        Self { word, index, rows, places }
    }

    fn look_up(&self) -> Vec<usize> {
        self.rows.iter().map(|&row| enclosing_block(black_box(&self.index), row).unwrap().unwrap()).collect()
    }

    fn work(&self, k: usize, room: &mut Room, times: &mut Times<WORKS>) {
        let (cells, Room { depths, index, copy }) = (&self.word.cells[..], room);
        match k {
            READ => assert_eq!(times.of(READ, || read_trace(EXAMPLE, black_box(cells), depths)), Ok(self.word.program_rows)),
            CHECKER => assert_eq!(times.of(CHECKER, || by_the_checker(black_box(cells), depths)), Some(self.word.program_rows)),
            COPY => times.of(COPY, || black_box(copy).copy_from_slice(black_box(cells))),
            INDEX => assert_eq!(times.of(INDEX, || build_index(EXAMPLE, black_box(cells), index)), Ok(self.index.len() / 3)),
            _ => assert!(times.of(LOOK_UP, || self.look_up()) == self.places, "another block"),
        }
        assert!(k > CHECKER || *depths == self.word.depths, "the depths differ");
        assert!(k != INDEX || index[..self.index.len()] == self.index, "the index differs");
    }

    fn measure(&self, rounds: usize) -> Times<WORKS> {
        let rows = self.word.depths.len();
        let mut room = Room { depths: vec![0; rows], index: vec![0; 3 * rows], copy: self.word.cells.clone() };
        let mut times = Times::new();
        for turn in 0..rounds * WORKS {
            let (round, work) = (turn / WORKS, turn % WORKS);
            room.depths.fill(77);
            self.work((round + work) % WORKS, &mut room, &mut times);
        }
        times
    }
}

fn reader_line(log: usize, times: &Times<WORKS>) {
    let [a, b, c] = [READ, CHECKER, COPY].map(|k| ns(times.median(k, 1 << log)));
    let [p, q] = [CHECKER, COPY].map(|k| times.ratio(READ, k).to_string());
    line([power(log), a, b, c, p, q]);
}

fn index_line(log: usize, blocks: usize, times: &Times<WORKS>) {
    let (a, b) = (ns(times.median(INDEX, 1 << log)), ns(times.median(LOOK_UP, LOOK_UPS)));
    let [p, q] = [READ, COPY].map(|k| times.ratio(INDEX, k).to_string());
    line([power(log), count(blocks), a, p, q, b]);
}

pub fn print(most: usize, aims: &mut Aims) {
    Memory::Kept.set();
    let logs = || (10..=most.min(20)).step_by(2);
    let measured = logs().map(|log| {
        let trace = Trace::new(1 << log);
        (log, trace.index.len() / 3, trace.measure(rounds(log)))
    });
    let measured: Vec<_> = measured.collect();
    section("Reading", TEXT, COLUMNS);
    for (log, _, times) in &measured {
        reader_line(*log, times);
        aims.hold(TO_CHECKER, &format!("{} rows", power(*log)), times.ratio(READ, CHECKER).medians);
        aims.hold(TO_COPY, &format!("{} rows", power(*log)), times.ratio(READ, COPY).medians);
    }
    section("The index", INDEX_TEXT, INDEX_COLUMNS);
    measured.iter().for_each(|(log, blocks, times)| index_line(*log, *blocks, times));
}

pub fn once(log: usize) {
    reader_line(log, &Trace::new(1 << log).measure(1));
}
