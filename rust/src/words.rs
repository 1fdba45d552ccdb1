//! Random traces straight from document 01's grammar, with the depths they must be read with.

use crate::profile::{EXAMPLE, Profile};
use crate::random::Rng;

const WIDTH: usize = 49;
const H4: usize = 18;
const IN_SPAN: usize = 22;
const GROUP_COUNT: usize = 23;

/// A row with an opcode and in_span, its other cells 0.
pub fn row(opcode: u8, in_span: u64) -> [u64; WIDTH] {
    let mut cells = [0; WIDTH];
    (0..7).for_each(|i| cells[7 + i] = u64::from(opcode >> i & 1));
    cells[IN_SPAN] = in_span;
    cells
}

/// A trace and what a reader answers: the number of program rows and one depth a row.
#[derive(Default)]
pub struct Word {
    pub cells: Vec<u64>,
    pub depths: Vec<u32>,
    pub program_rows: usize,
}

struct Writer<'a> {
    rng: &'a Rng,
    profile: &'a Profile,
    cells: Vec<u64>,
    depths: Vec<u32>,
    depth: u32,
}

impl Writer<'_> {
    /// A row at the present depth; the cells that the grammar does not name are random.
    fn row(&mut self, opcode: u8, in_span: u64) {
        let named = row(opcode, in_span);
        let is_named = |i: usize| matches!(i, 7..=13 | IN_SPAN);
        self.cells.extend((0..WIDTH).map(|i| if is_named(i) { named[i] } else { self.rng.cell() }));
        self.depths.push(self.depth);
    }

    fn ops(&mut self) {
        for _ in 0..self.rng.below(12) {
            let opcode = self.rng.below(128) as u8;
            if self.profile.is_operation(opcode) {
                self.row(opcode, 1);
            }
        }
    }

    fn span(&mut self) {
        self.row(self.profile.span, 0);
        self.ops();
        while self.rng.one_in(4) {
            self.row(self.profile.respan, 0);
            self.ops();
        }
    }

    /// A loop's rows but its END: the first pass is `deep` deep.
    fn passes(&mut self, deep: usize) {
        let start = self.cells.len();
        self.row(self.profile.loop_op, 0);
        self.block(deep, true);
        let mut count = 1;
        while self.rng.one_in(3) {
            self.row(self.profile.repeat, 0);
            self.block(1 + self.rng.below(deep.min(3)), true);
            count += 1;
        }
        self.cells[start + GROUP_COUNT] = count;
    }

    /// A Block of this many levels.
    fn block(&mut self, deep: usize, is_body: bool) {
        self.depth += 1;
        let p = self.profile;
        match self.rng.below(8) {
            _ if deep == 1 => self.span(),
            0 | 1 => {
                self.row(p.join, 0);
                let other = 1 + self.rng.below((deep - 1).min(3));
                let (first, second) = if self.rng.one_in(2) { (deep - 1, other) } else { (other, deep - 1) };
                self.block(first, false);
                self.block(second, false);
            }
            2..=4 => self.passes(deep - 1),
            _ => {
                let opcode = self.rng.pick(&[p.split, p.call, p.syscall, p.dyn_op, p.dyncall]);
                self.row(opcode, 0);
                self.block(deep - 1, false);
            }
        }
        self.end(is_body);
    }

    fn end(&mut self, is_body: bool) {
        let start = self.cells.len();
        self.row(self.profile.end, 0);
        self.cells[start + H4] = u64::from(is_body);
        self.depth -= 1;
    }

    fn halted(mut self, rows: usize) -> Word {
        let program_rows = self.depths.len();
        while self.depths.len() < rows {
            self.row(self.profile.halt, 0);
        }
        Word { cells: self.cells, depths: self.depths, program_rows }
    }
}

fn writer(rng: &Rng) -> Writer<'_> {
    Writer { rng, profile: &EXAMPLE, cells: Vec::new(), depths: Vec::new(), depth: 0 }
}

/// A word of one Block of this many levels, and one to four HALT.
pub fn word(rng: &Rng, deep: usize) -> Word {
    let mut w = writer(rng);
    w.block(deep, false);
    let rows = w.depths.len() + 1 + rng.below(4);
    w.halted(rows)
}

/// A word of `rows` rows (14 at least): a loop with passes of up to 12 levels while they fit, then HALT.
pub fn long_word(rng: &Rng, rows: usize) -> Word {
    let mut w = writer(rng);
    w.depth = 1;
    w.row(EXAMPLE.loop_op, 0);
    let (mut count, mut failed) = (0, 0);
    while failed < 40 || count == 0 {
        let before = w.depths.len();
        if count > 0 {
            w.row(EXAMPLE.repeat, 0);
        }
        w.block(1 + rng.below(12), true);
        // An END and a HALT must still fit.
        if w.depths.len() + 2 > rows {
            w.depths.truncate(before);
            w.cells.truncate(before * WIDTH);
            failed += 1;
        } else {
            count += 1;
        }
    }
    w.cells[GROUP_COUNT] = count;
    w.end(false);
    w.halted(rows)
}
