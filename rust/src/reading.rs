//! The comparison of the proved reader with the checker: traces as they were written, with cells from p on for the same ones, and with one
//! cell changed.

use crate::answers::Answers;
use crate::checker::{Refused, check};
use crate::compare::column;
use crate::exports::{WIDTH, build_index, enclosing_block, read_trace, row};
use crate::profile::{EXAMPLE, Profile};
use crate::random::{Rng, raised};
use crate::words::long_word;

const P: u64 = 18446744069414584321;
const H4: usize = 18;
const IN_SPAN: usize = 22;
const GROUP_COUNT: usize = 23;

/// What was read.
#[derive(Default)]
pub struct Tally {
    /// Traces as they were written.
    pub whole: Answers,
    /// Those of them whose nesting is known.
    pub nested: u64,
    /// Those of them that have a SYSCALL row.
    pub syscalls: Answers,
    /// Traces with p added to cells, or taken from them.
    pub raised: Answers,
    /// Accepted traces with one cell changed.
    pub damaged: Answers,
    /// Refused traces with one cell changed.
    pub refused: Answers,
    /// Traces with some cells changed, a row removed, put in, exchanged or turned into another, other profiles and lengths.
    pub other: Answers,
    pub rows: u64,
    pub views: u64,
    pub indexes: u64,
    pub differences: u64,
    /// The first differences, in words.
    pub told: Vec<String>,
}

/// The number of a refusal.
fn number(answer: &Result<usize, Refused>) -> Option<u32> {
    answer.err().map(|(number, _)| number)
}

impl Tally {
    fn differ(&mut self, text: String) {
        self.differences += 1;
        if self.told.len() < 20 {
            self.told.push(text);
        }
    }

    /// The answer and the depth list of both. The list has some number more than it needs, and any numbers before.
    fn read(&mut self, what: &str, profile: &Profile, cells: &[u64], depth_numbers: usize) -> (Result<usize, Refused>, Vec<u32>) {
        let before: Vec<u32> = (0..depth_numbers as u32).map(|i| i.wrapping_mul(0x9e37_79b9) | 1 << 20).collect();
        let (mut ours, mut depths) = (before.clone(), before.clone());
        let answer = read_trace(*profile, cells, &mut ours).map_err(|refused| (refused.refusal.0, refused.row));
        let wanted = check(profile, cells, &mut depths);
        if answer != wanted {
            self.differ(format!("{what}: the reader answers {answer:?}, the checker {wanted:?}"));
        }
        if ours != depths {
            self.differ(format!("{what}: the depths are not the checker's"));
        }
        if answer.is_err() && ours != before {
            self.differ(format!("{what}: a refusal changed the depths"));
        }
        self.rows += (cells.len() / WIDTH) as u64;
        (answer, ours)
    }

    /// Reads a trace as it was written. Where its nesting is known it must be accepted with these depths, or, deeper than 64, be refused by
    /// 15 at the first row that is. Answers whether it is accepted.
    fn read_back(&mut self, cells: &[u64], nesting: Option<&[u32]>) -> bool {
        let rows = cells.len() / WIDTH;
        let (answer, depths) = self.read("a written trace", &EXAMPLE, cells, rows + 3);
        self.whole.count(number(&answer));
        if cells.chunks(WIDTH).any(|row| opcode(row) == EXAMPLE.syscall && row[IN_SPAN] % P == 0) {
            self.syscalls.count(number(&answer));
        }
        let Some(nesting) = nesting else {
            return answer.is_ok();
        };
        self.nested += 1;
        match nesting.iter().position(|&depth| depth > 64) {
            Some(row) if answer != Err((15, row)) => self.differ(format!("a trace deeper than 64 at row {row}: {answer:?}")),
            None if answer != Ok(nesting.len()) => self.differ(format!("a trace of {} program rows: {answer:?}", nesting.len())),
            None if depths[..nesting.len()] != *nesting || depths[nesting.len()..rows].iter().any(|&d| d != 0) => {
                self.differ("the depths are not the nesting".into())
            }
            _ => {}
        }
        answer.is_ok()
    }

    /// The view of a row is the caller's own cells, the empty part past the end or where the length is wrong.
    fn view(&mut self, cells: &[u64], number: usize) {
        let right = number < cells.len() / WIDTH && cells.len().is_multiple_of(WIDTH);
        let wanted = if right { &cells[number * WIDTH..][..WIDTH] } else { &cells[..0] };
        if !core::ptr::eq(row(cells, number), wanted) {
            self.differ(format!("row {number} of {} cells", cells.len()));
        }
        self.views += 1;
    }

    /// The index of a trace, and the innermost block of each row and of one past the end. It is refused as the reader refuses with a depth
    /// number a row; where there is one, also by 27 with a number less.
    fn index(&mut self, profile: &Profile, cells: &[u64]) {
        let rows = cells.len() / WIDTH;
        let wanted = check(profile, cells, &mut vec![0; rows]);
        let (index, blocks) = wanted.map_or((vec![], vec![]), |program| indexed(profile, cells, program));
        let mut ours = vec![7; index.len() + 2];
        let answer = build_index(*profile, cells, &mut ours).map_err(|refused| (refused.refusal.0, refused.row));
        if answer != wanted.map(|_| index.len() / 3) || ours != [&index[..], &[7, 7]].concat() {
            self.differ(format!("the index of {rows} rows: {answer:?}"));
        }
        for row in 0..if index.is_empty() { 0 } else { rows + 1 } {
            if enclosing_block(&index, row).ok() != Some(blocks.get(row).copied()) {
                self.differ(format!("the block of row {row}"));
            }
        }
        if !index.is_empty() {
            let mut short = vec![7; index.len() - 1];
            let answer = build_index(*profile, cells, &mut short).map_err(|refused| (refused.refusal.0, refused.row));
            if answer != Err((27, 0)) || short.iter().any(|&n| n != 7) || enclosing_block(&short, 0).map_err(|r| r.0) != Err(11) {
                self.differ(format!("an index too short: {answer:?}"));
            }
        }
        self.indexes += 1;
    }

    /// Reads a trace back, then 12 times with other numbers for the same cells, 100 times with one cell changed (8 times where it is refused)
    /// and 16 times with a larger change.
    pub fn all(&mut self, rng: &Rng, mut cells: Vec<u64>, nesting: Option<&[u32]>) {
        let is_accepted = self.read_back(&cells, nesting);
        self.view(&cells, rng.below(cells.len() / WIDTH + 1));
        self.index(&EXAMPLE, &cells);
        self.raise(rng, &cells);
        self.damage(rng, &mut cells, is_accepted);
        self.reshape(rng, &cells);
    }

    /// Adds p to a cell or takes it from one, and then from some: what is read stays the same.
    fn raise(&mut self, rng: &Rng, cells: &[u64]) {
        let rows = cells.len() / WIDTH;
        let plain = self.read("a trace, its cells as they are", &EXAMPLE, cells, rows);
        let places = Places::new(cells);
        for n in 0..12 {
            let mut other = cells.to_vec();
            if n < 8 {
                let (row, cell) = places.pick(rng);
                other[row * WIDTH + cell] = other_number(cells[row * WIDTH + cell]);
            } else {
                let one_in = 1 + rng.below(4);
                other.iter_mut().filter(|_| rng.one_in(one_in)).for_each(|cell| *cell = other_number(*cell));
            }
            let got = self.read("a trace, p added to cells", &EXAMPLE, &other, rows);
            self.raised.count(number(&got.0));
            if got != plain {
                self.differ(format!("a trace reads otherwise with p added to cells: {:?} and {:?}", got.0, plain.0));
            }
            if n > 9 {
                self.index(&EXAMPLE, &other);
                self.view(&other, rng.below(rows + 1));
            }
        }
    }

    /// Traces with as many rows as the library keeps kinds of in a list, with one more and with many more: read back, read with p added to
    /// cells and with one cell changed; and their indexes.
    pub fn long(&mut self, rng: &Rng) {
        for rows in [4096, 4097, 65536, 65537, 100_000] {
            let written = long_word(rng, rows);
            let cells = written.cells;
            self.read_back(&cells, Some(&written.depths[..written.program_rows]));
            let (index, _) = indexed(&EXAMPLE, &cells, written.program_rows);
            let mut ours = vec![7; index.len()];
            if build_index(EXAMPLE, &cells, &mut ours).ok() != Some(index.len() / 3) || ours != index {
                self.differ(format!("the index of {rows} rows"));
            }
            self.indexes += 1;
            let places = Places::new(&cells);
            for n in 0..12 {
                let (row, cell) = places.pick(rng);
                let mut changed = cells.clone();
                changed[row * WIDTH + cell] =
                    if n < 2 { other_number(cells[row * WIDTH + cell]) } else { other_value(rng, &cells, row, cell) };
                let (answer, _) = self.read("a long trace, a cell changed", &EXAMPLE, &changed, rows);
                if n < 2 { &mut self.raised } else { &mut self.damaged }.count(number(&answer));
            }
        }
    }

    fn damage(&mut self, rng: &Rng, cells: &mut [u64], is_accepted: bool) {
        let places = Places::new(cells);
        for _ in 0..if is_accepted { 100 } else { 8 } {
            let (row, cell) = places.pick(rng);
            let at = row * WIDTH + cell;
            let before = cells[at];
            cells[at] = other_value(rng, cells, row, cell);
            let what = format!("row {row}, {} {before} changed to {}", column(cell), cells[at]);
            let (answer, _) = self.read(&what, &EXAMPLE, cells, cells.len() / WIDTH);
            if is_accepted { &mut self.damaged } else { &mut self.refused }.count(number(&answer));
            cells[at] = before;
        }
    }

    fn reshape(&mut self, rng: &Rng, cells: &[u64]) {
        let places = Places::new(cells);
        for _ in 0..16 {
            let mut changed = cells.to_vec();
            let rows = cells.len() / WIDTH;
            let (mut profile, mut depth_numbers) = (EXAMPLE, rows + 1);
            let what = reshaped(rng, &places, &mut changed, &mut profile, &mut depth_numbers);
            let (answer, _) = self.read(what, &profile, &changed, depth_numbers);
            self.other.count(number(&answer));
            self.view(&changed, rng.below(rows + 2));
            self.index(&profile, &changed);
        }
    }
}

/// A trace as it may stand in an archive: its CALL rows are SYSCALL rows.
pub fn archived(mut cells: Vec<u64>) -> Vec<u64> {
    for row in cells.chunks_mut(WIDTH) {
        if opcode(row) == EXAMPLE.call && row[IN_SPAN] % P == 0 {
            (0..7).for_each(|i| row[7 + i] = u64::from(EXAMPLE.syscall >> i & 1));
        }
    }
    cells
}

/// The index of an accepted trace of so many program rows, and the place of each program row's innermost block.
pub fn indexed(profile: &Profile, cells: &[u64], program: usize) -> (Vec<u32>, Vec<usize>) {
    let starts =
        [profile.span, profile.join, profile.split, profile.loop_op, profile.call, profile.syscall, profile.dyn_op, profile.dyncall];
    let (mut index, mut open, mut blocks) = (Vec::new(), Vec::<usize>::new(), Vec::new());
    for (number, row) in cells.chunks(WIDTH).take(program).enumerate() {
        let is_control = row[IN_SPAN] % P == 0;
        if is_control && starts.contains(&opcode(row)) {
            let around = open.last().map_or(number as u32, |&place| index[3 * place]);
            open.push(index.len() / 3);
            index.extend([number as u32, 0, around]);
        }
        let place = *open.last().unwrap();
        blocks.push(place);
        if is_control && opcode(row) == profile.end {
            index[3 * place + 1] = number as u32;
            open.pop();
        }
    }
    (index, blocks)
}

/// Rows whose flag or count the reader asks for.
struct Places {
    rows: usize,
    ends: Vec<usize>,
    loops: Vec<usize>,
}

fn opcode(row: &[u64]) -> u8 {
    (0..7).map(|i| ((row[7 + i] % P) as u8 & 1) << i).sum()
}

/// The other number that is read as the same cell, where there is one.
fn other_number(cell: u64) -> u64 {
    cell.checked_sub(P).or(cell.checked_add(P)).unwrap_or(cell)
}

impl Places {
    fn new(cells: &[u64]) -> Self {
        let of = |wanted: u8| cells.chunks(WIDTH).enumerate().filter(|(_, row)| opcode(row) == wanted).map(|(i, _)| i).collect();
        Self { rows: cells.len() / WIDTH, ends: of(EXAMPLE.end), loops: of(EXAMPLE.loop_op) }
    }

    /// An END and its flag, or a LOOP and its count, where there are some.
    fn asked(&self, rng: &Rng) -> (usize, usize) {
        match rng.below(5) {
            0 | 1 if !self.loops.is_empty() => (rng.pick(&self.loops), GROUP_COUNT),
            _ if !self.ends.is_empty() => (rng.pick(&self.ends), H4),
            _ => (rng.below(self.rows), H4),
        }
    }

    /// A row and a cell of it: most often one that the reader looks at.
    fn pick(&self, rng: &Rng) -> (usize, usize) {
        let any = rng.below(self.rows);
        match rng.below(16) {
            0..=4 => (any, 7 + rng.below(7)),
            5 | 6 => (any, IN_SPAN),
            7..=11 => self.asked(rng),
            12 => (any, 6),
            13 => (any, rng.pick(&[14, H4, GROUP_COUNT, 24])),
            _ => (any, rng.below(WIDTH)),
        }
    }
}

/// Another value for a cell: a bit mostly turned over, else a small number, the next one up or down, the cell above or below it, a number
/// from p on, or any cell.
fn other_value(rng: &Rng, cells: &[u64], row: usize, cell: usize) -> u64 {
    let before = cells[row * WIDTH + cell];
    let beside = |other: usize| cells[other.min(cells.len() / WIDTH - 1) * WIDTH + cell];
    loop {
        let value = match rng.below(10) {
            0 => 0,
            1 => 1,
            2 => 2,
            3 => before.wrapping_add(1),
            4 => before.wrapping_sub(1),
            5 => beside(row + 1),
            6 => beside(row.saturating_sub(1)),
            7 => rng.pick(&[P, P - 1, P + 1, u64::MAX]),
            8 => rng.next() % P,
            _ => rng.cell(),
        };
        let is_bit = matches!(cell, 7..=13 | H4 | IN_SPAN) && before % P < 2;
        let value = if is_bit && rng.one_in(2) { raised(rng, 1 - before % P) } else { value };
        if value != before {
            return value;
        }
    }
}

/// One change to the rows, the profile or the lengths; what it is, in words.
fn reshaped(rng: &Rng, places: &Places, cells: &mut Vec<u64>, profile: &mut Profile, depth_numbers: &mut usize) -> &'static str {
    let (a, b) = (rng.below(places.rows), rng.below(places.rows));
    match rng.below(16) {
        0 => {
            cells.drain(a * WIDTH..(a + 1) * WIDTH);
            "a row removed"
        }
        1 => {
            let copy = cells[a * WIDTH..][..WIDTH].to_vec();
            cells.splice(b * WIDTH..b * WIDTH, copy);
            "a row put in elsewhere"
        }
        2 => {
            (0..WIDTH).for_each(|i| cells.swap(a * WIDTH + i, b * WIDTH + i));
            "two rows exchanged"
        }
        3..=5 => {
            let other = rng.pick(&profile.opcodes());
            (0..7).for_each(|i| cells[a * WIDTH + 7 + i] = u64::from(other >> i & 1));
            cells[a * WIDTH + IN_SPAN] = u64::from(rng.one_in(8));
            "another opcode"
        }
        6 => {
            cells.truncate(a * WIDTH);
            "the end cut off"
        }
        7 => {
            cut_inside(rng, cells);
            "the end cut off inside a row"
        }
        8 => {
            *depth_numbers = rng.below(places.rows + 1);
            "fewer depth numbers"
        }
        9..=14 => {
            for _ in 0..2 + rng.below(4) {
                let (row, cell) = if rng.one_in(8) { places.pick(rng) } else { places.asked(rng) };
                cells[row * WIDTH + cell] = other_value(rng, cells, row, cell);
            }
            "some cells changed"
        }
        _ => {
            other_profile(rng, profile);
            if rng.one_in(3) {
                cut_inside(rng, cells);
            }
            "another profile"
        }
    }
}

/// Cuts off the end, most often inside a row, and now and then makes the last cell p.
fn cut_inside(rng: &Rng, cells: &mut Vec<u64>) {
    cells.truncate(1 + rng.below(cells.len()));
    if rng.one_in(4) {
        *cells.last_mut().expect("a cell is left") = P;
    }
}

/// Another profile, wrong or right.
fn other_profile(rng: &Rng, profile: &mut Profile) {
    match rng.below(6) {
        0 => profile.step = rng.pick(&[0, P, P - 1, u64::MAX]),
        1 => profile.halt = rng.pick(&[32, 64, 96, 28, 127, 252]),
        2 => profile.push = rng.below(256) as u8,
        3 => core::mem::swap(&mut profile.join, &mut profile.split),
        4 => core::mem::swap(&mut profile.push, &mut profile.respan),
        _ => profile.span = rng.below(256) as u8,
    }
}
