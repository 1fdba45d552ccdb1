//! The comparison of the proved writer and reader of dumps with those in plain Rust: traces and random buffers written and read back, and texts
//! that were damaged.

use std::collections::BTreeMap;

use crate::answers::Answers;
use crate::dump;
use crate::exports::{MODULUS as P, WIDTH, dump_size, read_dump, undump, write_dump};
use crate::random::{Rng, raised};

/// What was written and read.
#[derive(Default)]
pub struct Tally {
    pub dumps: u64,
    pub rows: u64,
    pub bytes: u64,
    /// Calls with a buffer that is no whole rows, or with none to write.
    pub lengths: u64,
    /// Damaged texts, by what was done to them.
    pub damaged: BTreeMap<&'static str, Answers>,
    pub differences: u64,
    /// The first differences, in words.
    pub told: Vec<String>,
}

impl core::fmt::Display for Tally {
    fn fmt(&self, f: &mut core::fmt::Formatter<'_>) -> core::fmt::Result {
        writeln!(f, "{} dumps of {} rows, {} bytes; {} wrong lengths", self.dumps, self.rows, self.bytes, self.lengths)?;
        writeln!(f, "{} damaged texts", self.damages())?;
        self.damaged.iter().try_for_each(|(what, answers)| writeln!(f, "  {what}: {answers}"))?;
        write!(f, "{} differences", self.differences)?;
        self.told.iter().try_for_each(|text| write!(f, "\n  {text}"))
    }
}

impl Tally {
    fn differ(&mut self, text: String) {
        self.differences += 1;
        if self.told.len() < 20 {
            self.told.push(text);
        }
    }

    /// How many damaged texts were read.
    pub fn damages(&self) -> u64 {
        self.damaged.values().map(|answers| answers.reads).sum()
    }

    /// Both writers on a text of so many bytes. Answers what they answer.
    fn written(&mut self, cells: &[u64], lent: usize) -> Result<usize, u32> {
        let (mut ours, mut other) = (vec![b'~'; lent], vec![b'~'; lent]);
        let answer = write_dump(cells, &mut ours).map_err(|refusal| refusal.0);
        let wanted = dump::write(cells, &mut other);
        if answer != wanted || ours != other {
            self.differ(format!("{} cells into {lent} bytes: {answer:?}, wanted {wanted:?}", cells.len()));
        }
        if answer.is_err() && ours.iter().any(|&byte| byte != b'~') {
            self.differ(format!("{} cells into {lent} bytes: a refusal changed the text", cells.len()));
        }
        wanted
    }

    /// Both readers on a buffer of so many cells. Answers what they answer.
    fn read(&mut self, what: &str, text: &[u8], lent: usize) -> Result<usize, u32> {
        let before: Vec<u64> = (0..lent as u64).map(|i| !i).collect();
        let (mut ours, mut other) = (before.clone(), before.clone());
        let answer = read_dump(text, &mut ours).map_err(|refusal| refusal.0);
        let wanted = dump::read(text, &mut other);
        if answer != wanted || ours != other {
            self.differ(format!("{what}, into {lent} cells: {answer:?}, wanted {wanted:?}"));
        }
        if answer.is_err() && ours != before {
            self.differ(format!("{what}, into {lent} cells: a refusal changed the cells"));
        }
        wanted
    }

    /// A buffer written by both, into as many bytes as it needs, one less and some more, and read back. Answers the text.
    pub fn whole(&mut self, rng: &Rng, cells: &[u64]) -> Vec<u8> {
        let text = dump::text_of(cells);
        let rows = cells.len() / WIDTH;
        for lent in [text.len(), text.len() - 1, text.len() + 1 + rng.below(99), rng.below(text.len())] {
            let wanted = if lent < text.len() { Err(28) } else { Ok(text.len()) };
            if self.written(cells, lent) != wanted {
                self.differ(format!("{rows} rows into {lent} bytes of {}", text.len()));
            }
        }
        if dump_size(cells) != Ok(text.len()) {
            self.differ(format!("the size of {rows} rows is {:?}", dump_size(cells)));
        }
        self.read_back(rng, cells, &text);
        self.dumps += 1;
        self.rows += rows as u64;
        self.bytes += text.len() as u64;
        text
    }

    /// The reduced cells come back: into as many cells as needed and into more; fewer are refused.
    fn read_back(&mut self, rng: &Rng, cells: &[u64], text: &[u8]) {
        let rows = cells.len() / WIDTH;
        if undump(text) != Ok(cells.iter().map(|cell| cell % P).collect()) {
            self.differ(format!("the cells of {rows} rows do not come back"));
        }
        let short = rng.below(rows) * WIDTH;
        for lent in [cells.len(), cells.len() + WIDTH * (1 + rng.below(3)), short, cells.len() - WIDTH] {
            let wanted = if lent < cells.len() { Err(11) } else { Ok(rows) };
            if self.read("a dump", text, lent) != wanted {
                self.differ(format!("{rows} rows into {lent} cells"));
            }
        }
    }

    /// Buffers that are no whole rows, or none, are not written, however long the text.
    fn odd_cells(&mut self, rng: &Rng, cells: &[u64], text: &[u8]) {
        let odd = 1 + rng.below(WIDTH - 1);
        for (cells, lent) in [(&cells[..0], text.len()), (&cells[..0], 0), (&cells[odd..], text.len()), (&cells[..odd], rng.below(99))] {
            if self.written(cells, lent) != Err(11) {
                self.differ(format!("{} cells are written", cells.len()));
            }
            self.lengths += 1;
        }
    }

    /// Nothing is read into a buffer that is no whole rows, whatever the text.
    fn odd_rooms(&mut self, rng: &Rng, cells: usize, text: &[u8]) {
        let odd = 1 + rng.below(WIDTH - 1);
        for lent in [cells + odd, cells - odd, odd] {
            if self.read("a wrong length", text, lent) != Err(11) {
                self.differ(format!("a dump is read into {lent} cells"));
            }
            self.lengths += 1;
        }
    }

    /// A buffer written and read back, wrong lengths, and its dump damaged up to 100 times, less often where it is long.
    pub fn all(&mut self, rng: &Rng, cells: &[u64]) {
        let text = self.whole(rng, cells);
        self.odd_cells(rng, cells, &text);
        for text in [&text, &text[1..], &text[..rng.below(text.len())], &[]] {
            self.odd_rooms(rng, cells.len(), text);
        }
        self.damage(rng, &text, (400_000 / text.len()).min(100));
    }

    /// Random buffers, until so many damaged texts were read.
    pub fn buffers(&mut self, rng: &Rng, damages: u64) {
        while self.damages() < damages {
            self.all(rng, &buffer(rng));
        }
    }

    /// A text damaged some times over, read by both and judged by what the writer gives. A change that leaves the text as it is does not count.
    pub fn damage(&mut self, rng: &Rng, text: &[u8], times: usize) {
        for _ in 0..times {
            let mut other = text.to_vec();
            let what = damaged_again(rng, &mut other);
            if other == text {
                continue;
            }
            let rows = given(&other).map(|cells| cells.len() / WIDTH);
            let lent = WIDTH * rng.pick(&[rows.unwrap_or(1), rows.unwrap_or(2), 1 + rng.below(9), rows.unwrap_or(3) + 1]);
            let wanted = rows.ok_or(29).and_then(|rows| if lent < rows * WIDTH { Err(11) } else { Ok(rows) });
            let answer = self.read(what, &other, lent);
            if answer != wanted {
                self.differ(format!("{what}: {answer:?}, and by what the writer gives {wanted:?}"));
            }
            self.damaged.entry(what).or_default().count(answer.err());
        }
    }
}

/// The rows that the lines of any text set, whatever their order and form.
fn rows_of(text: &[u8]) -> Vec<[u64; WIDTH]> {
    let mut rows: Vec<[u64; WIDTH]> = Vec::new();
    for line in text.split(|&byte| byte == b'\n') {
        let last = rows.last().copied().unwrap_or([0; WIDTH]);
        match (line, rows.last_mut()) {
            ([b'#', ..], _) => rows.push(last),
            ([b'b', digits @ .., b' ', id @ b'!'..=b'Q'], Some(row)) => {
                row[usize::from(id - b'!')] = digits.iter().fold(0, |value, digit| value << 1 | u64::from(digit & 1));
            }
            _ => {}
        }
    }
    rows
}

/// The cells that a text is the dump of, or none: it must be the dump of the rows that it sets.
fn given(text: &[u8]) -> Option<Vec<u64>> {
    let cells = rows_of(text).concat();
    (!cells.is_empty() && dump::text_of(&cells) == text).then_some(cells)
}

// BUFFERS
// ------------------------------------------------------------------------------------------------

/// The cell below another, in one of these ways: the same, with p added or not, one more, a small one, any one, any number.
fn below(rng: &Rng, way: usize, above: u64) -> u64 {
    match way {
        0 => above,
        1 => raised(rng, above % P),
        2 => (above % P + 1) % P,
        3 => rng.next() % 3,
        4 => rng.cell(),
        _ => rng.next(),
    }
}

/// A buffer of 1 to some hundred rows. Each has a mixture of its own of how cells come to be.
pub fn buffer(rng: &Rng) -> Vec<u64> {
    let most = rng.pick(&[1, 2, 4, 12, 40, 300]);
    let rows = 1 + rng.below(most);
    let ways: [usize; 4] = core::array::from_fn(|_| rng.below(6));
    let mut cells: Vec<u64> = (0..WIDTH).map(|_| below(rng, ways[rng.below(4)], rng.cell())).collect();
    for at in WIDTH..rows * WIDTH {
        cells.push(below(rng, ways[at % WIDTH % 4], cells[at - WIDTH]));
    }
    cells
}

// DAMAGE
// ------------------------------------------------------------------------------------------------

fn lines_of(text: &[u8]) -> Vec<Vec<u8>> {
    text.split_inclusive(|&byte| byte == b'\n').map(<[u8]>::to_vec).collect()
}

/// A place of a list of that length, most often behind so many.
fn place(rng: &Rng, length: usize, behind: usize) -> usize {
    if behind < length && !rng.one_in(8) { behind + rng.below(length - behind) } else { rng.below(length) }
}

/// One change to a text; what it is, in words.
fn damaged(rng: &Rng, text: &mut Vec<u8>) -> &'static str {
    if text.len() < 2 {
        text.extend(b"#0\n");
    }
    match rng.below(16) {
        0..=3 => byte_damage(rng, text),
        4..=6 => line_damage(rng, text),
        7 => cut(rng, text),
        8 => line_ends(rng, text),
        9..=11 => value_damage(rng, text),
        12 => time_damage(rng, text),
        13 | 14 => put_value(rng, text),
        _ => other_line(rng, text),
    }
}

/// One change, now and then more.
fn damaged_again(rng: &Rng, text: &mut Vec<u8>) -> &'static str {
    let mut what = damaged(rng, text);
    while rng.one_in(6) {
        damaged(rng, text);
        what = "several changes";
    }
    what
}

fn byte_damage(rng: &Rng, text: &mut Vec<u8>) -> &'static str {
    let at = place(rng, text.len(), 1400);
    let byte = rng.pick(&[b'0', b'1', b'#', b'b', b' ', b'!', b'\n', b'Q', b'2', b'+', 0, rng.next() as u8, text[at] ^ 1, text[at] ^ 32]);
    match rng.below(4) {
        0 => {
            text[at] = byte;
            "a byte changed"
        }
        1 => {
            text.remove(at);
            "a byte removed"
        }
        2 => {
            text.insert(at + rng.below(2), byte);
            "a byte put in"
        }
        _ => {
            text.insert(at, text[at]);
            "a byte doubled"
        }
    }
}

fn line_damage(rng: &Rng, text: &mut Vec<u8>) -> &'static str {
    let mut lines = lines_of(text);
    let at = place(rng, lines.len(), 53);
    let what = match rng.below(4) {
        0 => {
            lines.remove(at);
            "a line removed"
        }
        1 => {
            lines.insert(at, lines[at].clone());
            "a line doubled"
        }
        2 => {
            lines.swap(at, at.saturating_sub(1));
            "two lines exchanged"
        }
        _ => {
            let other = place(rng, lines.len(), 53);
            lines.swap(at, other);
            "two lines exchanged"
        }
    };
    *text = lines.concat();
    what
}

fn cut(rng: &Rng, text: &mut Vec<u8>) -> &'static str {
    let at = place(rng, text.len(), 1400);
    let line_end = text[at..].iter().position(|&byte| byte == b'\n').map_or(text.len(), |more| at + more + 1);
    text.truncate(if rng.one_in(2) { at } else { line_end });
    "cut"
}

fn line_ends(rng: &Rng, text: &mut Vec<u8>) -> &'static str {
    let mut lines = lines_of(text);
    let only = if rng.one_in(2) { None } else { Some(place(rng, lines.len(), 53)) };
    for (at, line) in lines.iter_mut().enumerate() {
        if only.is_none_or(|only| only == at) {
            line.insert(line.len() - 1, b'\r');
        }
    }
    *text = lines.concat();
    "CR LF"
}

/// The number of a line that begins with the byte.
fn some_line(rng: &Rng, lines: &[Vec<u8>], first: u8) -> Option<usize> {
    let those: Vec<usize> = (0..lines.len()).filter(|&at| lines[at].first() == Some(&first)).collect();
    (!those.is_empty()).then(|| rng.pick(&those))
}

/// Another numeral for a value line's.
fn other_digits(rng: &Rng, digits: &str) -> (&'static str, String) {
    let any: String = (0..64).map(|_| if rng.one_in(2) { '0' } else { '1' }).collect();
    match rng.below(8) {
        0 => ("a digit more", format!("{digits}{}", rng.below(2))),
        1 => ("a digit more", format!("1{digits}")),
        2 => ("a leading zero", format!("0{digits}")),
        3 => ("65 digits", format!("1{any}")),
        4 => ("65 digits", format!("{digits:0>65}")),
        5 => ("a value of p or more", format!("{:b}", P + u64::from(rng.next() as u32 >> rng.below(33).min(31)))),
        6 => ("a value of p or more", format!("{:b}", rng.pick(&[P, P + 1, u64::MAX]))),
        _ => ("another value", format!("{:b}", rng.pick(&[rng.cell(), P - 1]))),
    }
}

fn value_damage(rng: &Rng, text: &mut Vec<u8>) -> &'static str {
    let mut lines = lines_of(text);
    let Some(at) = some_line(rng, &lines, b'b') else { return "unchanged" };
    let line = String::from_utf8_lossy(&lines[at][1..]).into_owned();
    let Some((digits, rest)) = line.split_once(' ') else { return "unchanged" };
    let (what, other) = other_digits(rng, digits);
    lines[at] = format!("b{other} {rest}").into_bytes();
    *text = lines.concat();
    what
}

fn time_damage(rng: &Rng, text: &mut Vec<u8>) -> &'static str {
    let mut lines = lines_of(text);
    let times = lines.iter().filter(|line| line.first() == Some(&b'#')).count();
    let Some(at) = some_line(rng, &lines, b'#') else { return "unchanged" };
    let digits = String::from_utf8_lossy(&lines[at][1..]).trim().to_owned();
    let (what, line) = match rng.below(4) {
        0 => ("another time", format!("#{}\n", rng.below(times + 1))),
        1 => ("another time", format!("#{}\n", rng.pick(&[u64::MAX, 1 << 32, 1 << 24, 10]))),
        2 => ("a leading zero in a time", format!("#0{digits}\n")),
        _ => ("a digit more in a time", format!("#{digits}{}\n", rng.below(10))),
    };
    lines[at] = line.into_bytes();
    *text = lines.concat();
    what
}

/// Where a value line of a column belongs in a row.
fn line_place(lines: &[Vec<u8>], row: usize, column: usize) -> usize {
    let is_time = |line: &&Vec<u8>| line.first() == Some(&b'#');
    let mut times = 0;
    let start = lines
        .iter()
        .take_while(|line| {
            times += usize::from(is_time(line));
            times <= row
        })
        .count();
    let is_before = |line: &Vec<u8>| line.len() > 2 && line[0] == b'b' && usize::from(line[line.len() - 2]) < 33 + column;
    let more = lines.iter().skip(start + 1).take_while(|line| is_before(line)).count();
    (start + 1 + more).min(lines.len())
}

/// A value line put in where its column belongs: mostly the value that the column has anyway.
fn put_value(rng: &Rng, text: &mut Vec<u8>) -> &'static str {
    let (rows, mut lines) = (rows_of(text), lines_of(text));
    if rows.is_empty() {
        return "unchanged";
    }
    let (row, column) = (rng.below(rows.len()), rng.below(WIDTH));
    let (what, value) = match rng.below(3) {
        0 => ("a value put in", rng.cell()),
        _ => ("an unchanged value listed", rows[row][column]),
    };
    lines.insert(line_place(&lines, row, column), format!("b{value:b} {}\n", dump::identifier(column)).into_bytes());
    *text = lines.concat();
    what
}

/// A line of another kind put in, a next time line, or the last row removed.
fn other_line(rng: &Rng, text: &mut Vec<u8>) -> &'static str {
    let mut lines = lines_of(text);
    let times = lines.iter().filter(|line| line.first() == Some(&b'#')).count();
    let what = match rng.below(4) {
        0 => {
            lines.push(format!("#{times}\n").into_bytes());
            "a row more"
        }
        1 => {
            let last = lines.iter().rposition(|line| line.first() == Some(&b'#'));
            lines.truncate(last.unwrap_or(1));
            "the last row removed"
        }
        _ => {
            let line: &[u8] =
                rng.pick(&[b"\n", b"$dumpvars\n", b"$end\n", b"1!\n", b"bx !\n", b"B1 !\n", b"b1\t!\n", b"b !\n", b"b1 R\n", b"#\n"]);
            lines.insert(place(rng, lines.len() + 1, 53), line.to_vec());
            "a line of another kind"
        }
    };
    *text = lines.concat();
    what
}
