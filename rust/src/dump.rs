//! Change request N3 once more, in plain Rust, to compare the proved writer and reader of dumps with: a text is put together line by line, and
//! taken apart line by line. A cell from p on is written as that number less p. It calls nothing of the library.

use std::io::Write;

const P: u64 = 18446744069414584321;
const WIDTH: usize = 49;
const MOST_ROWS: usize = 1 << 24;

/// The columns in their order: a name and how many columns it has, 0 where it is not numbered.
const NAMES: [(&str, usize); 14] = [
    ("clk", 0),
    ("ctx", 0),
    ("fn_hash", 4),
    ("addr", 0),
    ("op_bit", 7),
    ("h", 8),
    ("in_span", 0),
    ("group_count", 0),
    ("op_index", 0),
    ("batch_flag", 3),
    ("extra", 2),
    ("stack", 16),
    ("b", 2),
    ("helper", 0),
];

/// The names of the 49 columns.
pub fn names() -> Vec<String> {
    let numbered = |(name, columns): &(&str, usize)| match columns {
        0 => vec![name.to_string()],
        _ => (0..*columns).map(|n| format!("{name}{n}")).collect(),
    };
    NAMES.iter().flat_map(numbered).collect()
}

/// The character of a column.
pub fn identifier(column: usize) -> char {
    (b'!' + column as u8) as char
}

/// The lines in front of the rows.
pub fn header() -> String {
    let variables: String =
        names().iter().enumerate().map(|(column, name)| format!("$var wire 64 {} {name} $end\n", identifier(column))).collect();
    format!("$timescale 1 ns $end\n$scope module trace $end\n{variables}$upscope $end\n$enddefinitions $end\n")
}

// WRITING
// ------------------------------------------------------------------------------------------------

/// The lines of a row's values: all of them, or those that are not as before.
fn put_values(text: &mut Vec<u8>, before: Option<&[u64]>, row: &[u64]) {
    for (column, value) in row.iter().map(|cell| cell % P).enumerate() {
        if before.is_none_or(|before| before[column] % P != value) {
            writeln!(text, "b{value:b} {}", identifier(column)).expect("a list of bytes takes all");
        }
    }
}

/// The dump of a buffer of whole rows.
pub fn text_of(cells: &[u64]) -> Vec<u8> {
    let mut text = header().into_bytes();
    let mut before = None;
    for (number, row) in cells.chunks(WIDTH).enumerate() {
        writeln!(text, "#{number}").expect("a list of bytes takes all");
        put_values(&mut text, before, row);
        before = Some(row);
    }
    text
}

/// Whether a number of cells is whole rows, and no more than a buffer has.
fn is_whole(cells: usize) -> bool {
    cells.is_multiple_of(WIDTH) && cells / WIDTH <= MOST_ROWS
}

/// Writes the dump into the lent text: its bytes, or the number of a refusal.
pub fn write(cells: &[u64], lent: &mut [u8]) -> Result<usize, u32> {
    if cells.is_empty() || !is_whole(cells.len()) {
        return Err(11);
    }
    let text = text_of(cells);
    lent.get_mut(..text.len()).ok_or(28u32)?.copy_from_slice(&text);
    Ok(text.len())
}

// READING
// ------------------------------------------------------------------------------------------------

/// The rows read so far, and the first column that the next line may have.
#[derive(Default)]
struct Rows {
    cells: Vec<u64>,
    column: usize,
}

/// A value below p without leading zeros.
fn value_of(digits: &[u8]) -> Option<u64> {
    let is_plain = digits == b"0" || digits.first() == Some(&b'1');
    let value = u64::from_str_radix(str::from_utf8(digits).ok()?, 2).ok()?;
    (is_plain && value < P).then_some(value)
}

impl Rows {
    fn count(&self) -> usize {
        self.cells.len() / WIDTH
    }

    /// Behind a time line: a row like the one before, which is whole.
    fn begin(&mut self, line: &[u8]) -> Option<()> {
        let number = self.count();
        let is_next = line == format!("#{number}").as_bytes() && number < MOST_ROWS;
        if !is_next || number == 1 && self.column < WIDTH {
            return None;
        }
        self.cells.resize(self.cells.len() + WIDTH, 0);
        if number > 0 {
            self.cells.copy_within((number - 1) * WIDTH..number * WIDTH, number * WIDTH);
        }
        self.column = 0;
        Some(())
    }

    /// Behind a value line, as `b101 !`: the next column in the first row, a later one with another value in the others.
    fn set(&mut self, line: &[u8]) -> Option<()> {
        let (&character, rest) = line.split_last()?;
        let column = usize::from(character.checked_sub(b'!')?);
        let value = value_of(rest.strip_prefix(b"b")?.strip_suffix(b" ")?)?;
        let place = (self.count().checked_sub(1)?) * WIDTH + column;
        let is_first = self.count() == 1;
        let is_right = if is_first { column == self.column } else { column >= self.column && *self.cells.get(place)? != value };
        if !is_right || column >= WIDTH {
            return None;
        }
        self.cells[place] = value;
        self.column = column + 1;
        Some(())
    }
}

/// The cells of a text that the writer gives, or none.
pub fn cells_of(text: &[u8]) -> Option<Vec<u64>> {
    let lines = text.strip_prefix(header().as_bytes())?.strip_suffix(b"\n")?;
    let mut rows = Rows::default();
    for line in lines.split(|&byte| byte == b'\n') {
        if line.first() == Some(&b'#') { rows.begin(line) } else { rows.set(line) }?;
    }
    (rows.count() > 1 || rows.column == WIDTH).then_some(rows.cells)
}

/// Reads a dump into the lent cells: its rows, or the number of a refusal.
pub fn read(text: &[u8], lent: &mut [u64]) -> Result<usize, u32> {
    if !is_whole(lent.len()) {
        return Err(11);
    }
    let cells = cells_of(text).ok_or(29u32)?;
    lent.get_mut(..cells.len()).ok_or(11u32)?.copy_from_slice(&cells);
    Ok(cells.len() / WIDTH)
}
