//! Document 01's "Reading a trace" once more, in plain Rust, to compare the proved reader with: one sweep over the rows with a list of the
//! open blocks. A cell from p on is read as that number less p. It calls nothing of the library.

use crate::profile::Profile;

const P: u64 = 18446744069414584321;
const WIDTH: usize = 49;
const OP_BITS: usize = 7;
const H4: usize = 18;
const IN_SPAN: usize = 22;
const GROUP_COUNT: usize = 23;
const MOST_ROWS: usize = 1 << 24;
const DEEPEST: usize = 64;

/// A refusal's number and row; the row is 0 for 2 and 11.
pub type Refused = (u32, usize);

/// What a block is to the grammar: SPAN with its operations, LOOP with its passes, or a start row with a number of blocks in it.
#[derive(Clone, Copy, PartialEq, Eq)]
enum Kind {
    Span,
    Loop,
    Other,
}

/// What a row is to the grammar. A start row has its block's kind and how many blocks must follow before anything else does.
#[derive(Clone, Copy)]
enum Token {
    Start(Kind, u32),
    Op,
    Respan,
    Repeat,
    End,
    Halt,
}

/// A block that has begun and not ended.
struct Open {
    row: usize,
    kind: Kind,
    /// How many blocks must come in it before another row can.
    wanted: u32,
    /// How many blocks have ended in it: of a loop, its passes.
    inside: u64,
}

/// A cell as it is read.
fn reduced(cell: u64) -> u64 {
    cell.checked_sub(P).unwrap_or(cell)
}

fn bit(cell: u64) -> Option<u8> {
    let cell = reduced(cell);
    (cell < 2).then_some(cell as u8)
}

/// None where the row fits nothing.
fn token(profile: &Profile, row: &[u64]) -> Option<Token> {
    let mut opcode = 0;
    for (i, &cell) in row[OP_BITS..OP_BITS + 7].iter().enumerate() {
        opcode |= bit(cell)? << i;
    }
    if bit(row[IN_SPAN])? == 1 {
        return profile.is_operation(opcode).then_some(Token::Op);
    }
    let is = |wanted: &[u8]| wanted.contains(&opcode);
    if is(&[profile.span]) {
        Some(Token::Start(Kind::Span, 0))
    } else if is(&[profile.join]) {
        Some(Token::Start(Kind::Other, 2))
    } else if is(&[profile.split, profile.call, profile.syscall, profile.dyn_op, profile.dyncall]) {
        Some(Token::Start(Kind::Other, 1))
    } else if is(&[profile.loop_op]) {
        Some(Token::Start(Kind::Loop, 1))
    } else if is(&[profile.respan]) {
        Some(Token::Respan)
    } else if is(&[profile.repeat]) {
        Some(Token::Repeat)
    } else if is(&[profile.end]) {
        Some(Token::End)
    } else if is(&[profile.halt]) {
        Some(Token::Halt)
    } else {
        None
    }
}

fn wrong_profile(profile: &Profile) -> bool {
    let opcodes = profile.opcodes();
    let equal = (0..13).any(|i| opcodes[..i].contains(&opcodes[i]));
    opcodes.iter().any(|&o| o >= 128) || equal || profile.halt & 96 != 96 || profile.step == 0 || profile.step >= P
}

/// Whether the row may come next: `open` are the blocks that have begun and not ended, `ended` says that the whole Block has.
fn may_follow(token: Token, open: Option<&Open>, ended: bool) -> bool {
    match (token, open) {
        (Token::Start(..), None) => !ended,
        (Token::Halt, None) => ended,
        (Token::Start(..), Some(block)) => block.wanted > 0,
        (Token::Op | Token::Respan, Some(block)) => block.kind == Kind::Span,
        (Token::Repeat, Some(block)) => block.kind == Kind::Loop && block.wanted == 0,
        (Token::End, Some(block)) => block.wanted == 0,
        _ => false,
    }
}

/// What the sweep has seen so far.
#[derive(Default)]
struct Sweep {
    open: Vec<Open>,
    depths: Vec<u32>,
    program_rows: usize,
    /// The lowest row whose flag or count is wrong.
    wrong: Option<usize>,
}

impl Sweep {
    fn ask(&mut self, row: usize, cell: u64, wanted: u64) {
        if reduced(cell) != wanted {
            self.wrong = Some(self.wrong.map_or(row, |lowest| lowest.min(row)));
        }
    }

    /// The END of the innermost block: its flag, and its count where it is a loop.
    fn end(&mut self, row: usize, cells: &[u64]) {
        let block = self.open.pop().expect("an END follows an open block");
        if block.kind == Kind::Loop {
            self.ask(block.row, cells[block.row * WIDTH + GROUP_COUNT], block.inside);
        }
        let is_body = self.open.last().is_some_and(|outer| outer.kind == Kind::Loop);
        self.ask(row, cells[row * WIDTH + H4], u64::from(is_body));
        match self.open.last_mut() {
            Some(outer) => {
                outer.wanted -= 1;
                outer.inside += 1;
            }
            None => self.program_rows = row + 1,
        }
    }

    fn row(&mut self, profile: &Profile, row: usize, cells: &[u64]) -> Result<(), Refused> {
        let follows = |token: &Token| may_follow(*token, self.open.last(), self.program_rows > 0);
        let Some(token) = token(profile, &cells[row * WIDTH..][..WIDTH]).filter(follows) else {
            return Err((12, row));
        };
        if let Token::Start(kind, wanted) = token {
            if self.open.len() == DEEPEST {
                return Err((15, row));
            }
            self.open.push(Open { row, kind, wanted, inside: 0 });
        }
        self.depths.push(self.open.len() as u32);
        match token {
            Token::End => self.end(row, cells),
            Token::Repeat => self.open.last_mut().expect("a REPEAT follows a pass").wanted = 1,
            _ => {}
        }
        Ok(())
    }
}

/// Reads a trace: the number of program rows, and in `depths` the depth of each row's innermost block (0 for HALT), or a refusal that
/// leaves `depths` as it is.
pub fn check(profile: &Profile, cells: &[u64], depths: &mut [u32]) -> Result<usize, Refused> {
    if wrong_profile(profile) {
        return Err((2, 0));
    }
    let rows = cells.len() / WIDTH;
    if !cells.len().is_multiple_of(WIDTH) || rows > MOST_ROWS || depths.len() < rows {
        return Err((11, 0));
    }
    let mut sweep = Sweep { depths: Vec::with_capacity(rows), ..Sweep::default() };
    for row in 0..rows {
        sweep.row(profile, row, cells)?;
    }
    // One Block that has ended, and one or more HALT.
    if sweep.program_rows == 0 || sweep.program_rows == rows {
        return Err((12, rows));
    }
    if let Some(row) = sweep.wrong {
        return Err((13, row));
    }
    depths[..rows].copy_from_slice(&sweep.depths);
    Ok(sweep.program_rows)
}
