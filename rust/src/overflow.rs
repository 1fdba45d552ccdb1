//! The overflow rule of the operand stack chapter, in plain Rust, and the rows in which the listed Rust breaks it: its HALT rows from depth 18
//! up have depth − 16 in their helper cell, where the documentation has the inverse (change request N4). It calls nothing of the library.

use crate::profile::EXAMPLE;

const P: u128 = 18446744069414584321;
const WIDTH: usize = 49;
const OP_BITS: usize = 7;
const IN_SPAN: usize = 22;

/// The columns of the depth, b0, and of the helper.
pub const DEPTH: usize = 46;
pub const HELPER: usize = 48;

/// Whether a cell is the inverse of a number modulo p: below p, and the product is 1. For 0 and for p it is 0.
pub fn is_inverse(cell: u64, number: u64) -> bool {
    let (cell, number) = (u128::from(cell), u128::from(number) % P);
    if number == 0 { cell == 0 } else { cell < P && cell * number % P == 1 }
}

/// Whether a row keeps the rule: helper × (b0 − 16) is 1 modulo p where b0 is above 16, and helper is 0 where b0 is 16. A b0 from p on is read
/// as that number less p.
fn keeps_rule(row: &[u64]) -> bool {
    let depth = (u128::from(row[DEPTH]) % P) as u64;
    depth.checked_sub(16).is_some_and(|above| is_inverse(row[HELPER], above))
}

/// Holds every row to the rule. Answers how many there are, or the first that breaks it.
pub fn overflow_rule(cells: &[u64]) -> Result<usize, String> {
    match cells.chunks(WIDTH).enumerate().find(|(_, row)| !keeps_rule(row)) {
        Some((number, row)) => Err(format!("row {number} breaks the overflow rule: b0 {}, helper {}", row[DEPTH], row[HELPER])),
        None => Ok(cells.len() / WIDTH),
    }
}

/// Whether a row of the listed Rust is a HALT row from depth 18 up. An operation may have HALT's opcode too, but its in_span is 1.
pub fn is_deep_halt(row: &[u64]) -> bool {
    let is_halt = row[IN_SPAN] == 0 && (0..7).all(|bit| row[OP_BITS + bit] == u64::from(EXAMPLE.halt >> bit & 1));
    is_halt && row[DEPTH] >= 18
}

/// The inverse of a number modulo p as its power of p − 2, 0 for 0 and for p.
pub fn inverse(number: u64) -> u64 {
    let (mut power, mut square, mut left) = (1, u128::from(number) % P, P - 2);
    while left > 0 {
        if left % 2 == 1 {
            power = power * square % P;
        }
        square = square * square % P;
        left /= 2;
    }
    power as u64
}

/// Inverts the helper in HALT rows from depth 18 up: rows of the listed Rust become the documentation's.
pub fn invert_deep_halts(cells: &mut [u64]) {
    for row in cells.chunks_mut(WIDTH).filter(|row| is_deep_halt(row)) {
        row[HELPER] = inverse(row[HELPER]);
    }
}
