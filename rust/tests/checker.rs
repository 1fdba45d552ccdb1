//! The checker of traces alone: document 01's sentences, one by one.

use core_trace::checker::check;
use core_trace::profile::{EXAMPLE, Profile};
use core_trace::random::Rng;
use core_trace::words::{long_word, row, word};

const P: u64 = 18446744069414584321;
const WIDTH: usize = 49;

/// A trace by one letter a row: `s` SPAN, `r` RESPAN, `o` an operation, `p` PUSH, `j` JOIN, `i` SPLIT, `c` CALL, `l` LOOP, `R` REPEAT,
/// `e` END, `E` END with the flag, `h` HALT; a digit is the count of the row before it.
fn trace(text: &str) -> Vec<u64> {
    let e = &EXAMPLE;
    let mut cells: Vec<u64> = Vec::new();
    for letter in text.chars() {
        if let Some(count) = letter.to_digit(10) {
            let at = cells.len() - WIDTH + 23;
            cells[at] = count.into();
            continue;
        }
        let mut one = match letter {
            's' => row(e.span, 0),
            'r' => row(e.respan, 0),
            'o' => row(5, 1),
            'p' => row(e.push, 1),
            'j' => row(e.join, 0),
            'i' => row(e.split, 0),
            'c' => row(e.call, 0),
            'l' => row(e.loop_op, 0),
            'R' => row(e.repeat, 0),
            'e' | 'E' => row(e.end, 0),
            'h' => row(e.halt, 0),
            _ => panic!("no letter of a trace"),
        };
        one[18] = u64::from(letter == 'E');
        cells.extend(one);
    }
    cells
}

fn read(cells: &[u64]) -> Result<(usize, Vec<u32>), (u32, usize)> {
    let mut depths = vec![9; cells.len() / WIDTH];
    let before = depths.clone();
    let answer = check(&EXAMPLE, cells, &mut depths);
    assert!(answer.is_ok() || depths == before);
    answer.map(|rows| (rows, depths))
}

fn refused(text: &str, number: u32, row: usize) {
    assert_eq!(read(&trace(text)), Err((number, row)), "{text}");
}

#[test]
fn words_are_read() {
    assert_eq!(read(&trace("seh")), Ok((2, vec![1, 1, 0])));
    assert_eq!(read(&trace("soprroehhh")), Ok((7, vec![1, 1, 1, 1, 1, 1, 1, 0, 0, 0])));
    assert_eq!(read(&trace("jsecseeeh")), Ok((8, vec![1, 2, 2, 2, 3, 3, 2, 1, 0])));
    // C10.
    assert_eq!(read(&trace("l2s1oERs1oEeh")), Ok((9, vec![1, 2, 2, 2, 1, 2, 2, 2, 1, 0])));
    // A loop whose body is a loop.
    assert_eq!(read(&trace("l1l1sEEeh")), Ok((6, vec![1, 2, 3, 3, 2, 1, 0])));
}

#[test]
fn no_words() {
    refused("", 12, 0);
    refused("h", 12, 0);
    refused("o", 12, 0);
    refused("se", 12, 2);
    refused("so", 12, 2);
    refused("sehs", 12, 3);
    refused("seseh", 12, 2);
    refused("sseeh", 12, 1);
    refused("ieh", 12, 1);
    refused("iseseeh", 12, 3);
    refused("jseeh", 12, 3);
    refused("jseseseeh", 12, 5);
    refused("leh", 12, 1);
    refused("lRseeh", 12, 1);
    refused("lsERRh", 12, 4);
    refused("iseReh", 12, 3);
    refused("rseh", 12, 0);
}

#[test]
fn flags_and_counts() {
    refused("sEh", 13, 1);
    refused("l1seeh", 13, 2);
    refused("l1sEEh", 13, 3);
    refused("l2sEeh", 13, 0);
    refused("l1sERsEeh", 13, 0);
    // The lowest row of a whole word; in none the row of the grammar.
    refused("l2seeh", 13, 0);
    refused("jl1sEesEeh", 13, 6);
    refused("jl2sEesEeh", 13, 1);
    refused("l2seeo", 12, 4);
    let mut cells = trace("seh");
    cells[WIDTH + 18] = 2;
    assert_eq!(read(&cells), Err((13, 1)));
    let mut cells = trace("l1sEeh");
    cells[2 * WIDTH + 18] = 2;
    assert_eq!(read(&cells), Err((13, 2)));
}

#[test]
fn cells_that_fit_nothing() {
    let good = trace("soeh");
    for (place, number) in [(7, 2), (13, P - 1), (22, 2), (22, P - 1)] {
        for row in 0..4 {
            let mut cells = good.clone();
            cells[row * WIDTH + place] = number;
            assert_eq!(read(&cells), Err((12, row)));
        }
    }
    // A control row in a span, an operation outside, PUSH as a control row.
    for (row, in_span) in [(0, 1), (1, 0), (2, 1), (3, 1)] {
        let mut cells = good.clone();
        cells[row * WIDTH + 22] = in_span;
        assert_eq!(read(&cells), Err((12, row)));
    }
    let mut cells = trace("speh");
    cells[WIDTH + 22] = 0;
    assert_eq!(read(&cells), Err((12, 1)));
}

/// A cell from p on is read as that number less p.
#[test]
fn cells_from_p_on() {
    for text in ["soeh", "l2s1oERs1oEeh", "jsecseeeh", "l2seeh", "l1sEEh", "sehs"] {
        let plain = trace(text);
        let wanted = read(&plain);
        assert_eq!(read(&plain.iter().map(|cell| cell + P).collect::<Vec<_>>()), wanted, "{text}");
        for place in 0..plain.len() {
            let mut cells = plain.clone();
            cells[place] += P;
            assert_eq!(read(&cells), wanted, "{text}, cell {place}");
        }
    }
    let good = trace("soeh");
    for (place, number, refusal) in
        [(7, P + 2, 12), (7, u64::MAX, 12), (22, P + 2, 12), (22, P, 12), (18 + WIDTH, P + 1, 13), (18 + WIDTH, P + 2, 13)]
    {
        let mut cells = good.clone();
        cells[WIDTH + place] = number;
        assert_eq!(read(&cells), Err((refusal, 1 + place / WIDTH)), "{place}, {number}");
    }
    let mut cells = trace("l1sEeh");
    cells[23] = P + 2;
    assert_eq!(read(&cells), Err((13, 0)));
}

#[test]
fn deep() {
    let nested = |n: usize, inner: &str| format!("{}{inner}{}h", "i".repeat(n), "e".repeat(n));
    assert_eq!(read(&trace(&nested(63, "se"))).unwrap().1[64], 64);
    refused(&nested(64, "se"), 15, 64);
    refused(&nested(65, "se"), 15, 64);
    refused(&nested(64, "oe"), 12, 64);
    // With 64 open, a start row inside a SPAN.
    refused(&nested(63, "sse"), 12, 64);
    refused(&format!("{}h", "i".repeat(64)), 12, 64);
}

#[test]
fn lengths_and_profiles() {
    let good = trace("seh");
    let mut depths = vec![9; 4];
    assert_eq!(check(&EXAMPLE, &good, &mut depths), Ok(2));
    assert_eq!(depths, [1, 1, 0, 9]);
    assert_eq!(check(&EXAMPLE, &good, &mut depths[..2]), Err((11, 0)));
    assert_eq!(check(&EXAMPLE, &good[1..], &mut depths), Err((11, 0)));
    let wrong = Profile { step: P, ..EXAMPLE };
    assert_eq!(check(&wrong, &good[1..], &mut depths), Err((2, 0)));
    for wrong in [
        Profile { span: 128, ..EXAMPLE },
        Profile { join: EXAMPLE.end, ..EXAMPLE },
        Profile { halt: 32, ..EXAMPLE },
        Profile { halt: 64, ..EXAMPLE },
        Profile { step: 0, ..EXAMPLE },
    ] {
        assert_eq!(check(&wrong, &good, &mut depths), Err((2, 0)));
    }
    assert_eq!(depths, [1, 1, 0, 9]);
}

#[test]
fn written_words() {
    let rng = Rng::new(11);
    for n in 0..400 {
        let deep = 1 + n % 64;
        let w = word(&rng, deep);
        assert_eq!(w.depths.iter().max(), Some(&(deep as u32)));
        assert_eq!(read(&w.cells), Ok((w.program_rows, w.depths)));
    }
    assert_eq!(read(&word(&rng, 65).cells).unwrap_err().0, 15);
    let w = long_word(&rng, 1000);
    assert_eq!(w.depths.len(), 1000);
    assert_eq!(read(&w.cells), Ok((w.program_rows, w.depths)));
}
