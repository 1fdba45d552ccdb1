//! The proved library through its wrappers: document 01's cases and refusals.
#![cfg(archive)]

use core_trace::exports::*;
use core_trace::forest::{Forests, MastNode, OpBatch, Slot};
use core_trace::overflow::{is_inverse, overflow_rule};
use core_trace::profile::{EXAMPLE, Profile};
use core_trace::random::Rng;

const P: u64 = 18446744069414584321;
const NONE: [u64; 16] = [0; 16];
/// The inverse of 2.
const HALF: u64 = 9223372034707292161;

/// A row of zeros with an opcode and an address.
fn row(opcode: u8, addr: u64) -> [u64; WIDTH] {
    let mut cells = [0; WIDTH];
    cells[6] = addr;
    (0..7).for_each(|i| cells[7 + i] = u64::from(opcode >> i & 1));
    cells
}

fn refused<T: core::fmt::Debug + PartialEq>(answer: Result<T, Refusal>, number: u32) {
    assert_eq!(answer, Err(Refusal(number)));
}

/// C1, and the inverse of numbers from p on.
#[test]
fn inverses() {
    assert_eq!(inverse(2), Ok(9223372034707292161));
    assert_eq!(inverse(0), Ok(0));
    assert_eq!(inverse(1), Ok(1));
    for x in [3, 1023, 1024, P - 1, 1 << 40] {
        assert_eq!(u128::from(x) * u128::from(inverse(x).unwrap()) % u128::from(P), 1);
    }
    assert_eq!(inverse(P), Ok(0));
    for x in [1, 2, 3, 1023, 1024, 0xffff_fffe] {
        assert_eq!(inverse(P + x), inverse(x));
    }
}

/// Two fragments of two rows and one: the first stack top reversed, then the cells of the fragment before.
#[test]
fn first_rows() {
    let mut buffer = vec![7; 3 * WIDTH];
    let built: Vec<u64> = (100..150).collect();
    let top = core::array::from_fn(|i| i as u64);
    assert_eq!(fixup_stack_and_system_rows(&mut buffer, 2, &[2, 1], &built, &top), Ok(()));
    assert_eq!(buffer[..6], [7; 6]);
    assert!(buffer[30..46].iter().copied().eq((0..16).rev()));
    assert_eq!(buffer[46..49], [16, 0, 0]);
    assert_eq!(buffer[49..98], [7; 49]);
    assert!(buffer[98..104].iter().copied().eq(100..106));
    assert!(buffer[128..147].iter().copied().eq(106..125));
}

/// Cells from p on: what is written is reduced, what is not stays.
#[test]
fn first_rows_from_p_on() {
    let mut buffer = vec![P + 7; 3 * WIDTH];
    let built: Vec<u64> = (100..150).map(|cell| P + cell).collect();
    let top = core::array::from_fn(|i| P + i as u64);
    assert_eq!(fixup_stack_and_system_rows(&mut buffer, 2, &[2, 1], &built, &top), Ok(()));
    assert_eq!(buffer[..30], [P + 7; 30]);
    assert!(buffer[30..46].iter().copied().eq((0..16).rev()));
    assert_eq!(buffer[46..49], [16, 0, 0]);
    assert_eq!(buffer[49..98], [P + 7; 49]);
    assert!(buffer[98..104].iter().copied().eq(100..106));
    assert_eq!(buffer[104..128], [P + 7; 24]);
    assert!(buffer[128..147].iter().copied().eq(106..125));
}

#[test]
fn first_rows_refused() {
    let before = vec![7; 3 * WIDTH];
    let built = vec![1; 50];
    let check = |buffer: &[u64], size, counts: &[u32], built: &[u64], top: &[u64; 16], number| {
        let mut copy = buffer.to_vec();
        refused(fixup_stack_and_system_rows(&mut copy, size, counts, built, top), number);
        assert_eq!(copy, buffer);
    };
    check(&before[1..], 2, &[1], &built, &NONE, 11);
    check(&before, 0, &[2, 1], &built, &NONE, 11);
    check(&before, 2, &[3], &built, &NONE, 11);
    check(&before, 2, &[2, 2], &built, &NONE, 11);
    check(&before, 2, &[2, 1], &built[..49], &NONE, 11);
    check(&before, 2, &[u32::MAX, u32::MAX], &built, &NONE, 11);
    check(&before, 2, &[], &built, &NONE, 26);
    check(&before, 2, &[1, 1], &built, &NONE, 25);
    check(&before, 2, &[2, 0], &built, &NONE, 25);
}

/// A loop with two passes, counted by the address behind each flagged END.
fn looped() -> Vec<u64> {
    let mut flagged = row(EXAMPLE.end, 3);
    flagged[18] = 1;
    [row(EXAMPLE.loop_op, 0), row(EXAMPLE.span, 1), flagged, row(EXAMPLE.repeat, 1), flagged, row(EXAMPLE.end, 1)].concat()
}

#[test]
fn multiplicities() {
    let mut buffer = looped();
    assert_eq!(set_loop_body_multiplicities(EXAMPLE, &mut buffer, 6), Ok(()));
    assert_eq!(buffer[23], 2);
    // C9: one row stays as it is.
    let mut one = row(EXAMPLE.loop_op, 0);
    assert_eq!(set_loop_body_multiplicities(EXAMPLE, &mut one, 1), Ok(()));
    assert_eq!(one, row(EXAMPLE.loop_op, 0));
    // Flag, address and bits from p on.
    let plain = looped();
    let mut above: Vec<u64> = plain.iter().map(|cell| cell + P).collect();
    let before = above.clone();
    assert_eq!(set_loop_body_multiplicities(EXAMPLE, &mut above, 6), Ok(()));
    assert_eq!(above[23], 2);
    above[23] = before[23];
    assert_eq!(above, before);
    let mut without = [row(EXAMPLE.loop_op, 0), row(EXAMPLE.span, 1)].concat();
    let before = without.clone();
    refused(set_loop_body_multiplicities(EXAMPLE, &mut without, 2), 14);
    refused(set_loop_body_multiplicities(EXAMPLE, &mut without, 3), 11);
    for wrong in [
        Profile { span: 128, ..EXAMPLE },
        Profile { join: EXAMPLE.end, ..EXAMPLE },
        Profile { halt: 32, ..EXAMPLE },
        Profile { step: 0, ..EXAMPLE },
        Profile { step: P, ..EXAMPLE },
    ] {
        refused(set_loop_body_multiplicities(wrong, &mut without, 2), 2);
    }
    assert_eq!(without, before);
}

#[test]
fn helper_column() {
    let mut buffer = vec![2; 2 * WIDTH];
    assert_eq!(invert_helper_column(&mut buffer, 1), Ok(()));
    assert_eq!(buffer[48], HALF);
    assert_eq!(buffer[97], 2);
    refused(invert_helper_column(&mut buffer, 3), 11);
    let mut above = [P + 2; WIDTH];
    assert_eq!(invert_helper_column(&mut above, 1), Ok(()));
    assert_eq!((above[47], above[48]), (P + 2, HALF));
    let mut zero = [P; WIDTH];
    assert_eq!(invert_helper_column(&mut zero, 1), Ok(()));
    assert_eq!(zero[48], 0);
}

/// The HALT row has the cells built last, the helper inverted, and padding repeats it.
#[test]
fn halts() {
    let mut buffer = vec![9; 4 * WIDTH];
    let built: [u64; BUILT] = core::array::from_fn(|i| 50 + i as u64);
    assert_eq!(push_halt_opcode_row(EXAMPLE, &mut buffer, 1, &built), Ok(()));
    assert_eq!(pad_core_row_major(EXAMPLE, &mut buffer, 2, 3), Ok(()));
    let (halt, padding) = (&buffer[49..98], &buffer[98..147]);
    assert_eq!(halt[..6], built[..6]);
    assert_eq!(halt[30..48], built[6..24]);
    assert!(is_inverse(halt[48], built[24]));
    assert_eq!(halt[6..14], row(EXAMPLE.halt, 0)[6..14]);
    assert_eq!(halt[14..22], [9, 9, 9, 9, 0, 0, 0, 0]);
    assert_eq!(halt[22..30], [0, 0, 0, 0, 0, 0, 0, 1]);
    assert_eq!(padding[..6], [2, 0, 0, 0, 0, 0]);
    assert_eq!(padding[6..], halt[6..]);
    assert_eq!(buffer[147..], [9; 49]);
    refused(push_halt_opcode_row(EXAMPLE, &mut buffer, 4, &built), 11);
    refused(pad_core_row_major(EXAMPLE, &mut buffer, 0, 3), 11);
    refused(pad_core_row_major(EXAMPLE, &mut buffer, 3, 2), 11);
    refused(pad_core_row_major(EXAMPLE, &mut buffer, 3, 5), 11);
}

/// HALT and padding copy reduced cells of rows that are not.
#[test]
fn halts_from_p_on() {
    let mut buffer = vec![P + 9; 4 * WIDTH];
    let built: [u64; BUILT] = core::array::from_fn(|i| P + 50 + i as u64);
    assert_eq!(push_halt_opcode_row(EXAMPLE, &mut buffer, 1, &built), Ok(()));
    assert_eq!(buffer[..49], [P + 9; 49]);
    assert!(buffer[49..55].iter().copied().eq(50..56));
    assert!(buffer[79..97].iter().copied().eq(56..74));
    assert!(is_inverse(buffer[97], 74));
    assert_eq!(buffer[63..71], [9, 9, 9, 9, 0, 0, 0, 0]);
    // p more than the inverse is over 64 bits; 3 stands for it.
    buffer[97] = 3;
    buffer[49..98].iter_mut().for_each(|cell| *cell += P);
    let halt = buffer[49..98].to_vec();
    assert_eq!(pad_core_row_major(EXAMPLE, &mut buffer, 2, 3), Ok(()));
    assert_eq!(buffer[49..98], halt);
    assert!(buffer[98 + 6..147].iter().copied().eq(halt[6..].iter().map(|cell| cell - P)));
    assert_eq!(buffer[98..104], [2, 0, 0, 0, 0, 0]);
}

/// N4: the helper of HALT is the inverse of the built one, which may be from p on, whatever the depth beside it; padding repeats it.
#[test]
fn halt_helpers() {
    let halted = |helper: u64| {
        let mut buffer = vec![9; 3 * WIDTH];
        let mut built = [5; BUILT];
        built[24] = helper;
        assert_eq!(push_halt_opcode_row(EXAMPLE, &mut buffer, 1, &built), Ok(()));
        assert_eq!(pad_core_row_major(EXAMPLE, &mut buffer, 2, 3), Ok(()));
        assert_eq!((buffer[WIDTH + 46], buffer[2 * WIDTH + 46]), (5, 5));
        assert_eq!(buffer[2 * WIDTH + 48], buffer[WIDTH + 48]);
        buffer[WIDTH + 48]
    };
    for (helper, wanted) in [(0, 0), (1, 1), (2, HALF), (P - 1, P - 1), (P, 0), (P + 1, 1), (P + 2, HALF)] {
        assert_eq!(halted(helper), wanted);
        assert!(is_inverse(wanted, helper));
    }
    let rng = Rng::new(9);
    for helper in (0..1000).map(|_| rng.next()).chain([1023, 1024, P + 1023, P + 1024, 4294967279, P - 2, u64::MAX]) {
        assert!(is_inverse(halted(helper), helper), "{helper}");
    }
}

/// N7: the place of each operation of a batch, and the refusals in their order.
#[test]
fn places() {
    // A group of four, an empty one, one of five, one of two that the batch ends in.
    let mut batches = vec![7; 12];
    batches.extend([4, 0, 4, 4, 9, 13, 13, 13, 13, 13, 11, 0]);
    let place = |group, index, following| Ok(OpPlace { group, index, following });
    for op in 0..11 {
        let (group, start, end) = if op < 4 {
            (0, 0, 4)
        } else if op < 9 {
            (2, 4, 9)
        } else {
            (3, 9, 11)
        };
        assert_eq!(op_place(&batches, 1, op), place(group, u64::from(op) - start, end - u64::from(op) - 1));
    }
    assert_eq!(op_place(&batches, 1, 11), Err(Refusal(6)));
    assert_eq!(op_place(&batches[..23], 1, 0), Err(Refusal(5)));
    assert_eq!(op_place(&batches, usize::MAX, 0), Err(Refusal(5)));
    batches[12] = 9;
    assert_eq!(op_place(&batches, 1, 0), Err(Refusal(11)));
    assert_eq!(op_place(&batches, 1, 11), Err(Refusal(6)));
}

/// The place of an operation, the operations that follow it in its group counted one by one.
fn counted_place(starts: &[u32], ops: u32, op: u32) -> Result<OpPlace, Refusal> {
    let lies_in = |group: usize, k: u32| starts[group] <= k && k < starts[group + 1];
    let group = (0..8)
        .find(|&group| lies_in(group, op))
        .filter(|&group| op < ops && starts.is_sorted() && op - starts[group] < 9)
        .ok_or(Refusal(6))?;
    let following = (op + 1..ops).filter(|&k| lies_in(group, k)).count();
    Ok(OpPlace { group: group as u64, index: u64::from(op - starts[group]), following: following as u64 })
}

/// N7: places in batches of any starts and any number of operations.
#[test]
fn places_by_counting() {
    let rng = Rng::new(7);
    for _ in 0..4000 {
        let mut batch: Vec<u32> = (0..12).map(|_| rng.below(40) as u32).collect();
        batch[0] %= 9;
        if !rng.one_in(8) {
            batch[1..10].sort_unstable();
        }
        for op in 0..42 {
            assert_eq!(op_place(&batch, 0, op), counted_place(&batch[1..10], batch[10], op), "{batch:?} {op}");
        }
    }
}

/// N7: a block's records count from the start of its own forest.
#[test]
fn places_in_forests() {
    let block = |ops: usize| {
        let batch = OpBatch { num_groups: 1, groups: [0; 8], starts: [0, 9, 9, 9, 9, 9, 9, 9, 9], ops: vec![5; ops] };
        vec![Slot::Node(MastNode::Block(1, vec![batch]), [0; 4])]
    };
    let lent = Forests::new(&[block(1), block(3)]);
    for (forest, following) in [(0, 0), (1, 2)] {
        assert_eq!(op_place(lent.batches_of(forest), 0, 0), Ok(OpPlace { group: 0, index: 0, following }));
        assert_eq!(op_place(lent.batches_of(forest), 1, 0), Err(Refusal(5)));
    }
}

/// The finisher is the five passes; each of its refusals leaves the buffer.
#[test]
fn finisher() {
    let mut start = looped();
    start.resize(9 * WIDTH, P);
    let (counts, built) = ([4, 2], [vec![3; 25], vec![5; 25]].concat());
    let mut whole = start.clone();
    assert_eq!(finish(EXAMPLE, &mut whole, 4, &counts, &built, &NONE, 8), Ok(()));
    let mut steps = start.clone();
    assert_eq!(fixup_stack_and_system_rows(&mut steps, 4, &counts, &built, &NONE), Ok(()));
    assert_eq!(set_loop_body_multiplicities(EXAMPLE, &mut steps, 6), Ok(()));
    assert_eq!(invert_helper_column(&mut steps, 6), Ok(()));
    assert_eq!(push_halt_opcode_row(EXAMPLE, &mut steps, 6, &[5; BUILT]), Ok(()));
    assert_eq!(pad_core_row_major(EXAMPLE, &mut steps, 7, 8), Ok(()));
    assert_eq!(whole, steps);
    // Built cells of anybody: their helper, not the depth, is inverted.
    assert!([6, 7].iter().all(|row| whole[row * WIDTH + 46] == 5 && is_inverse(whole[row * WIDTH + 48], 5)));
    let before = whole.clone();
    refused(finish(EXAMPLE, &mut whole, 4, &counts, &built, &NONE, 6), 11);
    refused(finish(EXAMPLE, &mut whole, 4, &counts, &built, &NONE, 10), 11);
    refused(finish(EXAMPLE, &mut whole, 4, &[], &built, &NONE, 8), 26);
    refused(finish(EXAMPLE, &mut whole, 4, &[3, 2], &built, &NONE, 8), 25);
    refused(finish(EXAMPLE, &mut whole, 4, &[2], &built, &NONE, 8), 14);
    assert_eq!(whole, before);
}

/// Reading, by small traces and by the checker.
mod read {
    use core_trace::checker::check;
    use core_trace::exports::row;
    use core_trace::words::{self, word};

    use super::*;

    /// SPAN, an operation, END, HALT.
    fn small() -> Vec<u64> {
        [words::row(EXAMPLE.span, 0), words::row(5, 1), words::row(EXAMPLE.end, 0), words::row(EXAMPLE.halt, 0)].concat()
    }

    fn refused_at(profile: Profile, cells: &[u64], depths: usize, number: u32, row: usize) {
        let mut list = vec![7; depths];
        assert_eq!(read_trace(profile, cells, &mut list), Err(RefusedAt { refusal: Refusal(number), row }));
        assert_eq!(list, vec![7; depths]);
    }

    #[test]
    fn accepted() {
        let mut depths = [7; 5];
        assert_eq!(read_trace(EXAMPLE, &small(), &mut depths), Ok(3));
        assert_eq!(depths, [1, 1, 1, 0, 7]);
    }

    /// A block's three numbers, the rows of it, HALT; 27, and 11 of a look-up.
    #[test]
    fn indexes() {
        let mut index = [7; 4];
        assert_eq!(build_index(EXAMPLE, &small(), &mut index), Ok(1));
        assert_eq!(index, [0, 2, 0, 7]);
        assert!((0..3).all(|n| enclosing_block(&index[..3], n) == Ok(Some(0))));
        assert_eq!(enclosing_block(&index[..3], 3), Ok(None));
        assert_eq!(enclosing_block(&index, 0), Err(Refusal(11)));
        assert_eq!(build_index(EXAMPLE, &small(), &mut index[..2]), Err(RefusedAt { refusal: Refusal(27), row: 0 }));
        assert_eq!(build_index(EXAMPLE, &small()[..WIDTH], &mut index), Err(RefusedAt { refusal: Refusal(12), row: 1 }));
        assert_eq!(index, [0, 2, 0, 7]);
    }

    /// N8: a trace with a SYSCALL row, from the grammar, is read, indexed and dumped.
    #[test]
    fn archived_syscall() {
        let [start, end] = [EXAMPLE.syscall, EXAMPLE.end].map(|opcode| words::row(opcode, 0).to_vec());
        let block = &small()[..3 * WIDTH];
        let cells = [&start[..], block, &end, &words::row(EXAMPLE.halt, 0)].concat();
        let (mut depths, mut index) = ([7; 6], [7; 6]);
        assert_eq!(read_trace(EXAMPLE, &cells, &mut depths), Ok(5));
        assert_eq!(depths, [1, 2, 2, 2, 1, 0]);
        assert_eq!(build_index(EXAMPLE, &cells, &mut index), Ok(2));
        assert_eq!(index, [0, 4, 0, 1, 3, 0]);
        assert_eq!(undump(&dump(&cells).unwrap()), Ok(cells));
    }

    /// A trace with p added to its cells reads as the trace, and its rows are handed back as they are.
    #[test]
    fn cells_from_p_on() {
        let above: Vec<u64> = small().iter().map(|cell| cell + P).collect();
        let (mut depths, mut index) = ([7; 5], [7; 4]);
        assert_eq!(read_trace(EXAMPLE, &above, &mut depths), Ok(3));
        assert_eq!(depths, [1, 1, 1, 0, 7]);
        assert_eq!(build_index(EXAMPLE, &above, &mut index), Ok(1));
        assert_eq!(index, [0, 2, 0, 7]);
        assert!(core::ptr::eq(row(&above, 1), &above[WIDTH..2 * WIDTH]));
    }

    /// Each refusal, its row, and that the depths stay.
    #[test]
    fn refused() {
        let good = small();
        refused_at(EXAMPLE, &[], 0, 12, 0);
        refused_at(EXAMPLE, &good[..3 * WIDTH], 4, 12, 3);
        refused_at(EXAMPLE, &good, 3, 11, 0);
        refused_at(EXAMPLE, &good[1..], 4, 11, 0);
        refused_at(Profile { step: 0, ..EXAMPLE }, &good[1..], 4, 2, 0);
        let changed = |at: usize, value: u64| {
            let mut cells = good.clone();
            cells[at] = value;
            cells
        };
        refused_at(EXAMPLE, &changed(22, P + 1), 4, 12, 0);
        refused_at(EXAMPLE, &changed(7, P + 2), 4, 12, 0);
        refused_at(EXAMPLE, &changed(2 * WIDTH + 18, P + 1), 4, 13, 2);
        refused_at(EXAMPLE, &changed(WIDTH + 22, 0), 4, 12, 1);
        refused_at(EXAMPLE, &changed(2 * WIDTH + 18, 1), 4, 13, 2);
        let deep = word(&Rng::new(3), 65);
        let row = deep.depths.iter().position(|&depth| depth == 65).unwrap();
        refused_at(EXAMPLE, &deep.cells, deep.depths.len(), 15, row);
    }

    /// Words of each depth, as the checker reads them.
    #[test]
    fn as_the_checker() {
        let rng = Rng::new(4);
        for deep in 1..=64 {
            let w = word(&rng, deep);
            let (mut ours, mut depths) = (vec![7; w.depths.len()], vec![7; w.depths.len()]);
            assert_eq!(read_trace(EXAMPLE, &w.cells, &mut ours), Ok(w.program_rows));
            assert_eq!(check(&EXAMPLE, &w.cells, &mut depths), Ok(w.program_rows));
            assert_eq!(ours, w.depths);
            assert_eq!(depths, w.depths);
        }
    }

    /// A view is the caller's own cells, or empty.
    #[test]
    fn views() {
        let cells = small();
        for number in 0..4 {
            assert!(core::ptr::eq(row(&cells, number), &cells[number * WIDTH..(number + 1) * WIDTH]));
        }
        for number in [4, 5, usize::MAX / 49, usize::MAX] {
            assert_eq!(row(&cells, number), []);
        }
        assert_eq!(row(&cells[1..], 0), []);
        assert_eq!(row(&[], 0), []);
    }
}

/// Dumps: the lines, each refusal and its order.
mod dumped {
    use std::alloc::{Layout, alloc_zeroed};

    use core_trace::dump as plain;
    use core_trace::listing;

    use super::*;

    /// Row 0 has its columns' numbers with p added; row 1 is the same, reduced; in row 2 the first cell and the last are others.
    fn cells() -> Vec<u64> {
        let mut cells: Vec<u64> = (0..3 * WIDTH as u64).map(|i| i % 49 + if i < 49 { P } else { 0 }).collect();
        cells[2 * WIDTH] = P - 1;
        cells[2 * WIDTH + 48] = P;
        cells
    }

    /// The dump of the cells, written out.
    fn text() -> String {
        let values: String = (0..49).map(|i| format!("b{i:b} {}\n", (b'!' + i) as char)).collect();
        format!("{}#0\n{values}#1\n#2\nb{} !\nb0 Q\n", plain::header(), "1".repeat(32) + &"0".repeat(32))
    }

    fn write_refused(cells: &[u64], lent: usize, number: u32) {
        let mut text = vec![7; lent];
        refused(write_dump(cells, &mut text), number);
        assert_eq!(text, vec![7; lent]);
    }

    fn read_refused(text: &[u8], lent: usize, number: u32) {
        let mut cells = vec![7; lent];
        refused(read_dump(text, &mut cells), number);
        assert_eq!(cells, vec![7; lent]);
    }

    /// Zeros that take no memory until they are touched, or none where the machine does not lend so many.
    fn zeros(cells: usize) -> Option<Vec<u64>> {
        let layout = Layout::array::<u64>(cells).unwrap();
        // SAFETY: the layout is not empty, it is that of the list, and zeros are numbers.
        let start = unsafe { alloc_zeroed(layout) }.cast::<u64>();
        (!start.is_null()).then(|| unsafe { Vec::from_raw_parts(start, cells, cells) })
    }

    #[test]
    fn header() {
        let text = plain::header();
        let lines: Vec<&str> = text.lines().collect();
        assert_eq!((text.len(), lines.len()), (1400, 53));
        assert_eq!(lines[..4], ["$timescale 1 ns $end", "$scope module trace $end", "$var wire 64 ! clk $end", "$var wire 64 \" ctx $end"]);
        assert_eq!(lines[4], "$var wire 64 # fn_hash0 $end");
        assert_eq!(lines[9], "$var wire 64 ( op_bit0 $end");
        assert_eq!(lines[27], "$var wire 64 : batch_flag0 $end");
        assert_eq!(lines[30], "$var wire 64 = extra0 $end");
        assert_eq!(lines[32], "$var wire 64 ? stack0 $end");
        assert_eq!(lines[50..], ["$var wire 64 Q helper $end", "$upscope $end", "$enddefinitions $end"]);
    }

    /// The bytes and nothing behind them; the reduced cells come back and nothing behind them changes.
    #[test]
    fn written_and_read() {
        let wanted = text();
        for more in [0, 1, 100] {
            let mut text = vec![7; wanted.len() + more];
            assert_eq!(write_dump(&cells(), &mut text), Ok(wanted.len()));
            assert_eq!(text, [wanted.as_bytes(), &vec![7; more]].concat());
        }
        let reduced: Vec<u64> = cells().iter().map(|cell| cell % P).collect();
        for more in [0, 1, 3] {
            let mut back = vec![P + 7; (3 + more) * WIDTH];
            assert_eq!(read_dump(wanted.as_bytes(), &mut back), Ok(3));
            assert_eq!(back, [reduced.clone(), vec![P + 7; more * WIDTH]].concat());
        }
    }

    /// C10, finished: its dump is the file of docs/, comes back, and reads as the listing.
    #[test]
    fn listing_comes_back() {
        let trace = listing::trace();
        let text = dump(&trace).unwrap();
        assert_eq!(text, include_bytes!("../../docs/c10.vcd"));
        let back = undump(&text).unwrap();
        assert_eq!(back, trace);
        assert_eq!(listing::table(&EXAMPLE, back.chunks(WIDTH).map(|row| row.try_into().unwrap())), listing::TABLE);
    }

    #[test]
    fn into_lists_and_files() {
        assert_eq!(dump_size(&cells()), Ok(text().len()));
        refused(dump_size(&[]), 11);
        refused(dump_size(&cells()[1..]), 11);
        assert_eq!(dump(&cells()), Ok(text().into_bytes()));
        let mut file = Vec::new();
        assert_eq!(dump_to(&cells(), &mut file).unwrap(), file.len());
        assert_eq!(file, text().as_bytes());
        assert_eq!(undump(&file), Ok(cells().iter().map(|cell| cell % P).collect()));
        let error = dump_to(&[], &mut file).unwrap_err();
        assert_eq!(error.get_ref().and_then(|inner| inner.downcast_ref()), Some(&Refusal(11)));
        assert_eq!(file, text().as_bytes());
        refused(dump(&cells()[1..]), 11);
        refused(undump(&file[1..]), 29);
        refused(undump(&[]), 29);
    }

    /// 11 for no rows and for parts of rows, also where the text is too short; then 28.
    #[test]
    fn writing_refused() {
        let (cells, bytes) = (cells(), text().len());
        for lent in [0, 1400, bytes] {
            write_refused(&[], lent, 11);
            write_refused(&cells[1..], lent, 11);
            write_refused(&cells[..1], lent, 11);
            write_refused(&cells[..50], lent, 11);
        }
        for lent in [0, 1, 1399, 1400, bytes - 1] {
            write_refused(&cells, lent, 28);
        }
    }

    /// 11 above 2^24 rows, where so many zeros are to be had.
    #[test]
    fn too_many_rows() {
        let Some(mut cells) = zeros(WIDTH * ((1 << 24) + 1)) else { return };
        write_refused(&cells, 0, 11);
        write_refused(&cells, 1400, 11);
        refused(read_dump(b"", &mut cells), 11);
        refused(read_dump(text().as_bytes(), &mut cells), 11);
        assert!(cells[..4 * WIDTH].iter().all(|&cell| cell == 0));
    }

    /// 29: the text with one thing changed.
    #[test]
    fn reading_refused() {
        let good = text();
        let changed = |from: &str, to: &str| {
            assert_eq!(good.matches(from).count(), 1, "{from:?}");
            read_refused(good.replacen(from, to, 1).as_bytes(), 3 * WIDTH, 29);
        };
        changed("$timescale 1 ns", "$timescale 1 ps");
        changed("$upscope $end\n", "");
        changed("#0\n", "#00\n");
        changed("#0\n", "#1\n");
        changed("#0\n", "$dumpvars\n#0\n");
        changed("\n#1\n", "\n#2\n");
        changed("\n#1\n", "\n");
        changed("\n#2\n", "\n#1\n");
        changed("\nb0 !\n", "\n");
        changed("\nb0 !\n", "\nb00 !\n");
        changed("\nb1 \"\n", "\nb01 \"\n");
        changed("\nb1 \"\n", "\nb \"\n");
        changed("\nb1 \"\n", "\nb2 \"\n");
        changed("\nb1 \"\n", "\nb1  \"\n");
        changed("\nb1 \"\n", &format!("\nb{P:b} \"\n"));
        changed("\nb1 \"\n", &format!("\nb{:b} \"\n", u64::MAX));
        changed("\nb1 \"\n", &format!("\nb{:065b} \"\n", 1));
        changed("\nb1 \"\n", &format!("\nb{:b} \"\n", (1u128 << 64) + 1));
        changed("#1\n", "#1\nb0 !\n");
        changed("#1\n", "#1\nb1 R\n");
        changed("#2\nb1", "#2\nb1 R\nb1");
        changed("#1\n", "#1\nb0 \"\nb1 !\n");
        changed("\nb0 Q\n", "\nb0 Q");
        changed("\nb0 Q\n", "\nb0 Q\n\n");
        changed("\nb0 Q\n", "\nb0 Q\n ");
        changed("\nb0 Q\n", "\nb0 Q\r\n");
        read_refused(b"", WIDTH, 29);
        read_refused(plain::header().as_bytes(), WIDTH, 29);
        read_refused(good.replace('\n', "\r\n").as_bytes(), 3 * WIDTH, 29);
    }

    /// 11 for a length that no buffer has, then 29, then 11 for a good text that needs more.
    #[test]
    fn reading_refused_in_order() {
        let (good, wrong) = (text(), text() + "#4\n");
        for lent in [1, 48, 50, 3 * WIDTH - 1, 3 * WIDTH + 1] {
            read_refused(b"", lent, 11);
            read_refused(wrong.as_bytes(), lent, 11);
            read_refused(good.as_bytes(), lent, 11);
        }
        for lent in [0, WIDTH, 2 * WIDTH] {
            read_refused(wrong.as_bytes(), lent, 29);
            read_refused(good.as_bytes(), lent, 11);
        }
        read_refused(wrong.as_bytes(), 3 * WIDTH, 29);
        read_refused(wrong.as_bytes(), 9 * WIDTH, 29);
    }

    /// The most rows: their dump comes back, and one with a row more is none of ours. Takes some 7 GB and half a minute.
    #[test]
    #[ignore]
    fn most_rows() {
        let cells = zeros(WIDTH << 24).unwrap();
        let mut text = dump(&cells).unwrap();
        let mut back = vec![7; WIDTH << 24];
        assert_eq!(read_dump(&text, &mut back), Ok(1 << 24));
        assert!(back.iter().all(|&cell| cell == 0));
        drop(back);
        read_refused(&text, 9 * WIDTH, 11);
        text.extend(b"#16777216\n");
        read_refused(&text, 9 * WIDTH, 29);
    }
}

/// Replay, by the listing of document 01 and by refusals of records.
mod replayed {
    use core_trace::calls::{DecoderState, Positions, RECORD, records};
    use core_trace::forest::{Forests, MastNode, Queues, Slot};
    use core_trace::listing;
    use core_trace::random::{Run, raised, raised_run};
    use core_trace::sizes::write;

    use super::*;

    /// N4: C10 ending at a depth. HALT and its padding have the inverse of depth − 16.
    #[test]
    fn ends_at_a_depth() {
        // By Python's pow(depth - 16, -1, p).
        let helpers =
            [(16, 0), (17, 1), (18, HALF), (1039, 4255553861565827859), (1040, 18428729670909296641), (4294967295, 540563928758321272)];
        for (depth, helper) in helpers {
            for size in 1..=10 {
                let mut run = listing::run(size);
                run.cycles_from_last().next().unwrap().stack.stack_depth = depth;
                let finished = |at_once| write(&Rng::new(13), &run, Positions::default(), &run.fragments, size, 12, at_once).unwrap();
                let trace = finished(true);
                assert_eq!(finished(false), trace);
                assert_eq!(overflow_rule(&trace), Ok(12));
                for halt in trace.chunks(WIDTH).skip(9) {
                    assert_eq!((halt[46], halt[48]), (depth.into(), helper));
                }
            }
        }
    }

    /// C10 with p added to cells, in each place where a cell comes in: the same rows. An opcode of 128 is refused by 1.
    #[test]
    fn listing_from_p_on() {
        let rng = Rng::new(12);
        let plain = listing::run(9);
        let trace = |run: &Run, lent: &Forests| {
            let mut buffer = vec![P; listing::HEIGHT * WIDTH];
            let calls = records(&run.fragments[0]);
            let left = replay_calls(lent, &run.queues, EXAMPLE, run.state, Positions::default(), &calls, &mut buffer[..9 * WIDTH])?;
            let built: Vec<u64> = left.built.iter().map(|&cell| raised(&rng, cell)).collect();
            finish(EXAMPLE, &mut buffer, 9, &[9], &built, &run.first_stack_top, listing::HEIGHT).unwrap();
            Ok(buffer)
        };
        let wanted = trace(&plain, &Forests::new(&plain.forests));
        assert_eq!(overflow_rule(wanted.as_ref().unwrap()), Ok(listing::HEIGHT));
        for _ in 0..20 {
            let run = raised_run(&rng, &plain);
            assert_eq!(trace(&run, &Forests::new(&run.forests)), wanted);
        }
        let mut lent = Forests::new(&plain.forests);
        lent.ops[0] = 128;
        refused(trace(&plain, &lent), 1);
    }

    /// C10 with changed numbers of a record is refused, and no row is written.
    fn refused_with(record: usize, changes: &[(usize, u64)], refusal: u32) {
        let run = listing::run(9);
        let mut calls = records(&run.fragments[0]);
        for &(place, number) in changes {
            calls[RECORD * record + place] = number;
        }
        let mut fragment = vec![7; 9 * WIDTH];
        let (lent, at) = (Forests::new(&run.forests), Positions::default());
        refused(replay_calls(&lent, &run.queues, EXAMPLE, run.state, at, &calls, &mut fragment), refusal);
        assert_eq!(fragment, vec![7; 9 * WIDTH]);
    }

    /// Records of C10: storings of StartNode, ResumeBasicBlock and FinishLoop, and the first cycle.
    const START: usize = 0;
    const RESUME: usize = 4;
    const FINISH: usize = 8;
    const CYCLE: usize = 1;
    /// A number over 32 bits.
    const OVER: u64 = 1 << 32;

    #[test]
    fn storings_refused() {
        refused_with(START, &[(1, 0)], 23);
        refused_with(START, &[(1, 11)], 23);
        refused_with(START, &[(1, 10)], 4);
        refused_with(START, &[(2, 2)], 3);
        refused_with(START, &[(2, OVER)], 3);
        refused_with(START, &[(5, 2)], 23);
        refused_with(RESUME, &[(3, 1)], 5);
        refused_with(RESUME, &[(3, OVER)], 5);
        refused_with(RESUME, &[(4, 1)], 6);
        refused_with(RESUME, &[(4, OVER)], 6);
        refused_with(FINISH, &[(6, 0)], 23);
        refused_with(FINISH, &[(6, 3)], 23);
    }

    /// N8: C10 with a SYSCALL node for the loop: 31 at its start, whatever child it has, and nothing else is changed. The checks before it
    /// keep their numbers, and the END of such a node is written.
    #[test]
    fn syscall_starts_refused() {
        let mut run = listing::run(9);
        let calls = records(&run.fragments[0]);
        for child in [0, 1, 2, u32::MAX] {
            let Slot::Node(node, _) = &mut run.forests[0][1] else { panic!("the loop") };
            *node = MastNode::Syscall(child);
            let lent = Forests::new(&run.forests);
            let (mut queues, mut calls, mut fragment) = (run.queues.clone(), calls.clone(), vec![7; 9 * WIDTH]);
            let mut replay = |queues: &Queues, calls: &[u64]| {
                let left = replay_calls(&lent, queues, EXAMPLE, run.state, Positions::default(), calls, &mut fragment);
                assert!(left.is_ok() || fragment == vec![7; 9 * WIDTH]);
                left.map(|left| left.rows)
            };
            refused(replay(&queues, &calls), 31);
            queues.parents.clear();
            refused(replay(&queues, &calls), 21);
            queues.addresses.clear();
            refused(replay(&queues, &calls), 20);
            calls[RECORD * CYCLE + 24] = 15;
            refused(replay(&queues, &calls), 10);
            calls[RECORD * CYCLE + 24] = 16;
            // FinishCall.
            calls[RECORD * START + 1] = 5;
            assert_eq!(replay(&queues, &calls[..2 * RECORD]), Ok(1));
        }
    }

    #[test]
    fn cycles_refused() {
        refused_with(CYCLE, &[(0, 19)], 23);
        refused_with(CYCLE, &[(0, P + 18)], 23);
        refused_with(CYCLE, &[(1, 1)], 3);
        refused_with(CYCLE, &[(24, 15)], 10);
    }

    /// A clk, ctx or depth over 32 bits encodes no call; 3, 5 and 6 come before; behind a number that names nothing no number is read.
    #[test]
    fn numbers_over_32_bits() {
        refused_with(CYCLE, &[(2, OVER)], 23);
        refused_with(CYCLE, &[(2, P)], 23);
        refused_with(CYCLE, &[(3, OVER)], 23);
        refused_with(CYCLE, &[(24, OVER)], 23);
        refused_with(START, &[(12, 1), (13, OVER)], 23);
        refused_with(START, &[(12, 1), (13, OVER), (2, OVER)], 3);
        refused_with(RESUME, &[(12, 1), (13, OVER), (3, OVER)], 5);
        refused_with(RESUME, &[(12, 1), (13, OVER), (4, OVER)], 6);
        refused_with(START, &[(1, 1), (2, OVER)], 3);
        refused_with(START, &[(1, 11), (2, OVER)], 23);
        refused_with(START, &[(12, 2), (13, OVER)], 23);
        refused_with(CYCLE, &[(0, 19), (2, OVER)], 23);
    }

    #[test]
    fn lengths_of_records() {
        let run = listing::run(9);
        let (lent, at) = (Forests::new(&run.forests), Positions::default());
        let good = records(&run.fragments[0]);
        let mut short = vec![7; 8 * WIDTH];
        refused(replay_calls(&lent, &run.queues, EXAMPLE, run.state, at, &good, &mut short), 24);
        let mut fragment = vec![7; 9 * WIDTH];
        refused(replay_calls(&lent, &run.queues, EXAMPLE, run.state, at, &good[..good.len() - 1], &mut fragment), 11);
        let empty = replay_calls(&lent, &run.queues, EXAMPLE, run.state, at, &[], &mut fragment).unwrap();
        assert_eq!((empty.rows, empty.built, empty.at), (0, [0; BUILT], at));
    }

    /// The address state that is answered is below p, also where there is no record, and where no row moves it.
    #[test]
    fn address_states_from_p_on() {
        let run = listing::run(9);
        let lent = Forests::new(&run.forests);
        let calls = records(&run.fragments[0]);
        let at = Positions { addresses: 1, parents: 2, ends: 3 };
        let state = |current_addr, parent_addr| DecoderState { current_addr, parent_addr };
        let mut fragment = vec![7; 9 * WIDTH];
        let mut left = |state, calls: &[u64]| replay_calls(&lent, &run.queues, EXAMPLE, state, at, calls, &mut fragment).unwrap();
        for (given, wanted) in
            [(state(P + 5, P + 7), state(5, 7)), (state(P, u64::MAX), state(0, u64::MAX - P)), (state(P - 1, 5), state(P - 1, 5))]
        {
            let none = left(given, &[]);
            assert_eq!((none.rows, none.built, none.state, none.at), (0, [0; BUILT], wanted, at));
            let stored = left(given, &calls[..RECORD]);
            assert_eq!((stored.rows, stored.state, stored.at), (0, wanted, at));
            let operation = left(given, &calls[RECORD * RESUME..RECORD * (RESUME + 2)]);
            assert_eq!((operation.rows, operation.state, operation.at), (1, wanted, at));
        }
        assert_eq!((fragment[6], fragment[15]), (P - 1, 5));
    }
}
