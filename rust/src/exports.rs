//! The calls of the proved library, each as a safe function with the original's name where there is one.
//!
//! Every call takes any numbers. It answers what it made or the number of a [`Refusal`], and a refused call has changed nothing that it was
//! lent. A row is [`WIDTH`] cells. A cell is a number below p = 18446744069414584321; where one comes in, a number from p on is read as that
//! number less p. What a call writes is below p, what it does not write stays as it is.

use crate::calls::{DecoderState, Positions};
use crate::forest::{Forests, Queues};
use crate::profile::Profile;

/// How many cells a row has.
pub const WIDTH: usize = 49;

/// p: a cell is a number modulo it.
pub const MODULUS: u64 = 18446744069414584321;

/// How many cells are built at a row for the next one: clk, ctx, fn_hash (4); stack top (16), b0, b1, helper.
pub const BUILT: usize = 25;

/// The number of a refusal, as docs/CALLERS.md lists them.
#[derive(Clone, Copy, Debug, PartialEq, Eq, PartialOrd, Ord)]
pub struct Refusal(pub u32);

impl core::fmt::Display for Refusal {
    fn fmt(&self, f: &mut core::fmt::Formatter<'_>) -> core::fmt::Result {
        write!(f, "refused by {}", self.0)
    }
}

impl core::error::Error for Refusal {}

fn accepted(number: u32) -> Result<(), Refusal> {
    if number == 0 { Ok(()) } else { Err(Refusal(number)) }
}

/// A refusal of the reader and its row: for 12 and 15 the first row (or the end) that fails, for 13 the lowest row of a whole word, for 2 and
/// 11 it is 0.
#[derive(Clone, Copy, Debug, PartialEq, Eq)]
pub struct RefusedAt {
    pub refusal: Refusal,
    pub row: usize,
}

impl core::fmt::Display for RefusedAt {
    fn fmt(&self, f: &mut core::fmt::Formatter<'_>) -> core::fmt::Result {
        write!(f, "{} at row {}", self.refusal, self.row)
    }
}

impl core::error::Error for RefusedAt {}

/// What a replayed fragment leaves: its rows, the cells built last, and the address state and queue positions for the next fragment.
#[derive(Clone, Copy, Debug, PartialEq, Eq)]
pub struct Replayed {
    pub rows: usize,
    pub built: [u64; BUILT],
    pub state: DecoderState,
    pub at: Positions,
}

mod foreign {
    use super::{BUILT, DecoderState, Positions, Profile};

    #[repr(C)]
    pub struct Replayed {
        pub refusal: u32,
        pub rows: usize,
        pub built: [u64; BUILT],
        pub state: DecoderState,
        pub at: Positions,
    }

    #[repr(C)]
    pub struct Inverse {
        pub refusal: u32,
        pub value: u64,
    }

    #[repr(C)]
    pub struct TraceRead {
        pub refusal: u32,
        pub row: usize,
        pub program_rows: usize,
    }

    #[repr(C)]
    pub struct RowBounds {
        pub start: usize,
        pub cells: usize,
    }

    #[repr(C)]
    pub struct IndexBuilt {
        pub refusal: u32,
        pub row: usize,
        pub blocks: usize,
    }

    #[repr(C)]
    pub struct EnclosingBlock {
        pub refusal: u32,
        pub found: u32,
        pub place: usize,
    }

    #[repr(C)]
    pub struct OperationPlace {
        pub refusal: u32,
        pub group: u64,
        pub index: u64,
        pub following: u64,
    }

    #[repr(C)]
    pub struct DumpWritten {
        pub refusal: u32,
        pub bytes: usize,
    }

    #[repr(C)]
    pub struct DumpRead {
        pub refusal: u32,
        pub rows: usize,
    }

    unsafe extern "C" {
        pub fn core_replay(
            nodes: *const u32,
            nodes_len: usize,
            digests: *const u64,
            digests_len: usize,
            batches: *const u32,
            batches_len: usize,
            groups: *const u64,
            groups_len: usize,
            ops: *const u8,
            ops_len: usize,
            directory: *const u32,
            directory_len: usize,
            addresses: *const u64,
            addresses_len: usize,
            parents: *const u64,
            parents_len: usize,
            ends: *const u64,
            ends_len: usize,
            profile: Profile,
            state: DecoderState,
            at: Positions,
            records: *const u64,
            records_len: usize,
            fragment: *mut u64,
            fragment_len: usize,
        ) -> Replayed;

        pub fn core_fixup(
            buffer: *mut u64,
            buffer_len: usize,
            fragment_size: usize,
            counts: *const u32,
            counts_len: usize,
            built: *const u64,
            built_len: usize,
            first_stack_top: *const [u64; 16],
        ) -> u32;
        pub fn core_multiplicities(profile: Profile, buffer: *mut u64, buffer_len: usize, rows: usize) -> u32;
        pub fn core_invert_helper_column(buffer: *mut u64, buffer_len: usize, rows: usize) -> u32;
        pub fn core_push_halt(profile: Profile, buffer: *mut u64, buffer_len: usize, rows: usize, built: *const [u64; BUILT]) -> u32;
        pub fn core_pad(profile: Profile, buffer: *mut u64, buffer_len: usize, rows: usize, height: usize) -> u32;
        pub fn core_finish(
            profile: Profile,
            buffer: *mut u64,
            buffer_len: usize,
            fragment_size: usize,
            counts: *const u32,
            counts_len: usize,
            built: *const u64,
            built_len: usize,
            first_stack_top: *const [u64; 16],
            height: usize,
        ) -> u32;
        pub fn core_read_trace(profile: Profile, cells: *const u64, cells_len: usize, depths: *mut u32, depths_len: usize) -> TraceRead;
        pub fn core_row(cells: *const u64, cells_len: usize, number: usize) -> RowBounds;
        pub fn core_build_index(profile: Profile, cells: *const u64, cells_len: usize, index: *mut u32, index_len: usize) -> IndexBuilt;
        pub fn core_enclosing_block(index: *const u32, index_len: usize, row: usize) -> EnclosingBlock;
        pub fn core_op_place(batches: *const u32, batches_len: usize, record: usize, op: u32) -> OperationPlace;
        pub fn core_inverse(x: u64) -> Inverse;
        pub fn core_write_dump(cells: *const u64, cells_len: usize, text: *mut u8, text_len: usize) -> DumpWritten;
        pub fn core_read_dump(text: *const u8, text_len: usize, cells: *mut u64, cells_len: usize) -> DumpRead;
    }
}

// SAFETY, of every call below: each pointer and length come from one slice or array that is borrowed for the call, and the called function is
// proved to stay inside them, to write to none but those passed as `*mut`, to keep none, and to end. It has no `requires`.

/// Carries out a list of storings and cycles, lent as records of 32 numbers, on a fresh tracer over one fragment: the listed
/// `start_clock_cycle` and `finalize_clock_cycle` once a record, and `into_final_state` behind the last. No tally is lent, so there is no 32.
///
/// `state` and `at` are the address state and queue positions that the fragment before left. Where a record is refused, its number is
/// answered and no row is written. Cells of the forests, the queues, the records and the address state may be any numbers; those of what is
/// answered are below p, also where there is no record. 1 refuses an opcode of 128 or more among the forests' operations, 23 a record that
/// encodes no call, as one whose clk, ctx or depth is over 32 bits, 31 the start of a SYSCALL node.
pub fn replay_calls(
    forests: &Forests,
    queues: &Queues,
    profile: Profile,
    state: DecoderState,
    at: Positions,
    records: &[u64],
    fragment: &mut [u64],
) -> Result<Replayed, Refusal> {
    let (f, q) = (forests, queues);
    let r = unsafe {
        foreign::core_replay(
            f.nodes.as_ptr(),
            f.nodes.len(),
            f.digests.as_ptr(),
            f.digests.len(),
            f.batches.as_ptr(),
            f.batches.len(),
            f.groups.as_ptr(),
            f.groups.len(),
            f.ops.as_ptr(),
            f.ops.len(),
            f.directory.as_ptr(),
            f.directory.len(),
            q.addresses.as_ptr(),
            q.addresses.len(),
            q.parents.as_ptr(),
            q.parents.len(),
            q.ends.as_ptr(),
            q.ends.len(),
            profile,
            state,
            at,
            records.as_ptr(),
            records.len(),
            fragment.as_mut_ptr(),
            fragment.len(),
        )
    };
    accepted(r.refusal)?;
    Ok(Replayed { rows: r.rows, built: r.built, state: r.state, at: r.at })
}

/// Pass 1: row 0 gets its stack cells from the first stack top (stored last first), and the first row of each later fragment its system
/// and stack cells from the [`BUILT`] cells that the fragment before left. `counts` has the rows of each fragment.
pub fn fixup_stack_and_system_rows(
    buffer: &mut [u64],
    fragment_size: usize,
    counts: &[u32],
    built: &[u64],
    first_stack_top: &[u64; 16],
) -> Result<(), Refusal> {
    accepted(unsafe {
        foreign::core_fixup(
            buffer.as_mut_ptr(),
            buffer.len(),
            fragment_size,
            counts.as_ptr(),
            counts.len(),
            built.as_ptr(),
            built.len(),
            first_stack_top,
        )
    })
}

/// Pass 2: of the first `rows` rows, each LOOP row but one in the last of them gets the number of its passes as its group_count: of the END rows
/// among them, but one in the last, whose h4 is 1 and whose next row has the address of the row after the LOOP row. 14 refuses a LOOP row for which
/// there is none.
pub fn set_loop_body_multiplicities(profile: Profile, buffer: &mut [u64], rows: usize) -> Result<(), Refusal> {
    accepted(unsafe { foreign::core_multiplicities(profile, buffer.as_mut_ptr(), buffer.len(), rows) })
}

/// Pass 3: the helper cell of each of the first `rows` rows becomes its inverse, 0 staying 0.
pub fn invert_helper_column(buffer: &mut [u64], rows: usize) -> Result<(), Refusal> {
    accepted(unsafe { foreign::core_invert_helper_column(buffer.as_mut_ptr(), buffer.len(), rows) })
}

/// Pass 4: a HALT row behind the first `rows` rows, with the cells built last, their helper inverted.
pub fn push_halt_opcode_row(profile: Profile, buffer: &mut [u64], rows: usize, built: &[u64; BUILT]) -> Result<(), Refusal> {
    accepted(unsafe { foreign::core_push_halt(profile, buffer.as_mut_ptr(), buffer.len(), rows, built) })
}

/// Pass 5: HALT rows from row `rows` to the height, with the stack cells of the row before, the helper as it is there.
pub fn pad_core_row_major(profile: Profile, buffer: &mut [u64], rows: usize, height: usize) -> Result<(), Refusal> {
    accepted(unsafe { foreign::core_pad(profile, buffer.as_mut_ptr(), buffer.len(), rows, height) })
}

/// All five passes on the buffer that holds the fragments one after another from row 0 on: afterwards its first `height` rows are the
/// finished trace.
pub fn finish(
    profile: Profile,
    buffer: &mut [u64],
    fragment_size: usize,
    counts: &[u32],
    built: &[u64],
    first_stack_top: &[u64; 16],
    height: usize,
) -> Result<(), Refusal> {
    accepted(unsafe {
        foreign::core_finish(
            profile,
            buffer.as_mut_ptr(),
            buffer.len(),
            fragment_size,
            counts.as_ptr(),
            counts.len(),
            built.as_ptr(),
            built.len(),
            first_stack_top,
            height,
        )
    })
}

/// Reads a trace: answers the number of program rows, and fills the first numbers of `depths`, one a row: the depth of the row's innermost
/// block, the root's being 1, and 0 for HALT. A refusal leaves `depths` as it is.
pub fn read_trace(profile: Profile, cells: &[u64], depths: &mut [u32]) -> Result<usize, RefusedAt> {
    let r = unsafe { foreign::core_read_trace(profile, cells.as_ptr(), cells.len(), depths.as_mut_ptr(), depths.len()) };
    accepted(r.refusal).map_err(|refusal| RefusedAt { refusal, row: r.row })?;
    Ok(r.program_rows)
}

/// The row's own [`WIDTH`] cells, no copy; the empty part where 11 refuses.
pub fn row(cells: &[u64], number: usize) -> &[u64] {
    let place = unsafe { foreign::core_row(cells.as_ptr(), cells.len(), number) };
    &cells[place.start..place.start + place.cells]
}

/// Builds the index of a trace: answers the number of blocks, and fills the first numbers of `index`, three a block in the order of the start
/// rows: start row, END row, start row of the block around it (the root's own). Refused as [`read_trace`], then by 27 where `index` is too
/// short; a refusal leaves it as it is.
pub fn build_index(profile: Profile, cells: &[u64], index: &mut [u32]) -> Result<usize, RefusedAt> {
    let r = unsafe { foreign::core_build_index(profile, cells.as_ptr(), cells.len(), index.as_mut_ptr(), index.len()) };
    accepted(r.refusal).map_err(|refusal| RefusedAt { refusal, row: r.row })?;
    Ok(r.blocks)
}

/// The place, from 0, of the last block of an index that encloses the row: on a built index the row's innermost block. Of a longer buffer
/// hand over the first three numbers a block alone.
pub fn enclosing_block(index: &[u32], row: usize) -> Result<Option<usize>, Refusal> {
    let r = unsafe { foreign::core_enclosing_block(index.as_ptr(), index.len(), row) };
    accepted(r.refusal).map(|()| (r.found == 1).then_some(r.place))
}

/// Where an operation lies in its batch.
#[derive(Clone, Copy, Debug, PartialEq, Eq)]
pub struct OpPlace {
    /// The group, from 0.
    pub group: u64,
    /// The operation's index in it, 0 to 8.
    pub index: u64,
    /// How many operations follow it there.
    pub following: u64,
}

/// The place of an operation of a batch, by the batch records of one forest alone ([`Forests::batches_of`]): the record's number is the block's first
/// batch record plus the batch's index in the block. Refused by 5 where the record is not whole in `batches`, then by 6 for an operation that is not found, then by 11 for a group
/// count above 8.
pub fn op_place(batches: &[u32], record: usize, op: u32) -> Result<OpPlace, Refusal> {
    let r = unsafe { foreign::core_op_place(batches.as_ptr(), batches.len(), record, op) };
    accepted(r.refusal).map(|()| OpPlace { group: r.group, index: r.index, following: r.following })
}

/// Writes a finished trace as a value change dump into the first bytes of `text`, and answers how many they are: [`dump_size`] tells before.
/// Refused by 11 for a buffer that is none of 1 to 2^24 rows, then by 28 where `text` is too short; a refusal leaves it as it is.
pub fn write_dump(cells: &[u64], text: &mut [u8]) -> Result<usize, Refusal> {
    let r = unsafe { foreign::core_write_dump(cells.as_ptr(), cells.len(), text.as_mut_ptr(), text.len()) };
    accepted(r.refusal).map(|()| r.bytes)
}

/// Reads a dump that is written here back into the first rows of `cells`, and answers how many they are. Refused by 11 for a buffer that is no
/// multiple of [`WIDTH`] or over 2^24 rows, then by 29 for a text that [`write_dump`] never writes, then by 11 where the buffer is too short;
/// a refusal leaves it as it is.
pub fn read_dump(text: &[u8], cells: &mut [u64]) -> Result<usize, Refusal> {
    let r = unsafe { foreign::core_read_dump(text.as_ptr(), text.len(), cells.as_mut_ptr(), cells.len()) };
    accepted(r.refusal).map(|()| r.rows)
}

/// The bytes of the lines of whole rows, and of the header.
fn lines_size(cells: &[u64]) -> usize {
    const HEADER: usize = 1400;
    let time = |row: usize| row.checked_ilog10().map_or(1, |log| log as usize + 1) + 2;
    let line = |value: u64| value.checked_ilog2().map_or(1, |log| log as usize + 1) + 4;
    let is_listed = |at: usize| at < WIDTH || cells[at] % MODULUS != cells[at - WIDTH] % MODULUS;
    let times: usize = (0..cells.len() / WIDTH).map(time).sum();
    let values: usize = (0..cells.len()).filter(|&at| is_listed(at)).map(|at| line(cells[at] % MODULUS)).sum();
    HEADER + times + values
}

/// How many bytes the dump of a buffer has. Refused by 11, as [`write_dump`] is.
pub fn dump_size(cells: &[u64]) -> Result<usize, Refusal> {
    // No dump fits into no bytes: a buffer that has one gets 28.
    match write_dump(cells, &mut []) {
        Err(Refusal(28)) => Ok(lines_size(cells)),
        answer => answer,
    }
}

/// The dump of a finished trace. Refused by 11, as [`write_dump`] is, before anything is allocated.
pub fn dump(cells: &[u64]) -> Result<Vec<u8>, Refusal> {
    let mut text = vec![0; dump_size(cells)?];
    let bytes = write_dump(cells, &mut text)?;
    text.truncate(bytes);
    Ok(text)
}

/// Writes the dump of a finished trace to a file or elsewhere, and answers how many bytes it has. A refusal is an error of the kind
/// `InvalidInput`, with the [`Refusal`] in it, and nothing is then written.
pub fn dump_to(cells: &[u64], out: &mut impl std::io::Write) -> std::io::Result<usize> {
    let text = dump(cells).map_err(|refusal| std::io::Error::new(std::io::ErrorKind::InvalidInput, refusal))?;
    out.write_all(&text)?;
    Ok(text.len())
}

/// The cells of a dump. Refused by 29, as [`read_dump`] is, before anything is allocated.
pub fn undump(text: &[u8]) -> Result<Vec<u64>, Refusal> {
    // No cells are enough for a dump: a text that is one gets 11.
    match read_dump(text, &mut []) {
        Err(Refusal(11)) => {}
        answer => return answer.map(|_| Vec::new()),
    }
    let times = text.split(|&byte| byte == b'\n').filter(|line| line.first() == Some(&b'#')).count();
    let mut cells = vec![0; times * WIDTH];
    read_dump(text, &mut cells)?;
    Ok(cells)
}

/// The inverse of a cell modulo p, 0 for 0 and for p. No number is refused.
pub fn inverse(cell: u64) -> Result<u64, Refusal> {
    let r = unsafe { foreign::core_inverse(cell) };
    accepted(r.refusal).map(|()| r.value)
}
