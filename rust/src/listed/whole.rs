//! Runs by the listed Rust alone: a fragment call by call, and a whole run by `generate_core_trace_row_major` and `pad_core_row_major`.

use std::panic::{AssertUnwindSafe, catch_unwind};
use std::sync::Arc;

use super::convert;
use super::parallel::{CORE_STORAGE_WIDTH, passes};
use super::processor::{Call, CoreTraceFragmentContext, ReplayProcessor};
use super::stand_ins::air::trace::RowIndex;
use super::stand_ins::air::{StackCols, SystemCols};
use super::stand_ins::core_crate::mast::SparseMastForest;
use super::stand_ins::field::{Felt, Word};
use super::stand_ins::processor::{ContextId, ExecutionContextInfo, ExecutionError};
use super::trace_state::{CoreTraceState, StackState, SystemState};
use super::tracer::CoreTraceGenerationTracer;
use super::utils::RowMajorTraceWriter;
use crate::calls::{DecoderState, Positions};
use crate::random::Run;

/// What a fragment is given at its start: the address state, and its part of the queues.
pub struct Start {
    pub state: DecoderState,
    pub from: Positions,
    pub to: Positions,
}

/// The context of a fragment with these calls.
pub fn context(run: &Run, start: &Start, calls: Arc<[Call]>) -> CoreTraceFragmentContext {
    let (block_address, block_stack) = convert::queues(&run.queues, start.from, start.to);
    let stack = StackState::new(run.first_stack_top.map(convert::felt), 16, convert::felt(0));
    let system = SystemState { clk: RowIndex(0), ctx: ContextId(0), fn_hash: Word::default(), deferred_root: Word::default() };
    let state = CoreTraceState { system, decoder: convert::state(start.state), stack };
    CoreTraceFragmentContext { state, block_address, block_stack, calls }
}

/// The finished trace of a run in one fragment.
pub fn trace(run: &Run, height: usize) -> Result<Vec<Felt>, ExecutionError> {
    let forests: Vec<_> = run.forests.iter().map(convert::forest).collect();
    let to = run.queues.lengths();
    let start = Start { state: run.state, from: Positions::default(), to };
    let calls = convert::calls(&run.fragments[0], &run.forests);
    let mut data = passes::generate(vec![context(run, &start, calls.into())], run.fragment_size, &forests)?;
    passes::pad(&mut data, height);
    Ok(data)
}

/// The 49 cells of each row.
pub fn rows(data: &[Felt]) -> impl Iterator<Item = [u64; 49]> {
    data.chunks(CORE_STORAGE_WIDTH).map(|row| core::array::from_fn(|i| row[i].as_canonical_u64()))
}

/// The text of a panic or an error.
pub fn refusal<T>(answer: std::thread::Result<Result<T, ExecutionError>>) -> Result<T, String> {
    match answer {
        Ok(Ok(value)) => Ok(value),
        Ok(Err(ExecutionError::Internal(text))) => Err(text.into()),
        Err(panic) => {
            let text = panic.downcast_ref::<String>().cloned().or_else(|| panic.downcast_ref::<&str>().map(|text| text.to_string()));
            let text = text.unwrap_or_default();
            let short = if text.starts_with("range ") || text.starts_with("index ") { "index out of range".into() } else { text };
            Err(format!("panic: {short}"))
        }
    }
}

/// A fragment by the listed Rust.
pub struct Fragment {
    /// The call that was refused, and how.
    pub refused: Option<(usize, String)>,
    /// What it leaves, where none was.
    pub left: Option<Left>,
}

/// What a fragment leaves: rows, built cells, address state and queue positions.
pub struct Left {
    pub rows: usize,
    pub built: [u64; 25],
    pub state: DecoderState,
    pub at: Positions,
    pub stack: StackCols<Felt>,
    pub system: SystemCols<Felt>,
}

fn built_cells(system: &SystemCols<Felt>, stack: &StackCols<Felt>) -> [u64; 25] {
    let mut cells = vec![system.clk, system.ctx];
    cells.extend(system.fn_hash);
    cells.extend(stack.top);
    cells.extend([stack.b0, stack.b1, stack.h0]);
    core::array::from_fn(|i| cells[i].as_canonical_u64())
}

/// Carries out the calls of a fragment one by one, to the first that is refused.
pub fn fragment(
    run: &Run,
    forests: &[Arc<SparseMastForest>],
    calls: &[Call],
    state: DecoderState,
    at: Positions,
    data: &mut [Felt],
) -> Fragment {
    let all = run.queues.lengths();
    let (addresses, stack) = convert::queues(&run.queues, at, all);
    let writer = RowMajorTraceWriter::with_stride(data, CORE_STORAGE_WIDTH, CORE_STORAGE_WIDTH);
    let mut tracer = CoreTraceGenerationTracer::new(writer, convert::state(state), addresses, stack);
    let mut processor = ReplayProcessor::new(forests, Arc::new([]));
    for (k, call) in calls.iter().enumerate() {
        let answer = refusal(catch_unwind(AssertUnwindSafe(|| processor.call(call, &mut tracer))));
        let text = match answer {
            Err(text) => Some(text),
            Ok(()) => tracer.refused().map(String::from),
        };
        if let Some(text) = text {
            return Fragment { refused: Some((k, text)), left: None };
        }
        if let Call::Start { is_loop_body, captured, .. } = call {
            let (flag, got) = tracer.captured();
            assert_eq!((flag, got.condition, got.callee), (*is_loop_body, captured.condition, captured.callee), "captured values");
            let shown = |info: &Option<ExecutionContextInfo>| info.as_ref().map(|i| (i.parent_stack_depth, i.parent_next_overflow_addr));
            assert_eq!(shown(&got.info), shown(&captured.info), "captured context info");
        }
    }
    let (end, addresses, stack, last) = tracer.end();
    let last = last.expect("no call was refused");
    let state = DecoderState { current_addr: end.current_addr.as_canonical_u64(), parent_addr: end.parent_addr.as_canonical_u64() };
    let (parents_left, ends_left) = stack.left();
    let at = Positions { addresses: all.addresses - addresses.left(), parents: all.parents - parents_left, ends: all.ends - ends_left };
    let (stack, system) = (last.last_stack_cols, last.last_system_cols);
    Fragment {
        refused: None,
        left: Some(Left { rows: last.num_rows_written, built: built_cells(&system, &stack), state, at, stack, system }),
    }
}
