//! The ported functions of the listed Rust, cut out of its files unchanged at build time, over stand-ins. It is the listed text, not the
//! crate: the crates that it leans on cannot be had.
#![allow(dead_code, private_interfaces, unexpected_cfgs, rustdoc::all)]

pub mod convert;
pub mod stand_ins;
pub mod whole;

/// `miden_air` and `miden_core` where the text names them by path.
mod miden_air {
    pub use super::stand_ins::air::*;
}
mod miden_core {
    pub use super::stand_ins::core_crate::*;
}

pub mod continuation_stack {
    use core::sync::atomic::{AtomicU64, Ordering};
    use std::sync::Arc;

    use super::stand_ins::core_crate::mast::MastNodeId;
    use super::stand_ins::core_crate::{DebugSourceNodeId, PackageDebugInfo, Program};

    include!(concat!(env!("OUT_DIR"), "/listed/continuation_stack.rs"));
}

pub mod tracer_trait {
    use super::continuation_stack::{Continuation, ContinuationStack};
    use super::stand_ins::air::trace::{
        RowIndex,
        chiplets::{CircuitEvaluation, hasher::STATE_WIDTH},
        decoder::NUM_USER_OP_HELPERS,
    };
    use super::stand_ins::core_crate::MerklePath;
    use super::stand_ins::core_crate::mast::{ExecutableMastForest, MastNodeId};
    use super::stand_ins::field::{Felt, QuadFelt, Word, ZERO};
    use super::stand_ins::processor::{AceError, ContextId, ExecutionError};
    use super::utils::split_u32_into_u16;

    include!(concat!(env!("OUT_DIR"), "/listed/tracer_trait.rs"));
}

pub mod utils {
    include!(concat!(env!("OUT_DIR"), "/listed/utils.rs"));
}

pub mod trace_state {
    use std::collections::VecDeque;

    use super::stand_ins::air::trace::RowIndex;
    use super::stand_ins::core_crate::MIN_STACK_DEPTH;
    use super::stand_ins::field::{Felt, ONE, Word, ZERO};
    use super::stand_ins::processor::{ContextId, ExecutionError, MemoryError, OperationError};

    include!(concat!(env!("OUT_DIR"), "/listed/trace_state.rs"));

    impl BlockAddressReplay {
        pub fn left(&self) -> usize {
            self.block_addresses.len()
        }
    }
    impl BlockStackReplay {
        pub fn left(&self) -> (usize, usize) {
            (self.node_start_parent_addr.len(), self.node_end.len())
        }
    }
}

pub mod core_trace_fragment {
    use super::miden_core;
    use super::stand_ins::air::trace::decoder::NUM_OP_BITS;
    use super::stand_ins::core_crate::{mast::BasicBlockNode, opcodes};
    use super::stand_ins::field::Felt;
    use super::stand_ins::processor::OperationError;

    include!(concat!(env!("OUT_DIR"), "/listed/core_trace_fragment.rs"));
}

pub mod processor;

pub mod tracer {
    use std::sync::Arc;

    use super::continuation_stack::{Continuation, ContinuationStack};
    use super::core_trace_fragment::BasicBlockContext;
    use super::miden_core;
    use super::processor::{Captured, ReplayProcessor};
    use super::stand_ins::air::{StackCols, SystemCols};
    use super::stand_ins::core_crate::MIN_STACK_DEPTH;
    use super::stand_ins::core_crate::mast::{ExecutableMastForest, MastNode, MastNodeExt, MastNodeId, SparseMastForest};
    use super::stand_ins::field::{Felt, ONE, Word, ZERO};
    use super::stand_ins::processor::{ExecutionContextInfo, ExecutionError, MapExecErrNoCtx};
    use super::trace_state::{
        BlockAddressReplay, BlockStackReplay, DecoderState, EndBlockFlags, EndBlockStackEntryKind, StackState, SystemState,
    };
    use super::tracer_trait::{OperationHelperRegisters, Tracer};
    use super::utils::RowMajorTraceWriter;

    include!(concat!(env!("OUT_DIR"), "/listed/tracer.rs"));

    mod trace_row {
        use std::sync::Arc;

        use super::super::core_trace_fragment::BasicBlockContext;
        use super::super::stand_ins::air::trace::{
            chiplets::hasher::CONTROLLER_ROWS_PER_PERM_FELT,
            decoder::{NUM_OP_BATCH_FLAGS, NUM_OP_BITS, NUM_USER_OP_HELPERS},
        };
        use super::super::stand_ins::air::{CoreCols, DecoderCols, StackCols, SystemCols};
        use super::super::stand_ins::core_crate::mast::{
            BasicBlockNode, CallNode, JoinNode, LoopNode, MastNodeExt, OpBatch, SparseMastForest, SplitNode,
        };
        use super::super::stand_ins::core_crate::{MIN_STACK_DEPTH, Operation, opcodes};
        use super::super::stand_ins::field::{Felt, ONE, Word, ZERO};
        use super::super::{miden_air, miden_core};
        use super::{CoreTraceGenerationTracer, ExecutionContextInfo, ExecutionError, StackState, SystemState, get_digest_in_forest};

        include!(concat!(env!("OUT_DIR"), "/listed/trace_row.rs"));
    }

    /// What a comparison asks of a tracer, and storing as document 01 has it.
    impl CoreTraceGenerationTracer<'_> {
        /// "Storing replaces all of them and checks none."
        pub fn put(&mut self, continuation: Continuation<Arc<SparseMastForest>>, is_loop_body: bool, captured: Captured) {
            if self.error_encountered.is_some() {
                return;
            }
            self.continuation = Some(continuation);
            self.is_loop_body = is_loop_body;
            self.finish_loop_condition = captured.condition;
            self.dyn_callee_hash = captured.callee;
            self.ctx_info = captured.info;
        }
        /// The captured values, after `start_clock_cycle`.
        pub fn captured(&self) -> (bool, Captured) {
            let captured = Captured { condition: self.finish_loop_condition, callee: self.dyn_callee_hash, info: self.ctx_info.clone() };
            (self.is_loop_body, captured)
        }
        pub fn refused(&self) -> Option<&'static str> {
            self.error_encountered.as_ref().map(|ExecutionError::Internal(text)| *text)
        }
        pub fn rows(&self) -> usize {
            self.row_write_index
        }
        /// The address state and what is left of the queues, and the final state.
        pub fn end(mut self) -> (DecoderState, BlockAddressReplay, BlockStackReplay, Result<TracerFinalState, ExecutionError>) {
            let state = DecoderState { current_addr: self.decoder_state.current_addr, parent_addr: self.decoder_state.parent_addr };
            let addresses = core::mem::take(&mut self.block_address_replay);
            let stack = core::mem::take(&mut self.block_stack_replay);
            (state, addresses, stack, self.into_final_state())
        }
    }
}

pub mod parallel {
    use core::borrow::{Borrow, BorrowMut};
    use std::collections::BTreeMap;
    use std::sync::Arc;

    use super::processor::{CoreTraceFragmentContext, split_trace_fragment_context};
    use super::stand_ins::air::trace::{
        DECODER_TRACE_WIDTH, RANGE_CHECK_TRACE_WIDTH, STACK_TRACE_WIDTH, SYS_TRACE_WIDTH, decoder::NUM_OP_BITS,
    };
    use super::stand_ins::air::{CoreCols, StackCols, SystemCols};
    use super::stand_ins::core_crate::{KernelDescriptor, MIN_STACK_DEPTH, mast::SparseMastForest, opcodes};
    use super::stand_ins::field::{Felt, ONE, ZERO, batch_inversion_allow_zeros};
    use super::stand_ins::processor::ExecutionError;
    use super::stand_ins::rayon::{IntoParallelIterator, ParallelSliceMut};
    use super::utils::RowMajorTraceWriter;

    include!(concat!(env!("OUT_DIR"), "/listed/parallel.rs"));

    /// The third pass, which the listed Rust has as a block inside `generate_core_trace_row_major`.
    fn invert_helper_column(core_trace_data: &mut [Felt], fragment_size: usize, total_core_trace_rows: usize) {
        include!(concat!(env!("OUT_DIR"), "/listed/third_pass.rs"));
    }

    /// The listed passes, for the comparison.
    pub mod passes {
        use super::*;

        pub fn generate(
            contexts: Vec<CoreTraceFragmentContext>,
            fragment_size: usize,
            forests: &[Arc<SparseMastForest>],
        ) -> Result<Vec<Felt>, ExecutionError> {
            generate_core_trace_row_major(contexts, KernelDescriptor, fragment_size, forests, usize::MAX)
        }
        pub fn fixup(
            data: &mut [Felt],
            fragment_size: usize,
            stack: &[StackCols<Felt>],
            system: &[SystemCols<Felt>],
            first_stack_top: &[Felt],
        ) {
            fixup_stack_and_system_rows(data, fragment_size, stack, system, first_stack_top)
        }
        pub fn multiplicities(data: &mut [Felt], rows: usize) -> Result<(), ExecutionError> {
            set_loop_body_multiplicities(data, rows)
        }
        pub fn invert(data: &mut [Felt], fragment_size: usize, rows: usize) {
            invert_helper_column(data, fragment_size, rows)
        }
        pub fn push_halt(data: &mut Vec<Felt>, rows: usize, system: &SystemCols<Felt>, stack: &StackCols<Felt>) {
            push_halt_opcode_row(data, rows, system, stack)
        }
        pub fn pad(data: &mut Vec<Felt>, height: usize) {
            pad_core_row_major(data, height)
        }
    }
}
