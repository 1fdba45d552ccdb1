//! A stand-in for the processor that replays a fragment: it hands a list of calls to the listed tracer.

use std::sync::Arc;

use super::continuation_stack::{Continuation, ContinuationStack};
use super::stand_ins::air::trace::RowIndex;
use super::stand_ins::core_crate::KernelDescriptor;
use super::stand_ins::core_crate::mast::{MastNodeId, SparseMastForest};
use super::stand_ins::field::{Felt, ONE, Word, ZERO};
use super::stand_ins::processor::{ContextId, ExecutionContextInfo, ExecutionError};
use super::trace_state::{
    BlockAddressReplay, BlockStackReplay, CoreTraceState, MemoryReadsReplay, StackOverflowReplay, StackState, SystemState,
};
use super::tracer::CoreTraceGenerationTracer;
use super::tracer_trait::{OperationHelperRegisters, Tracer};
use super::utils::RowMajorTraceWriter;

type Forest = Arc<SparseMastForest>;

/// The captured values, each present or absent.
#[derive(Clone, Debug, Default)]
pub struct Captured {
    pub condition: Option<bool>,
    pub callee: Option<Word>,
    pub info: Option<ExecutionContextInfo>,
}

/// How a storing comes about.
#[derive(Clone, Debug)]
pub enum Storing {
    /// By the listed `start_clock_cycle`, on a processor from which it captures these values.
    Captured,
    /// By putting the values in: no processor gives them.
    Put,
}

#[derive(Clone, Debug)]
pub enum Call {
    Start {
        how: Storing,
        forest: u32,
        continuation: Continuation<Forest>,
        is_loop_body: bool,
        captured: Captured,
    },
    Finish {
        forest: u32,
        system: SystemState,
        stack_top: [Felt; 16],
        stack_depth: usize,
        overflow_addr: Felt,
        registers: OperationHelperRegisters,
    },
}

/// What the listed tracer reads of a processor.
#[derive(Debug)]
pub struct ReplayProcessor {
    pub system: SystemState,
    pub stack: StackState,
    pub stack_overflow_replay: StackOverflowReplay,
    pub memory_reads_replay: MemoryReadsReplay,
    forests: Vec<Forest>,
    nothing: Forest,
    body_of_loop: ContinuationStack<Forest>,
    not_body: ContinuationStack<Forest>,
    calls: Arc<[Call]>,
}

impl ReplayProcessor {
    pub fn new(forests: &[Forest], calls: Arc<[Call]>) -> Self {
        let mut body_of_loop = ContinuationStack::default();
        body_of_loop.push_finish_loop(MastNodeId(0));
        Self {
            system: SystemState { clk: RowIndex(0), ctx: ContextId(0), fn_hash: Word::default(), deferred_root: Word::default() },
            stack: StackState::new([ZERO; 16], 16, ZERO),
            stack_overflow_replay: StackOverflowReplay::default(),
            memory_reads_replay: MemoryReadsReplay::default(),
            forests: forests.to_vec(),
            nothing: Forest::default(),
            body_of_loop,
            not_body: ContinuationStack::default(),
            calls,
        }
    }

    fn forest(&self, number: u32) -> &Forest {
        self.forests.get(number as usize).unwrap_or(&self.nothing)
    }

    /// Sets stack, overflow and memory so that `start_clock_cycle` captures the values.
    fn prepare(&mut self, captured: &Captured) {
        if let Some(condition) = captured.condition {
            let mut top = [ZERO; 16];
            top[15] = if condition { ONE } else { ZERO };
            self.stack = StackState::new(top, 16, ZERO);
        }
        if let Some(word) = captured.callee {
            self.memory_reads_replay = MemoryReadsReplay::default();
            self.memory_reads_replay.record_read_word(word, ZERO, self.system.ctx, self.system.clk);
        }
        if let Some(info) = &captured.info {
            self.stack_overflow_replay = StackOverflowReplay::default();
            self.stack_overflow_replay.record_pop_overflow(ZERO, info.parent_next_overflow_addr);
            self.stack = StackState::new([ZERO; 16], info.parent_stack_depth as usize + 1, ZERO);
        }
    }

    /// Carries out one call.
    pub fn call(&mut self, call: &Call, tracer: &mut CoreTraceGenerationTracer<'_>) -> Result<(), ExecutionError> {
        match call {
            Call::Start { how: Storing::Put, continuation, is_loop_body, captured, .. } => {
                tracer.put(continuation.clone(), *is_loop_body, captured.clone());
                Ok(())
            }
            Call::Start { how: Storing::Captured, forest, continuation, is_loop_body, captured } => {
                self.prepare(captured);
                let after = if *is_loop_body { &self.body_of_loop } else { &self.not_body };
                tracer.start_clock_cycle(self, continuation.clone(), after, self.forest(*forest));
                Ok(())
            }
            Call::Finish { forest, system, stack_top, stack_depth, overflow_addr, registers } => {
                self.system = system.clone();
                self.stack = StackState::new(*stack_top, *stack_depth, *overflow_addr);
                tracer.finalize_clock_cycle(self, registers.clone(), self.forest(*forest))
            }
        }
    }

    /// Carries out all calls: "executing programs" is out of scope, so the calls are given.
    pub fn execute(
        &mut self,
        _continuation_stack: &mut ContinuationStack<Forest>,
        _current_forest: &mut Forest,
        _kernel: &KernelDescriptor,
        tracer: &mut CoreTraceGenerationTracer<'_>,
    ) -> Result<(), ExecutionError> {
        let calls = self.calls.clone();
        for call in calls.iter() {
            self.call(call, tracer)?;
        }
        Ok(())
    }
}

/// A fragment: the state at its start, its queues, and its calls.
pub struct CoreTraceFragmentContext {
    pub state: CoreTraceState,
    pub block_address: BlockAddressReplay,
    pub block_stack: BlockStackReplay,
    pub calls: Arc<[Call]>,
}

pub fn split_trace_fragment_context<'a>(
    context: CoreTraceFragmentContext,
    writer: RowMajorTraceWriter<'a, Felt>,
    _fragment_size: usize,
    forests: &[Forest],
    _max_stack_depth: usize,
) -> Result<(ReplayProcessor, CoreTraceGenerationTracer<'a>, ContinuationStack<Forest>, Forest), ExecutionError> {
    let tracer = CoreTraceGenerationTracer::new(writer, context.state.decoder, context.block_address, context.block_stack);
    let processor = ReplayProcessor::new(forests, context.calls);
    Ok((processor, tracer, ContinuationStack::default(), Forest::default()))
}
