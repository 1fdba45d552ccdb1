//! Stand-ins for what the listed files take from crates that are not at hand. Each does what a sentence of document 01 says and no
//! more; docs/DIFFERENCES.md lists what each assumes.

/// The field: cells below p, sums and products modulo p.
pub mod field {
    use core::ops::{Add, AddAssign, Deref, Mul, Sub, SubAssign};

    use super::air::trace::RowIndex;
    use super::processor::ContextId;

    pub const P: u64 = 18446744069414584321;
    const EPSILON: u64 = 0xffff_ffff;

    /// A cell.
    #[derive(Clone, Copy, Debug, Default, PartialEq, Eq)]
    #[repr(transparent)]
    pub struct Felt(u64);

    pub const ZERO: Felt = Felt(0);
    pub const ONE: Felt = Felt(1);

    impl Felt {
        pub const fn new_unchecked(x: u64) -> Self {
            Self(x)
        }
        pub const fn from_u8(x: u8) -> Self {
            Self(x as u64)
        }
        pub const fn from_u16(x: u16) -> Self {
            Self(x as u64)
        }
        pub const fn from_u32(x: u32) -> Self {
            Self(x as u64)
        }
        pub const fn as_canonical_u64(&self) -> u64 {
            self.0
        }
        pub fn zero_vec(n: usize) -> Vec<Self> {
            let mut cells = core::mem::ManuallyDrop::new(vec![0u64; n]);
            // SAFETY: a `Felt` is a `u64`, and the vector is not dropped.
            unsafe { Vec::from_raw_parts(cells.as_mut_ptr().cast(), cells.len(), cells.capacity()) }
        }
        fn power(self, mut n: u64) -> Self {
            let (mut base, mut r) = (self, ONE);
            while n > 0 {
                if n & 1 == 1 {
                    r = r * base;
                }
                base = base * base;
                n >>= 1;
            }
            r
        }
        pub fn try_inverse(&self) -> Option<Self> {
            (self.0 != 0).then(|| self.power(P - 2))
        }
        pub fn inverse(&self) -> Self {
            self.try_inverse().expect("inverse of zero")
        }
    }

    impl core::fmt::Display for Felt {
        fn fmt(&self, f: &mut core::fmt::Formatter<'_>) -> core::fmt::Result {
            write!(f, "{}", self.0)
        }
    }

    /// 2^64 is 2^32 - 1 modulo p, and 2^96 is -1.
    fn reduce(x: u128) -> u64 {
        let (low, high) = (x as u64, (x >> 64) as u64);
        let (mut t, borrow) = low.overflowing_sub(high >> 32);
        if borrow {
            t = t.wrapping_sub(EPSILON);
        }
        let (r, carry) = t.overflowing_add((high & EPSILON) * EPSILON);
        let r = if carry { r.wrapping_add(EPSILON) } else { r };
        if r >= P { r - P } else { r }
    }

    impl Add for Felt {
        type Output = Self;
        fn add(self, other: Self) -> Self {
            Self(reduce(self.0 as u128 + other.0 as u128))
        }
    }
    impl Sub for Felt {
        type Output = Self;
        fn sub(self, other: Self) -> Self {
            Self(reduce(self.0 as u128 + (P - other.0) as u128))
        }
    }
    impl Mul for Felt {
        type Output = Self;
        fn mul(self, other: Self) -> Self {
            Self(reduce(self.0 as u128 * other.0 as u128))
        }
    }
    impl AddAssign for Felt {
        fn add_assign(&mut self, other: Self) {
            *self = *self + other;
        }
    }
    impl SubAssign for Felt {
        fn sub_assign(&mut self, other: Self) {
            *self = *self - other;
        }
    }
    impl From<RowIndex> for Felt {
        fn from(row: RowIndex) -> Self {
            Self::from_u32(row.0)
        }
    }
    impl From<ContextId> for Felt {
        fn from(ctx: ContextId) -> Self {
            Self::from_u32(ctx.0)
        }
    }

    /// Each cell becomes its inverse, 0 staying 0.
    pub fn batch_inversion_allow_zeros(cells: &mut [Felt]) {
        let mut product = ONE;
        let mut before = Vec::with_capacity(cells.len());
        for cell in cells.iter() {
            before.push(product);
            if *cell != ZERO {
                product = product * *cell;
            }
        }
        let mut inverse = product.inverse();
        for (cell, before) in cells.iter_mut().zip(before).rev() {
            if *cell != ZERO {
                let next = inverse * *cell;
                *cell = inverse * before;
                inverse = next;
            }
        }
    }

    /// Four cells.
    #[derive(Clone, Copy, Debug, Default, PartialEq, Eq)]
    pub struct Word([Felt; 4]);

    impl Deref for Word {
        type Target = [Felt; 4];
        fn deref(&self) -> &[Felt; 4] {
            &self.0
        }
    }
    impl From<[Felt; 4]> for Word {
        fn from(cells: [Felt; 4]) -> Self {
            Self(cells)
        }
    }
    impl TryFrom<&[Felt]> for Word {
        type Error = core::array::TryFromSliceError;
        fn try_from(cells: &[Felt]) -> Result<Self, Self::Error> {
            Ok(Self(cells.try_into()?))
        }
    }

    /// An extension element: two cells.
    #[derive(Clone, Copy, Debug, PartialEq, Eq)]
    pub struct QuadFelt(pub [Felt; 2]);

    impl QuadFelt {
        pub fn as_basis_coefficients_slice(&self) -> &[Felt] {
            &self.0
        }
    }
}

/// Columns and constants of the trace: the 49 cells in document 01's order, and two more that the row makers leave 0.
pub mod air {
    use core::borrow::{Borrow, BorrowMut};

    use super::field::Felt;

    #[derive(Clone, Debug, Default)]
    #[repr(C)]
    pub struct SystemCols<T> {
        pub clk: T,
        pub ctx: T,
        pub fn_hash: [T; 4],
    }

    #[derive(Clone, Debug, Default)]
    #[repr(C)]
    pub struct DecoderCols<T> {
        pub addr: T,
        pub op_bits: [T; 7],
        pub hasher_state: [T; 8],
        pub in_span: T,
        pub group_count: T,
        pub op_index: T,
        pub batch_flags: [T; 3],
        pub extra: [T; 2],
    }

    /// The four cells behind an END's digest.
    pub struct EndFlagCols<T> {
        pub is_loop_body: T,
    }

    impl DecoderCols<Felt> {
        pub fn end_block_flags(&self) -> EndFlagCols<Felt> {
            EndFlagCols { is_loop_body: self.hasher_state[4] }
        }
    }

    #[derive(Clone, Debug, Default)]
    #[repr(C)]
    pub struct StackCols<T> {
        pub top: [T; 16],
        pub b0: T,
        pub b1: T,
        pub h0: T,
    }

    #[derive(Clone, Debug, Default)]
    #[repr(C)]
    pub struct CoreCols<T> {
        pub system: SystemCols<T>,
        pub decoder: DecoderCols<T>,
        pub stack: StackCols<T>,
        pub range: [T; 2],
    }

    const WIDTH: usize = 51;
    const _: () = assert!(size_of::<CoreCols<Felt>>() == WIDTH * size_of::<Felt>());

    impl CoreCols<Felt> {
        pub fn as_slice(&self) -> &[Felt] {
            // SAFETY: the struct is `repr(C)`, has nothing but cells, and as many as this.
            unsafe { core::slice::from_raw_parts((self as *const Self).cast(), WIDTH) }
        }
    }
    impl Borrow<CoreCols<Felt>> for [Felt] {
        fn borrow(&self) -> &CoreCols<Felt> {
            assert_eq!(self.len(), WIDTH);
            // SAFETY: as above.
            unsafe { &*self.as_ptr().cast() }
        }
    }
    impl BorrowMut<CoreCols<Felt>> for [Felt] {
        fn borrow_mut(&mut self) -> &mut CoreCols<Felt> {
            assert_eq!(self.len(), WIDTH);
            // SAFETY: as above.
            unsafe { &mut *self.as_mut_ptr().cast() }
        }
    }

    pub mod trace {
        use core::ops::Add;

        pub const SYS_TRACE_WIDTH: usize = 6;
        pub const DECODER_TRACE_WIDTH: usize = 24;
        pub const STACK_TRACE_WIDTH: usize = 19;
        pub const RANGE_CHECK_TRACE_WIDTH: usize = 2;

        /// A clock row of 32 bits.
        #[derive(Clone, Copy, Debug, PartialEq, Eq)]
        pub struct RowIndex(pub u32);

        impl Add<u32> for RowIndex {
            type Output = Self;
            fn add(self, n: u32) -> Self {
                Self(self.0 + n)
            }
        }

        pub mod chiplets {
            /// The evaluation of a circuit: no row shows it.
            pub struct CircuitEvaluation;

            pub mod hasher {
                use super::super::super::Felt;

                pub const STATE_WIDTH: usize = 12;
                /// The address step of the profile.
                pub const CONTROLLER_ROWS_PER_PERM_FELT: Felt = Felt::new_unchecked(crate::profile::EXAMPLE.step);
            }
        }

        pub mod decoder {
            use super::super::super::field::{Felt, ONE, ZERO};

            pub const NUM_OP_BITS: usize = 7;
            pub const NUM_USER_OP_HELPERS: usize = 6;
            pub const NUM_OP_BATCH_FLAGS: usize = 3;
            pub const OP_BATCH_8_GROUPS: [Felt; 3] = [ONE, ZERO, ZERO];
            pub const OP_BATCH_4_GROUPS: [Felt; 3] = [ZERO, ONE, ZERO];
            pub const OP_BATCH_2_GROUPS: [Felt; 3] = [ZERO, ZERO, ONE];
            pub const OP_BATCH_1_GROUPS: [Felt; 3] = [ZERO, ONE, ONE];
        }
    }
}

/// Opcodes, nodes, batches and forests.
pub mod core_crate {
    pub const WORD_SIZE: usize = 4;
    pub const MIN_STACK_DEPTH: usize = 16;

    /// The profile's opcodes.
    pub mod opcodes {
        use crate::profile::EXAMPLE;

        pub const SPAN: u8 = EXAMPLE.span;
        pub const RESPAN: u8 = EXAMPLE.respan;
        pub const JOIN: u8 = EXAMPLE.join;
        pub const SPLIT: u8 = EXAMPLE.split;
        pub const LOOP: u8 = EXAMPLE.loop_op;
        pub const REPEAT: u8 = EXAMPLE.repeat;
        pub const CALL: u8 = EXAMPLE.call;
        pub const SYSCALL: u8 = EXAMPLE.syscall;
        pub const DYN: u8 = EXAMPLE.dyn_op;
        pub const DYNCALL: u8 = EXAMPLE.dyncall;
        pub const PUSH: u8 = EXAMPLE.push;
        pub const END: u8 = EXAMPLE.end;
        pub const HALT: u8 = EXAMPLE.halt;
    }

    /// An operation: its opcode.
    #[derive(Clone, Copy, Debug, PartialEq, Eq)]
    #[repr(transparent)]
    pub struct Operation(pub u8);

    impl Operation {
        pub fn op_code(&self) -> u8 {
            self.0
        }
    }

    pub mod mast {
        use std::sync::Arc;

        use super::super::field::{Felt, Word};
        use super::Operation;

        pub const OP_BATCH_SIZE: usize = 8;

        /// A node of 32 bits.
        #[derive(Clone, Copy, Debug, PartialEq, Eq)]
        pub struct MastNodeId(pub u32);

        /// A batch: eight groups, how many count, nine group starts, the operations.
        #[derive(Clone, Debug, PartialEq, Eq)]
        pub struct OpBatch {
            pub groups: [Felt; OP_BATCH_SIZE],
            pub num_groups: usize,
            pub starts: [usize; OP_BATCH_SIZE + 1],
            pub ops: Vec<Operation>,
        }

        impl OpBatch {
            pub fn groups(&self) -> &[Felt; OP_BATCH_SIZE] {
                &self.groups
            }
            pub fn num_groups(&self) -> usize {
                self.num_groups
            }
            pub fn ops(&self) -> &[Operation] {
                &self.ops
            }
            /// "Operation i lies in the one group whose start <= i < next start, at index 0 to 8 in it."
            pub fn op_idx_in_batch_to_group(&self, i: usize) -> Option<(usize, usize)> {
                let starts = &self.starts;
                if i >= self.ops.len() || starts.windows(2).any(|s| s[1] < s[0]) {
                    return None;
                }
                let group = (0..OP_BATCH_SIZE).find(|&g| starts[g] <= i && i < starts[g + 1])?;
                let index = i - starts[group];
                (index <= 8).then_some((group, index))
            }
        }

        #[derive(Clone, Debug, PartialEq, Eq)]
        pub struct BasicBlockNode {
            pub op_batches: Vec<OpBatch>,
            pub num_op_groups: usize,
            pub digest: Word,
        }

        impl BasicBlockNode {
            pub fn op_batches(&self) -> &[OpBatch] {
                &self.op_batches
            }
            /// The block total, as lent.
            pub fn num_op_groups(&self) -> usize {
                self.num_op_groups
            }
        }

        macro_rules! nodes {
            ($($node:ident { $($child:ident: $kind:ty),* })*) => {
                $(
                    #[derive(Clone, Debug, PartialEq, Eq)]
                    pub struct $node {
                        $(pub $child: $kind,)*
                        pub digest: Word,
                    }

                    impl $node {
                        $(pub fn $child(&self) -> $kind {
                            self.$child
                        })*
                    }

                    impl MastNodeExt for $node {
                        fn digest(&self) -> Word {
                            self.digest
                        }
                    }
                )*
            };
        }

        nodes! {
            JoinNode { first: MastNodeId, second: MastNodeId }
            SplitNode { on_true: MastNodeId, on_false: MastNodeId }
            LoopNode { body: MastNodeId }
            CallNode { callee: MastNodeId, is_syscall: bool }
            DynNode { is_dyncall: bool }
            ExternalNode {}
        }

        pub trait MastNodeExt {
            fn digest(&self) -> Word;
        }

        impl MastNodeExt for BasicBlockNode {
            fn digest(&self) -> Word {
                self.digest
            }
        }

        #[derive(Clone, Debug, PartialEq, Eq)]
        pub enum MastNode {
            Block(BasicBlockNode),
            Join(JoinNode),
            Split(SplitNode),
            Loop(LoopNode),
            Call(CallNode),
            Dyn(DynNode),
            External(ExternalNode),
        }

        impl MastNodeExt for MastNode {
            fn digest(&self) -> Word {
                match self {
                    Self::Block(node) => node.digest,
                    Self::Join(node) => node.digest,
                    Self::Split(node) => node.digest,
                    Self::Loop(node) => node.digest,
                    Self::Call(node) => node.digest,
                    Self::Dyn(node) => node.digest,
                    Self::External(node) => node.digest,
                }
            }
        }

        /// What a slot of a forest holds.
        #[derive(Clone, Debug, PartialEq, Eq)]
        pub enum Slot {
            Absent,
            Digest(Word),
            Node(MastNode),
        }

        /// A forest: a node, a digest alone, or nothing, for each number.
        #[derive(Clone, Debug, Default, PartialEq, Eq)]
        pub struct SparseMastForest(pub Vec<Slot>);

        pub trait ExecutableMastForest {
            fn get_node_by_id(&self, id: MastNodeId) -> Option<&MastNode>;
            fn get_digest_by_id(&self, id: MastNodeId) -> Option<Word>;
        }

        impl ExecutableMastForest for Arc<SparseMastForest> {
            fn get_node_by_id(&self, id: MastNodeId) -> Option<&MastNode> {
                match self.0.get(id.0 as usize)? {
                    Slot::Node(node) => Some(node),
                    Slot::Absent | Slot::Digest(_) => None,
                }
            }
            fn get_digest_by_id(&self, id: MastNodeId) -> Option<Word> {
                match self.0.get(id.0 as usize)? {
                    Slot::Node(node) => Some(node.digest()),
                    Slot::Digest(digest) => Some(*digest),
                    Slot::Absent => None,
                }
            }
        }
    }

    /// Types that signatures and debug records name, and no row shows.
    #[derive(Debug)]
    pub struct MerklePath;

    pub struct Program;

    impl Program {
        pub fn entrypoint(&self) -> mast::MastNodeId {
            mast::MastNodeId(0)
        }
    }

    #[derive(Clone, Copy, Debug, PartialEq, Eq)]
    pub struct DebugSourceNodeId;

    #[derive(Debug, PartialEq, Eq)]
    pub struct PackageDebugInfo;

    pub struct KernelDescriptor;
}

/// Numbers, errors and records of the processor's own files that are not listed.
pub mod processor {
    use super::field::{Felt, Word};

    /// A context of 32 bits.
    #[derive(Clone, Copy, Debug, PartialEq, Eq)]
    pub struct ContextId(pub u32);

    #[derive(Clone, Debug, PartialEq, Eq)]
    pub enum ExecutionError {
        Internal(&'static str),
    }

    #[derive(Clone, Debug, PartialEq, Eq)]
    pub enum OperationError {
        Internal(&'static str),
    }

    #[derive(Clone, Debug, PartialEq, Eq)]
    pub enum MemoryError {
        MemoryReadFailed(String),
    }

    pub struct AceError;

    pub trait MapExecErrNoCtx<T> {
        fn map_exec_err_no_ctx(self) -> Result<T, ExecutionError>;
    }

    impl<T> MapExecErrNoCtx<T> for Result<T, OperationError> {
        fn map_exec_err_no_ctx(self) -> Result<T, ExecutionError> {
            self.map_err(|OperationError::Internal(text)| ExecutionError::Internal(text))
        }
    }

    /// The context info of a DYNCALL; the row shows the last two.
    #[derive(Clone, Debug)]
    pub struct ExecutionContextInfo {
        pub parent_ctx: ContextId,
        pub parent_fn_hash: Word,
        pub parent_stack_depth: u32,
        pub parent_next_overflow_addr: Felt,
    }

    impl ExecutionContextInfo {
        pub fn new(parent_ctx: ContextId, parent_fn_hash: Word, parent_stack_depth: u32, parent_next_overflow_addr: Felt) -> Self {
            Self { parent_ctx, parent_fn_hash, parent_stack_depth, parent_next_overflow_addr }
        }
    }
}

/// Rayon's iterators, as plain ones.
pub mod rayon {
    pub trait IntoParallelIterator: IntoIterator + Sized {
        fn into_par_iter(self) -> Self::IntoIter {
            self.into_iter()
        }
    }
    impl<T: IntoIterator> IntoParallelIterator for T {}

    pub trait ParallelSliceMut<T> {
        fn par_chunks_mut(&mut self, size: usize) -> core::slice::ChunksMut<'_, T>;
    }
    impl<T> ParallelSliceMut<T> for [T] {
        fn par_chunks_mut(&mut self, size: usize) -> core::slice::ChunksMut<'_, T> {
            self.chunks_mut(size)
        }
    }
}
