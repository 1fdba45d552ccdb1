//! Forests as values, and as the numbers in which they are lent.

use crate::calls::Positions;

/// Four cells.
pub type Word = [u64; 4];

/// A batch of a block: how many of its eight groups count, the groups, nine group starts, one opcode an operation.
#[derive(Clone, Debug, PartialEq, Eq)]
pub struct OpBatch {
    pub num_groups: u32,
    pub groups: [u64; 8],
    pub starts: [u32; 9],
    pub ops: Vec<u8>,
}

/// A node; its children are numbers of slots in its own forest.
#[derive(Clone, Debug, PartialEq, Eq)]
pub enum MastNode {
    /// The block total, as `num_op_groups` answers, and the batches.
    Block(u32, Vec<OpBatch>),
    Join(u32, u32),
    Split(u32, u32),
    Loop(u32),
    Call(u32),
    Syscall(u32),
    Dyn,
    Dyncall,
    External,
}

/// What a slot of a forest holds.
#[derive(Clone, Debug, PartialEq, Eq)]
pub enum Slot {
    Absent,
    Digest(Word),
    Node(MastNode, Word),
}

/// A forest: its slots, in the order of their numbers.
pub type Forest = Vec<Slot>;

/// Forests one after another, as they are lent.
///
/// - `nodes`: six numbers a slot: what it holds (0 nothing, 1 a digest alone, 2 Block, 3 Join, 4 Split, 5 Loop, 6 Call, 7 Syscall, 8 Dyn,
///   9 Dyncall, 10 External), two children, and of a block its total, its first batch record and how many batches it has.
/// - `digests`: four cells a slot.
/// - `batches`: twelve numbers a batch: group count, nine starts, number of operations, first operation.
/// - `groups`: eight cells a batch.
/// - `ops`: one opcode a byte.
/// - `directory`: six numbers a forest: first slot and slots, first batch record and records, first opcode and opcodes. Inside a forest all
///   numbers count from its own start.
#[derive(Clone, Debug, Default, PartialEq, Eq)]
pub struct Forests {
    pub nodes: Vec<u32>,
    pub digests: Vec<u64>,
    pub batches: Vec<u32>,
    pub groups: Vec<u64>,
    pub ops: Vec<u8>,
    pub directory: Vec<u32>,
}

fn count(n: usize) -> u32 {
    u32::try_from(n).expect("a forest of 32-bit numbers")
}

impl Forests {
    /// The numbers of some forests.
    pub fn new(forests: &[Forest]) -> Self {
        let mut all = Self::default();
        for forest in forests {
            all.push(forest);
        }
        all
    }

    /// The batch records of one forest, by which its blocks count: what [`op_place`](crate::exports::op_place) is lent. Panics where there is no such
    /// forest, or where its part is not whole in `batches`.
    pub fn batches_of(&self, forest: usize) -> &[u32] {
        let (first, records) = (self.directory[6 * forest + 2] as usize, self.directory[6 * forest + 3] as usize);
        &self.batches[12 * first..12 * (first + records)]
    }

    fn push(&mut self, forest: &Forest) {
        let (first_slot, first_batch, first_op) = (self.nodes.len() / 6, self.batches.len() / 12, self.ops.len());
        for slot in forest {
            let (kind, first, second, digest) = match slot {
                Slot::Absent => (0, 0, 0, [0; 4]),
                Slot::Digest(digest) => (1, 0, 0, *digest),
                Slot::Node(node, digest) => {
                    let (kind, first, second) = match node {
                        MastNode::Block(..) => (2, 0, 0),
                        MastNode::Join(a, b) => (3, *a, *b),
                        MastNode::Split(a, b) => (4, *a, *b),
                        MastNode::Loop(a) => (5, *a, 0),
                        MastNode::Call(a) => (6, *a, 0),
                        MastNode::Syscall(a) => (7, *a, 0),
                        MastNode::Dyn => (8, 0, 0),
                        MastNode::Dyncall => (9, 0, 0),
                        MastNode::External => (10, 0, 0),
                    };
                    (kind, first, second, *digest)
                }
            };
            let block = match slot {
                Slot::Node(MastNode::Block(total, batches), _) => {
                    let first = count(self.batches.len() / 12 - first_batch);
                    for batch in batches {
                        self.push_batch(batch, first_op);
                    }
                    [*total, first, count(batches.len())]
                }
                _ => [0; 3],
            };
            self.nodes.extend([kind, first, second]);
            self.nodes.extend(block);
            self.digests.extend(digest);
        }
        self.directory.extend([
            count(first_slot),
            count(forest.len()),
            count(first_batch),
            count(self.batches.len() / 12 - first_batch),
            count(first_op),
            count(self.ops.len() - first_op),
        ]);
    }

    fn push_batch(&mut self, batch: &OpBatch, first_op: usize) {
        self.batches.push(batch.num_groups);
        self.batches.extend(batch.starts);
        self.batches.extend([count(batch.ops.len()), count(self.ops.len() - first_op)]);
        self.groups.extend(batch.groups);
        self.ops.extend(&batch.ops);
    }
}

/// The queues, as they are lent: block addresses, parent addresses, and three cells an END (the address that ends, then the current and
/// the parent address after it).
#[derive(Clone, Debug, Default, PartialEq, Eq)]
pub struct Queues {
    pub addresses: Vec<u64>,
    pub parents: Vec<u64>,
    pub ends: Vec<u64>,
}

impl Queues {
    /// How many entries each queue has.
    pub fn lengths(&self) -> Positions {
        Positions { addresses: self.addresses.len(), parents: self.parents.len(), ends: self.ends.len() / 3 }
    }

    /// Keeps so many entries of each.
    pub fn cut(&mut self, to: Positions) {
        self.addresses.truncate(to.addresses);
        self.parents.truncate(to.parents);
        self.ends.truncate(3 * to.ends);
    }

    /// These entries behind others.
    pub fn behind(&self, others: &Self) -> Self {
        Self {
            addresses: [&others.addresses[..], &self.addresses].concat(),
            parents: [&others.parents[..], &self.parents].concat(),
            ends: [&others.ends[..], &self.ends].concat(),
        }
    }

    /// The entries from one position to another, as queues of their own.
    pub fn part(&self, from: Positions, to: Positions) -> Self {
        Self {
            addresses: self.addresses[from.addresses..to.addresses].to_vec(),
            parents: self.parents[from.parents..to.parents].to_vec(),
            ends: self.ends[3 * from.ends..3 * to.ends].to_vec(),
        }
    }
}
