//! The profile: thirteen opcodes and the address step.

/// The opcodes that a trace is written and read with, and by how much a RESPAN moves the current address on.
#[derive(Clone, Copy, Debug, PartialEq, Eq)]
#[repr(C)]
pub struct Profile {
    pub span: u8,
    pub respan: u8,
    pub join: u8,
    pub split: u8,
    pub loop_op: u8,
    pub repeat: u8,
    pub call: u8,
    pub syscall: u8,
    pub dyn_op: u8,
    pub dyncall: u8,
    pub push: u8,
    pub end: u8,
    pub halt: u8,
    pub step: u64,
}

/// The profile of the examples. The crate's own numbers are not in the listed files: the opcodes are those of the Miden VM
/// documentation, the step is that of document 01's listing, where a block at 1 is followed by blocks at 3 and 5.
pub const EXAMPLE: Profile = Profile {
    span: 86,
    respan: 120,
    join: 87,
    split: 84,
    loop_op: 85,
    repeat: 116,
    call: 108,
    syscall: 104,
    dyn_op: 88,
    dyncall: 92,
    push: 91,
    end: 112,
    halt: 124,
    step: 2,
};

impl Profile {
    /// The thirteen opcodes, in document 01's order.
    pub const fn opcodes(&self) -> [u8; 13] {
        [
            self.span,
            self.respan,
            self.join,
            self.split,
            self.loop_op,
            self.repeat,
            self.call,
            self.syscall,
            self.dyn_op,
            self.dyncall,
            self.push,
            self.end,
            self.halt,
        ]
    }

    /// Whether an operation of a proper run may have the opcode: none of the profile's but PUSH.
    pub fn is_operation(&self, opcode: u8) -> bool {
        opcode < 128 && (opcode == self.push || !self.opcodes().contains(&opcode))
    }
}
