//! The stack that each call takes.

use core_trace::stack::{Taken, all_calls};

use super::aims::{Aim, Aims};
use super::rounds::{count, line, section};

const TEXT: &str = "Each call on a thread whose stack is painted before, with the frame of its Rust wrapper: bytes from where it is called down to the \
lowest one written, and in brackets how many words of 8 bytes of them were written. The greatest figures over the inputs of \
`rust/src/stack/inputs.rs`: replay over 200 random proper runs with each kind of row and each case of helpers, the records as they are and each storing \
made twice; finisher and pass 2 over 5,000 loops of each order; reader and index over traces with 64 open blocks, one with a 65th, which is refused, and \
one of 2^17 rows.";
const LIMIT: Aim = Aim { text: "KiB of stack of each call", limit: 128.0, on_most: false };

fn told((name, stack): &Taken) -> String {
    format!("`{name}` {} ({})", count(stack.bytes), count(stack.words))
}

pub fn print(_: usize, aims: &mut Aims) {
    section("Stack", TEXT, "call | bytes of stack, and words written");
    for (kind, calls) in all_calls() {
        line([kind.into(), calls.iter().map(told).collect::<Vec<_>>().join(", ")]);
        calls.iter().for_each(|(name, stack)| aims.hold(LIMIT, &format!("`{name}`"), stack.bytes as f64 / 1024.0));
    }
}
