//! No call takes more than 128 KiB of stack. `cargo test --test stack -- --nocapture` writes what each takes.
#![cfg(archive)]

use core_trace::stack::{Taken, all_calls};

const MOST: usize = 128 * 1024;
const CALLS: usize = 15;

fn hold((call, stack): &Taken) {
    println!("{call}: {} bytes of stack, {} words of them written", stack.bytes, stack.words);
    assert!(stack.bytes <= MOST, "{call}: {} bytes of stack", stack.bytes);
}

#[test]
fn calls_take_little_stack() {
    let calls = all_calls().map(|(_, calls)| calls).concat();
    assert_eq!(calls.len(), CALLS);
    calls.iter().for_each(hold);
}
