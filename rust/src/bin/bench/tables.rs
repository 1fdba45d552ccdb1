//! The tables, in the order in which they are printed.

mod aims;
mod both;
mod dumps;
mod inverse;
mod loops;
mod machine;
mod memory;
mod passes;
mod reader;
mod replay;
mod rounds;
mod scan;
mod stack;

use std::time::Instant;

use aims::Aims;
use memory::Memory;

/// The name of a table, and what prints it for up to 2^most rows. That of replay is the first: its fresh memory must not have been kept by
/// another.
type Table = (&'static str, fn(usize, &mut Aims));

const TABLES: [Table; 8] = [
    ("replay", replay::print),
    ("scan", scan::print),
    ("passes", passes::print),
    ("loops", loops::print),
    ("inverse", inverse::print),
    ("reader", reader::print),
    ("dumps", dumps::print),
    ("stack", stack::print),
];

/// Prints the tables of these names, or all.
pub fn print(most: usize, names: &[String]) {
    let from = Instant::now();
    let is_known = |name: &String| TABLES.iter().any(|table| table.0 == name);
    assert!(names.iter().all(is_known), "replay, scan, passes, loops, inverse, reader, dumps or stack");
    machine::print(most);
    let mut aims = Aims::default();
    for (name, print) in TABLES {
        if names.is_empty() || names.iter().any(|wanted| wanted == name) {
            print(most, &mut aims);
        }
    }
    aims.print();
    println!("\nThe run took {} s, with a load of {} at its end.", from.elapsed().as_secs(), machine::load());
}

/// One round of one line. Memory is fresh, so that no buffer is zeroed: a profiler counts an instruction for each byte of that.
pub fn once(words: &[String]) {
    let number = |i: usize| words.get(i).expect("more words").parse().expect("a number");
    Memory::Fresh.set();
    match words.first().map(String::as_str) {
        Some("replay") => replay::once(number(1), number(2), number(3)),
        Some("loops") => loops::once(number(1), number(2), words.get(3).expect("an order")),
        Some("reader") => reader::once(number(1)),
        _ => panic!("replay, loops or reader"),
    }
}
