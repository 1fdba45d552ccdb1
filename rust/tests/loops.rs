//! Pass 2 and a map in plain Rust count alike, for loops of each order.
#![cfg(archive)]

use core_trace::exports::set_loop_body_multiplicities;
use core_trace::loops::{MANY_ROWS as ROWS, Order, count_by_map, counts_in_place, falling, loop_rows};
use core_trace::profile::EXAMPLE;

#[test]
fn pass_2_counts_as_a_map() {
    for order in Order::ALL {
        let mut cells = loop_rows(&EXAMPLE, ROWS, 8, order);
        let mut wanted = cells.clone();
        count_by_map(&EXAMPLE, &mut wanted, ROWS).unwrap();
        set_loop_body_multiplicities(EXAMPLE, &mut cells, ROWS).unwrap();
        assert!(cells == wanted, "{order:?}");
    }
}

#[test]
fn one_order_is_counted_in_place() {
    for order in Order::ALL {
        let cells = loop_rows(&EXAMPLE, ROWS, 8, order);
        assert_eq!(counts_in_place(&EXAMPLE, &cells, ROWS), order == Order::InOrder, "{order:?}");
        assert_eq!(counts_in_place(&EXAMPLE, &falling(&cells), ROWS), order == Order::Falling, "{order:?}, turned round");
    }
}
