//! A file's tuples as the second program walks them, for what is looked at beside a call.

use second::walk::{forward, Step, Tuple};
use second::Order;

/// The place of the first tuple.
pub const FIRST: u64 = 4;

/// The tuples of a file from its first one up to where it can be walked, with its byte order;
/// none of a file without a mark.
pub fn walked(file: &[u8]) -> impl Iterator<Item = (Order, Tuple)> + '_ {
    let order = Order::of(file);
    let mut at = FIRST;
    std::iter::from_fn(move || {
        let Step::Tuple { tuple, next } = forward(file, at) else {
            return None;
        };
        at = next;
        Some((order?, tuple))
    })
}
