//! 02's sentence on the index, said once more and slowly, over lists of tuples.

use super::{frame_faults, Bytes, File};
use second::Order;
use std::collections::BTreeSet;

pub fn is_index(code: u64) -> bool {
    (65406..=65515).contains(&code)
}

/// Tuples as a list: where each starts, its type and its bytes.
pub type Item = (usize, u64, Vec<u8>);

/// The tuples behind a mark, as far as they go, and what is left.
pub fn divided(marked: &[u8]) -> (Vec<Item>, Vec<u8>) {
    let file = File::new(marked).expect("a mark");
    let mut items = Vec::new();
    let mut at = 4;
    while frame_faults(&file, at).is_empty() {
        let to = at + file.number(at, 4) as usize + 10;
        items.push((at, file.number(at + 4, 2), marked[at..to].to_vec()));
        at = to;
    }
    (items, marked[at..].to_vec())
}

/// A file of some tuples, those of the index class left out, and of bytes behind them.
pub fn without_index(mark: &[u8], items: &[Item], behind: &[u8]) -> Vec<u8> {
    let mut file = mark.to_vec();
    for (_, _, bytes) in items.iter().filter(|(_, code, _)| !is_index(*code)) {
        file.extend(bytes);
    }
    file.extend(behind);
    file
}

/// Table 14's tuple of a list of types.
fn index_of(order: Order, types: &BTreeSet<u64>) -> Vec<u8> {
    let spaces = types.len() % 2;
    let mut tuple = Bytes::new(order);
    tuple.tuple(65406, 20 + 2 * (types.len() + spaces), |bytes| {
        bytes.two(0);
        bytes.four(0);
        for code in types {
            bytes.two(*code as u16);
        }
    });
    tuple.bytes
}

/// 02's sentence: all tuples of the index class are dropped, and one equal to the list worked
/// out afresh stands just before the end of file.
pub fn reindexed(mark: &[u8], mut items: Vec<Item>) -> Vec<u8> {
    let codes = items.iter().map(|(_, code, _)| *code);
    let types = codes.filter(|code| !is_index(*code)).collect();
    let order = Order::of(mark).expect("a mark");
    let mut behind = index_of(order, &types);
    if items.last().is_some_and(|(_, code, _)| *code == 65534) {
        let (_, _, end) = items.pop().unwrap();
        behind.extend(end);
    }
    without_index(mark, &items, &behind)
}

/// A file that divides into tuples, with its index.
pub fn indexed(file: &[u8]) -> Vec<u8> {
    let (items, rest) = divided(file);
    assert!(rest.is_empty());
    reindexed(&file[..4], items)
}
