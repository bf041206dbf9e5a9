//! Forward and backward steps at any place of any file.

mod common;

use common::bytes;
use second::walk::{backward, forward, Step, Tuple};
use second::Answer;

/// Two private tuples, of 16 bytes at 4 and of 20 bytes at 20; 40 in all.
const FILE: &str = "ac000000
    06000000 78ff 0000 01000000 10000000
    0a000000 79ff 0000 00000000 01000000 14000000";

fn tuple(place: u64, length: u64, code: u16, next: u64) -> Step {
    Step::Tuple {
        tuple: Tuple {
            place,
            length,
            code,
        },
        next,
    }
}

fn refused(code: u32, place: u64) -> Step {
    Step::Refused(Answer::refused(code, place))
}

#[test]
fn forward_steps() {
    let file = bytes(FILE);
    assert_eq!(forward(&file, 4), tuple(4, 16, 65400, 20));
    assert_eq!(forward(&file, 20), tuple(20, 20, 65401, 40));
    assert_eq!(forward(&file, 40), Step::End);
    for place in [0, 1, 2, 3, 25, 39, 41, 1 << 33, u64::MAX] {
        assert_eq!(forward(&file, place), refused(3, place));
    }
    // At 5 the size is 78000000 + 10, at 16 it is 26 but 24 bytes are left, and
    // at 24, where 16 are left, it is FF79 + 10.
    assert_eq!(forward(&file, 5), refused(5, 5));
    assert_eq!(forward(&file, 16), refused(5, 16));
    assert_eq!(forward(&file, 24), refused(5, 24));
}

#[test]
fn backward_steps() {
    let file = bytes(FILE);
    assert_eq!(backward(&file, 40), tuple(20, 20, 65401, 20));
    assert_eq!(backward(&file, 20), tuple(4, 16, 65400, 4));
    assert_eq!(backward(&file, 4), Step::End);
    for place in [0, 3, 5, 16, 19, 41, u64::MAX] {
        assert_eq!(backward(&file, place), refused(3, place));
    }
    // Before 36 stands the attribute 1, before 24 the size 10.
    assert_eq!(backward(&file, 36), refused(5, 36));
    assert_eq!(backward(&file, 24), refused(5, 24));
    assert_eq!(backward(&file, 21), refused(5, 21));
}

/// 5 before 3 before 6, both ways.
#[test]
fn order_of_a_step() {
    // length 24, backlink 16
    let crooked = bytes("ac000000 0e000000 78ff 0000 00000000 00000000 00000000 10000000");
    assert_eq!(forward(&crooked, 4), refused(6, 4));
    // size 0 + 10 at the place where its backlink points
    assert_eq!(backward(&crooked, 28), refused(6, 28));
    // a backlink of 24 in a file of 24 bytes reaches before 4
    let reaching = bytes("ac000000 0a000000 78ff 0000 00000000 00000000 18000000");
    assert_eq!(backward(&reaching, 24), refused(3, 24));
    assert_eq!(forward(&reaching, 4), refused(6, 4));
    // 18 is not allowed, wherever it reaches
    let uneven = bytes("ac000000 0a000000 78ff 0000 00000000 00000000 12000000");
    assert_eq!(backward(&uneven, 24), refused(5, 24));
    let zero = bytes("ac000000 0a000000 78ff 0000 00000000 00000000 00000000");
    assert_eq!(backward(&zero, 24), refused(5, 24));
    // 262,148 is too much, before it passes the end
    let long = bytes("ac000000 faff0300 78ff 0000 00000000 00000000 04000400");
    assert_eq!(backward(&long, 24), refused(5, 24));
    assert_eq!(forward(&long, 4), refused(5, 4));
    // 262,144 passes the end, and reaches before 4
    let full = bytes("ac000000 f6ff0300 78ff 0000 00000000 00000000 00000400");
    assert_eq!(forward(&full, 4), refused(3, 4));
    assert_eq!(backward(&full, 24), refused(3, 24));
}

/// 1 and 2 come first, and carry the step's place.
#[test]
fn mark_and_limit_first() {
    for place in [0, 4, 7, 20, u64::MAX] {
        assert_eq!(forward(&[], place), refused(2, place));
        assert_eq!(backward(&[1; 30], place), refused(2, place));
        let long = vec![0; 16_777_217];
        assert_eq!(forward(&long, place), refused(1, place));
        assert_eq!(backward(&long, place), refused(1, place));
    }
}

/// The mark alone: place 4 is the end both ways.
#[test]
fn mark_alone() {
    let file = [0, 0, 0, 0xAC];
    assert_eq!(forward(&file, 4), Step::End);
    assert_eq!(backward(&file, 4), Step::End);
    assert_eq!(forward(&file, 0), refused(3, 0));
    assert_eq!(forward(&file, 5), refused(3, 5));
    assert_eq!(backward(&file, 5), refused(3, 5));
    assert_eq!(backward(&file, 20), refused(3, 20));
}
