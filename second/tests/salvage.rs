//! Salvage: against its definition, said once more and slowly; what must hold of every
//! file; and files made by hand.

mod common;

use common::{count, lent, marked, seed, survey, tuple_faults, Bytes, File, FIRST_PING};
use second::gen::{
    disk_fault, fault, file_case, limit, limit_count, noise, random_damage, sound_case, Case, Rng,
    DISK_FAULTS, FAULT_KINDS,
};
use second::salvage::{kept_until, RANGE_NUMBERS};
use second::{check, salvage, Answer, Order, Salvaged};
use std::collections::BTreeSet;

/// A range as the table has it: 1 for kept or 0, from, to.
type Range = [usize; RANGE_NUMBERS];

/// A table with numbers that no call would leave by chance.
fn lent_table(entries: usize) -> Vec<usize> {
    (0..entries).map(|at| usize::MAX - 151 * at).collect()
}

/// What salvage makes of a file.
#[derive(PartialEq, Eq, Debug)]
struct Made {
    tuples: u64,
    tried: u64,
    out: Vec<u8>,
    ranges: Vec<Range>,
}

/// Salvage of a file that it takes. Lent memory is watched: more than enough, just
/// enough, and too little of the one, of the other and of both.
fn made(file: &[u8], name: &str) -> Made {
    let (room, entries) = (file.len() + 9, 3 * file.len() + 7);
    let (mut out, mut table) = (lent(room), lent_table(entries));
    let (answer, told) = salvage(file, &mut out, &mut table).expect(name);
    let (length, numbers) = (answer.length as usize, 3 * told.ranges as usize);
    assert_eq!(answer, Answer::accepted(answer.tuples, answer.length));
    assert_eq!(out[length..], lent(room)[length..], "{name}");
    assert_eq!(table[numbers..], lent_table(entries)[numbers..], "{name}");
    out.truncate(length);
    table.truncate(numbers);
    let (mut just_out, mut just_table) = (lent(length), lent_table(numbers));
    let just = salvage(file, &mut just_out, &mut just_table);
    assert_eq!(just, Ok((answer, told)), "{name}");
    assert_eq!((&just_out, &just_table), (&out, &table), "{name}");
    refused(file, length - 1, numbers, 19);
    refused(file, 0, numbers, 19);
    if numbers > 0 {
        for (length, entries) in [(length, numbers - 1), (0, 0), (length - 1, numbers - 1)] {
            refused(file, length, entries, 27);
        }
    }
    let (ranges, rest) = table.as_chunks();
    assert!(rest.is_empty());
    Made {
        tuples: answer.tuples,
        tried: told.tried,
        out,
        ranges: ranges.to_vec(),
    }
}

/// A refusal, at 0, that alters nothing.
fn refused(file: &[u8], length: usize, entries: usize, code: u32) {
    let (mut out, mut table) = (lent(length), lent_table(entries));
    let answer = salvage(file, &mut out, &mut table);
    assert_eq!(answer, Err(Answer::refused(code, 0)));
    assert_eq!((out, table), (lent(length), lent_table(entries)));
}

/// Salvage by its definition: a tuple is kept where it has no fault by itself. Each byte
/// behind the mark is then kept or dropped, and neighbours of one kind are a range.
fn defined(bytes: &[u8]) -> Made {
    let file = File::new(bytes).expect("a mark");
    let mut kept = vec![0; bytes.len()];
    let mut out = bytes[..4].to_vec();
    let (mut tuples, mut tried, mut at) = (0, 0, 4);
    while at < bytes.len() {
        tried += 1;
        if !tuple_faults(&file, at).is_empty() {
            at += 4;
            continue;
        }
        let end = at + file.number(at, 4) as usize + 10;
        kept[at..end].fill(1);
        out.extend(&bytes[at..end]);
        tuples += 1;
        at = end;
    }
    let mut from = 4;
    let alike = kept[4..].chunk_by(|a, b| a == b).map(|alike| {
        let to = from + alike.len();
        let range = [alike[0], from, to];
        from = to;
        range
    });
    Made {
        tuples,
        tried,
        ranges: alike.collect(),
        out,
    }
}

/// What must hold of salvage of any file with a mark, said without its definition.
fn holds(file: &[u8], made: &Made, name: &str) {
    // the ranges cover the bytes behind the mark once each, their kinds by turns
    let mut end = 4;
    for [_, from, to] in &made.ranges {
        assert_eq!(*from, end, "{name}");
        assert!(to > from, "{name}");
        end = *to;
    }
    assert_eq!(end, file.len(), "{name}");
    let turns = made.ranges.windows(2).all(|pair| pair[0][0] != pair[1][0]);
    assert!(turns, "{name}");
    // the kept ones divide into tuples that keep their rules, and are the output
    let (mut out, mut tuples) = (file[..4].to_vec(), 0);
    for [_, from, to] in made.ranges.iter().filter(|range| range[0] == 1) {
        out.extend(&file[*from..*to]);
        let (mut at, to) = (*from as u64, *to as u64);
        while at < to {
            at = kept_until(file, at).expect(name);
            tuples += 1;
        }
        assert_eq!(at, to, "{name}");
    }
    assert_eq!((&out, tuples), (&made.out, made.tuples), "{name}");
    let most = file.len() as u64 / 4 + 1;
    assert!(made.tuples <= made.tried && made.tried <= most, "{name}");
}

/// All of what is salvaged is kept once more: one range, or none.
fn stays(made: &Made, again: &Made, name: &str) {
    let length = made.out.len();
    let whole = (length > 4).then_some([1, 4, length]);
    assert_eq!(again.ranges, Vec::from_iter(whole), "{name}");
    assert_eq!(again.out, made.out, "{name}");
    let counts = (again.tuples, again.tried);
    assert_eq!(counts, (made.tuples, made.tuples), "{name}");
}

/// Salvage of a file that may lack its mark or be too long.
fn judge(file: &[u8], name: &str) -> Option<Made> {
    let code = check(file).code;
    if [1, 2].contains(&code) {
        refused(file, file.len(), 3 * file.len(), code);
        refused(file, 0, 0, code);
        return None;
    }
    let made = made(file, name);
    assert_eq!(made, defined(file), "{name}");
    holds(file, &made, name);
    stays(&made, &self::made(&made.out, name), name);
    if code == 0 {
        assert_eq!(made.ranges, [[1, 4, file.len()]], "{name}");
        assert_eq!(made.out, file, "{name}");
    }
    Some(made)
}

#[test]
fn salvage_does_what_the_definition_says() {
    let seed = seed();
    let makers: [fn(&mut Rng) -> Case; 4] = [random_damage, noise, sound_case, |rng| {
        let kind = FAULT_KINDS[rng.index(FAULT_KINDS.len())];
        fault(rng, kind)
    }];
    for index in 0..count(4000) {
        let mut rng = Rng::of_case(seed ^ 0x5A17_A6E0, index);
        let case = makers[index as usize % makers.len()](&mut rng);
        judge(
            &case.bytes,
            &format!("seed {seed} file {index} {}", case.name),
        );
    }
}

/// What a disk did; each kind of fault does what it is for.
#[test]
fn salvage_of_damaged_disks() {
    let seed = seed();
    let mut seen = BTreeSet::new();
    for index in 0..count(4000) {
        let mut rng = Rng::of_case(seed ^ 0xD15C, index);
        let fault = DISK_FAULTS[index as usize % DISK_FAULTS.len()];
        let case = disk_fault(&mut rng, fault);
        let name = format!("seed {seed} disk {index} {}", case.name);
        let Made { tuples, ranges, .. } = judge(&case.bytes, &name).expect("a mark");
        let dropped = ranges.iter().any(|range| range[0] == 0);
        let left_over = !case.bytes.len().is_multiple_of(4);
        let label = format!("{fault:?}");
        seen.insert((
            label.clone(),
            if tuples > 0 { "kept" } else { "kept nothing" },
        ));
        seen.insert((
            label.clone(),
            if dropped {
                "dropped"
            } else {
                "dropped nothing"
            },
        ));
        seen.insert((label, if left_over { "left over" } else { "even" }));
    }
    for fault in DISK_FAULTS {
        let label = format!("{fault:?}");
        let met = |what| seen.contains(&(label.clone(), what));
        assert!(met("dropped"), "{label}");
        assert!(met("kept") || label == "Short", "{label}");
    }
    for (label, what) in [
        ("Short", "dropped nothing"), // the mark alone
        ("Short", "kept nothing"),
        ("Rubbish", "kept nothing"),
        ("LeftOver", "left over"),
        ("Cut", "left over"),
        ("Lost", "left over"),
        ("Repeated", "left over"),
    ] {
        assert!(seen.contains(&(label.to_string(), what)), "{label} {what}");
    }
}

#[test]
fn salvage_of_limits() {
    for case in (0..limit_count()).flat_map(limit) {
        // the definition is slow, and a table of three numbers a byte long
        if case.bytes.len() < 40_000 {
            judge(&case.bytes, &case.name);
        }
    }
}

/// The check's codes for what a tuple breaks by itself, and for what stands around it.
const OWN: [u32; 9] = [3, 5, 6, 8, 9, 11, 23, 24, 25];
const AROUND: [u32; 5] = [7, 12, 13, 14, 17];

/// Where the making of a case tells the check's answer, the tuple there is dropped for
/// what it breaks by itself. For what stands around it none is, unless it is broken too:
/// the check tells a link before samples, and salvage looks at these alone.
#[test]
fn what_is_judged_and_what_is_not() {
    let seed = seed();
    let mut seen = BTreeSet::new();
    for index in 0..count(8000) {
        for case in file_case(seed, index) {
            let told = case.expected.filter(|(code, _)| *code > 2);
            let Some((code, place)) = told else {
                continue;
            };
            let around = AROUND.contains(&code);
            if !around && !OWN.contains(&code) {
                continue;
            }
            let name = format!("seed {seed} case {index} {}", case.name);
            let place = place as usize;
            let file = File::new(&case.bytes).expect("a mark");
            let sound = around && tuple_faults(&file, place).is_empty();
            let made = made(&case.bytes, &name);
            let mut ranges = made.ranges.iter();
            let range = ranges.find(|[_, from, to]| (*from..*to).contains(&place));
            assert_eq!(range.map(|range| range[0] == 1), Some(sound), "{name}");
            seen.insert((code, sound));
        }
    }
    let kept: Vec<u32> = seen
        .iter()
        .filter(|seen| seen.1)
        .map(|seen| seen.0)
        .collect();
    assert_eq!(kept, AROUND);
    let dropped: Vec<u32> = seen
        .iter()
        .filter(|seen| !seen.1)
        .map(|seen| seen.0)
        .collect();
    assert!(OWN.iter().all(|code| dropped.contains(code)), "{dropped:?}");
}

/// 1 and 2, then 27 and then 19, all at 0.
#[test]
fn order_of_refusals() {
    let long = vec![0; 16_777_217];
    refused(&long, 0, 0, 1);
    for file in [
        &[][..],
        &[0xAC, 0, 0],
        &[0, 0xAC, 0, 0, 1, 2, 3, 4],
        &[1; 40],
    ] {
        refused(file, 0, 0, 2);
        refused(file, 60, 60, 2);
    }
    // a tuple, four bytes of nothing, a tuple: three ranges, 36 bytes of output
    let file = marked(Order::Lsb, |file| {
        file.tuple(65400, 16, |_| {});
        file.four(0);
        file.tuple(65401, 16, |_| {});
    });
    for (length, entries, code) in [
        (36, 8, 27),
        (0, 8, 27),
        (35, 8, 27),
        (35, 9, 19),
        (0, 9, 19),
    ] {
        refused(&file, length, entries, code);
    }
    let made = made(&file, "two tuples");
    assert_eq!(made.ranges, [[1, 4, 20], [0, 20, 24], [1, 24, 40]]);
    assert_eq!((made.tuples, made.tried), (2, 3));
}

/// The mark alone has no range, and needs no table.
#[test]
fn mark_alone() {
    for order in Order::BOTH {
        let told = Salvaged {
            ranges: 0,
            tried: 0,
        };
        let mut out = [7; 5];
        let answer = salvage(&order.mark(), &mut out, &mut []);
        assert_eq!(answer, Ok((Answer::accepted(0, 4), told)));
        assert_eq!((&out[..4], out[4]), (&order.mark()[..], 7));
        refused(&order.mark(), 3, 0, 19);
    }
}

/// Fewer bytes than a tuple has: one dropped range, at each fourth of which a tuple was
/// looked for.
#[test]
fn under_sixteen_bytes() {
    for order in Order::BOTH {
        for behind in 1..16 {
            let file = [&order.mark()[..], &lent(behind)].concat();
            let made = judge(&file, "short").unwrap();
            assert_eq!(made.ranges, [[0, 4, 4 + behind]]);
            assert_eq!((made.tuples, made.tried), (0, behind.div_ceil(4) as u64));
            assert_eq!(made.out, order.mark());
        }
    }
}

/// One to three bytes left over belong to the last dropped range: one of their own behind
/// a tuple, and what is dropped before them else.
#[test]
fn left_over() {
    for order in Order::BOTH {
        let tuple = marked(order, |file| file.tuple(65400, 16, |_| {}));
        for bytes in 1..4 {
            let file = [&tuple[..], &vec![0xFF; bytes]].concat();
            let made = judge(&file, "behind a tuple").unwrap();
            assert_eq!(made.ranges, [[1, 4, 20], [0, 20, 20 + bytes]]);
            assert_eq!((made.tuples, made.tried), (1, 2));
            let file = [&tuple[..], &vec![0xFF; 8 + bytes]].concat();
            let made = judge(&file, "behind what is dropped").unwrap();
            assert_eq!(made.ranges, [[1, 4, 20], [0, 20, 28 + bytes]]);
            assert_eq!((made.tuples, made.tried), (1, 4));
        }
    }
}

/// Only offsets divisible by four are tried.
#[test]
fn off_the_grid() {
    let tuple = &marked(Order::Lsb, |file| file.tuple(65400, 16, |_| {}))[4..];
    for (before, kept) in [(0, 1), (1, 0), (2, 0), (3, 0), (4, 1)] {
        let file = [&Order::Lsb.mark()[..], &vec![0xFF; before], tuple].concat();
        assert_eq!(judge(&file, "off the grid").unwrap().tuples, kept);
    }
}

/// What a whole check would refuse for what stands around a tuple is kept: no first
/// signature, a second one, a ping of no channel, an identifier twice, an end of file in
/// the middle and none at the end, no class that a file must have.
#[test]
fn what_stands_around_is_not_judged() {
    for order in Order::BOTH {
        let file = marked(order, |file| {
            file.tuple(65534, 24, |_| {});
            file.tuple(65535, 24, |bytes| bytes.two(0xACAC));
            file.tuple(65535, 24, |bytes| bytes.two(44201));
            for _ in 0..2 {
                file.tuple(200, 80, |_| {});
            }
            file.tuple(10000, 40, |_| {});
            file.tuple(12345, 16, |_| {});
        });
        let made = judge(&file, "around").unwrap();
        assert_eq!(made.ranges, [[1, 4, file.len()]]);
        assert_eq!((made.tuples, made.tried), (7, 7));
    }
}

/// A signature with a third number goes; neither of the two known ones does.
#[test]
fn identifiers() {
    for order in Order::BOTH {
        for (identifier, kept) in [(44201, 1), (44204, 1), (44202, 0), (0, 0)] {
            let put = |bytes: &mut Bytes| bytes.two(identifier);
            let file = marked(order, |file| file.tuple(65535, 24, put));
            assert_eq!(judge(&file, "signature").unwrap().tuples, kept);
        }
    }
}

/// A C-32 ping whose words are a whole navigation tuple: of the right number of samples
/// it is kept, of another number it goes and the tuple inside stays, looking like one.
#[test]
fn a_tuple_inside_a_ping() {
    for order in Order::BOTH {
        let inside = marked(order, |file| file.tuple(30, 28, |_| {}));
        let around = |count: u32| {
            survey(order, |file| {
                file.tuple(10010, 36 + 28, |bytes| {
                    bytes.bytes.extend([0; 18]);
                    bytes.four(count);
                    bytes.bytes.extend(&inside[4..]);
                })
            })
        };
        let ping = FIRST_PING as usize;
        let whole = judge(&around(7), "right").unwrap();
        assert_eq!((whole.tuples, whole.tried), (6, 6));
        let file = around(8);
        let made = judge(&file, "wrong").unwrap();
        let [head, tail] = [ping + 28, ping + 56];
        let expected = [
            [1, 4, ping],
            [0, ping, head],
            [1, head, tail],
            [0, tail, tail + 8],
            [1, tail + 8, file.len()],
        ];
        assert_eq!(made.ranges, expected);
        // four before the ping, seven in its head, the one inside, two behind it, the end
        assert_eq!((made.tuples, made.tried), (6, 4 + 7 + 1 + 2 + 1));
    }
}

/// The damaged sample, whose ranges are worked out by hand. From 872 on a ping of 68
/// bytes has lost its backlink and the next, as long, its size; the ping of 88 bytes at
/// 1084 has a third sample number below the second.
#[test]
fn the_damaged_cruise() {
    let damaged = include_bytes!("../../samples/damaged-lsb.hac");
    let salvaged = include_bytes!("../../samples/damaged-salvaged.hac");
    let made = judge(damaged, "the damaged cruise").unwrap();
    let expected = [
        [1, 4, 872],
        [0, 872, 872 + 2 * 68],
        [1, 1008, 1084],
        [0, 1084, 1084 + 88],
        [1, 1172, 1380],
    ];
    assert_eq!(made.ranges, expected);
    assert_eq!(made.out, salvaged);
    // of 26 tuples 3 are lost; where they were, each fourth byte was tried
    assert_eq!((made.tuples, made.tried), (23, 23 + 2 * 68 / 4 + 88 / 4));
    for (place, code, fault) in [(872, 6, 872), (940, 5, 940), (1084, 23, 1124)] {
        assert_eq!(
            kept_until(damaged, place),
            Err(Answer::refused(code, fault))
        );
    }
    assert_eq!(check(damaged), Answer::refused(6, 872));
    assert!(check(salvaged).is_accepted());
}

/// The longest file of nothing: one range, and every fourth place tried.
#[test]
fn the_longest_of_zeros() {
    let file = marked(Order::Lsb, |file| file.bytes.resize(16_777_216, 0));
    let (mut out, mut table) = ([0; 4], [9; 3]);
    let told = Salvaged {
        ranges: 1,
        tried: 4_194_303,
    };
    let answer = salvage(&file, &mut out, &mut table);
    assert_eq!(answer, Ok((Answer::accepted(0, 4), told)));
    assert_eq!(table, [0, 4, 16_777_216]);
}
