//! A signature's identifier: 44201 and 44204 are read in both byte orders and say
//! the same, 44204 alone is written, and every third number gives 8.

mod common;

use common::{bytes, count, lent, seed, tuples};
use second::gen::{
    equal_pair, fault, file_case, frames, line_case, sound_case, Case, Kind, Rng, FAULT_KINDS,
};
use second::programs::{decode, normalise_tuple, program_one, program_two};
use second::records::Signature;
use second::walk::{backward, forward, Step};
use second::{check, content, normalise, parents, Answer, Order};
use std::collections::BTreeSet;

const BOTH: [u16; 2] = [44201, 44204];

/// Third numbers: beside the two, at the ends, 44201 with its bytes swapped, the
/// two's halves. 44204 with its bytes swapped is 44204.
const THIRD: [u16; 10] = [
    44200, 44202, 44203, 44205, 0, 65535, 0xA9AC, 0xA9A9, 0x00AC, 0xAC00,
];

/// A small file, its signature's identifier left out: what stands before it, and
/// what behind it. Tuples at 4, 28, 64, 136, 244, 304; 328 bytes.
const LSB: [&str; 2] = [
    "ac000000 0e000000 ffff",
    "6400 6400 acac01df 00000000 18000000
    1a0000001400feff3c0000004c0e000001000707c0bdf0ff0090d0030000000024000000
    3e0000006400010009030000983a3200e2ff03000100e7030c00ecff00000000736f756e64657220202020202020202020202020\
    2020202020202020202007070000000048000000
    62000000e803050009030000204e00000100000002000707c0d401005e010000ffff0200fdff0400010002000300040005000600\
    070068c5580278ec64000000204e00006368616e6e656c20202020202020202020202020202020202020202020200707010000006c000000
    320000001a2701003d0000000500000009000000ffffff7f020000000000ffff0100ffff640000000000ffffffffffff90eefeff000000003c000000
    0e000000feff07003e00000000006f6b0000000018000000",
];

/// Its one channel names its one sounder, and its ping that channel.
const COMPARED: u64 = 2;

/// The same in MSB order.
const MSB: [&str; 2] = [
    "000000ac 0000000e ffff",
    "0064 0064 df01acac 00000000 00000018
    0000001a0014fffe0000003c00000e4c00010707fff0bdc003d090000000000000000024
    0000003e00640001000003093a980032ffe20003000103e7000cffec00000000736f756e64657220202020202020202020202020\
    2020202020202020202007070000000000000048
    0000006203e800050000030900004e2000010000000207070001d4c00000015effff0002fffd0004000100020003000400050006\
    0007c5680258ec780000006400004e206368616e6e656c20202020202020202020202020202020202020202020200707000000010000006c
    00000032271a00010000003d00050000000000097fffffff00000002ffff0000ffff000100000064ffff0000fffffffffffeee90000000000000003c
    0000000efffe00070000003e00006f6b0000000000000018",
];

/// The one normal form: the mark and the signature, then the others.
const NORMAL_SIGNATURE: &str = "ac000000\n0e000000ffffacac64006400acac01df0000000018000000\n";
const NORMAL_REST: &str = "\
1a0000001400feff3c0000004c0e000001000000c0bdf0ff0090d0030000000024000000
3e0000006400010009030000983a3200e2ff03000100e7030c00ecff00000000736f756e646572202020202020202020202020202020\
    202020202020202000000000000048000000
62000000e803050009030000204e00000100000002000000c0d401005e010000ffff0200fdff04000100020003000400050006000700\
    68c5580278ec64000000204e00006368616e6e656c20202020202020202020202020202020202020202020200000010000006c000000
26000000102701003d0000000500000009000000ffffff7f03000000640000000500010090eefeff0000000030000000
160000007eff00000000000014006400e8031027feffffff0000000020000000
0e000000feff07003e00000000006f6b0000000018000000
";

fn normal_text() -> String {
    format!("{NORMAL_SIGNATURE}{NORMAL_REST}")
}

/// Where the identifier stands in a file that begins with a signature.
const AT: usize = 10;

/// Mark and signature of the small file.
const SIGNATURE_END: usize = 28;

/// The small file with a number for its identifier.
fn small(order: Order, number: u16) -> Vec<u8> {
    let (high, low) = ((number >> 8) as u8, number as u8);
    let ([before, behind], number) = match order {
        Order::Lsb => (LSB, [low, high]),
        Order::Msb => (MSB, [high, low]),
    };
    let file = [bytes(before), number.to_vec(), bytes(behind)].concat();
    assert_eq!(file.len(), 328);
    file
}

/// What a program prints on a file's lines.
fn printed(program: fn(&[u8]) -> Vec<u8>, file: &[u8]) -> String {
    String::from_utf8(program(frames(file).join("\n").as_bytes())).unwrap()
}

/// The small file's four spellings.
fn spellings() -> impl Iterator<Item = (Order, u16, Vec<u8>)> {
    let pairs = Order::BOTH
        .into_iter()
        .flat_map(|order| BOTH.map(|n| (order, n)));
    pairs.map(|(order, number)| (order, number, small(order, number)))
}

/// The bytes themselves: 44201 is 0xACA9.
#[test]
fn spelled_out() {
    let [lsb, msb] = [LSB, MSB].map(|[before, behind]| {
        move |number: &str| check(&bytes(&format!("{before} {number} {behind}")))
    });
    let (accepted, refused) = (Answer::checked(6, 0, COMPARED), Answer::refused(8, 4));
    assert_eq!([lsb("acac"), msb("acac")], [accepted, accepted]);
    assert_eq!([lsb("a9ac"), msb("aca9")], [accepted, accepted]);
    assert_eq!([lsb("aca9"), msb("a9ac")], [refused, refused]);
}

#[test]
fn checked() {
    for (order, number, file) in spellings() {
        let accepted = Answer::checked(6, 0, COMPARED);
        assert_eq!(check(&file), accepted, "{order:?} {number}");
    }
}

#[test]
fn read_alike() {
    let expected = Signature {
        hac_version: 100,
        acquisition_software_version: 100,
        acquisition_software_identifier: 0xDF01_ACAC,
        tuple_attribute: 0,
    };
    for (order, number, file) in spellings() {
        let reply = Signature::read(&file, 4);
        let accepted = Ok((Answer::accepted(1, 0), expected));
        assert_eq!(reply, accepted, "{order:?} {number}");
        // nothing behind the signature is asked for
        assert_eq!(Signature::read(&file[..SIGNATURE_END], 4), accepted);
    }
}

#[test]
fn one_normal_form() {
    let normal = bytes(&normal_text());
    for (order, number, file) in spellings() {
        let name = format!("{order:?} {number}");
        let length = normal.len();
        let mut out = lent(length + 5);
        let answer = normalise(&file, &mut out);
        let accepted = Answer::checked(6, length as u64, COMPARED);
        assert_eq!(answer, accepted, "{name}");
        assert_eq!(out[..length], normal, "{name}");
        assert_eq!(out[length..], lent(length + 5)[length..], "{name}");
        let mut short = lent(length - 1);
        assert_eq!(normalise(&file, &mut short), Answer::refused(19, 0));
        assert_eq!(short, lent(length - 1), "{name}");
        assert_eq!(printed(program_one, &file), normal_text(), "{name}");
    }
}

#[test]
fn one_normal_tuple() {
    let normal = bytes(NORMAL_SIGNATURE);
    for (order, number, file) in spellings() {
        let name = format!("{order:?} {number}");
        let single = &file[..SIGNATURE_END];
        let mut out = lent(40);
        assert_eq!(
            normalise_tuple(single, &mut out),
            Answer::accepted(1, 28),
            "{name}"
        );
        assert_eq!(out[..28], normal, "{name}");
        assert_eq!(out[28..], lent(40)[28..], "{name}");
        let mut short = lent(27);
        assert_eq!(normalise_tuple(single, &mut short), Answer::refused(19, 0));
        assert_eq!(short, lent(27), "{name}");
        assert_eq!(printed(program_two, single), NORMAL_SIGNATURE, "{name}");
        // other tuples behind it
        assert_eq!(printed(program_two, &file), "refused 15 28\n", "{name}");
    }
}

#[test]
fn equal_content() {
    let contents: Vec<_> = spellings()
        .map(|(_, _, file)| content(&file).unwrap())
        .collect();
    assert!(contents.iter().all(|content| *content == contents[0]));
}

/// What every way to a signature says of the small file with a number.
fn answers(file: &[u8], out: &mut [u8]) -> [Answer; 6] {
    let single = &file[..SIGNATURE_END];
    let read = |file| match Signature::read(file, 4) {
        Ok((answer, _)) | Err(answer) => answer,
    };
    let asked = match parents(file, 244) {
        Ok((answer, _)) | Err(answer) => answer,
    };
    [
        check(file),
        read(file),
        read(single),
        normalise(file, out),
        normalise_tuple(single, out),
        asked,
    ]
}

/// All numbers of two bytes in both orders: 8 for all but two.
#[test]
fn every_third_number_gives_8() {
    for order in Order::BOTH {
        for number in (0..=u16::MAX).filter(|number| !BOTH.contains(number)) {
            let file = small(order, number);
            let mut out = [7; 400];
            let refused = [Answer::refused(8, 4); 6];
            assert_eq!(answers(&file, &mut out), refused, "{order:?} {number}");
            assert_eq!(out, [7; 400], "{order:?} {number}");
            assert_eq!(content(&file), Err(Answer::refused(8, 4)));
        }
        for number in BOTH {
            let answers = answers(&small(order, number), &mut [0; 400]);
            assert!(answers.iter().all(Answer::is_accepted), "{answers:?}");
        }
    }
}

#[test]
fn programs_refuse_third_numbers() {
    for order in Order::BOTH {
        for number in THIRD {
            let file = small(order, number);
            for program in [program_one as fn(&[u8]) -> Vec<u8>, program_two] {
                assert_eq!(printed(program, &file), "refused 8 4\n", "{number}");
                let single = &file[..SIGNATURE_END];
                assert_eq!(printed(program, single), "refused 8 4\n", "{number}");
            }
        }
    }
}

/// A reader's 8 has the place asked at, wherever that is.
#[test]
fn a_reader_gives_8_at_its_place() {
    for order in Order::BOTH {
        for number in BOTH.into_iter().chain(THIRD) {
            // a private tuple of 16 bytes before it
            let private = match order {
                Order::Lsb => bytes("06000000 78ff 0000 00000000 10000000"),
                Order::Msb => bytes("00000006 ff78 0000 00000000 00000010"),
            };
            let small = small(order, number);
            let file = [&small[..4], &private, &small[4..SIGNATURE_END]].concat();
            let code = Signature::read(&file, 20).err();
            let expected = (!BOTH.contains(&number)).then_some(Answer::refused(8, 20));
            assert_eq!(code, expected, "{order:?} {number}");
        }
    }
}

/// The identifier of a file that begins with a signature of the right length.
fn identifier(file: &[u8]) -> Option<u16> {
    match forward(file, 4) {
        Step::Tuple { tuple, .. } if (tuple.code, tuple.length) == (65535, 24) => {
            Order::of(file)?.read_two(file, AT)
        }
        _ => None,
    }
}

fn with_identifier(file: &[u8], number: u16) -> Vec<u8> {
    let order = Order::of(file).unwrap();
    let mut file = file.to_vec();
    file[AT..AT + 2].copy_from_slice(&order.from_two(number));
    file
}

/// The answer and what was written.
fn normal(normal: fn(&[u8], &mut [u8]) -> Answer, file: &[u8], room: usize) -> (Answer, Vec<u8>) {
    let mut out = lent(room);
    (normal(file, &mut out), out)
}

/// One number put for the other changes no answer, sound file or not; a third
/// gives 8.
#[test]
fn generated_files_answer_alike() {
    let seed = seed();
    let (mut sound, mut refused) = (0, 0);
    for index in 0..count(4000) {
        for Case { name, bytes, .. } in file_case(seed, index) {
            let Some(number) = identifier(&bytes) else {
                continue;
            };
            let name = format!("seed {seed} case {index} {name}");
            let checked = check(&bytes);
            if !BOTH.contains(&number) {
                assert_eq!(checked, Answer::refused(8, 4), "{name}");
                continue;
            }
            let other = with_identifier(&bytes, BOTH[usize::from(number == BOTH[0])]);
            assert_ne!(bytes, other, "{name}");
            assert_eq!(checked, check(&other), "{name}");
            assert!(content(&bytes) == content(&other), "{name}");
            assert_eq!(Signature::read(&bytes, 4), Signature::read(&other, 4));
            let room = 2 * bytes.len() + 64;
            for writer in [normalise as fn(&[u8], &mut [u8]) -> Answer, normalise_tuple] {
                let written = normal(writer, &bytes, room);
                assert!(written == normal(writer, &other, room), "{name}");
                let (answer, out) = written;
                if answer.is_accepted() {
                    assert_eq!(out[AT..AT + 2], [0xAC, 0xAC], "{name}");
                }
            }
            let end = bytes.len() as u64;
            assert_eq!(backward(&bytes, end), backward(&other, end), "{name}");
            sound += u64::from(checked.is_accepted());
            refused += u64::from(!checked.is_accepted());
            let third = with_identifier(&bytes, THIRD[index as usize % THIRD.len()]);
            assert_eq!(check(&third), Answer::refused(8, 4), "{name}");
        }
    }
    assert!(sound > 100 && refused > 100, "{sound} {refused}");
}

/// Sound files have either number in both orders, each in a fair share.
#[test]
fn the_generator_has_both_numbers() {
    let mut rng = Rng::new(seed());
    let mut files = [[0; 2]; 2];
    for _ in 0..2000 {
        let file = sound_case(&mut rng).bytes;
        let order = usize::from(Order::of(&file) == Some(Order::Msb));
        let number = identifier(&file).and_then(|n| BOTH.iter().position(|m| *m == n));
        files[order][number.expect("a known number")] += 1;
    }
    assert!(files.iter().flatten().all(|n| *n > 250), "{files:?}");
}

/// Equal pairs are at times apart in the identifier alone.
#[test]
fn the_generator_has_pairs_apart_in_the_identifier_alone() {
    let mut rng = Rng::new(seed());
    let mut alone = [0; 2];
    for _ in 0..1000 {
        let (one, other) = equal_pair(&mut rng);
        if one != other && one == with_identifier(&other, identifier(&one).unwrap()) {
            assert_ne!(identifier(&one), identifier(&other));
            assert_eq!(tuples(&one), tuples(&other));
            alone[usize::from(Order::of(&one) == Some(Order::Msb))] += 1;
        }
    }
    assert!(alone.iter().all(|n| *n > 20), "{alone:?}");
}

/// Damaged identifiers are third numbers, all those above among them; other damage
/// by rule comes with either number, where it leaves a signature.
#[test]
fn the_generator_has_third_numbers() {
    let mut rng = Rng::new(seed());
    let mut seen = BTreeSet::new();
    for _ in 0..1000 {
        let case = fault(&mut rng, Kind::Identifier);
        assert_eq!(case.expected, Some((8, 4)));
        let number = identifier(&case.bytes).expect("a signature");
        assert!(!BOTH.contains(&number));
        seen.insert((Order::of(&case.bytes) == Some(Order::Msb), number));
    }
    for number in THIRD {
        assert!(seen.contains(&(false, number)), "{number}");
        assert!(seen.contains(&(true, number)), "{number}");
    }
    for kind in FAULT_KINDS.iter().copied() {
        let cases = (0..60).filter_map(|_| identifier(&fault(&mut rng, kind).bytes));
        let numbers: BTreeSet<u16> = cases.collect();
        match kind {
            Kind::Mark | Kind::NoSignature | Kind::UnfitSignature => {
                assert!(numbers.is_empty(), "{kind:?}");
            }
            Kind::Identifier => {}
            _ => assert!(numbers.into_iter().eq(BOTH), "{kind:?}"),
        }
    }
}

/// The second program's lines have signatures of all three sorts.
#[test]
fn the_generator_has_signatures_alone() {
    let seed = seed();
    let mut seen = [0; 3];
    for index in (0..8000).filter(|index| index % 16 >= 12) {
        let case = line_case(seed, index);
        let Ok(file) = decode(&case.text) else {
            continue;
        };
        if let (true, Some(number)) = (file.len() == SIGNATURE_END, identifier(&file)) {
            let sort = BOTH.iter().position(|m| *m == number).unwrap_or(2);
            seen[sort] += 1;
            let expected = if sort == 2 { 8 } else { 0 };
            assert_eq!(normalise_tuple(&file, &mut [0; 28]).code, expected);
        }
    }
    assert!(seen.iter().all(|n| *n > 10), "{seen:?}");
}
