//! Two faults at a time: the table below was worked out by hand from 01's line
//! on the order, and from the lengths of the tuples as they are written here.

mod common;

use common::bytes;
use second::{check, normalise, Answer};

fn z(count: usize) -> String {
    "00".repeat(count)
}

/// A number of two or four bytes, least significant first.
fn two(number: u16) -> String {
    format!("{:02x}{:02x}", number & 255, number >> 8)
}

fn four(number: u32) -> String {
    format!("{}{}", two(number as u16), two((number >> 16) as u16))
}

// LSB tuples. Lengths: signature 24, sounder 72, channel 108, position 36,
// U-32 ping of one pair 40, end of file 24. So a file of these six has them at
// 4, 28, 100, 208, 244 and 284, and ends at 308.

const MARK: &str = "ac000000";
const SIGNATURE: &str = "0e000000 ffff acac 6400 6400 acac01df 00000000 18000000";
const POSITION: &str =
    "1a000000 1400 0000 00000000 00000000 0000 0000 00000000 00000000 00000000 24000000";
const END: &str = "0e000000 feff 0000 00000000 0000 0000 00000000 18000000";

fn sounder(count: u16, document: u32) -> String {
    format!(
        "3e000000 6400 {} {} {} 48000000",
        two(count),
        four(document),
        z(56)
    )
}

fn channel(id: u16, document: u32) -> String {
    format!(
        "62000000 e803 {} {} {} 6c000000",
        two(id),
        four(document),
        z(92)
    )
}

/// A U-32 ping of the pair (0, 5).
fn ping(channel: u16) -> String {
    pairs(channel, "00000000 05000000")
}

fn pairs(channel: u16, pairs: &str) -> String {
    let length = 32 + bytes(pairs).len() as u32;
    let header = format!("1027 0000 00000000 {} 0000 00000000 00000000", two(channel));
    format!(
        "{} {header} {pairs} 00000000 {}",
        four(length - 10),
        four(length)
    )
}

fn words(channel: u16, count: u32, words: &str) -> String {
    let length = 36 + bytes(words).len() as u32;
    let header = format!("1a27 0000 00000000 {} 0000 00000000 00000000", two(channel));
    let count = four(count);
    format!(
        "{} {header} {count} {words} 00000000 {}",
        four(length - 10),
        four(length)
    )
}

/// The file of six up to the ping, so 284 bytes.
fn six(tuples: &[&str]) -> Vec<u8> {
    let head = [
        MARK,
        SIGNATURE,
        &sounder(1, 1),
        &channel(1, 1),
        POSITION,
        &ping(1),
    ]
    .concat();
    bytes(&(head + &tuples.concat()))
}

fn file(tuples: &[&str]) -> Vec<u8> {
    bytes(&(MARK.to_string() + &tuples.concat()))
}

/// Sounders 1 to 64, from place 28 on; they end at 28 + 64 * 72 = 4636.
fn all_sounders() -> String {
    (1..=64).map(|id| sounder(0, id)).collect()
}

/// A sounder at 28 and channels 1 to 1,024, from 100 to 100 + 1,024 * 108 = 110,692.
fn all_channels() -> String {
    let channels: String = (1..=1024).map(|id| channel(id, 1)).collect();
    sounder(1024, 1) + &channels
}

#[test]
fn check_answers() {
    // size 14 like a signature, but a backlink of 25
    let crooked_signature = "0e000000 ffff acac 6400 6400 acac01df 00000000 19000000";
    let crooked_position = POSITION.replace("24000000", "25000000");
    let long_signature = "12000000 ffff acac 6400 6400 acac01df 00000000 00000000 1c000000";
    // 44203, which is no identifier, and 44201, which is one
    let long_strange_signature = "12000000 ffff abac 6400 6400 acac01df 00000000 00000000 1c000000";
    let strange_signature = "0e000000 ffff abac 6400 6400 acac01df 00000000 18000000";
    let long_printed_signature = long_strange_signature.replace("abac", "a9ac");
    let printed_signature = strange_signature.replace("abac", "a9ac");
    let short_position = "06000000 1400 0000 00000000 10000000";
    let short_end = "0a000000 feff 0000 00000000 00000000 14000000";
    // sounder 1 once more, but 76 bytes long
    let long_sounder = format!("42000000 6400 0000 01000000 {} 4c000000", z(60));
    let long_channel = format!("66000000 e803 0100 09000000 {} 70000000", z(96));
    // a ping of channel 9, 36 bytes long
    let short_ping =
        "1a000000 1027 0000 00000000 0900 0000 00000000 00000000 00000000 00000000 24000000";
    let many = |bad: &str| bad.to_string() + &"01000000".repeat(32_764);
    let private = "06000000 78ff 0000 00000000 10000000";

    #[rustfmt::skip]
    let table: Vec<(&str, Vec<u8>, u32, u64)> = vec![
        ("sound", six(&[END]), 0, 0),
        // 2: neither mark, though tuples would be broken too
        ("2 before 3", bytes("ac0000"), 2, 0),
        ("2 before 3", bytes("ad000000 00"), 2, 0),
        ("2 before 7", bytes("00ac0000 0600000078ff00000000000010000000"), 2, 0),
        // 4: nothing left, whatever else is missing
        ("4 before 16", file(&[SIGNATURE]), 4, 28),
        ("4 before 7", file(&[]), 4, 4),
        ("4 before 17", [&bytes(MARK)[..], &bytes(SIGNATURE), &bytes(&sounder(9, 1))].concat(), 4, 100),
        // 3 for under 16 bytes left, before a size that isn't allowed
        ("3 before 5", six(&["01000000 feff 0000 00000000 0000 00"]), 3, 284),
        ("3 before 5 in the first", file(&["00000000 00000000 00000000 000000"]), 3, 4),
        ("3 before 7", file(&["0a000000 1400"]), 3, 4),
        // 5 before 3 for passing the end: 262,148 bytes, and 2^32 + 9
        ("5 before 3", six(&["f6fffffe feff 0000 00000000 0000 0000"]), 5, 284),
        ("5 before 3 past 32 bits", six(&["ffffffff feff 0000 00000000 0000 0000"]), 5, 284),
        ("5 before 3, 262,148", six(&["faff0300 feff 0000 00000000 0000 0000"]), 5, 284),
        // 5 before 6: length 14 with a backlink of 24
        ("5 before 6", six(&["04000000 feff 0000 00000000 0000 0000 00000000 18000000"]), 5, 284),
        // 3 before 6 and 7: 262,144 bytes, none of them there
        ("3 before 6", six(&["f6ff0300 ffff 0000 00000000 0000 0000 00000000 18000000"]), 3, 284),
        ("3 before 7 at first", file(&["f6ff0300 1400 0000 00000000 0000"]), 3, 4),
        // 6 before 7, in the first and in a later tuple
        ("6 before 7", file(&[&crooked_position, END]), 6, 4),
        ("6 before 7 later", six(&[crooked_signature, END]), 6, 284),
        ("6 before 9", six(&["06000000 1400 0000 00000000 11000000", END]), 6, 284),
        // 7 before 9 and 8
        ("7 before 9, second signature", six(&[long_signature, END]), 7, 284),
        ("7 before 8, second signature", six(&[strange_signature, END]), 7, 284),
        ("7, second signature with 44201", six(&[&printed_signature, END]), 7, 284),
        ("7 before 9, no signature", file(&[short_position, SIGNATURE, END]), 7, 4),
        ("7, end of file first", file(&[END]), 7, 4),
        ("7 before 9, short end of file first", file(&[short_end]), 7, 4),
        ("7 before 13, ping first", file(&[&ping(1), SIGNATURE, END]), 7, 4),
        // 9 before 8: 28 bytes and 44203
        ("9 before 8", file(&[long_strange_signature, END]), 9, 4),
        ("9", file(&[long_signature, END]), 9, 4),
        ("9 with 44201", file(&[&long_printed_signature, END]), 9, 4),
        ("8", file(&[strange_signature, END]), 8, 4),
        ("no 8 with 44201", file(&[&printed_signature, END]), 16, 52),
        ("no 8 with 44201, sound", file(&[&printed_signature, &sounder(1, 1), &channel(1, 1), POSITION, &ping(1), END]), 0, 0),
        // 9 before 12, 13, and what comes behind
        ("9 before 12", six(&[&long_sounder, END]), 9, 284),
        ("9 before 12 and 13", six(&[&long_channel, END]), 9, 284),
        ("9 before 13", six(&[short_ping, END]), 9, 284),
        ("9 before 15", six(&[short_end, END]), 9, 284),
        // 12 before 14: the 65th sounder is 64 again, the 1,025th channel 1,024 again
        ("12 before 14, sounders", file(&[SIGNATURE, &all_sounders(), &sounder(0, 64), END]), 12, 4636),
        ("12 before 14, the first sounder", file(&[SIGNATURE, &all_sounders(), &sounder(0, 1), END]), 12, 4636),
        ("14, sounders", file(&[SIGNATURE, &all_sounders(), &sounder(0, 65), END]), 14, 4636),
        ("12 before 14, channels", file(&[SIGNATURE, &all_channels(), &channel(1024, 1), END]), 12, 110_692),
        ("12 before 14, the first channel", file(&[SIGNATURE, &all_channels(), &channel(1, 1), END]), 12, 110_692),
        ("12 before 14 and 13", file(&[SIGNATURE, &all_channels(), &channel(1024, 2), END]), 12, 110_692),
        ("14, channels", file(&[SIGNATURE, &all_channels(), &channel(1025, 1), END]), 14, 110_692),
        // 14 before 13: the 1,025th channel names sounder 2, which isn't there
        ("14 before 13", file(&[SIGNATURE, &all_channels(), &channel(1025, 2), END]), 14, 110_692),
        ("13 behind a full table", file(&[SIGNATURE, &all_channels(), &ping(1025), END]), 13, 110_692),
        ("full, channels", file(&[SIGNATURE, &all_channels(), POSITION, &ping(1024), END]), 0, 0),
        // 12 before 13: channel 1 again, of an unknown sounder
        ("12 before 13", six(&[&channel(1, 9), END]), 12, 284),
        ("13, channel of an unknown sounder", six(&[&channel(2, 9), END]), 13, 284),
        // 13 before 11, 23, 24 and 25
        ("13 before 11", six(&[&words(9, 32_765, &many("01000000")), END]), 13, 284),
        ("13 before 23", six(&[&pairs(9, "05000000 00000000 05000000 00000000"), END]), 13, 284),
        ("13 before 24", six(&[&words(9, 1, "0000ff7f"), END]), 13, 284),
        ("13 before 25", six(&[&words(9, 7, "01000000"), END]), 13, 284),
        // 11 before 24 and 25: a bad word counts, and the count is wrong too
        ("11 before 24", six(&[&words(1, 32_765, &many("0000ff7f")), END]), 11, 284),
        ("11 before 25", six(&[&words(1, 0, &many("01000000")), END]), 11, 284),
        ("11 before 24 and 25", six(&[&words(1, 0, &many("0000ff7f")), END]), 11, 284),
        // 24 has the word's place, from 284 + 28 on, and 25 the count's, 284 + 24
        ("24, bad word among 32,764", six(&[&words(1, 32_764, &many("0000ff7f")[..8 * 32_764]), END]), 24, 312),
        ("24 before 25", six(&[&words(1, 0, "01000000 0000ffff ffff0080"), END]), 24, 320),
        ("24, the first of two", six(&[&words(1, 4, "01000000 0000ff7f 01000000 00000080"), END]), 24, 316),
        ("25, run instead of the 32,765th", six(&[&words(1, 32_765, &many("0000ffff")), END]), 25, 308),
        // 23 has the number's place: pairs stand from 284 + 24 on
        ("23", six(&[&pairs(1, "05000000 00000000 05000000 00000000"), END]), 23, 316),
        (
            "23, the first of two",
            six(&[&pairs(1, "05000000 00000000 06000000 00000000 06000000 00000000 01000000 00000000"), END]),
            23,
            324,
        ),
        // the tuples are judged in file order
        (
            "23 of an earlier tuple before 5",
            six(&[&pairs(1, "05000000 00000000 05000000 00000000"), "01000000 feff 0000 00000000 0000 0000"]),
            23,
            316,
        ),
        ("25 of an earlier tuple before 24", six(&[&words(1, 7, "01000000"), &words(1, 1, "0000ff7f"), END]), 25, 308),
        (
            "24 of an earlier tuple before 23",
            six(&[&words(1, 1, "0000ff7f"), &pairs(1, "05000000 00000000 05000000 00000000"), END]),
            24,
            312,
        ),
        ("13 of an earlier tuple before 7", six(&[&ping(2), SIGNATURE]), 13, 284),
        ("13, declared later", six(&[&ping(2), &channel(2, 1), END]), 13, 284),
        ("8 before all behind it", file(&[strange_signature, POSITION, SIGNATURE]), 8, 4),
        // 15 before 3, 5, 7, 16 and 17
        ("15 before 3", six(&[END, "00"]), 15, 308),
        ("15 before 5", six(&[END, &z(16)]), 15, 308),
        ("15 before 7", six(&[END, SIGNATURE]), 15, 308),
        ("15, a second end", six(&[END, END]), 15, 308),
        ("15 before 16", file(&[SIGNATURE, END, "00"]), 15, 52),
        ("15 before 17", file(&[SIGNATURE, &sounder(3, 1), END, "00"]), 15, 124),
        // 16 before 17
        ("16 before 17", file(&[SIGNATURE, &sounder(3, 1), END]), 16, 124),
        ("17", file(&[SIGNATURE, &sounder(3, 1), &channel(1, 1), POSITION, &ping(1), END]), 17, 28),
        (
            "17, the first of two",
            file(&[SIGNATURE, &sounder(1, 1), &sounder(1, 7), &channel(1, 1), &sounder(2, 3), POSITION, &ping(1), END]),
            17,
            100,
        ),
        (
            "17 though the other is right",
            file(&[SIGNATURE, &sounder(0, 1), &channel(1, 1), &sounder(0, 2), POSITION, &ping(1), END]),
            17,
            28,
        ),
        // an unlisted tuple breaks none of this
        ("private", six(&[private, END]), 0, 0),
    ];
    for (nth, (name, file, code, place)) in table.iter().enumerate() {
        let answer = check(file);
        assert_eq!(
            (answer.code, answer.place),
            (*code, *place),
            "row {nth}: {name}"
        );
    }
}

#[test]
fn one_before_two() {
    assert_eq!(check(&vec![1; 16_777_217]), Answer::refused(1, 0));
    assert_eq!(check(&vec![1; 16_777_216]), Answer::refused(2, 0));
}

/// MSB: an unlisted tuple in a sound file, and one in a file with another
/// fault behind it. 18 has the first such tuple; the index class has none.
#[test]
fn eighteen_comes_last_but_before_nineteen() {
    let mark = "000000ac";
    let signature = "0000000e ffff acac 0064 0064 df01acac 00000000 00000018";
    let sounder = format!("0000003e 0064 0001 00000001 {} 00000048", z(56));
    let channel = format!("00000062 03e8 0001 00000001 {} 0000006c", z(92));
    let position = format!("0000001a 0014 {} 00000024", z(26));
    let ping = "0000001e 2710 0000 00000000 0001 0000 00000000 00000000 00000000 00000005 00000000 00000028";
    let end = "0000000e fffe 0000 00000000 0000 0000 00000000 00000018";
    let private = "00000006 ff78 0000 00000000 00000010";
    let index = "00000006 ff7e 0000 00000000 00000010";
    let head = [mark, signature, &sounder, &channel, &position, ping].concat();

    let mut out = [0; 400];
    let sound = bytes(&[&head, index, end].concat());
    // the channel's sounder and the ping's channel
    let compared = 2;
    assert_eq!(check(&sound), Answer::checked(7, 0, compared));
    assert_eq!(
        normalise(&sound, &mut out),
        Answer::checked(7, 308 + 32, compared) // the index of six types
    );
    assert_eq!(normalise(&sound, &mut out[..339]), Answer::refused(19, 0));

    let unlisted = bytes(&[&head, index, private, private, end].concat());
    assert_eq!(check(&unlisted), Answer::checked(9, 0, compared));
    assert_eq!(normalise(&unlisted, &mut out), Answer::refused(18, 300));
    assert_eq!(normalise(&unlisted, &mut []), Answer::refused(18, 300));

    let broken = bytes(&[&head, private, end, "00"].concat());
    assert_eq!(normalise(&broken, &mut out), Answer::refused(15, 324));
    let wrong_count = bytes(
        &[
            mark,
            signature,
            &sounder.replace("0064 0001", "0064 0002"),
            &channel,
            &position,
            ping,
            private,
            end,
        ]
        .concat(),
    );
    assert_eq!(normalise(&wrong_count, &mut out), Answer::refused(17, 28));
}
