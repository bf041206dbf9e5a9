//! `hac picture`: echograms, held to what their channel reads.

use crate::damage;
use crate::deposit::{header, Deposit};
use crate::json;
use crate::known::Known;
use crate::png::Picture;
use crate::room::{hac, run, Room};
use hac::*;
use std::fs;
use std::path::Path;

/// The colours of silence, and of the least and the most of decibels and of volts.
const SILENCE: [u8; 3] = [224, 226, 232];
const DECIBELS: [[u8; 3]; 2] = [[28, 24, 96], [168, 16, 40]];
const VOLTS: [[u8; 3]; 2] = [[214, 196, 72], [72, 8, 96]];

/// Where the cells begin below the title, and beside sample numbers of one digit and of four.
const TOP: usize = 84;
const BESIDE_ONE: usize = 44;
const BESIDE_FOUR: usize = 80;

/// Where the scale begins, beside the cells.
const SCALE: usize = 32;

fn picture(room: &Room, deposit: &mut Deposit) -> Picture {
    let path = room.put("file.hac", deposit.ended());
    let out = room.at("out.png");
    let ran = run(hac(["picture"]).arg(&path).args(["1", "-o"]).arg(&out));
    let file = fs::read(&out).expect("a picture");
    let written = format!(
        "picture of {} bytes written to {}",
        file.len(),
        out.display()
    );
    let said = format!("{}: accepted, {written}\n", path.display());
    assert_eq!((ran.status, ran.out, ran.err.as_str()), (0, said, ""));
    Picture::of(&file)
}

/// The colour in the middle of a cell of so many pixels, beside numbers of one digit.
fn cell(picture: &Picture, size: (usize, usize), column: usize, row: usize) -> [u8; 3] {
    let across = BESIDE_ONE + column * size.0 + size.0 / 2;
    picture.pixel(across, TOP + row * size.1 + size.1 / 2)
}

/// Two pings of three numbers: cells of 360 by 180 pixels. The scale runs from the least
/// reading to the most, beside the cells.
#[test]
fn cells_and_scale() {
    for (sample, unit, [least, most]) in [(1, 1_000_000, DECIBELS), (0, 1_000_000, VOLTS)] {
        let room = Room::new();
        let mut deposit = Deposit::of_samples(Order::Lsb, Maker::Biosonics, sample);
        deposit.ping_of(PingKind::U32, &[0, 1], &[-60 * unit, -30 * unit]);
        deposit.ping_of(PingKind::U32, &[2], &[-60 * unit]);
        let picture = picture(&room, &mut deposit);
        let size = (360, 180);
        let colours = [0, 1, 2].map(|row| [0, 1].map(|column| cell(&picture, size, column, row)));
        assert_eq!(
            colours,
            [[least, SILENCE], [most, SILENCE], [SILENCE, least]]
        );
        let scale = BESIDE_ONE + 720 + SCALE + 10;
        assert_eq!(picture.pixel(scale, TOP), most);
        assert_eq!(picture.pixel(scale, TOP + 540 - 3 * 18 - 1), least);
        assert_eq!(picture.pixel(scale, TOP + 540 - 9), SILENCE);
    }
}

/// What is between the least and the most has a colour between.
#[test]
fn colours_between() {
    let room = Room::new();
    let mut deposit = Deposit::of_samples(Order::Msb, Maker::Simrad, 2);
    deposit.ping_of(PingKind::U16, &[0, 1, 2], &[-6000, -4000, -3000]);
    let picture = picture(&room, &mut deposit);
    let colours = [0, 1, 2].map(|row| cell(&picture, (720, 180), 0, row));
    let [least, most] = DECIBELS;
    // two thirds up, near the fifth of seven
    assert_eq!(colours, [least, [244, 218, 60], most]);
}

/// More pings and samples than cells: a cell takes the loudest of what it covers, wherever in
/// it that stands. 2,400 pings fall on 1,200 cells and 1,440 numbers on 720.
#[test]
fn the_loudest_of_many() {
    let room = Room::new();
    let mut deposit = Deposit::of_samples(Order::Lsb, Maker::Biosonics, 1);
    for nth in 0..2400 {
        let (loud, soft) = (-30_000_000, -70_000_000);
        let numbers = &[0, 1, 1439];
        match nth {
            0 | 3 => deposit.ping_of(PingKind::U32, numbers, &[soft, loud, soft]),
            _ => deposit.ping_of(PingKind::U32, numbers, &[soft; 3]),
        };
    }
    let picture = picture(&room, &mut deposit);
    let [least, most] = DECIBELS;
    let top = |column| picture.pixel(BESIDE_FOUR + column, TOP);
    assert_eq!([0, 1, 2].map(top), [most, most, least]);
    let below = |row| picture.pixel(BESIDE_FOUR, TOP + row);
    assert_eq!([1, 718, 719].map(below), [SILENCE, SILENCE, least]);
}

/// Silent pings are a picture too, of silence alone; so is one number.
#[test]
fn silence() {
    let room = Room::new();
    let mut deposit = Deposit::of_samples(Order::Lsb, Maker::Biosonics, 2);
    deposit.silent_ping(1);
    let picture = picture(&room, &mut deposit);
    assert_eq!(cell(&picture, (720, 540), 0, 0), SILENCE);
}

/// The highest number of all, and numbers far apart.
#[test]
fn the_highest_number() {
    let room = Room::new();
    let mut deposit = Deposit::of_samples(Order::Lsb, Maker::Biosonics, 1);
    deposit.ping_of(PingKind::U32, &[0, u32::MAX], &[-70_000_000, -30_000_000]);
    let picture = picture(&room, &mut deposit);
    // beside numbers of ten digits
    let across = BESIDE_ONE + 9 * 12 + 360;
    let [least, most] = DECIBELS;
    assert_eq!(picture.pixel(across, TOP), least);
    assert_eq!(picture.pixel(across, TOP + 719), most);
    assert_eq!(picture.pixel(across, TOP + 360), SILENCE);
}

/// The samples: every channel that has readings has a picture, in either order the same.
#[test]
fn of_the_samples() {
    let room = Room::new();
    for (names, channels) in [
        (["cruise-lsb", "cruise-msb"], &["1", "2", "3"][..]),
        (["splitbeam-lsb", "splitbeam-msb"], &["11", "14", "15"]),
        (["encodings-lsb", "encodings-msb"], &["21", "23", "24"]),
    ] {
        for channel in channels {
            let [one, other] = names.map(|name| {
                let known = Known::sample(name);
                let out = room.at(format!("{name}-{channel}.png"));
                let mut command = hac(["picture"]);
                let ran = run(command.arg(&known.path).args([channel, "-o"]).arg(&out));
                assert_eq!((ran.status, ran.err.as_str()), (0, ""));
                fs::read(&out).expect("a picture")
            });
            assert_eq!(one, other);
            let Picture { width, height, .. } = Picture::of(&one);
            assert!((700..1600).contains(&width) && (500..1000).contains(&height));
        }
    }
}

/// The host's paper shows what the command prints.
#[test]
fn the_paper() {
    let words = "picture samples/cruise-lsb.hac 1 -o channel-1.png";
    let room = Room::new();
    room.put("cruise-lsb.hac", &Known::sample("cruise-lsb").bytes);
    let here = words.replace("samples/", "");
    let ran = run(hac(here.split(' ')).current_dir(room.path()));
    assert_eq!((ran.status, ran.err.as_str()), (0, ""));
    let shown = crate::settings::shown(words).join("\n");
    assert_eq!(ran.lines(), [shown.replace("samples/", "")]);
}

/// Of standard output nothing else is there; `--json` tells where it was written.
#[test]
fn out() {
    let room = Room::new();
    let known = Known::sample("cruise-lsb");
    let out = room.at("out.png");
    let mut command = hac(["picture", "--json"]);
    let ran = run(command.arg(&known.path).args(["1", "-o"]).arg(&out));
    let file = fs::read(&out).expect("a picture");
    let object = &json::objects(&ran.out)[0];
    assert_eq!(object.keys(), ["file", "outcome", "out", "length"]);
    assert_eq!(object.number("length"), file.len() as i128);
    let mut command = hac(["picture"]);
    let ran = command.arg(&known.path).args(["1", "-o", "-"]).output();
    assert_eq!(ran.expect("the program runs").stdout, file);
    // a deposit isn't replaced by its picture
    let path = room.put("deposit.hac", &known.bytes);
    let ran = run(hac(["picture"]).arg(&path).args(["1", "-o"]).arg(&path));
    let said = format!("hac: {}: OUT is an input itself\n", path.display());
    assert_eq!((ran.status, ran.err), (2, said));
    assert_eq!(fs::read(&path).expect("the deposit"), known.bytes);
}

/// Not written, and this is said.
fn is_refused(room: &Room, path: &Path, channel: &str, status: i32, said: &str) {
    let out = room.at("refused.png");
    let ran = run(hac(["picture"]).arg(path).args([channel, "-o"]).arg(&out));
    let said = format!("hac: {}: {said}\n", path.display());
    assert_eq!((ran.status, ran.out.as_str(), ran.err), (status, "", said));
    assert!(!out.exists());
}

#[test]
fn refused_channels() {
    let room = Room::new();
    let splitbeam = Known::sample("splitbeam-lsb");
    let code = Code::NoReading;
    let power = "channel 13 has power (raw Sv before the TVG), not volts, Sv or TS";
    let said = format!("refused, {code}, at 1096: {power}");
    is_refused(&room, &splitbeam.path, "13", 1, &said);
    for channel in ["12", "99"] {
        let said = format!("no ping of channel {channel}");
        is_refused(&room, &splitbeam.path, channel, 2, &said);
    }
    // angles among values, behind another channel's ping
    let mut deposit = Deposit::begun(Order::Lsb);
    deposit.sounder(7, 2);
    for number in [1, 2] {
        deposit.channel(number, 7);
    }
    deposit.ping_u32(1);
    deposit.ping_u32(2);
    let place =
        deposit.put(|order, out| write_u16_angles(&header(2), 0, &[3], &[5], &[6], order, out));
    let path = room.put("angles.hac", deposit.ended());
    let angles = "ping U-16-angles has angles, not volts, Sv or TS";
    let said = format!("refused, {code}, at {place}: {angles}");
    is_refused(&room, &path, "2", 1, &said);
}

#[test]
fn refused_files() {
    let room = Room::new();
    for copy in damage::all(&Known::sample("cruise-lsb")) {
        let path = room.put(copy.name, &copy.bytes);
        let code = Code::of(copy.code).expect("a code");
        let said = format!("refused, {code}, at {}{}", copy.place, copy.advice);
        is_refused(&room, &path, "1", 1, &said);
    }
}
