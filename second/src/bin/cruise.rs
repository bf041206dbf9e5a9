//! Writes the samples into a folder: `cruise DIR`. They are three made-up surveys, a
//! cruise in four spellings, the next day's split-beam survey in two, and the day's
//! behind it in two, whose recorder used the other encodings of pings, each with its
//! one normal form; and the cruise once more as a damaged disk gives it, with what can
//! be salvaged of it. Each file as lines and as bytes. The same bytes come at every run.

use second::gen::{frames, index_of, render, Body, Draft, Piece, PingStyle, Rng, Style};
use second::layout::*;
use second::programs::BYTE_LIMIT;
use second::walk::{forward, Step};
use second::{normalise, salvage, Family, Order, PingKind};
use std::ops::Range;
use std::path::Path;
use std::{env, fs, io, process};
use Piece::{Chars, Four, Identifier, Space, Two};

/// The cruise's first second, ANSI C time: 14 July 1998, 9 o'clock.
const START: u32 = 900_406_800;

/// The split-beam survey is so much later, and the one with the other encodings.
const NEXT_DAY: u32 = 86_400;
const THIRD_DAY: u32 = 2 * NEXT_DAY;

/// Document identifiers of the cruise's two sounders, and of the EK-500.
const HULL: u32 = 1201;
const TOWED: u32 = 1202;
const SPLIT_BEAM: u32 = 500;

/// What a ping's bottom range holds where no bottom was found.
const NO_BOTTOM: u32 = 0x7FFF_FFFF;

const ALL_CHANNELS: u16 = 65535;

/// A type of the index class.
const INDEX: u16 = 65406;

/// The stream of chance of each survey's first spelling; from here on, several
/// pings are U-32 in one spelling and C-32 in another, or U-16 and C-16, and pings that
/// end in silence are cut in more runs in some.
const STREAM: u64 = 25;
const SPLIT_BEAM_STREAM: u64 = 125;
const ENCODINGS_STREAM: u64 = 225;

/// What the disk did to the cruise's first spelling: it zeroed some bytes, the end of one
/// ping and the head of the next, and turned a bit in the third sample number of another.
const ZEROED: Range<usize> = 896..960;
const TURNED: (usize, u8) = (1124, 0x08);

/// The tuples that this costs, counted from 0.
const LOST: [usize; 3] = [15, 16, 19];

/// A signed field's bits.
fn signed(number: i16) -> Piece {
    Two(number as u16)
}

/// A remark of 30 characters, filled up with blanks.
fn remark(text: &str) -> Piece {
    Chars(format!("{text:30}").into_bytes())
}

fn draft(code: u16, body: Body) -> Draft {
    Draft {
        code,
        body,
        attribute: 0,
        patch: None,
    }
}

/// A tuple that starts with a time: a fraction, and seconds since the start.
fn timed(code: u16, fraction: u16, seconds: u32, rest: Vec<Piece>) -> Draft {
    let mut pieces = vec![Two(fraction), Four(START + seconds)];
    pieces.extend(rest);
    draft(code, Body::Fields(pieces))
}

fn signature() -> Draft {
    let pieces = vec![Identifier, Two(100), Two(312), Four(0xDF01_ACAC)];
    draft(SIGNATURE, Body::Fields(pieces))
}

/// A position in millionths of a degree; the ship's clock is four hours behind.
fn position(seconds: u32, latitude: i32, longitude: i32) -> Draft {
    let universal = START + seconds + 4 * 3600;
    let rest = vec![
        Four(universal),
        Two(1),
        Space,
        Four(latitude as u32),
        Four(longitude as u32),
    ];
    timed(POSITION, 5000, seconds, rest)
}

fn navigation(seconds: u32, heading: i16) -> Draft {
    let rest = vec![Two(1), signed(heading), Two(5144), Space];
    timed(NAVIGATION, 5000, seconds, rest)
}

/// Pitch and roll in tenths of a degree.
fn attitude(seconds: u32, channel: u16, platform: u16, pitch: i16, roll: i16) -> Draft {
    let mut rest = vec![Two(channel), Two(platform), signed(-250), signed(40)];
    rest.extend([signed(pitch), signed(roll), signed(-12), Space]);
    timed(ATTITUDE, 7500, seconds, rest)
}

fn sounder(channels: u16, id: u32, text: &str) -> Draft {
    let mut pieces = vec![Two(channels), Four(id), Two(14_870), Two(100), signed(-30)];
    pieces.extend([Two(3), signed(0), Two(5000), Two(25)]);
    pieces.extend([signed(0), Two(0), Two(0), remark(text), Space]);
    draft(SOUNDER, Body::Fields(pieces))
}

/// A channel: its identifier, its sounder, what its values are (0 volts, 1 Sv),
/// its transceiver number and its frequency.
fn channel(id: u16, parent: u32, kind: u16, transceiver: u16, hertz: u32) -> Draft {
    let mut pieces = vec![Two(id), Four(parent), Four(20_000)];
    pieces.extend([Two(kind), Two(0), Two(transceiver), Space]);
    pieces.extend([Four(hertz), Four(450)]);
    pieces.extend([signed(-900), signed(-900), signed(2), signed(-3)]);
    pieces.extend([980, 4, 500, 22_130, 71, 1650, 11_000].map(Two));
    pieces.extend([signed(-14_250), signed(600), signed(-4200)]);
    let text = format!("channel {id}, {} kHz", hertz / 1000);
    pieces.extend([Four(1000), Four(90_000), remark(&text), Space]);
    draft(CHANNEL, Body::Fields(pieces))
}

/// An EK-500, whose super layer starts at so many tenths of a metre.
fn ek500_sounder(channels: u16, id: u32, start: i32, text: &str) -> Draft {
    let mut pieces = vec![Two(channels), Four(id), Two(14_905)];
    pieces.extend([1, 100, 0, 10, 250, 2, 7, 120].map(Two));
    pieces.extend([Four(start as u32), Two(5), signed(-80)]);
    pieces.extend([Four(520), remark(text)]);
    draft(EK500_SOUNDER, Body::Fields(pieces))
}

/// A channel of an EK-500: its identifier, its sounder, what its values are (0 phase
/// angles, 1 power, 2 Sv, 3 TS), its transceiver number and its frequency.
fn ek500_channel(id: u16, parent: u32, kind: u16, transceiver: u16, hertz: u32) -> Draft {
    let mut pieces = vec![Two(id), Four(parent), Four(33_333)];
    pieces.extend([Two(kind), Two(transceiver), Four(hertz), Four(520)]);
    pieces.extend([signed(-900), signed(-900), signed(2), signed(-3)]);
    pieces.extend([980, 1, 1, 2000, 219, 220, 71, 70].map(Two));
    pieces.extend([signed(-2060), Two(2710), signed(-5000), Space]);
    let text = format!("channel {id}, {} kHz", hertz / 1000);
    pieces.extend([Four(1000), Four(90_000), remark(&text), Space]);
    draft(EK500_CHANNEL, Body::Fields(pieces))
}

fn threshold(seconds: u32, channel: u16, constant: u32) -> Draft {
    let mut rest = vec![Two(channel), Two(5000), Two(25), Two(0), Two(0), Two(0)];
    rest.extend([Four(1), Four(constant), Four(0)]);
    timed(THRESHOLD, 0, seconds, rest)
}

/// An event marker; its text is filled up to a multiple of four.
fn marker(seconds: u32, text: &str) -> Draft {
    let length = text.len().next_multiple_of(4);
    let text = format!("{text:length$}").into_bytes();
    timed(EVENT_MARKER, 2500, seconds, vec![Chars(text)])
}

fn end_of_file(seconds: u32) -> Draft {
    timed(END_OF_FILE, 0, seconds, vec![Two(1), Chars(b"ok".to_vec())])
}

/// An index of pings: how many there are, and since when.
fn index() -> Draft {
    draft(INDEX, Body::Fields(vec![Two(6), Four(START)]))
}

/// The samples of a ping, and its length where silence ends it.
type Sampled = (Vec<(u32, i32)>, Option<u32>);

/// What stands before a ping's samples. Its bottom is the last field.
fn ping_header(seconds: u32, channel: u16, passive: bool, number: u32, bottom: u32) -> Vec<Piece> {
    vec![
        Two(1250),
        Four(START + seconds),
        Two(channel),
        Two(u16::from(passive)),
        Four(number),
        Four(bottom),
    ]
}

/// A ping of 32 bits; one without samples was taken with a passive transmitter.
fn ping(seconds: u32, channel: u16, number: u32, bottom: u32, sampled: Sampled) -> Draft {
    let header = ping_header(seconds, channel, sampled.0.is_empty(), number, bottom);
    ping_of(Family::Bits32, header, sampled)
}

/// A ping of a family without angles.
fn ping_of(family: Family, header: Vec<Piece>, (samples, length): Sampled) -> Draft {
    let body = Body::Ping {
        family,
        header,
        samples,
        length,
    };
    draft(PING_U32, body)
}

/// A ping of angles: of each sample its number, and both angles in tenths of a degree.
fn angles(kind: PingKind, header: Vec<Piece>, samples: &[(u32, i16, i16)]) -> Draft {
    let pattern = |angle: i16| u32::from(angle as u16);
    let samples = samples
        .iter()
        .map(|(number, along, athwart)| (*number, [pattern(*along), pattern(*athwart)]));
    let body = Body::Listed {
        kind,
        header,
        samples: samples.collect(),
    };
    draft(PING_U32, body)
}

/// Echoes of neighbouring samples, each a bit under the strongest.
fn layer(rng: &mut Rng, first: u32, count: u32, strongest: i32) -> Vec<(u32, i32)> {
    (first..first + count)
        .map(|number| (number, strongest - rng.below(9_000_000) as i32))
        .collect()
}

/// Six pings with silence between their layers, behind the last ones too where the
/// recorder went on below the bottom. Values are millionths of a dB, in channel 2 of a
/// volt.
fn pings(rng: &mut Rng) -> [Draft; 6] {
    let shoal = [
        layer(rng, 0, 3, -8_000_000),
        layer(rng, 840, 9, -54_000_000),
    ]
    .concat();
    // A stored 0 is a sample.
    let volts = [layer(rng, 845, 5, 9_100_000), vec![(1900, 0)]].concat();
    // More silence than one run can hold.
    let deep = layer(rng, 70_400, 4, -18_000_000);
    // The last value has no word in C-32, so this ping is U-32 in every spelling.
    let bottom = [layer(rng, 838, 6, -57_000_000), vec![(1904, -31_250)]].concat();
    let last = [
        layer(rng, 12, 1, -61_000_000),
        layer(rng, 140_000, 3, -18_500_000),
    ]
    .concat();
    [
        ping(4, 1, 1, 70_650, (shoal, Some(1905))),
        ping(4, 2, 1, 70_650, (volts, None)),
        // Behind its layer, too, is more silence than one run can hold.
        ping(5, 3, 1, 2_616_000, (deep, Some(140_003))),
        ping(6, 2, 2, NO_BOTTOM, (Vec::new(), Some(1905))),
        ping(7, 1, 2, 70_780, (bottom, None)),
        ping(8, 3, 2, 5_203_000, (last, None)),
    ]
}

fn cruise() -> Vec<Draft> {
    let [shoal, volts, deep, silent, bottom, last] = pings(&mut Rng::new(START.into()));
    vec![
        signature(),
        timed(START_OF_RUN, 0, 0, Vec::new()),
        position(1, 48_633_400, -63_985_120),
        navigation(1, -905),
        sounder(2, HULL, "hull, serial 0417"),
        channel(1, HULL, 1, 1, 38_000),
        channel(2, HULL, 0, 2, 38_000),
        sounder(1, TOWED, "towed body, serial 0033"),
        channel(3, TOWED, 1, 1, 120_000),
        attitude(2, ALL_CHANNELS, 0, 14, -22),
        attitude(2, 3, 1, -8, 3),
        threshold(3, 1, 75_000_000),
        threshold(3, 2, 20_000),
        marker(3, "transect 4 begins"),
        shoal,
        volts,
        deep,
        position(6, 48_633_390, -63_985_480),
        silent,
        bottom,
        last,
        navigation(8, -903),
        marker(9, "transect 4 ends, wind rising"),
        timed(END_OF_RUN, 0, 10, Vec::new()),
        end_of_file(11),
    ]
}

/// Seven pings: of the EK-500's Sv, power and TS, and of the towed sounder's Sv.
/// Those of either have one that only U-32 can hold.
fn split_beam_pings(rng: &mut Rng) -> [Draft; 7] {
    let shoal = [
        layer(rng, 0, 2, -9_000_000),
        layer(rng, 615, 8, -52_000_000),
    ]
    .concat();
    let power = layer(rng, 617, 5, -88_000_000);
    let targets = [
        layer(rng, 622, 1, -41_000_000),
        layer(rng, 90_000, 2, -39_000_000),
    ]
    .concat();
    let towed = [
        layer(rng, 3, 1, -70_000_000),
        layer(rng, 430, 4, -48_000_000),
    ]
    .concat();
    // The last value has no word in C-32.
    let bottom = [layer(rng, 611, 4, -55_000_000), vec![(1388, -28_400)]].concat();
    let towed_bottom = [layer(rng, 433, 3, -51_000_000), vec![(981, -65_536)]].concat();
    let at = |seconds| NEXT_DAY + seconds;
    [
        ping(at(4), 11, 1, 30_860, (shoal, None)),
        ping(at(4), 13, 1, 30_860, (power, Some(1389))),
        ping(at(4), 14, 1, 30_860, (targets, None)),
        ping(at(5), 15, 1, 35_970, (towed, Some(982))),
        ping(at(6), 11, 2, 30_910, (bottom, None)),
        ping(at(6), 14, 2, NO_BOTTOM, (Vec::new(), Some(90_002))),
        ping(at(7), 15, 2, 36_020, (towed_bottom, None)),
    ]
}

/// The split-beam survey: an EK-500 with channels of every type of data sample, and
/// another maker's sounder with one. No 32-bit ping holds the phase angles of
/// channel 12.
fn split_beam() -> Vec<Draft> {
    let [shoal, power, targets, towed, bottom, silent, towed_bottom] =
        split_beam_pings(&mut Rng::new(SPLIT_BEAM.into()));
    let at = |seconds| NEXT_DAY + seconds;
    vec![
        signature(),
        timed(START_OF_RUN, 0, at(0), Vec::new()),
        position(at(1), 48_702_110, -64_201_300),
        navigation(at(1), 1210),
        ek500_sounder(4, SPLIT_BEAM, -85, "EK-500, serial 0417"),
        ek500_channel(11, SPLIT_BEAM, 2, 1, 38_000),
        ek500_channel(12, SPLIT_BEAM, 0, 1, 38_000),
        sounder(1, TOWED, "towed body, serial 0033"),
        ek500_channel(13, SPLIT_BEAM, 1, 2, 120_000),
        channel(15, TOWED, 1, 1, 420_000),
        ek500_channel(14, SPLIT_BEAM, 3, 3, 200_000),
        attitude(at(2), ALL_CHANNELS, 0, -3, 17),
        attitude(at(2), 15, 1, 9, -1),
        threshold(at(3), 11, 80_000_000),
        threshold(at(3), 15, 75_000_000),
        marker(at(3), "split beam, transect 1 begins"),
        shoal,
        power,
        targets,
        towed,
        position(at(6), 48_702_060, -64_200_880),
        bottom,
        silent,
        towed_bottom,
        marker(at(9), "split beam, transect 1 ends"),
        timed(END_OF_RUN, 0, at(10), Vec::new()),
        end_of_file(at(11)),
    ]
}

/// Echoes of 16 bits, each a bit under the strongest, in hundredths of a dB.
fn narrow_layer(rng: &mut Rng, first: u32, count: u32, strongest: i32) -> Vec<(u32, i32)> {
    (first..first + count)
        .map(|number| (number, strongest - rng.below(900) as i32))
        .collect()
}

/// Eleven pings of the other encodings: of the EK-500's Sv and phase angles, and of the
/// towed sounder's Sv and volts.
fn other_encodings(rng: &mut Rng) -> [Draft; 11] {
    use PingKind::{U16Angles, U32_16Angles};
    let at = |seconds, channel, number, bottom| {
        ping_header(THIRD_DAY + seconds, channel, false, number, bottom)
    };
    let shoal = [
        narrow_layer(rng, 0, 2, -900),
        narrow_layer(rng, 615, 6, -5200),
    ]
    .concat();
    // A stored 0 is a sample. In the fewest words these two have 7 and 8.
    let odd = [narrow_layer(rng, 0, 1, -7000), vec![(431, 0)]].concat();
    let even = narrow_layer(rng, 430, 3, -4800);
    // More samples than U-16 can number before its last.
    let deep = [
        narrow_layer(rng, 12, 1, -6100),
        narrow_layer(rng, 65_535, 2, -1850),
    ]
    .concat();
    // The last value has no word in C-16.
    let bottom = [narrow_layer(rng, 611, 3, -5500), vec![(1388, -37)]].concat();
    // Ten-thousandths of a volt, all of which an exponent gives. Two are 0.
    let volts = [
        (0, 248_000),
        (1, 97_600),
        (2, 0),
        (840, 7301),
        (841, 12_346),
        (842, 0),
        (843, 512),
    ];
    let later = [(845, 60_160), (846, 0), (847, -8190)];
    let silent = ping_header(THIRD_DAY + 6, 21, true, 2, NO_BOTTOM);
    [
        ping_of(Family::Bits16, at(4, 21, 1, 30_860), (shoal, None)),
        angles(
            U32_16Angles,
            at(4, 22, 1, 30_860),
            &[(615, -15, 7), (616, 312, -1800), (70_400, 3, -4)],
        ),
        angles(
            U16Angles,
            at(5, 22, 2, 30_860),
            &[(615, -12, 9), (616, 1800, -305), (65_535, 0, -1)],
        ),
        angles(
            U16Angles,
            at(6, 22, 3, 30_910),
            &[(617, 40, -41), (618, -32_768, 32_767)],
        ),
        ping_of(Family::Bits16, at(4, 23, 1, 35_970), (odd, Some(982))),
        ping_of(Family::Bits16, at(5, 23, 2, 36_020), (even, Some(982))),
        ping_of(Family::Bits16, silent, (Vec::new(), Some(1389))),
        ping_of(Family::Bits16, at(6, 23, 3, 5_203_000), (deep, None)),
        ping_of(Family::Bits16, at(7, 21, 3, 30_910), (bottom, None)),
        ping_of(Family::Ce16, at(7, 24, 1, 70_650), (volts.to_vec(), None)),
        ping_of(
            Family::Ce16,
            at(8, 24, 2, 70_780),
            (later.to_vec(), Some(1905)),
        ),
    ]
}

/// The third day's survey: an EK-500 with a channel of Sv and one of phase angles, and the
/// towed sounder with one of Sv and one of volts.
fn encodings() -> Vec<Draft> {
    let pings = other_encodings(&mut Rng::new(THIRD_DAY.into()));
    let at = |seconds| THIRD_DAY + seconds;
    let mut drafts = vec![
        signature(),
        timed(START_OF_RUN, 0, at(0), Vec::new()),
        position(at(1), 48_711_940, -64_388_150),
        navigation(at(1), 870),
        ek500_sounder(2, SPLIT_BEAM, -85, "EK-500, serial 0417"),
        ek500_channel(21, SPLIT_BEAM, 2, 1, 38_000),
        ek500_channel(22, SPLIT_BEAM, 0, 1, 38_000),
        sounder(2, TOWED, "towed body, serial 0033"),
        channel(23, TOWED, 1, 1, 120_000),
        channel(24, TOWED, 0, 2, 420_000),
        attitude(at(2), ALL_CHANNELS, 0, 4, -6),
        threshold(at(3), 23, 75_000_000),
        marker(at(3), "16 bits, transect 1 begins"),
    ];
    drafts.extend(pings);
    drafts.extend([
        marker(at(9), "16 bits, transect 1 ends"),
        timed(END_OF_RUN, 0, at(10), Vec::new()),
        end_of_file(at(11)),
    ]);
    drafts
}

/// A survey and the ways to write it down.
struct Survey {
    name: &'static str,
    /// Without index tuples, which are no content.
    drafts: Vec<Draft>,
    stream: u64,
    spellings: Vec<Spelling>,
}

/// One way to write a survey down.
struct Spelling {
    name: &'static str,
    style: Style,
    /// The tuple that an index tuple stands before.
    index: Option<usize>,
}

/// Silence in the fewest runs or cut otherwise; the spaces of "lsb" alone are 0, and so
/// are all its zeros of CE-16, which have a second spelling.
fn spelling(
    name: &'static str,
    order: Order,
    pings: PingStyle,
    cut: bool,
    index: Option<usize>,
) -> Spelling {
    Spelling {
        name,
        style: Style {
            rubbish: name != "lsb",
            minus_zero: name != "lsb",
            pings,
            cut,
            ..Style::plain(order)
        },
        index,
    }
}

/// The cruise in both byte orders, each with its silence in the fewest runs and cut in
/// more; the two other surveys in both, once so and once so.
fn surveys() -> [Survey; 3] {
    use PingStyle::{Mixed, Packed};
    [
        Survey {
            name: "cruise",
            drafts: cruise(),
            stream: STREAM,
            spellings: vec![
                spelling("lsb", Order::Lsb, Packed, false, Some(24)),
                spelling("lsb-cut", Order::Lsb, Mixed, true, Some(9)),
                spelling("msb", Order::Msb, Mixed, false, Some(24)),
                spelling("msb-cut", Order::Msb, Packed, true, None),
            ],
        },
        Survey {
            name: "splitbeam",
            drafts: split_beam(),
            stream: SPLIT_BEAM_STREAM,
            spellings: vec![
                spelling("lsb", Order::Lsb, Packed, false, Some(26)),
                spelling("msb", Order::Msb, Mixed, true, None),
            ],
        },
        Survey {
            name: "encodings",
            drafts: encodings(),
            stream: ENCODINGS_STREAM,
            spellings: vec![
                spelling("lsb", Order::Lsb, Packed, false, Some(26)),
                spelling("msb", Order::Msb, Mixed, true, None),
            ],
        },
    ]
}

fn spell(survey: &Survey, spelling: &Spelling, stream: u64) -> Vec<u8> {
    let mut drafts = survey.drafts.clone();
    if let Some(at) = spelling.index {
        drafts.insert(at, index());
    }
    let mut rng = Rng::of_case(START.into(), stream);
    render(&drafts, &spelling.style, &mut rng).bytes
}

/// The file's normal form; the answer where it has none.
fn normal_form(file: &[u8]) -> io::Result<Vec<u8>> {
    let mut out = vec![0; BYTE_LIMIT];
    let answer = normalise(file, &mut out);
    if !answer.is_accepted() {
        return Err(io::Error::other(format!("{answer:?}")));
    }
    out.truncate(answer.length as usize);
    Ok(out)
}

/// The types of a file's tuples, in order.
fn types(file: &[u8]) -> Vec<u16> {
    let mut types = Vec::new();
    let mut place = 4;
    while let Step::Tuple { tuple, next } = forward(file, place) {
        types.push(tuple.code);
        place = next;
    }
    types
}

/// Those of its pings.
fn ping_types(file: &[u8]) -> Vec<u16> {
    let mut types = types(file);
    types.retain(|code| class(*code) == Some(Class::Ping));
    types
}

/// A survey's plain spelling with its index, just before the end of file.
fn plain(survey: &Survey) -> Vec<u8> {
    let style = Style::plain(Order::Lsb);
    let rendered = |drafts: &[Draft]| render(drafts, &style, &mut Rng::new(survey.stream)).bytes;
    let mut drafts = survey.drafts.clone();
    let mut listed = types(&rendered(&drafts));
    listed.sort_unstable();
    listed.dedup();
    drafts.insert(drafts.len() - 1, index_of(&listed));
    rendered(&drafts)
}

fn write_both(dir: &Path, of: &str, name: &str, file: &[u8]) -> io::Result<()> {
    let lines = frames(file).join("\n") + "\n";
    fs::write(dir.join(format!("{of}-{name}.hex")), lines)?;
    fs::write(dir.join(format!("{of}-{name}.hac")), file)
}

/// Writes a survey's files. Its plain spelling with its index is its normal form, by the
/// encoder of the drafts; fails where the normaliser makes another, of it or of any spelling, and
/// where the spellings don't show what they are for.
fn write_survey(dir: &Path, survey: &Survey) -> io::Result<()> {
    let normal = plain(survey);
    if normal_form(&normal)? != normal {
        return Err(io::Error::other(survey.name));
    }
    write_both(dir, survey.name, "normal", &normal)?;
    let mut types = Vec::new();
    for (spelling, stream) in survey.spellings.iter().zip(survey.stream..) {
        let file = spell(survey, spelling, stream);
        if normal_form(&file)? != normal {
            return Err(io::Error::other(spelling.name));
        }
        types.push(ping_types(&file));
        write_both(dir, survey.name, spelling.name, &file)?;
    }
    if types.chunks(2).any(|pair| pair[0] == pair[1]) {
        return Err(io::Error::other("no ping changes its type"));
    }
    Ok(())
}

/// A sound file without some of its tuples.
fn without(file: &[u8], lost: &[usize]) -> Vec<u8> {
    let mut left = file[..4].to_vec();
    let (mut nth, mut place) = (0, 4);
    while let Step::Tuple { tuple, next } = forward(file, place) {
        if !lost.contains(&nth) {
            left.extend(tuple.bytes(file));
        }
        nth += 1;
        place = next;
    }
    left
}

/// Writes a survey's first spelling as the disk gives it, and all its tuples but the lost
/// ones; fails where salvage gives something else.
fn write_damaged(dir: &Path, survey: &Survey) -> io::Result<()> {
    let sound = spell(survey, &survey.spellings[0], survey.stream);
    let mut damaged = sound.clone();
    damaged[ZEROED].fill(0);
    damaged[TURNED.0] ^= TURNED.1;
    let salvaged = without(&sound, &LOST);
    let (mut out, mut table) = (vec![0; salvaged.len()], [0; 3 * 5]);
    if salvage(&damaged, &mut out, &mut table).is_err() || out != salvaged {
        return Err(io::Error::other("something else is salvaged"));
    }
    write_both(dir, "damaged", "lsb", &damaged)?;
    write_both(dir, "damaged", "salvaged", &salvaged)
}

fn main() -> io::Result<()> {
    let arguments: Vec<String> = env::args().skip(1).collect();
    let [dir] = arguments.as_slice() else {
        eprintln!("usage: cruise DIR");
        process::exit(2)
    };
    let dir = Path::new(dir);
    fs::create_dir_all(dir)?;
    let surveys = surveys();
    for survey in &surveys {
        write_survey(dir, survey)?;
    }
    write_damaged(dir, &surveys[0])
}
