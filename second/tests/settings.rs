//! Which settings held at each ping: against 02's sentence, said once more and slowly;
//! what must hold of every file; and files made by hand.

mod common;

use common::said::{file, place, Said, ALL};
use common::{count, every_refusal, seed, tuples, Bytes, File, PINGS};
use second::gen::{file_case, limit, limit_count, settings_case, sound_case, Case, Rng};
use second::walk::Tuple;
use second::{check, settings, Answer, Order};
use std::collections::{BTreeMap, BTreeSet};
use Said::*;

/// A ping's place, its threshold's and its attitude's; 0 for none.
type Row = [u64; 3];

/// A slice of places that no call would leave by chance.
fn lent_places(entries: usize) -> Vec<u64> {
    (0..entries as u64).map(|at| u64::MAX - 151 * at).collect()
}

/// The answer of a call that is lent so many entries, and what these hold behind it.
fn called(file: &[u8], entries: [usize; 3]) -> (Answer, [Vec<u64>; 3]) {
    let mut lent = entries.map(lent_places);
    let [pings, thresholds, attitudes] = &mut lent;
    let answer = settings(file, pings, thresholds, attitudes);
    (answer, lent)
}

/// A refusal that alters nothing.
fn refused(file: &[u8], entries: [usize; 3], refusal: Answer, name: &str) {
    let (answer, lent) = called(file, entries);
    assert_eq!(answer, refusal, "{name}");
    assert_eq!(lent, entries.map(lent_places), "{name}");
}

/// What the call tells of an accepted file. Lent memory is watched: just enough, more than
/// enough, and too little in one slice, in another and in all.
fn told(file: &[u8], name: &str) -> Vec<Row> {
    let checked = check(file);
    assert!(checked.is_accepted(), "{name}");
    let room = file.len() / 36; // no ping is shorter
    let (answer, lent) = called(file, [room; 3]);
    let length = answer.length;
    assert_eq!(answer, Answer { length, ..checked }, "{name}");
    let n = length as usize;
    for entries in [[n; 3], [n + 1, n, n + 5], [n, room, n + 1], [room; 3]] {
        let (again, slices) = called(file, entries);
        assert_eq!(again, answer, "{name}");
        for (slice, lent) in slices.iter().zip(&lent) {
            assert_eq!(slice[..n], lent[..n], "{name}");
            assert_eq!(slice[n..], lent_places(slice.len())[n..], "{name}");
        }
    }
    if let Some(less) = n.checked_sub(1) {
        for entries in [
            [less, n, n],
            [n, less, n],
            [n, n, less],
            [0, room, room],
            [less; 3],
            [0; 3],
        ] {
            refused(file, entries, Answer::refused(19, 0), name);
        }
    }
    (0..n)
        .map(|nth| [0, 1, 2].map(|of| lent[of][nth]))
        .collect()
}

/// An accepted file, and where its tuples start.
struct Tuples<'a> {
    file: File<'a>,
    starts: Vec<usize>,
}

impl Tuples<'_> {
    fn of(bytes: &[u8]) -> Tuples<'_> {
        let file = File::new(bytes).expect("a mark");
        let mut starts = Vec::new();
        let mut at = 4;
        while at < bytes.len() {
            starts.push(at);
            at += file.number(at, 4) as usize + 10;
        }
        Tuples { file, starts }
    }

    fn code(&self, at: usize) -> u64 {
        self.file.number(at + 4, 2)
    }

    /// The channel that a ping, a threshold or an attitude names, and its time.
    fn channel(&self, at: usize) -> u64 {
        self.file.number(at + 12, 2)
    }

    fn time(&self, at: usize) -> u64 {
        self.file.number(at + 8, 4)
    }

    fn pings(&self) -> impl Iterator<Item = usize> + '_ {
        let starts = self.starts.iter().copied();
        starts.filter(|at| PINGS.contains(&self.code(*at)))
    }

    /// The tuples before a place.
    fn before(&self, place: usize) -> impl DoubleEndedIterator<Item = usize> + '_ {
        let starts = self.starts.iter().copied();
        starts.filter(move |at| *at < place)
    }

    fn is_threshold(&self, at: usize, channel: u64) -> bool {
        self.code(at) == 10100 && self.channel(at) == channel
    }

    /// For a channel or for all.
    fn is_attitude(&self, at: usize, channel: u64) -> bool {
        self.code(at) == 40 && [channel, 65535].contains(&self.channel(at))
    }
}

/// 02's sentence: for each listed ping all tuples before it are looked at.
fn defined(bytes: &[u8]) -> Vec<Row> {
    let all = Tuples::of(bytes);
    let rows = all.pings().map(|ping| {
        let channel = all.channel(ping);
        let threshold = all.before(ping).rfind(|at| all.is_threshold(*at, channel));
        let attitude = all.before(ping).rfind(|at| all.is_attitude(*at, channel));
        [Some(ping), threshold, attitude].map(|at| at.unwrap_or(0) as u64)
    });
    rows.collect()
}

/// Whatever the file: the check's refusal, however much is lent, or what is defined.
fn judge(bytes: &[u8], name: &str) -> Answer {
    let checked = check(bytes);
    if checked.is_accepted() {
        assert_eq!(told(bytes, name), defined(bytes), "{name}");
    } else {
        for entries in [
            [0; 3],
            [0, 9, 9],
            [9, 0, 9],
            [9, 9, 0],
            [bytes.len().min(999); 3],
        ] {
            refused(bytes, entries, checked, name);
        }
    }
    checked
}

#[test]
fn settings_are_what_02_says() {
    let seed = seed();
    for index in 0..count(8000) {
        for case in file_case(seed, index) {
            let name = format!("seed {seed} case {index} {}", case.name);
            judge(&case.bytes, &name);
        }
    }
    for index in 0..count(4000) {
        let case = settings_case(&mut Rng::of_case(seed ^ 0x5E77, index));
        let name = format!("seed {seed} file {index} {}", case.name);
        let answer = judge(&case.bytes, &name);
        assert!(answer.is_accepted(), "{name}");
    }
    for case in (0..limit_count()).flat_map(limit) {
        judge(&case.bytes, &case.name);
    }
}

/// Every refusal of the check is passed on, in both orders, before 19.
#[test]
fn refusals_of_the_check() {
    every_refusal(0x0F_A117, 20, judge);
}

/// Rows of the numbers of tuples said: a ping, its threshold and its attitude. 0 is none,
/// for a sounder is always said first.
fn places(said: &[Said], rows: &[[usize; 3]]) -> Vec<Row> {
    let place_of = |nth| if nth == 0 { 0 } else { place(said, nth) };
    rows.iter().map(|row| row.map(place_of)).collect()
}

/// What the call tells of a file of these tuples, in both orders.
fn held(said: &[Said], rows: &[[usize; 3]]) {
    let expected = places(said, rows);
    for order in Order::BOTH {
        let file = file(order, said);
        assert_eq!(told(&file, &format!("{order:?}")), expected, "{order:?}");
        assert_eq!(defined(&file), expected, "{order:?}");
    }
}

/// A sounder with channels 5 and 6, and what is said behind them, from number 3 on.
fn behind_two(more: &[Said]) -> Vec<Said> {
    [&[Sounder(9, 2), Channel(5, 9), Channel(6, 9)][..], more].concat()
}

#[test]
fn no_settings() {
    held(&behind_two(&[Ping(5)]), &[[3, 0, 0]]);
    held(
        &behind_two(&[Ping(6), Ping(5), Silent(6)]),
        &[[3, 0, 0], [4, 0, 0], [5, 0, 0]],
    );
}

/// The last before the ping, of several in a row too; neither the next one nor that of
/// another channel.
#[test]
fn the_last_threshold_of_the_channel() {
    let said = behind_two(&[
        Ping(5),
        Threshold(5), // 4
        Ping(5),
        Ping(6),
        Threshold(6), // 7
        Threshold(5),
        Threshold(5),
        Threshold(5), // 10
        Ping(5),
        Silent(6),
        Threshold(6),
        Threshold(5),
    ]);
    held(
        &said,
        &[[3, 0, 0], [5, 4, 0], [6, 0, 0], [11, 10, 0], [12, 7, 0]],
    );
}

/// The last before the ping that is for its channel or for all, whichever comes later.
#[test]
fn the_last_attitude_of_the_channel_or_for_all() {
    let said = behind_two(&[
        Ping(5),
        Attitude(6), // 4
        Ping(5),
        Ping(6),
        Attitude(ALL), // 7
        Ping(5),
        Ping(6),
        Attitude(5), // 10
        Ping(5),
        Ping(6),
        Attitude(6), // 13
        Attitude(ALL),
        Ping(5),
        Ping(6),
        Attitude(ALL),
        Attitude(5),
        Attitude(5), // 19
        Ping(5),
        Ping(6),
        Attitude(ALL),
    ]);
    #[rustfmt::skip]
    let rows = [
        [3, 0, 0], [5, 0, 0], [6, 0, 4], [8, 0, 7], [9, 0, 7], [11, 0, 10], [12, 0, 7],
        [15, 0, 14], [16, 0, 14], [20, 0, 19], [21, 0, 17],
    ];
    held(&said, &rows);
}

/// Thresholds and attitudes have nothing to do with one another.
#[test]
fn both_settings() {
    let said = behind_two(&[
        Threshold(5),
        Attitude(6),
        Ping(5),
        Ping(6),
        Attitude(5),
        Threshold(6),
        Ping(5),
        Ping(6),
    ]);
    held(&said, &[[5, 3, 0], [6, 0, 4], [9, 3, 7], [10, 8, 4]]);
}

/// 65535 is all channels in an attitude alone, even where it is declared: in a ping or a
/// threshold it is a channel like others.
#[test]
fn channel_65535() {
    let said = [
        Sounder(9, 2),
        Channel(ALL, 9),
        Channel(5, 9),
        Threshold(ALL), // 3
        Ping(5),
        Ping(ALL),
        Attitude(5), // 6
        Ping(ALL),
        Ping(5),
        Attitude(ALL), // 9
        Ping(ALL),
        Ping(5),
        Threshold(5), // 12
        Attitude(5),
        Ping(ALL),
        Ping(5),
    ];
    #[rustfmt::skip]
    let rows = [
        [4, 0, 0], [5, 3, 0], [7, 3, 0], [8, 0, 6], [10, 3, 9], [11, 0, 9], [14, 3, 9],
        [15, 12, 13],
    ];
    held(&said, &rows);
}

/// An attitude for all holds for channels that are declared behind it, 65535 among them;
/// channels of both makers, declared between pings.
#[test]
fn declared_late() {
    let said = [
        Sounder(9, 2),
        Attitude(ALL), // 1
        Channel(5, 9),
        Ping(5),
        Threshold(5), // 4
        Attitude(5),
        EkSounder(8, 1),
        EkChannel(6, 8),
        Ping(6),
        Threshold(6), // 9
        Ping(6),
        Ping(5),
        Channel(ALL, 9),
        Ping(ALL),
    ];
    #[rustfmt::skip]
    let rows = [[3, 0, 1], [8, 0, 1], [10, 9, 1], [11, 4, 5], [13, 0, 1]];
    held(&said, &rows);
}

/// Each of the seven kinds, by itself and behind the others.
#[test]
fn every_kind_of_ping() {
    let kinds = PINGS.map(|code| code as u16);
    for kind in kinds {
        let said = [PingOf(kind, 6), Threshold(6), Attitude(6), PingOf(kind, 6)];
        held(&behind_two(&said), &[[3, 0, 0], [6, 4, 5]]);
    }
    let mut said = behind_two(&[Threshold(6), Attitude(ALL)]);
    let first = said.len();
    said.extend(kinds.map(|kind| PingOf(kind, 6)));
    let rows: Vec<[usize; 3]> = (first..said.len()).map(|nth| [nth, 3, 4]).collect();
    held(&said, &rows);
}

/// Unlisted types set nothing and aren't listed pings, though their bytes name channel 0:
/// those beside thresholds and attitudes, of the ping class, private ones and the index
/// class. In MSB order they have no normal form, but settings.
#[test]
fn unlisted_types() {
    let mut said = vec![Sounder(9, 1), Channel(0, 9), Threshold(0), Attitude(0)];
    said.extend([10101, 10109, 41, 49, 10020, 10099, 65400, 65406].map(Unlisted));
    let ping = said.len();
    said.push(Ping(0));
    held(&said, &[[ping, 2, 3]]);
}

/// A file whose pings are all of an unlisted type needs no entries.
#[test]
fn no_listed_ping() {
    let said = [
        Sounder(9, 1),
        Channel(5, 9),
        Threshold(5),
        Attitude(ALL),
        Unlisted(10020),
    ];
    held(&said, &[]);
    let answer = Answer::checked(8, 0, 1 + 1);
    for entries in [[0; 3], [4, 0, 2]] {
        let (given, lent) = called(&file(Order::Msb, &said), entries);
        assert_eq!((given, lent), (answer, entries.map(lent_places)));
    }
}

/// The file's tuples, the pings, and the identifiers that the check compares.
#[test]
fn the_answer() {
    let more = [Threshold(6), Ping(6), Attitude(ALL), Ping(5), Attitude(5)];
    let said = behind_two(&more);
    for order in Order::BOTH {
        let file = file(order, &said);
        let answer = Answer::checked(11, 2, 1 + 1 + 2 + 2 + 1 + 1);
        assert_eq!(
            check(&file),
            Answer {
                length: 0,
                ..answer
            }
        );
        let (mut pings, mut thresholds, mut attitudes) = ([7; 3], [8; 2], [9; 4]);
        let given = settings(&file, &mut pings, &mut thresholds, &mut attitudes);
        assert_eq!(given, answer);
        // behind mark and signature, the sounder and two channels
        let first = 4 + 24 + 72 + 2 * 108;
        assert_eq!(pings, [first + 44, first + 44 + 40 + 36, 7]);
        assert_eq!(thresholds, [first, 0]);
        assert_eq!(attitudes, [0, first + 44 + 40, 9, 9]);
    }
}

/// Each slice needs an entry for each ping; without them none gets any.
#[test]
fn slices_too_short() {
    let said = behind_two(&[Threshold(5), Attitude(5), Ping(5), Ping(6), Ping(5)]);
    for order in Order::BOTH {
        let file = file(order, &said);
        for entries in [
            [2, 3, 3],
            [3, 2, 3],
            [3, 3, 2],
            [0, 3, 3],
            [3, 0, 3],
            [3, 3, 0],
        ] {
            refused(&file, entries, Answer::refused(19, 0), "too short");
        }
        // the check's own refusal is told before
        let cut = &file[..file.len() - 4];
        let end = Answer::refused(3, file.len() as u64 - 24);
        refused(cut, [0; 3], end, "cut");
        refused(cut, [3; 3], end, "cut");
    }
}

/// Whatever the clocks say, fractions of a second too, the order in the file decides.
#[test]
fn clocks_do_not_decide() {
    let said = behind_two(&[
        Threshold(5),
        Attitude(5),
        Attitude(ALL),
        Threshold(5), // 6
        Attitude(5),
        Ping(5), // 8
        Attitude(ALL),
        Ping(5), // 10
    ]);
    let rows = places(&said, &[[8, 6, 7], [10, 6, 9]]);
    let clocks: [fn(u32) -> u32; 6] = [
        |nth| nth,
        |nth| 100 - nth,
        |_| 7,
        |nth| nth.wrapping_sub(6), // set back in the middle, to the last second there is
        |nth| nth ^ 5,
        |nth| u32::MAX - nth % 2,
    ];
    for (order, clock) in Order::BOTH
        .map(|order| clocks.map(|clock| (order, clock)))
        .concat()
    {
        for (fraction, seconds) in [(0, 1), (1, 0), (1, 1)] {
            let mut file = file(order, &said);
            for nth in 3..said.len() {
                let at = place(&said, nth) as usize;
                let time = clock(nth as u32);
                file[at + 6..at + 8].copy_from_slice(&order.from_two(time as u16 * fraction));
                file[at + 8..at + 12].copy_from_slice(&order.from_four(time * seconds));
            }
            assert_eq!(told(&file, "clocks"), rows, "{order:?}");
        }
    }
}

/// The software channel links, and nothing else that has the same number: the field behind
/// it, the channels' transceiver numbers, the document identifiers.
#[test]
fn nothing_else_links() {
    let said = [
        Sounder(5, 1),
        Channel(6, 5),
        Sounder(6, 1),
        Channel(5, 6),
        Threshold(6), // 4
        Attitude(5),
        Ping(5),
        Ping(6),
    ];
    let rows = [[6, 0, 5], [7, 4, 0]];
    held(&said, &rows);
    for order in Order::BOTH {
        let mut file = file(order, &said);
        for nth in 0..said.len() {
            let (field, id) = match said[nth] {
                Channel(id, _) => (20, id),
                Threshold(id) | Attitude(id) | Ping(id) => (14, id),
                _ => continue,
            };
            let at = place(&said, nth) as usize + field;
            let other = 5 + 6 - id;
            file[at..at + 2].copy_from_slice(&order.from_two(other));
        }
        assert_eq!(
            told(&file, "other fields"),
            places(&said, &rows),
            "{order:?}"
        );
    }
}

/// A text that is a threshold, an attitude and a ping has none of them: only tuples count.
#[test]
fn tuples_inside_a_text() {
    let said = behind_two(&[Threshold(5), Attitude(5), Ping(5)]);
    for order in Order::BOTH {
        let mut file = file(order, &said);
        let [from, to] = [3, 5].map(|nth| place(&said, nth) as usize);
        let end = to + 40;
        let text = file[from..end].to_vec();
        let mut marker = Bytes::new(order);
        marker.tuple(10110, 20 + text.len(), |bytes| {
            bytes.bytes.extend([0; 6]); // its time
            bytes.bytes.extend(&text);
        });
        let length = marker.bytes.len() as u64;
        file.splice(to..to, marker.bytes);
        let expected = [to as u64 + length, from as u64, from as u64 + 44];
        assert_eq!(told(&file, "behind a text"), [expected]);
        // nothing is left but the text before the ping
        file.drain(from..to);
        assert_eq!(told(&file, "a text alone"), [[from as u64 + length, 0, 0]]);
    }
}

/// As many pings as there is room for: each has its entries.
#[test]
fn the_longest_of_pings() {
    let mut said = behind_two(&[Threshold(5), Attitude(ALL)]);
    let used = file(Order::Lsb, &said).len();
    let pings = (16_777_216 - used) / 36;
    said.extend((0..pings).map(|_| PingOf(10030, 5)));
    let file = file(Order::Msb, &said);
    let (answer, lent) = called(&file, [pings; 3]);
    let compared = 1 + 1 + 1 + pings as u64;
    let expected = Answer::checked(said.len() as u64 + 3, pings as u64, compared);
    assert_eq!(answer, expected);
    let [threshold, attitude, first] = [3, 4, 5].map(|nth| place(&said, nth));
    let rising = (0..pings as u64).map(|nth| first + 36 * nth);
    assert!(lent[0].iter().copied().eq(rising));
    assert!(lent[1].iter().all(|at| *at == threshold));
    assert!(lent[2].iter().all(|at| *at == attitude));
    let short = called(&file, [pings, pings, pings - 1]).0;
    assert_eq!(short, Answer::refused(19, 0));
}

/// A file that begins with so many tuples of an accepted one and goes on otherwise. What
/// the others declare still comes, for sounders state it; what else they are comes behind
/// that, in another order, some twice and some not at all, and then the required classes.
fn with_other_end(rng: &mut Rng, file: &[u8], begins: usize) -> Vec<u8> {
    let order = Order::of(file).expect("a mark");
    let found = tuples(file);
    let (end, before) = found.split_last().expect("an end of file");
    let (same, others) = before.split_at(begins);
    let declares = |tuple: &&Tuple| [100, 200, 1000, 2000].contains(&tuple.code);
    let (declaring, mut others): (Vec<&Tuple>, Vec<&Tuple>) = others.iter().partition(declares);
    let mut made = Bytes::new(order);
    made.bytes = file[..same.last().map_or(4, Tuple::end) as usize].to_vec();
    for tuple in declaring {
        made.bytes.extend(tuple.bytes(file));
    }
    while !others.is_empty() {
        let tuple = others.swap_remove(rng.index(others.len()));
        for _ in 0..rng.below(3) {
            made.bytes.extend(tuple.bytes(file));
        }
    }
    for class in [21, 300, 3000, 10020] {
        made.tuple(class, 16, |_| {});
    }
    made.bytes.extend(end.bytes(file));
    made.bytes
}

/// Where two accepted files begin with the same tuples, the pings among these get the same
/// answers, whichever tuples follow.
#[test]
fn what_follows_changes_nothing() {
    let seed = seed();
    let mut compared = 0;
    for index in 0..count(4000) {
        let mut rng = Rng::of_case(seed ^ 0x9EF1, index);
        let Case { name, bytes, .. } = match index % 2 {
            0 => settings_case(&mut rng),
            _ => sound_case(&mut rng),
        };
        let name = format!("seed {seed} file {index} {name}");
        let found = tuples(&bytes);
        let begins = 1 + rng.index(found.len() - 1);
        let end = found[begins - 1].end();
        let files = [
            with_other_end(&mut rng, &bytes, begins),
            with_other_end(&mut rng, &bytes, begins),
            bytes,
        ];
        let [one, other, whole] = files.map(|file| {
            let mut rows = told(&file, &name);
            let same = rows.iter().take_while(|row| row[0] < end).count();
            assert!(rows[same..].iter().all(|row| row[0] >= end), "{name}");
            rows.truncate(same);
            rows
        });
        assert_eq!(one, whole, "{name}");
        assert_eq!(other, whole, "{name}");
        compared += whole.len() as u64;
    }
    assert!(compared > count(4000), "{compared}");
}

/// The file cases of seed 1 that are compared in full where every call is.
const COMPARED_CASES: u64 = 100_000u64.div_ceil(41);

/// What is met, and what it is called.
type Met = (bool, &'static str);

impl Tuples<'_> {
    /// Whether a channel is declared behind a ping.
    fn is_late(&self, channel: u64) -> bool {
        let first = self.pings().next().unwrap_or(0);
        let mut starts = self.starts.iter().copied().filter(|at| *at > first);
        starts.any(|at| {
            [1000, 2000].contains(&self.code(at)) && self.file.number(at + 6, 2) == channel
        })
    }

    /// What there is to tell of the threshold that governs a ping.
    fn of_threshold(&self, ping: usize, threshold: usize) -> [Met; 5] {
        let channel = self.channel(ping);
        let is_one = |at: &usize| self.is_threshold(*at, channel);
        let before = self.before(threshold).next_back();
        let mut others = self.before(threshold).filter(is_one);
        let set_back = others.any(|at| self.time(at) > self.time(threshold));
        [
            (
                before.is_some_and(|at| is_one(&at)),
                "threshold behind another",
            ),
            (set_back, "threshold by a clock set back"),
            (
                self.time(threshold) > self.time(ping),
                "threshold later than its ping",
            ),
            (channel == 65535, "threshold of 65535"),
            (self.is_late(channel), "threshold of a late channel"),
        ]
    }

    /// What there is to tell of the attitude that governs a ping.
    fn of_attitude(&self, ping: usize, attitude: usize) -> [Met; 7] {
        let channel = self.channel(ping);
        let mut others = self
            .before(attitude)
            .filter(|at| self.is_attitude(*at, channel));
        let set_back = others.any(|at| self.time(at) > self.time(attitude));
        let has = |of: u64| {
            let mut before = self.before(attitude);
            before.any(|at| self.code(at) == 40 && self.channel(at) == of)
        };
        let (for_all, plain) = (self.channel(attitude) == 65535, channel != 65535);
        [
            (!for_all && has(channel), "attitude behind another"),
            (!for_all && has(65535), "attitude behind one for all"),
            (
                for_all && plain && has(channel),
                "attitude for all behind the channel's",
            ),
            (set_back, "attitude by a clock set back"),
            (
                self.time(attitude) > self.time(ping),
                "attitude later than its ping",
            ),
            (!plain, "attitude of 65535"),
            (self.is_late(channel), "attitude of a late channel"),
        ]
    }

    /// What there is to tell of a whole file with these rows.
    fn of_file(&self, rows: &[Row]) -> [Met; 7] {
        let last = rows.last().map_or(u64::MAX, |row| row[0]);
        let set = |code: u64| self.starts.iter().filter(move |at| self.code(**at) == code);
        let behind = |code: u64| set(code).any(|at| *at as u64 > last);
        let thresholds: BTreeSet<u64> = rows.iter().map(|row| row[1]).collect();
        let pings = !rows.is_empty();
        [
            (!pings, "no listed ping"),
            (pings && set(10100).count() == 0, "no threshold"),
            (pings && set(40).count() == 0, "no attitude"),
            (behind(10100), "threshold behind the last ping"),
            (behind(40), "attitude behind the last ping"),
            (
                rows.iter().any(|row| row[1..] == [0, 0]),
                "ping of no settings",
            ),
            (thresholds.len() > 20, "many thresholds"),
        ]
    }
}

/// All that is met in a file, the kinds of its pings too.
fn met(bytes: &[u8]) -> BTreeSet<String> {
    let all = Tuples::of(bytes);
    let rows = defined(bytes);
    let mut met = all.of_file(&rows).to_vec();
    for [ping, threshold, attitude] in rows.iter().map(|row| row.map(|at| at as usize)) {
        if threshold > 0 {
            met.extend(all.of_threshold(ping, threshold));
        }
        if attitude > 0 {
            met.extend(all.of_attitude(ping, attitude));
        }
    }
    let met = met.iter().filter(|met| met.0).map(|met| met.1.to_string());
    let kinds = all.pings().map(|ping| format!("ping {}", all.code(ping)));
    met.chain(kinds).collect()
}

/// The comparison of every call meets all of these, in both orders.
#[test]
fn the_generator_has_settings() {
    let mut times: BTreeMap<String, [u64; 2]> = BTreeMap::new();
    for index in 0..COMPARED_CASES {
        for Case { name, bytes, .. } in file_case(1, index) {
            if !name.starts_with("sound-settings") {
                continue;
            }
            let msb = usize::from(Order::of(&bytes) == Some(Order::Msb));
            for what in met(&bytes) {
                times.entry(what).or_default()[msb] += 1;
            }
        }
    }
    let wanted = 7 + 5 + 7 + PINGS.len();
    assert_eq!(times.len(), wanted, "{times:?}");
    for (what, times) in &times {
        let seldom = ["no listed ping", "many thresholds"].contains(&what.as_str());
        let least = if seldom { 1 } else { 5 };
        assert!(
            times.iter().all(|times| *times >= least),
            "{what}: {times:?}"
        );
    }
}
