//! Lists of samples and lengths for the ping writers: drawn, and at the limits.

use crate::batch::Arg;
use second::gen::{angle_list, sample_list, Rng};
use second::kinds::Kind;
use second::layout::{TUPLE_LIMIT, VALUE_LIMIT};
use second::words::fewest_words;
use second::{Family, PingKind};

/// So many in a hundred lists have samples far apart.
const WILD: u64 = 20;

/// How many faults a drawn list gets.
const FAULTS: [usize; 7] = [0, 0, 1, 1, 1, 2, 3];

/// A last number within so much of the greatest takes more words than may be; of one
/// within so little, plus 2 is at the edge of 32 bits or past it.
const FAR: u64 = 400_000;
const FARTHEST: u64 = 4;

/// The most values of a ping.
const MOST: u32 = VALUE_LIMIT as u32;

/// Sample numbers and values, handed over apart.
pub type Lists = (Vec<u32>, Vec<i32>);

/// Sample numbers and both angles.
pub type Angles = (Vec<u32>, Vec<i16>, Vec<i16>);

/// The kind of words that lists of a family are for, and by which they are at limits.
fn words_of(family: Family) -> PingKind {
    match family {
        Family::Bits16 => PingKind::C16,
        Family::Ce16 => PingKind::Ce16,
        _ => PingKind::C32,
    }
}

/// The most words of a tuple.
fn most_words(kind: &Kind) -> u32 {
    kind.room(TUPLE_LIMIT) as u32
}

/// A length as a writer of words is handed it. Where there is none its number must not be
/// looked at, and may be any.
#[derive(Clone, Copy)]
pub struct Length {
    is_there: bool,
    number: u32,
}

impl Length {
    fn some(number: u32) -> Length {
        Length {
            is_there: true,
            number,
        }
    }

    fn none(number: u32) -> Length {
        Length {
            is_there: false,
            number,
        }
    }

    /// What the second program takes.
    pub fn meant(self) -> Option<u32> {
        self.is_there.then_some(self.number)
    }

    /// What the archive takes.
    pub fn arguments(self) -> [Arg; 2] {
        [
            u64::from(self.is_there).into(),
            u64::from(self.number).into(),
        ]
    }
}

/// So many in a hundred drawn lengths are none.
const NO_LENGTH: u64 = 30;

/// Silence behind the last value: little, or about the longest run, or two or four.
fn silence(rng: &mut Rng, kind: &Kind) -> u64 {
    let run = u64::from(kind.radix());
    let silences = [
        1,
        2,
        40,
        run - 1,
        run,
        run + 1,
        2 * run,
        2 * run + 1,
        4 * run + 1,
    ];
    silences[rng.index(silences.len())]
}

/// The sample behind the last of a list, 0 where it has none.
fn behind_last(numbers: &[u32]) -> u64 {
    numbers.last().map_or(0, |number| u64::from(*number) + 1)
}

/// A length that is as near to this number as there is one.
fn near(number: u64) -> Length {
    Length::some(u32::try_from(number).unwrap_or(u32::MAX))
}

/// The length with which a list has as many words as a tuple has room for, or so many
/// more or fewer.
fn of_most_words(kind: &Kind, numbers: &[u32], more: i64) -> u64 {
    let fewest = fewest_words(kind.kind, numbers, None);
    let left = i64::from(most_words(kind)) - fewest as i64 + more;
    behind_last(numbers) + left.max(0) as u64 * u64::from(kind.radix())
}

/// A length for a list: none, beside any number; about the least that there can be; some
/// silence; one about the most words of a tuple; or any, often at an edge.
pub fn draw_length(rng: &mut Rng, family: Family, (numbers, _): &Lists) -> Length {
    let kind = words_of(family).row();
    let behind = behind_last(numbers);
    let beside = near(behind.saturating_sub(1) + rng.below(4));
    if rng.chance(NO_LENGTH) {
        let any = [0, 1, beside.number, u32::MAX, rng.four()];
        return Length::none(any[rng.index(any.len())]);
    }
    match rng.below(6) {
        0 | 1 => beside,
        2 | 3 => near(behind + silence(rng, kind)),
        4 => {
            let most = of_most_words(kind, numbers, rng.below(3) as i64 - 1);
            near(most + rng.below(2))
        }
        _ => Length::some(rng.four()),
    }
}

/// The lengths at the limits of a list come in turn, so many a time.
const LENGTHS_A_TURN: u64 = 2;

/// No length, and some at the limits: those that are too short by 2 and by 1, the least,
/// the next; just enough for the most words, a sample more; the greatest.
pub fn limit_lengths(nth: u64, family: Family, (numbers, _): &Lists) -> Vec<Length> {
    let kind = words_of(family).row();
    let behind = behind_last(numbers);
    let lengths = [
        near(behind.saturating_sub(1)),
        near(behind),
        near(behind + 1),
        near(behind + 2),
        near(of_most_words(kind, numbers, 0)),
        near(of_most_words(kind, numbers, 0) + 1),
        near(u64::MAX),
    ];
    let turn = nth / LIMIT_LISTS;
    let first = (turn * LENGTHS_A_TURN) as usize;
    let in_turn = lengths.iter().copied().cycle().skip(first % lengths.len());
    let none = Length::none(lengths[first % lengths.len()].number);
    let mut some = vec![none];
    some.extend(in_turn.take(LENGTHS_A_TURN as usize));
    some
}

/// Values without a word of their family, and those beside them. Those of 16 bits are
/// handed over in two bytes.
fn edges(family: Family) -> &'static [i32] {
    match family {
        Family::Bits16 => &[
            -1, -256, -257, 0, -32_768, 32_767, 32_511, 32_512, -32_511, -32_512,
        ],
        Family::Ce16 => &[
            -1,
            0,
            8191,
            8193,
            -8194,
            16_386,
            507_840,
            507_841,
            -507_840,
            -507_904,
            i32::MIN,
            i32::MAX,
        ],
        _ => &[
            -1,
            -65_536,
            -65_537,
            0,
            i32::MIN,
            i32::MAX,
            2_147_418_111,
            2_147_418_112,
            -2_147_418_112,
            -2_147_418_113,
        ],
    }
}

/// A value that has no word of its family.
fn wordless(family: Family) -> i32 {
    match family {
        Family::Ce16 => 8193,
        Family::Bits16 => -256,
        _ => -65_536,
    }
}

fn edge(rng: &mut Rng, family: Family) -> i32 {
    let edges = edges(family);
    edges[rng.index(edges.len())]
}

/// A list, sound or with up to three faults.
pub fn draw_lists(rng: &mut Rng, family: Family) -> Lists {
    let wild = rng.chance(WILD);
    let samples = sample_list(rng, family, wild);
    let mut lists: Lists = samples.into_iter().unzip();
    let faults = FAULTS[rng.index(FAULTS.len())];
    for _ in 0..faults {
        spoil(rng, family, &mut lists);
    }
    lists
}

fn spoil(rng: &mut Rng, family: Family, (numbers, values): &mut Lists) {
    let at = rng.index(numbers.len());
    match rng.below(6) {
        0 => {
            values.pop();
        }
        1 => values.push(edge(rng, family)),
        2 => fall(rng, numbers, at),
        3 | 4 => {
            if let Some(value) = values.get_mut(at) {
                *value = edge(rng, family);
            }
        }
        _ => {
            // far out: too many words
            let within = [FARTHEST, FAR][rng.index(2)];
            if let Some(number) = numbers.last_mut() {
                *number = (*number).max(u32::MAX - rng.below(within) as u32);
            }
        }
    }
}

/// Makes a number equal to the one before it, or one less.
fn fall(rng: &mut Rng, numbers: &mut [u32], at: usize) {
    let before = at.checked_sub(1).and_then(|at| numbers.get(at)).copied();
    if let (Some(before), Some(number)) = (before, numbers.get_mut(at)) {
        *number = before.saturating_sub(rng.below(2) as u32);
    }
}

/// A list of angles, sound or with up to three faults: one of the three lists shorter or
/// longer, all empty, a number that doesn't rise.
pub fn draw_angles(rng: &mut Rng, kind: PingKind) -> Angles {
    let mut angles = Angles::default();
    for (number, [first, second]) in angle_list(rng, kind) {
        angles.0.push(number);
        angles.1.push(first);
        angles.2.push(second);
    }
    for _ in 0..FAULTS[rng.index(FAULTS.len())] {
        let at = rng.index(angles.0.len());
        match rng.below(8) {
            0 => {
                angles.0.pop();
            }
            1 => {
                angles.1.pop();
            }
            2 => {
                angles.2.pop();
            }
            3 => angles.1.push(-1),
            4 => angles.2.push(1),
            5 => angles = Angles::default(),
            _ => fall(rng, &mut angles.0, at),
        }
    }
    angles
}

/// A list at the limits as one of angles: these have no limits but that of count.
pub fn limit_angles(nth: u64) -> Angles {
    let (numbers, values) = limit_lists(nth, Family::Bits32);
    let first: Vec<i16> = values.iter().map(|value| *value as i16).collect();
    let mut second: Vec<i16> = first.iter().map(|angle| !angle).collect();
    if nth % 5 == 4 {
        second.pop();
    }
    (numbers, first, second)
}

/// So many samples, their numbers from the first on by equal steps.
fn steps(first: u32, step: u32, count: u32) -> Lists {
    let numbers = (0..count).map(|n| first + step * n);
    // values that have words of every family
    (
        numbers.collect(),
        (0..count).map(|n| n as i32 % 8000).collect(),
    )
}

/// A list of one sample.
fn single(number: u32) -> Lists {
    (vec![number], vec![7])
}

/// How many lists at the limits there are.
const LIMIT_LISTS: u64 = 17;

/// The gap before each of the most values with which these have as many words as a tuple
/// has room for, or a few more.
fn wide_gap(kind: &Kind) -> u32 {
    let words = most_words(kind).div_ceil(MOST);
    (words - 2) * kind.radix() + 1
}

/// Lists at the limits of count and of length, some with faults.
pub fn limit_lists(nth: u64, family: Family) -> Lists {
    let kind = words_of(family).row();
    let (gap, words, run) = (wide_gap(kind), most_words(kind), kind.radix());
    match nth % LIMIT_LISTS {
        0 => steps(0, 1, MOST),
        1 => steps(0, 1, MOST + 1),
        // as much silence before each value as makes about the most words, but for a first
        // at 0: fewer words than may be, about as many, more
        2 => steps(gap, gap + 1, MOST - 1),
        3 => steps(0, gap + 1, MOST),
        4 => steps(gap, gap + 1, MOST),
        // full runs before one value: as many words as may be, a remainder more, a full run more
        5 => single((words - 1) * run),
        6 => single((words - 1) * run + 1),
        7 => single(words * run),
        8 => (vec![u32::MAX], vec![i32::MAX]),
        9 => (vec![], vec![]),
        // the last number plus 2 is the greatest length, one more and two more
        14 => single(u32::MAX - 2),
        15 => single(u32::MAX - 1),
        16 => single(u32::MAX),
        nth => faulty_limit_lists(nth, family),
    }
}

/// The same with faults, so that the order of the rules shows.
fn faulty_limit_lists(nth: u64, family: Family) -> Lists {
    let gap = wide_gap(words_of(family).row());
    let (over, long) = (steps(0, 1, MOST + 1), steps(gap, gap + 1, MOST));
    let last = long.0.len() - 1;
    match nth {
        // counts that differ, one over the limit
        10 => {
            let (numbers, mut values) = over;
            values.pop();
            (numbers, values)
        }
        // too many values; numbers that don't rise; a value without a word
        11 => {
            let (mut numbers, mut values) = over;
            numbers[5] = numbers[4];
            numbers[9] = 0;
            values[3] = wordless(family);
            (numbers, values)
        }
        // too many words; a value without a word, and at the end a number that doesn't rise
        12 => {
            let (mut numbers, mut values) = long;
            numbers[last] = 4;
            values[2] = wordless(family);
            (numbers, values)
        }
        // too many words; the last value without a word
        _ => {
            let (numbers, mut values) = long;
            values[last] = wordless(family);
            (numbers, values)
        }
    }
}
