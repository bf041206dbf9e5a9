//! Copies of a sample that break one rule each: for every code that a file can be
//! refused by, documents 01 and 02 tell which it is and where.

use crate::known::{Known, Tuple};
use hac::Order;

/// A damaged file, and the refusal that 01 or 02 gives it.
pub struct Damaged {
    pub name: &'static str,
    pub bytes: Vec<u8>,
    pub code: u8,
    pub place: usize,
    /// What the program says behind the place.
    pub advice: &'static str,
}

impl Damaged {
    fn saying(self, advice: &'static str) -> Damaged {
        Damaged { advice, ..self }
    }

    /// Refused for the samples of a ping.
    pub fn is_in_samples(&self) -> bool {
        (23..=25).contains(&self.code)
    }
}

/// A file that is being put together.
pub struct Draft {
    pub tuples: Vec<Vec<u8>>,
    order: Order,
}

impl Draft {
    pub fn of(known: &Known) -> Draft {
        Draft {
            tuples: known
                .tuples
                .iter()
                .map(|tuple| tuple.bytes.clone())
                .collect(),
            order: known.order,
        }
    }

    pub fn bytes(&self) -> Vec<u8> {
        [&self.order.mark()[..], &self.tuples.concat()].concat()
    }

    /// Where the n-th tuple starts.
    pub fn place(&self, nth: usize) -> usize {
        hac::FIRST_PLACE + self.tuples[..nth].iter().map(Vec::len).sum::<usize>()
    }

    /// The first tuple of a type in LSB order.
    fn find(&self, kind: u16) -> usize {
        let is = |tuple: &Vec<u8>| tuple[4..6] == kind.to_le_bytes();
        self.tuples.iter().position(is).expect("such a tuple")
    }

    /// Breaks a rule of the n-th tuple.
    fn broken(
        mut self,
        name: &'static str,
        code: u8,
        nth: usize,
        with: fn(&mut Vec<u8>),
    ) -> Damaged {
        with(&mut self.tuples[nth]);
        let place = self.place(nth);
        self.refused(name, code, place)
    }

    /// Puts a word into the n-th tuple. The refusal stands at that word.
    fn miswritten(
        mut self,
        name: &'static str,
        code: u8,
        nth: usize,
        (at, word): (usize, u32),
    ) -> Damaged {
        self.tuples[nth][at..at + 4].copy_from_slice(&word.to_le_bytes());
        let place = self.place(nth) + at;
        self.refused(name, code, place)
    }

    fn refused(self, name: &'static str, code: u8, place: usize) -> Damaged {
        whole(name, &self.bytes(), code, place)
    }
}

/// Types of the sample's tuples.
const NAVIGATION: u16 = 30;
const SOUNDER: u16 = 100;
const CHANNEL: u16 = 1000;
const PING_U: u16 = 10000;
const PING_C: u16 = 10010;

/// 02's limits: sounders and channels of a file.
const SOUNDERS: usize = 64;
const CHANNELS: usize = 1024;

/// A C-32 ping of some values, all 1, with the header of another in LSB order.
pub fn long_ping(like: &Tuple, values: usize) -> Vec<u8> {
    let length = 36 + 4 * values as u32;
    let mut tuple = (length - 10).to_le_bytes().to_vec();
    tuple.extend(&like.bytes[4..24]);
    tuple.extend((values as u32).to_le_bytes());
    tuple.extend([1, 0, 0, 0].repeat(values));
    tuple.extend([0; 4]);
    tuple.extend(length.to_le_bytes());
    tuple
}

/// More than one tuple of a kind that declares something: the n-th copy has
/// identifiers of its own, and a sounder no channels.
fn declarations(like: &[u8], identifier: usize, count: usize) -> Vec<Vec<u8>> {
    let copies = (0..count).map(|nth| {
        let mut copy = like.to_vec();
        copy[identifier..identifier + 2].copy_from_slice(&(7000 + nth as u16).to_le_bytes());
        copy
    });
    copies.collect()
}

/// A whole damaged file.
fn whole(name: &'static str, bytes: &[u8], code: u8, place: usize) -> Damaged {
    Damaged {
        name,
        bytes: bytes.to_vec(),
        code,
        place,
        advice: "",
    }
}

/// Damage to the length of the file and to its mark.
fn files(known: &Known) -> Vec<Damaged> {
    let mut too_long = known.bytes.clone();
    too_long.resize(hac::FILE_LIMIT + 1, 0);
    vec![
        whole("01-over", &too_long, 1, 0).saying(": more than 16777216 bytes: split the recording"),
        whole("02-empty", &[], 2, 0).saying(": 0 bytes, the mark alone has 4: no HAC recording"),
        whole("02-one", &known.bytes[..1], 2, 0)
            .saying(": 1 byte, the mark alone has 4: no HAC recording"),
        whole("02-mark", &known.bytes[1..], 2, 0).saying(
            ": begins with 00 00 00 0E, not with AC 00 00 00 or 00 00 00 AC: no HAC recording",
        ),
    ]
}

/// Damage to the end of the file.
fn ends(known: &Known) -> Vec<Damaged> {
    let (bytes, length) = (&known.bytes, known.bytes.len());
    let last = known.tuples.last().expect("a tuple").place;
    let behind = [&bytes[..], &[0]].concat();
    vec![
        whole("03-passes", &bytes[..length - 4], 3, last).saying(
            ": end of file says 24 bytes, 20 are left: cut short or damaged; \
             hac salvage keeps what is sound",
        ),
        whole("03-few", &bytes[..last + 15], 3, last).saying(
            ": 15 bytes left, a tuple has at least 16: cut short; hac salvage keeps what is sound",
        ),
        whole("03-one", &bytes[..last + 1], 3, last).saying(
            ": 1 byte left, a tuple has at least 16: cut short; hac salvage keeps what is sound",
        ),
        whole("04-mark", &bytes[..4], 4, 4).saying(": nothing but a mark: ask for the recording"),
        whole("04-no-end", &bytes[..last], 4, last).saying(
            ": ends behind index type 65406 at 1336, with no end of file: \
             cut short, ask for all of it",
        ),
        whole("15-behind", &behind, 15, length)
            .saying(": 1 byte behind the end of file tuple at 1356: cut the file there"),
    ]
}

/// Damage to the frame of a tuple, the navigation.
fn frames(known: &Known) -> Vec<Damaged> {
    let draft = || Draft::of(known);
    vec![
        draft()
            .broken("05-size", 5, 3, |tuple| tuple[0] += 1)
            .saying(
            ": navigation says 29 bytes, allowed are multiples of 4 from 16 to 262144: damaged; \
             hac salvage keeps what is sound",
        ),
        draft()
            .broken("06-backlink", 6, 3, |tuple| {
                let last = tuple.len() - 1;
                tuple[last] = 1;
            })
            .saying(
                ": navigation says 28 bytes, its backlink 16777244: damaged; \
                 hac salvage keeps what is sound",
            ),
    ]
}

/// Damage to single tuples.
fn tuples(known: &Known) -> Vec<Damaged> {
    let draft = || Draft::of(known);
    let find = |kind| draft().find(kind);
    let mut headless = draft();
    headless.tuples.remove(0);
    let mut twice = draft();
    twice.tuples.insert(2, known.tuples[0].bytes.clone());
    let again = twice.place(2);
    let mut overfull = draft();
    overfull.tuples[find(PING_C)] = long_ping(known.first(PING_C), hac::VALUE_LIMIT + 1);
    vec![
        headless
            .refused("07-first", 7, hac::FIRST_PLACE)
            .saying(": start of run comes first: write a signature before it"),
        twice
            .refused("07-later", 7, again)
            .saying(": a second signature: keep the one at 4 alone"),
        draft()
            .broken("08-identifier", 8, 0, |tuple| tuple[6] = 0xA8)
            .saying(": signature has identifier 44200, not 44204 or 44201"),
        draft()
            .broken("09-unfit", 9, find(NAVIGATION), |tuple| tuple[4] = 20)
            .saying(": position has 28 bytes where 36 fit: its type or its length is wrong"),
        overfull
            .broken("11-values", 11, find(PING_C), |_| ())
            .saying(": ping C-32 has 32765 values, at most 32764: make it shorter"),
    ]
}

/// Tuples that name what isn't declared.
fn orphans(known: &Known) -> Vec<Damaged> {
    let draft = || Draft::of(known);
    let find = |kind| draft().find(kind);
    vec![
        draft()
            .broken("13-channel", 13, find(PING_C), |tuple| tuple[12] = 99)
            .saying(": ping C-32 names channel 99, which no tuple before it declares"),
        draft()
            .broken("13-parent", 13, find(CHANNEL), |tuple| tuple[8] += 9)
            .saying(
                ": channel Biosonics 1 names echosounder 1210, which no tuple before it declares",
            ),
    ]
}

/// Damage to the samples of the sample's first U-32 ping, at 1084, whose fourth
/// number becomes the third, and of its first C-32 ping, at 780, which has twelve
/// values, three of them before its first run, which is of 837.
fn samples(known: &Known) -> Vec<Damaged> {
    let draft = || Draft::of(known);
    let (pairs, words) = (draft().find(PING_U), draft().find(PING_C));
    vec![
        draft()
            .miswritten("23-number", 23, pairs, (24 + 8 * 3, 840))
            .saying(": ping at 1084, pair 3 has number 840 behind 840"),
        draft()
            .miswritten("24-word", 24, words, (28 + 4 * 4, 0x7FFF_0000))
            .saying(": ping at 780, word 4 is 7FFF0000 for sample 840"),
        draft()
            .miswritten("25-count", 25, words, (24, 13))
            .saying(": ping at 780, 13 said and 12 found"),
    ]
}

/// Damage to what the file declares.
fn links(known: &Known) -> Vec<Damaged> {
    let draft = || Draft::of(known);
    let (sounder, channel) = (draft().find(SOUNDER), draft().find(CHANNEL));
    let end = draft().tuples.len() - 1;
    let mut same = draft();
    same.tuples.insert(end, known.tuples[channel].bytes.clone());
    let again = same.place(end);
    let mut sounders = draft();
    let more = declarations(&known.tuples[sounder].bytes, 8, SOUNDERS);
    sounders.tuples.splice(end..end, more);
    let one_too_many = SOUNDERS - known.sounders().count();
    let sounder_over = sounders.place(end + one_too_many);
    let mut channels = draft();
    let more = declarations(&known.tuples[channel].bytes, 6, CHANNELS);
    channels.tuples.splice(end..end, more);
    let one_too_many = CHANNELS - known.channels().count();
    let channel_over = channels.place(end + one_too_many);
    let mut silent = draft();
    silent
        .tuples
        .retain(|tuple| tuple[4..6] != [0x10, 0x27] && tuple[4..6] != [0x1A, 0x27]);
    let length = silent.bytes().len();
    vec![
        same.refused("12-channel", 12, again)
            .saying(": channel 1 is declared at 184 already: give one of them another identifier"),
        sounders.refused("14-sounders", 14, sounder_over).saying(
            ": echosounder 7062 is one too many, a file has at most 64: split the recording",
        ),
        channels
            .refused("14-channels", 14, channel_over)
            .saying(": channel 8021 is one too many, a file has at most 1024: split the recording"),
        silent.refused("16-no-ping", 16, length).saying(
            ": no ping: a recording has at least one each of position, echosounder, channel, ping",
        ),
        draft()
            .broken("17-count", 17, sounder, |tuple| tuple[6] += 1)
            .saying(": echosounder 1201 says 3 channels, 2 channel tuples name it"),
    ]
}

/// For each code that the check gives, at least one copy of a sample in LSB order.
pub fn all(known: &Known) -> Vec<Damaged> {
    let mut all = files(known);
    all.extend(ends(known));
    all.extend(frames(known));
    all.extend(tuples(known));
    all.extend(orphans(known));
    all.extend(samples(known));
    all.extend(links(known));
    all
}
