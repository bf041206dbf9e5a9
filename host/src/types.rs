//! The type codes of the listed types, their names, whose sounders and channels are, and
//! what the samples of a channel are.

use std::fmt;
use std::ops::RangeInclusive;

/// The type codes of the index class, whose tuples are no content.
pub const INDEX: RangeInclusive<u16> = INDEX_1..=65515;

/// The type of the index that lists a file's types: TR Table 14.
pub const INDEX_1: u16 = 65406;

macro_rules! listed {
    ($($code:literal $listed:ident $name:literal)*) => {
        $(#[doc = concat!("The type of the ", $name, ".")] pub const $listed: u16 = $code;)*

        /// The name of a type: a listed one's own, `index` in the index class,
        /// else `unlisted`.
        pub fn name(code: u16) -> &'static str {
            match code {
                $($listed => $name,)*
                _ if INDEX.contains(&code) => "index",
                _ => "unlisted",
            }
        }
    };
}

listed! {
    20 POSITION "position"
    30 NAVIGATION "navigation"
    40 ATTITUDE "attitude"
    100 SOUNDER "echosounder Biosonics"
    200 EK500_SOUNDER "echosounder EK-500"
    1000 CHANNEL "channel Biosonics"
    2000 EK500_CHANNEL "channel EK-500"
    10000 PING_U "ping U-32"
    10001 PING_U32_16_ANGLES "ping U-32-16-angles"
    10010 PING_C "ping C-32"
    10030 PING_U16 "ping U-16"
    10031 PING_U16_ANGLES "ping U-16-angles"
    10040 PING_C16 "ping C-16"
    10050 PING_CE16 "ping CE-16"
    10100 THRESHOLD "threshold"
    10110 EVENT "event marker"
    65516 RUN_START "start of run"
    65517 RUN_END "end of run"
    65534 FILE_END "end of file"
    65535 SIGNATURE "signature"
}

/// The classes that a recording has a tuple of each of, of a listed type or not, and what
/// these are called.
pub(crate) const NEEDED: [(RangeInclusive<u16>, &str); 4] = [
    (20..=29, "position"),
    (100..=999, "echosounder"),
    (1000..=9999, "channel"),
    (10000..=10099, "ping"),
];

/// The lengths that fit a listed type, the first of them where there are more; none of a
/// type that isn't listed, which any length fits.
pub(crate) const fn fitting(code: u16) -> Option<&'static str> {
    Some(match code {
        RUN_START | RUN_END => "20",
        SIGNATURE => "24",
        NAVIGATION => "28",
        POSITION | ATTITUDE => "36",
        THRESHOLD => "44",
        SOUNDER => "72",
        EK500_SOUNDER => "80",
        CHANNEL | EK500_CHANNEL => "108",
        EVENT | FILE_END => "24, 28, 32 ..",
        PING_U16 => "36, 40, 44 ..",
        PING_C | PING_C16 | PING_CE16 => "40, 44, 48 ..",
        PING_U | PING_U32_16_ANGLES => "40, 48, 56 ..",
        PING_U16_ANGLES => "40, 44, 52, 56 ..",
        _ => return None,
    })
}

/// What a tuple of a type is called; of one that isn't listed with its number.
pub(crate) fn called(code: u16) -> String {
    match fitting(code) {
        Some(_) => name(code).into(),
        None => format!("{} type {code}", name(code)),
    }
}

/// Who made a sounder, and so its channels: a channel names a sounder of its own maker.
#[derive(Clone, Copy, Debug, PartialEq, Eq, Hash)]
pub enum Maker {
    /// Of the Model 102: TR Tables 2 and 4.
    Biosonics,
    /// Of the EK-500: TR Tables 3 and 5.
    Simrad,
}

impl Maker {
    /// The maker's name.
    pub const fn name(self) -> &'static str {
        match self {
            Maker::Biosonics => "Biosonics",
            Maker::Simrad => "Simrad",
        }
    }
}

impl fmt::Display for Maker {
    fn fmt(&self, to: &mut fmt::Formatter<'_>) -> fmt::Result {
        to.write_str(self.name())
    }
}

/// Whose a listed sounder or channel is, by its type; none of all other types. TR keeps
/// ranges of codes for each maker, but what isn't listed is never interpreted.
pub const fn maker(code: u16) -> Option<Maker> {
    match code {
        SOUNDER | CHANNEL => Some(Maker::Biosonics),
        EK500_SOUNDER | EK500_CHANNEL => Some(Maker::Simrad),
        _ => None,
    }
}

/// What a type of data sample stands for, as TR lists it for the maker: Table 4 for
/// Biosonics, Table 5 for the EK-500. None of a number that isn't listed.
pub fn data_sample(maker: Maker, type_of_data_sample: u16) -> Option<&'static str> {
    let listed = match maker {
        Maker::Biosonics => [
            "volts",
            "Sv (scattering volume in dB)",
            "TS (target strength of single targets in dB)",
            "offaxis mechanical angles of single targets",
        ],
        Maker::Simrad => [
            "electrical phase angle from the split-beam analysis",
            "power (raw Sv before the TVG)",
            "Sv (scattering volume)",
            "TS (target strength)",
        ],
    };
    listed.get(usize::from(type_of_data_sample)).copied()
}

#[cfg(test)]
mod tests {
    use super::*;

    /// The code, name and maker of each sounder and channel that TR lists, of their
    /// neighbours, and of others.
    #[test]
    fn makers() {
        for (code, named, made) in [
            (100, "echosounder Biosonics", Some("Biosonics")),
            (1000, "channel Biosonics", Some("Biosonics")),
            (200, "echosounder EK-500", Some("Simrad")),
            (2000, "channel EK-500", Some("Simrad")),
            (101, "unlisted", None),
            (201, "unlisted", None),
            (300, "unlisted", None),
            (1001, "unlisted", None),
            (2001, "unlisted", None),
            (3000, "unlisted", None),
            (10000, "ping U-32", None),
            (10001, "ping U-32-16-angles", None),
            (10002, "unlisted", None),
            (10050, "ping CE-16", None),
            (65535, "signature", None),
        ] {
            assert_eq!(name(code), named);
            assert_eq!(maker(code).map(Maker::name), made, "{code}");
        }
        assert_eq!(Maker::Simrad.to_string(), "Simrad");
    }

    /// No other type is anybody's.
    #[test]
    fn four_types_have_makers() {
        let made: Vec<u16> = (0..=u16::MAX).filter(|c| maker(*c).is_some()).collect();
        assert_eq!(made, [100, 200, 1000, 2000]);
    }
}
