//! A seeded generator of cases: sound files, some of them of settings, damaged ones, by
//! rule, blindly and as disks do it, limit cases, pairs of files, pairs of a deposit and its
//! corrections, files to be indexed, appended to and removed from, files of echoes and what a
//! viewer may ask of them, and lines for the two programs.
//!
//! It has an encoder of its own, so that a fault of the library's writers or
//! tables shows against it. A case is a function of its seed and its number.

mod corrections;
mod disk;
mod draft;
mod echoes;
mod edits;
mod faults;
mod limits;
mod lines;
mod pairs;
mod settings;
mod sound;
mod vessels;
mod views;

pub use corrections::{correction_case, CorrectionCase, Question};
pub use disk::{disk_fault, DiskFault, DISK_FAULTS};
pub use draft::{index_of, render, Body, Draft, Patch, Piece, PingStyle, Rendered, Style};
pub use echoes::energy_case;
pub use edits::{big_edit, big_edit_count, edit_case, Edit, EditCase};
pub use faults::{fault, noise, random_damage, two_faults, Kind, Spot, FAULT_KINDS, LONG_KIND};
pub use limits::{big_limit, big_limit_count, limit, limit_count};
pub use lines::{frames, hex, line_case, LineCase};
pub use pairs::{equal_pair, unequal_pair};
pub use settings::settings_case;
pub use sound::{angle_list, any_length, sample_list, sound_drafts, Wish, FAMILIES};
pub use views::{viewer_case, View, ViewerCase};

use faults::kind_in_turn;

/// Splitmix64: small, seeded, the same everywhere.
#[derive(Clone, Debug)]
pub struct Rng(u64);

impl Rng {
    pub fn new(seed: u64) -> Rng {
        Rng(seed)
    }

    /// A stream of its own for one case of a seed.
    pub fn of_case(seed: u64, index: u64) -> Rng {
        let mut rng = Rng(seed ^ index.wrapping_mul(0xD6E8_FEB8_6659_FD93));
        rng.number();
        rng
    }

    pub fn number(&mut self) -> u64 {
        self.0 = self.0.wrapping_add(0x9E37_79B9_7F4A_7C15);
        let mut z = self.0;
        z = (z ^ (z >> 30)).wrapping_mul(0xBF58_476D_1CE4_E5B9);
        z = (z ^ (z >> 27)).wrapping_mul(0x94D0_49BB_1331_11EB);
        z ^ (z >> 31)
    }

    /// From 0 up to, but not, the bound; 0 for the bound 0.
    pub fn below(&mut self, bound: u64) -> u64 {
        if bound == 0 {
            0
        } else {
            self.number() % bound
        }
    }

    pub fn index(&mut self, bound: usize) -> usize {
        self.below(bound as u64) as usize
    }

    pub fn chance(&mut self, in_hundred: u64) -> bool {
        self.below(100) < in_hundred
    }

    /// One of a list that isn't empty.
    pub(crate) fn pick<T: Copy>(&mut self, list: &[T]) -> T {
        list[self.index(list.len())]
    }

    /// A number of two bytes, often at an edge.
    pub fn two(&mut self) -> u16 {
        match self.below(4) {
            0 => self.pick(&[0, 1, 2, 0x7FFF, 0x8000, 0xFFFF, 0x0102, 0xFF00]),
            _ => self.number() as u16,
        }
    }

    /// A number of four bytes, often at an edge.
    pub fn four(&mut self) -> u32 {
        match self.below(4) {
            0 => self.pick(&[
                0,
                1,
                0x7FFF_FFFF,
                0x8000_0000,
                u32::MAX,
                0x0102_0304,
                0xFFFF_0000,
            ]),
            _ => self.number() as u32,
        }
    }

    pub fn bytes(&mut self, count: usize) -> Vec<u8> {
        (0..count).map(|_| self.number() as u8).collect()
    }
}

/// A file for other programs to be run on.
#[derive(Clone, Debug)]
pub struct Case {
    /// Says the class of the case.
    pub name: String,
    pub bytes: Vec<u8>,
    /// The check's code and place, where the way of making tells them. Code 0
    /// means that the check accepts.
    pub expected: Option<(u32, u64)>,
}

impl Case {
    pub fn new(name: impl Into<String>, bytes: Vec<u8>, expected: Option<(u32, u64)>) -> Case {
        Case {
            name: name.into(),
            bytes,
            expected,
        }
    }
}

/// The file case of a number: one file, or the two of a pair.
pub fn file_case(seed: u64, index: u64) -> Vec<Case> {
    let mut rng = Rng::of_case(seed, index);
    let turn = index / 16;
    match index % 16 {
        0..=2 => vec![sound_case(&mut rng)],
        3 => vec![settings_case(&mut rng)],
        4..=7 => {
            let kind = kind_in_turn(&mut rng, turn * 4 + (index % 16 - 4));
            vec![fault(&mut rng, kind)]
        }
        8 | 9 => vec![two_faults(&mut rng)],
        10 => vec![random_damage(&mut rng)],
        11 => {
            let nth = turn as usize % DISK_FAULTS.len();
            vec![disk_fault(&mut rng, DISK_FAULTS[nth])]
        }
        12 => vec![noise(&mut rng)],
        13 => limit_case(turn),
        14 => pair_case("pair-equal", equal_pair(&mut rng)),
        _ => pair_case("pair-unequal", unequal_pair(&mut rng)),
    }
}

/// A sound file in any style.
pub fn sound_case(rng: &mut Rng) -> Case {
    let drafts = sound_drafts(rng, &Wish::any());
    let style = Style::any(rng);
    let rendered = draft::render(&drafts, &style, rng);
    Case::new(
        format!("sound-{}", style.name()),
        rendered.bytes,
        Some((0, 0)),
    )
}

/// The limit cases in turn, each in both byte orders; behind them the slow ones,
/// once; then all but these again.
fn limit_case(turn: u64) -> Vec<Case> {
    let (small, big) = (limit_count() as u64, big_limit_count() as u64);
    if turn >= small && turn < small + big {
        return vec![big_limit((turn - small) as usize)];
    }
    limit((turn % small) as usize).into()
}

fn pair_case(name: &str, pair: (Vec<u8>, Vec<u8>)) -> Vec<Case> {
    vec![
        Case::new(format!("{name}-a"), pair.0, Some((0, 0))),
        Case::new(format!("{name}-b"), pair.1, Some((0, 0))),
    ]
}
