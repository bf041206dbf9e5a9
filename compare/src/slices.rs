//! What is lent to a call that gives each listed ping of a file an entry in each of three
//! slices: just enough, more, one too few of each slice, and none.

use crate::batch::{Batch, File};
use crate::tally::Chapter;
use second::Answer;
use std::io;

/// The code of a slice that is too short.
const NO_ROOM: u32 = 19;

/// What the lengths of all tuples are multiples of.
const STEP: usize = 4;

/// How much is tried besides what is always.
#[derive(Clone, Copy, PartialEq, Eq)]
pub enum Tries {
    All,
    /// One thing, by the file's length.
    One,
}

impl Tries {
    /// All of what can be tried on a file, or one.
    pub fn of<T: Copy>(self, all: Vec<T>, file: &[u8]) -> Vec<T> {
        self.of_turn(all, turn(file))
    }

    /// The same, by a turn.
    pub fn of_turn<T: Copy>(self, all: Vec<T>, turn: usize) -> Vec<T> {
        match self {
            Tries::One if !all.is_empty() => vec![all[turn % all.len()]],
            _ => all,
        }
    }
}

/// What comes in turn by a file's length goes by this.
pub fn turn(file: &[u8]) -> usize {
    file.len() / STEP
}

/// The slices of a call.
pub struct Slices {
    /// Who compares it.
    pub chapter: Chapter,
    /// As the header calls them.
    pub names: [&'static str; 3],
}

/// Entries of each slice.
pub type Lent = [usize; 3];

impl Slices {
    /// Makes a call with an entry of each slice for each ping, and with what else is tried.
    /// Gives the answer to the first.
    pub fn compare(
        &self,
        batch: &mut Batch,
        file: &mut File,
        pings: usize,
        tries: Tries,
        mut call: impl FnMut(&mut Batch, &mut File, Lent) -> Answer,
    ) -> io::Result<Answer> {
        let answer = call(batch, file, [pings; 3]);
        batch.rest()?;
        let told = answer.is_accepted() && answer.length != pings as u64;
        if told || answer.code == NO_ROOM {
            batch.differ("other pings are told of than the walk finds");
        }
        for lent in tries.of(besides(pings, answer), file.bytes) {
            if call(batch, file, lent).code == NO_ROOM {
                self.note_short(batch, file.bytes, pings, lent);
            }
            batch.rest()?;
        }
        Ok(answer)
    }

    /// Notes the one slice that was too short, where it was one.
    fn note_short(&self, batch: &mut Batch, file: &[u8], pings: usize, lent: Lent) {
        let slices = self.names.iter().zip(lent);
        let short: Vec<_> = slices.filter(|(_, entries)| *entries < pings).collect();
        if let [(name, _)] = &short[..] {
            batch.met_in_order(self.chapter, file, &short_met(name));
        }
    }

    /// What has to be met of them, in both byte orders.
    pub fn wanted(&self) -> Vec<String> {
        self.names.map(short_met).to_vec()
    }
}

fn short_met(name: &str) -> String {
    format!("too few entries of {name}")
}

/// What is lent besides just enough: none, more, one too few of each slice; where the file
/// is refused already, none.
fn besides(pings: usize, answer: Answer) -> Vec<Lent> {
    if !answer.is_accepted() {
        return vec![[0; 3]];
    }
    let mut besides = vec![[0; 3], [pings + 3, pings + 1, pings + 5]];
    if let Some(less) = pings.checked_sub(1) {
        besides.extend([
            [less, pings, pings],
            [pings, less, pings],
            [pings, pings, less],
        ]);
    }
    besides
}
