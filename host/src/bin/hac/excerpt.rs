//! Pings of an accepted file, each as a small file of its own, so that what is asked of a ping
//! doesn't cost a check of the whole file each time.
//!
//! What a ping reads and what its energy is depends on itself and on its channel, and the
//! channel on its sounder alone. So a file of the signature, a position, all sounders and
//! channels, the one ping and the end of file is accepted, and answers as the whole one does.

use hac::{types, Refusal, Tuple, Walk, FIRST_PLACE};
use std::ops::RangeInclusive;

/// The class of positions, of which a file needs one.
const POSITIONS: RangeInclusive<u16> = 20..=29;

pub struct Excerpt<'a> {
    file: &'a [u8],
    /// What every ping needs before it, and behind that the last ping and the end of file.
    bytes: Vec<u8>,
    /// Where each ping starts in its small file.
    pub place: usize,
    end: &'a [u8],
}

impl<'a> Excerpt<'a> {
    /// Of a file that the check accepts; refuses as a walk does.
    pub fn of(file: &'a [u8]) -> Result<Excerpt<'a>, Refusal> {
        let mut bytes = file[..FIRST_PLACE].to_vec();
        let (mut has_position, mut end) = (false, &file[..0]);
        for tuple in Walk::START.forwards(file) {
            let tuple = tuple?;
            let is_position = POSITIONS.contains(&tuple.kind);
            if is_declaring(tuple.kind) || is_position && !has_position {
                bytes.extend(slice(file, tuple));
                has_position |= is_position;
            }
            end = slice(file, tuple);
        }
        Ok(Excerpt {
            file,
            place: bytes.len(),
            bytes,
            end,
        })
    }

    /// The small file of the ping that starts at a place.
    pub fn around(&mut self, place: usize) -> Result<&[u8], Refusal> {
        let ping = hac::tuple_at(self.file, place)?;
        self.bytes.truncate(self.place);
        self.bytes.extend(slice(self.file, ping));
        self.bytes.extend(self.end);
        Ok(&self.bytes)
    }
}

fn slice(file: &[u8], tuple: Tuple) -> &[u8] {
    &file[tuple.place..tuple.place + tuple.length]
}

/// A signature, or what a ping's parents may be.
fn is_declaring(kind: u16) -> bool {
    kind == types::SIGNATURE || types::maker(kind).is_some()
}

#[cfg(test)]
mod tests {
    use super::*;
    use hac::PingKind;

    /// Every ping of the samples, of both makers and all kinds, has in its small file the energy
    /// and the readings that it has in the whole one, or the refusal, at its place there.
    #[test]
    fn small_files_answer_alike() {
        for name in ["cruise-msb", "splitbeam-lsb", "encodings-msb"] {
            let path = format!("{}/../samples/{name}.hac", env!("CARGO_MANIFEST_DIR"));
            let file = std::fs::read(path).expect("a sample");
            let mut excerpt = Excerpt::of(&file).expect("an accepted file");
            for tuple in Walk::START.forwards(&file).map_while(Result::ok) {
                if PingKind::of_type(tuple.kind).is_some() {
                    answers_alike(&file, tuple.place, &mut excerpt);
                }
            }
        }
    }

    fn answers_alike(file: &[u8], place: usize, excerpt: &mut Excerpt) {
        let at = excerpt.place;
        let small = excerpt.around(place).expect("a ping");
        let there = |refusal: Refusal| Refusal {
            place: if refusal.place == at {
                place
            } else {
                refusal.place
            },
            ..refusal
        };
        let energy = |file: &[u8], place| hac::energy(file, place).map(|told| told.units);
        assert_eq!(energy(small, at).map_err(there), energy(file, place));
        let readings = |file: &[u8], place| hac::readings(file, place, 0, 1000);
        assert_eq!(readings(small, at).map_err(there), readings(file, place));
    }
}
