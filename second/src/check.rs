//! The whole check, in one pass.

use crate::answer::{Answer, Fault};
use crate::kinds::PingKind;
use crate::layout::{self, class, Class};
use crate::links::{ChannelLink, DocumentId, Links, Maker, SoftwareChannel, SounderLink};
use crate::order::{four_at, two_at, Order};
use crate::records::judge_fields;
use crate::samples::judge_ping;
use crate::walk::{frame, mark, Tuple};

/// What one pass over an accepted file finds out.
pub(crate) struct Survey {
    pub order: Order,
    pub tuples: u64,
    pub links: Links,
}

/// The classes seen so far that a file must have.
#[derive(Default)]
struct Seen {
    position: bool,
    sounder: bool,
    channel: bool,
    ping: bool,
}

impl Seen {
    fn note(&mut self, class: Option<Class>) {
        match class {
            Some(Class::Position) => self.position = true,
            Some(Class::Sounder) => self.sounder = true,
            Some(Class::Channel) => self.channel = true,
            Some(Class::Ping) => self.ping = true,
            Some(Class::Index) | None => {}
        }
    }

    fn all(&self) -> bool {
        self.position && self.sounder && self.channel && self.ping
    }
}

/// Whether a tuple of a type names a channel; all have it at the same offset.
fn names_channel(code: u16) -> bool {
    matches!(code, layout::THRESHOLD | layout::ATTITUDE) || PingKind::of(code).is_some()
}

/// 12, 14 and 13 of one listed tuple of fit length.
fn judge_links(links: &mut Links, tuple: &Tuple, bytes: &[u8], order: Order) -> Result<(), u32> {
    let two = |at| two_at(order, bytes, at);
    let four = |at| four_at(order, bytes, at);
    // What declares stands at the same offsets whoever is the maker.
    let sounder = |maker| SounderLink {
        id: DocumentId(four(8)),
        maker,
        stated: two(6),
        place: tuple.place,
    };
    let channel = |maker| ChannelLink {
        id: SoftwareChannel(two(6)),
        maker,
        parent: DocumentId(four(8)),
        sampling_rate: four(12),
        type_of_data_sample: two(16),
        place: tuple.place,
    };
    match tuple.code {
        layout::SOUNDER => links.declare_sounder(sounder(Maker::Biosonics)),
        layout::EK500_SOUNDER => links.declare_sounder(sounder(Maker::Simrad)),
        layout::CHANNEL => links.declare_channel(channel(Maker::Biosonics)),
        layout::EK500_CHANNEL => links.declare_channel(channel(Maker::Simrad)),
        layout::ATTITUDE if SoftwareChannel(two(12)) == SoftwareChannel::ALL => Ok(()),
        code if names_channel(code) => links.name_channel(SoftwareChannel(two(12))),
        _ => Ok(()),
    }
}

/// 11 and 23 to 25 of a framed tuple of fit length.
pub(crate) fn judge_samples(bytes: &[u8], code: u16, order: Order) -> Result<(), Fault> {
    match PingKind::of(code) {
        Some(kind) => judge_ping(bytes, kind, order).map(|_| ()),
        None => Ok(()),
    }
}

/// The one pass: the check's refusals, or what it found.
pub(crate) fn survey(file: &[u8]) -> Result<Survey, Answer> {
    survey_each(file, |_, _, _| {})
}

/// The same for who looks at each judged tuple on the way: at its frame, its bytes and their
/// order.
pub(crate) fn survey_each(
    file: &[u8],
    mut each: impl FnMut(&Tuple, &[u8], Order),
) -> Result<Survey, Answer> {
    let order = mark(file).map_err(|code| Answer::refused(code, 0))?;
    let mut survey = Survey {
        order,
        tuples: 0,
        links: Links::default(),
    };
    let mut seen = Seen::default();
    let mut place = 4;
    loop {
        if place == file.len() {
            return Err(Answer::refused(4, place as u64));
        }
        let tuple = survey
            .take_tuple(file, place, &mut seen)
            .map_err(|fault| fault.at(place as u64))?;
        let end = place + tuple.length as usize;
        each(&tuple, &file[place..end], order);
        place = end;
        if tuple.code == layout::END_OF_FILE {
            break;
        }
    }
    if place < file.len() {
        return Err(Answer::refused(15, place as u64));
    }
    if !seen.all() {
        return Err(Answer::refused(16, place as u64));
    }
    if let Some(sounder) = survey.links.wrong_count() {
        return Err(Answer::refused(17, sounder));
    }
    Ok(survey)
}

impl Survey {
    /// The acceptance of a call that checks the file and writes so many bytes.
    pub fn accepted(&self, length: u64) -> Answer {
        Answer::checked(self.tuples, length, self.links.compared)
    }

    /// One tuple: 3, 5, 3, 6, 7, 9, 8, 12, 14, 13, 11, then 24 and 25, or 23.
    fn take_tuple(&mut self, file: &[u8], place: usize, seen: &mut Seen) -> Result<Tuple, Fault> {
        let order = self.order;
        let tuple = frame(file, order, place)?;
        let bytes = &file[place..place + tuple.length as usize];
        let first = self.tuples == 0;
        if first != (tuple.code == layout::SIGNATURE) {
            return Err(7.into());
        }
        judge_fields(bytes, tuple.code, order)?;
        judge_links(&mut self.links, &tuple, bytes, order)?;
        judge_samples(bytes, tuple.code, order)?;
        seen.note(class(tuple.code));
        self.tuples += 1;
        Ok(tuple)
    }
}

/// Checks a whole file.
pub fn check(file: &[u8]) -> Answer {
    match survey(file) {
        Ok(survey) => survey.accepted(0),
        Err(refusal) => refusal,
    }
}
