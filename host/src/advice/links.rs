//! What tuples declare and name: echosounders and channels.

use super::{step_at, tuple_at, Advice};
use crate::answer::Refusal;
use crate::field::{DocumentId, SoftwareChannel};
use crate::file::{maker_at, two_at, CHANNEL_LIMIT, SOUNDER_LIMIT};
use crate::ping::PingKind;
use crate::record::{Channel, Ek500Channel, Ek500Sounder, Sounder};
use crate::types;
use crate::walk::{self, Tuple};
use std::fmt;
use std::mem::discriminant;

/// In a ping, a threshold or an attitude: the channel that it names.
const CHANNEL: usize = 12;

/// What a tuple declares, or names.
#[derive(Clone, Copy, PartialEq, Eq)]
enum Linked {
    Sounder(DocumentId),
    Channel(SoftwareChannel),
}

/// The identifier of an echosounder, and how many channels it says that it has.
fn sounder(file: &[u8], tuple: Tuple) -> Option<(DocumentId, u16)> {
    let place = tuple.place;
    match tuple.kind {
        types::SOUNDER => Sounder::read(file, place).ok().map(|(told, _)| {
            let channels = told.number_of_software_channels;
            (told.echosounder_document_identifier, channels)
        }),
        types::EK500_SOUNDER => Ek500Sounder::read(file, place).ok().map(|(told, _)| {
            let channels = told.number_of_software_channels;
            (told.echosounder_document_identifier, channels)
        }),
        _ => None,
    }
}

/// The identifier of a channel, and that of the echosounder that it names.
fn channel(file: &[u8], tuple: Tuple) -> Option<(SoftwareChannel, DocumentId)> {
    let place = tuple.place;
    match tuple.kind {
        types::CHANNEL => Channel::read(file, place).ok().map(|(told, _)| {
            let sounder = told.echosounder_document_identifier;
            (told.software_channel_identifier, sounder)
        }),
        types::EK500_CHANNEL => Ek500Channel::read(file, place).ok().map(|(told, _)| {
            let sounder = told.echosounder_document_identifier;
            (told.software_channel_identifier, sounder)
        }),
        _ => None,
    }
}

impl Linked {
    fn declared(file: &[u8], tuple: Tuple) -> Option<Linked> {
        let sounder = sounder(file, tuple).map(|(declared, _)| Linked::Sounder(declared));
        sounder.or_else(|| Some(Linked::Channel(channel(file, tuple)?.0)))
    }

    /// An attitude for all channels names none.
    fn named(file: &[u8], tuple: Tuple) -> Option<Linked> {
        let named = || two_at(file, tuple.place + CHANNEL).map(SoftwareChannel);
        match tuple.kind {
            types::ATTITUDE => named().filter(|named| *named != SoftwareChannel::ALL),
            types::THRESHOLD => named(),
            kind if PingKind::of_type(kind).is_some() => named(),
            _ => return Some(Linked::Sounder(channel(file, tuple)?.1)),
        }
        .map(Linked::Channel)
    }

    /// Whether both are sounders, or both channels.
    fn is_like(self, other: Linked) -> bool {
        discriminant(&self) == discriminant(&other)
    }

    /// How many of its kind a file may declare.
    fn limit(self) -> usize {
        match self {
            Linked::Sounder(_) => SOUNDER_LIMIT,
            Linked::Channel(_) => CHANNEL_LIMIT,
        }
    }

    /// Words on it, and itself.
    fn advice(self, tuple: Tuple, words: String) -> Advice {
        let advice = Advice::of(words).kind(tuple.kind);
        match self {
            Linked::Sounder(DocumentId(number)) => advice.number("sounder", number as usize),
            Linked::Channel(SoftwareChannel(number)) => advice.number("channel", number.into()),
        }
    }
}

impl fmt::Display for Linked {
    fn fmt(&self, to: &mut fmt::Formatter<'_>) -> fmt::Result {
        match self {
            Linked::Sounder(DocumentId(number)) => write!(to, "echosounder {number}"),
            Linked::Channel(SoftwareChannel(number)) => write!(to, "channel {number}"),
        }
    }
}

/// The first place before another where something is declared; none where a walk doesn't
/// come to the other.
fn first_before(file: &[u8], place: usize, wanted: Linked) -> Option<Option<usize>> {
    let mut first = None;
    tuple_at(file, place, |tuple| {
        if first.is_none() && Linked::declared(file, tuple) == Some(wanted) {
            first = Some(tuple.place);
        }
    })?;
    Some(first)
}

pub fn declared_twice(file: &[u8], refusal: Refusal) -> Option<Advice> {
    let tuple = walk::tuple_at(file, refusal.place).ok()?;
    let declared = Linked::declared(file, tuple)?;
    let first = first_before(file, tuple.place, declared)??;
    let words =
        format!("{declared} is declared at {first} already: give one of them another identifier");
    Some(declared.advice(tuple, words).number("first_place", first))
}

pub fn no_parent(file: &[u8], refusal: Refusal) -> Option<Advice> {
    let tuple = walk::tuple_at(file, refusal.place).ok()?;
    let named = Linked::named(file, tuple)?;
    let name = match channel(file, tuple) {
        Some((SoftwareChannel(number), _)) => format!("{} {number}", types::name(tuple.kind)),
        None => types::name(tuple.kind).into(),
    };
    let Some(parent) = first_before(file, tuple.place, named)? else {
        let words = format!("{name} names {named}, which no tuple before it declares");
        return Some(named.advice(tuple, words));
    };
    let maker = maker_at(file, parent)?;
    if types::maker(tuple.kind).is_none_or(|own| own == maker) {
        return None;
    }
    let words =
        format!("{name} names {named}, which {maker} made, at {parent}: name one of its own maker");
    Some(named.advice(tuple, words).number("parent_place", parent))
}

pub fn too_many(file: &[u8], refusal: Refusal) -> Option<Advice> {
    let tuple = walk::tuple_at(file, refusal.place).ok()?;
    let declared = Linked::declared(file, tuple)?;
    let mut before = 0;
    tuple_at(file, tuple.place, |tuple| {
        let other = Linked::declared(file, tuple);
        before += usize::from(other.is_some_and(|other| other.is_like(declared)));
    })?;
    let limit = declared.limit();
    let words =
        format!("{declared} is one too many, a file has at most {limit}: split the recording");
    (before == limit).then(|| declared.advice(tuple, words).number("limit", limit))
}

pub fn wrong_count(file: &[u8], refusal: Refusal) -> Option<Advice> {
    let tuple = walk::tuple_at(file, refusal.place).ok()?;
    let (declared, said) = sounder(file, tuple)?;
    let mut found = 0;
    step_at(file, file.len(), |tuple| {
        let named = channel(file, tuple).map(|(_, named)| named);
        found += usize::from(named == Some(declared));
    })?;
    if found == usize::from(said) {
        return None;
    }
    let sounder = Linked::Sounder(declared);
    let words = format!("{sounder} says {said} channels, {found} channel tuples name it");
    let advice = sounder.advice(tuple, words);
    Some(advice.number("said", said.into()).number("found", found))
}
