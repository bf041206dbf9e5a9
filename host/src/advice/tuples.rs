//! Single tuples: which type stands where another should, or none does; lengths, numbers of
//! values and identifiers that don't fit.

use super::{step_at, tuple_at, Advice};
use crate::answer::Refusal;
use crate::file::{two_at, Order, FIRST_PLACE, VALUE_LIMIT};
use crate::ping::{read_ping, PingKind};
use crate::record::{read_record, Signature};
use crate::types;
use crate::walk::{Step, Tuple};
use crate::wrong;

/// In a signature: its identifier; and the two that are known.
const IDENTIFIER: usize = 6;
const KNOWN: [u16; 2] = [44204, 44201];

pub fn misplaced_signature(file: &[u8], refusal: Refusal) -> Option<Advice> {
    let Tuple { place, kind, .. } = tuple_at(file, refusal.place, |_| ())?;
    match (place == FIRST_PLACE, kind == types::SIGNATURE) {
        (true, false) => {
            let name = types::called(kind);
            let words = format!("{name} comes first: write a signature before it");
            Some(Advice::of(words).kind(kind))
        }
        (false, true) => {
            let words = format!("a second signature: keep the one at {FIRST_PLACE} alone");
            Some(
                Advice::of(words)
                    .kind(kind)
                    .number("first_place", FIRST_PLACE),
            )
        }
        _ => None,
    }
}

pub fn unknown_identifier(file: &[u8], refusal: Refusal) -> Option<Advice> {
    let tuple = tuple_at(file, refusal.place, |_| ())?;
    if Signature::read(file, tuple.place) != Err(refusal) {
        return None;
    }
    let found = two_at(file, tuple.place + IDENTIFIER)?;
    let [written, printed] = KNOWN;
    let words = format!("signature has identifier {found}, not {written} or {printed}");
    Some(Advice::of(words).number("identifier", found.into()))
}

pub fn unfit(file: &[u8], refusal: Refusal) -> Option<Advice> {
    let Tuple {
        place,
        kind,
        length,
    } = tuple_at(file, refusal.place, |_| ())?;
    let fitting = types::fitting(kind)?;
    let read = match PingKind::of_type(kind) {
        Some(_) => read_ping(file, place).map(drop),
        None => read_record(file, place, kind, &mut []).map(drop),
    };
    if read != Err(refusal) {
        return None;
    }
    let name = types::name(kind);
    let fit = format!("{name} has {length} bytes where {fitting} fit");
    let words = format!("{fit}: its type or its length is wrong");
    let advice = Advice::of(words).kind(kind).number("length", length);
    Some(advice.text("fitting", fitting))
}

pub fn overfull(file: &[u8], refusal: Refusal) -> Option<Advice> {
    let ping = tuple_at(file, refusal.place, |_| ())?;
    if read_ping(file, ping.place) != Err(refusal) {
        return None;
    }
    let (name, values) = (types::name(ping.kind), wrong::values(file, ping)?);
    let words = format!("{name} has {values} values, at most {VALUE_LIMIT}: make it shorter");
    Some(Advice::of(words).kind(ping.kind).number("values", values))
}

pub fn unturnable(file: &[u8], refusal: Refusal) -> Option<Advice> {
    let kind = tuple_at(file, refusal.place, |_| ())?.kind;
    let is_turned = types::fitting(kind).is_some() || types::INDEX.contains(&kind);
    if is_turned || Order::of(file) == Order::Lsb {
        return None;
    }
    let words =
        format!("nobody knows how to turn type {kind}: a deposit in LSB order would be taken");
    Some(Advice::of(words).number("type", kind.into()))
}

pub fn class_absent(file: &[u8], refusal: Refusal) -> Option<Advice> {
    let mut seen = [false; types::NEEDED.len()];
    let step = step_at(file, refusal.place, |tuple| {
        for ((class, _), seen) in types::NEEDED.iter().zip(&mut seen) {
            *seen |= class.contains(&tuple.kind);
        }
    })?;
    let absent = types::NEEDED.iter().zip(seen).filter(|(_, seen)| !seen);
    let absent: Vec<&str> = absent.map(|((_, name), _)| *name).collect();
    if absent.is_empty() || step != Step::End {
        return None;
    }
    let words = format!("no {}", absent.join(", no "));
    let needed = types::NEEDED.map(|(_, name)| name).join(", ");
    let words = format!("{words}: a recording has at least one each of {needed}");
    Some(Advice::of(words).text("absent", absent.join(", ")))
}
