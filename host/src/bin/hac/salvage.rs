//! `hac salvage`: what is sound of a damaged file, written to another file, and a report
//! of what was lost and what is kept.

use crate::input::Input;
use crate::json::{Number, Object};
use crate::out;
use crate::output::{Broken, Output};
use crate::shown::shown;
use crate::stop::Stop;
use crate::verdict::{Status, Verdict};
use hac::{types, Range, Salvage, Walk};
use std::collections::BTreeMap;
use std::fmt;
use std::path::Path;

pub fn run(input: &Input, file: &[u8], out: &Path, output: &mut Output) -> Result<(), Stop> {
    let salvage = hac::salvage(file)?;
    out::write(out, &salvage.bytes)?;
    let report = Report::of(file, &salvage);
    output.worsen(report.status());
    if output.json {
        output.line(report.object(input, out))?;
    } else {
        report.tell(input, out, output)?;
    }
    Ok(())
}

struct Report<'a> {
    salvage: &'a Salvage,
    /// The ranges that were dropped.
    lost: Vec<Range>,
    /// The bytes of these, of those of the file.
    share: Share,
    /// How many tuples of each type are kept.
    kept: BTreeMap<u16, usize>,
    /// What the check says of what was written: whether its tuples belong together.
    verdict: Verdict,
}

impl<'a> Report<'a> {
    fn of(file: &[u8], salvage: &'a Salvage) -> Report<'a> {
        let lost: Vec<Range> = salvage.lost().collect();
        let mut kept = BTreeMap::new();
        for tuple in Walk::START.forwards(&salvage.bytes).map_while(Result::ok) {
            *kept.entry(tuple.kind).or_default() += 1;
        }
        Report {
            salvage,
            share: Share {
                bytes: lost.iter().map(|range| range.bytes()).sum(),
                of: file.len(),
            },
            lost,
            kept,
            verdict: Verdict::of(&salvage.bytes),
        }
    }

    /// What the check says counts for nothing here: it judges more than was asked for.
    fn status(&self) -> Status {
        if self.lost.is_empty() {
            Status::Accepted
        } else {
            Status::Lost
        }
    }

    /// How the file was kept.
    fn outcome(&self) -> &'static str {
        match self.status() {
            Status::Lost => "in part",
            _ => "whole",
        }
    }

    fn share_of(&self, range: &Range) -> Share {
        Share {
            bytes: range.bytes(),
            ..self.share
        }
    }

    fn tell(&self, input: &Input, out: &Path, output: &mut Output) -> Result<(), Broken> {
        let out = shown(out.as_os_str());
        output.line(format_args!(
            "{}: kept {}, {} bytes written to {out}",
            shown(input.name()),
            self.outcome(),
            self.salvage.bytes.len()
        ))?;
        self.tell_lost(output)?;
        self.tell_kept(output)?;
        output.line(format_args!("{out}: {}", self.verdict))
    }

    fn tell_lost(&self, output: &mut Output) -> Result<(), Broken> {
        let Share { bytes, of } = self.share;
        output.line(format_args!(
            "lost ranges {}, bytes {bytes} of {of}, {} %",
            self.lost.len(),
            self.share
        ))?;
        for range in &self.lost {
            output.line(format_args!(
                "{:>8} to {:>8}  {:>8} bytes  {:>6} %",
                range.from,
                range.to,
                range.bytes(),
                self.share_of(range).to_string()
            ))?;
        }
        Ok(())
    }

    fn tell_kept(&self, output: &mut Output) -> Result<(), Broken> {
        output.line(format_args!(
            "kept tuples {}, types {}, places tried {}",
            self.salvage.tuples,
            self.kept.len(),
            self.salvage.tried
        ))?;
        for (kind, tuples) in &self.kept {
            let name = types::name(*kind);
            output.line(format_args!("{tuples:>8}  {kind:>5}  {name}"))?;
        }
        Ok(())
    }

    fn object(&self, input: &Input, out: &Path) -> Object {
        Object::default()
            .name("file", input.name())
            .text("outcome", self.outcome())
            .name("out", out.as_os_str())
            .number("length", self.salvage.bytes.len())
            .number("tuples", self.salvage.tuples)
            .number("tried", self.salvage.tried)
            .object("lost", self.lost_object())
            .list("kept", self.kept.iter().map(kept_object))
            .object("check", self.verdict.told(Object::default()))
    }

    fn lost_object(&self) -> Object {
        let ranges = self.lost.iter().map(|range| {
            Object::default()
                .number("from", range.from)
                .number("to", range.to)
                .number("bytes", range.bytes())
                .number("percent", self.share_of(range))
        });
        Object::default()
            .number("bytes", self.share.bytes)
            .number("of", self.share.of)
            .number("percent", self.share)
            .list("ranges", ranges)
    }
}

fn kept_object((kind, tuples): (&u16, &usize)) -> Object {
    Object::default()
        .number("type", *kind)
        .text("name", types::name(*kind))
        .number("tuples", *tuples)
}

/// Some bytes of a file that has a mark, told in percent with two decimals. It is rounded
/// up: no loss is told as none.
#[derive(Clone, Copy)]
struct Share {
    bytes: usize,
    of: usize,
}

const PERCENT: usize = 100;

impl fmt::Display for Share {
    fn fmt(&self, to: &mut fmt::Formatter<'_>) -> fmt::Result {
        let hundredths = (self.bytes * PERCENT * PERCENT).div_ceil(self.of);
        write!(to, "{}.{:02}", hundredths / PERCENT, hundredths % PERCENT)
    }
}

impl Number for Share {}

#[cfg(test)]
mod tests {
    use super::*;

    #[test]
    fn shares() {
        for (bytes, of, told) in [
            (0, 4, "0.00"),
            (1, hac::FILE_LIMIT, "0.01"),
            (1, 10_000, "0.01"),
            (1, 9_999, "0.02"),
            (1, 100, "1.00"),
            (196, 1368, "14.33"),
            (hac::FILE_LIMIT - 4, hac::FILE_LIMIT, "100.00"),
        ] {
            assert_eq!(Share { bytes, of }.to_string(), told);
        }
    }
}
