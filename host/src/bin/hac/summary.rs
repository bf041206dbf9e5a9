//! How many files came out how.

use crate::json::Object;
use crate::output::{Broken, Output};
use crate::verdict::Verdict;
use hac::Code;
use std::collections::BTreeMap;

#[derive(Default)]
pub struct Summary {
    accepted: usize,
    unread: usize,
    /// The refused ones, by code.
    codes: BTreeMap<Code, usize>,
}

impl Summary {
    /// Counts files that were accepted.
    pub fn accept(&mut self, count: usize) {
        self.accepted += count;
    }

    pub fn count(&mut self, verdict: &Verdict) {
        match verdict {
            Verdict::Accepted(_) => self.accept(1),
            Verdict::Refused(refusal, _) | Verdict::WouldBe(refusal, _) => {
                *self.codes.entry(refusal.code).or_default() += 1;
            }
            Verdict::Unread(_) => self.unread += 1,
        }
    }

    fn refused(&self) -> usize {
        self.codes.values().sum()
    }

    fn files(&self) -> usize {
        self.accepted + self.refused() + self.unread
    }

    /// Tells it, and behind it what else was counted: names, with how many.
    pub fn tell(&self, others: &[(&str, usize)], output: &mut Output) -> Result<(), Broken> {
        let behind = others.iter();
        let behind: String = behind
            .map(|(name, count)| format!(", {name} {count}"))
            .collect();
        output.tell(
            format_args!(
                "files {}, accepted {}, refused {}, not read {}{behind}",
                self.files(),
                self.accepted,
                self.refused(),
                self.unread
            ),
            || Object::default().object("summary", self.object(others)),
        )?;
        if output.json {
            return Ok(());
        }
        for (code, count) in &self.codes {
            output.line(format_args!("{count:>8}  {code}"))?;
        }
        Ok(())
    }

    fn object(&self, others: &[(&str, usize)]) -> Object {
        let codes = self.codes.iter();
        let codes = codes.fold(Object::default(), |codes, (code, count)| {
            codes.number(&code.number().to_string(), *count)
        });
        let counts = Object::default()
            .number("files", self.files())
            .number("accepted", self.accepted)
            .number("refused", self.refused())
            .number("unread", self.unread);
        let counts = others
            .iter()
            .fold(counts, |counts, (name, count)| counts.number(name, *count));
        counts.object("codes", codes)
    }
}
