//! `hac same`: which of many deposits have the same content. Their normal forms tell; until
//! two digests agree no more than a digest is held of each.

use crate::digest::{Digest, Key};
use crate::files::{self, Entry};
use crate::groups::{Deposits, Form, Groups};
use crate::input::Input;
use crate::json::Object;
use crate::output::{Broken, Output};
use crate::progress::Progress;
use crate::report::Report;
use crate::shown::shown;
use crate::spread::Spread;
use crate::verdict::{Status, Verdict};
use hac::Code;
use std::collections::BTreeMap;
use std::ffi::OsStr;
use std::sync::Arc;

pub fn run(inputs: Vec<Input>, output: &mut Output) -> Result<(), Broken> {
    let entries = Arc::new(files::list(inputs).entries);
    let mut report = Report::new(Progress::over(entries.len(), "read"), output);
    let Prints {
        classes,
        held,
        formless,
    } = Prints::of(&entries, &mut report.progress);
    report.progress.hide();
    let deposits = Deposits {
        entries: entries.clone(),
        held,
    };
    let classes = classes.into_values().collect();
    let Groups { same, gone } = Groups::of(&Arc::new(deposits), classes);
    let gone = gone.into_iter();
    let formless: BTreeMap<usize, Verdict> = gone
        .map(|(at, why)| (at, Verdict::Unread(why)))
        .chain(formless)
        .collect();
    report.output.worsen(status(&same, &formless));
    report.summary.accept(entries.len() - formless.len());
    tell_same(&entries, &same, &mut report)?;
    tell_formless(&entries, formless, &mut report)?;
    report.summarise(&[("groups", same.len())])
}

/// What is held of a normal form: its length and a digest.
type Print = (usize, Digest);

/// What a first reading of all deposits leaves, by places in their list.
#[derive(Default)]
struct Prints {
    /// The places of those whose normal forms have the same print, in order.
    classes: BTreeMap<Print, Vec<usize>>,
    /// The normal forms of those that can be read but once.
    held: BTreeMap<usize, Form>,
    /// What has no normal form.
    formless: BTreeMap<usize, Verdict>,
}

/// The print of one deposit, and its normal form where it is held.
type Printed = Result<(Print, Option<Form>), Verdict>;

impl Prints {
    fn of(entries: &Arc<Vec<Entry>>, progress: &mut Progress) -> Prints {
        let (shared, key) = (entries.clone(), Key::drawn());
        let mut spread = Spread::over(entries.len(), move |at, (): &mut ()| {
            printed(&shared[at], &key)
        });
        let mut prints = Prints::default();
        let mut places = 0..entries.len();
        loop {
            progress.show(spread.done());
            let Some(due) = spread.due() else {
                return prints;
            };
            for (printed, at) in due.into_iter().zip(places.by_ref()) {
                prints.take(at, printed);
            }
        }
    }

    fn take(&mut self, at: usize, printed: Printed) {
        match printed {
            Ok((print, held)) => {
                self.classes.entry(print).or_default().push(at);
                self.held.extend(held.map(|form| (at, form)));
            }
            Err(verdict) => {
                self.formless.insert(at, verdict);
            }
        }
    }
}

fn printed(entry: &Entry, key: &Key) -> Printed {
    let form = entry.normal_form()?;
    let print = (form.len(), key.digest(&form));
    Ok((print, reads_once(&entry.input).then_some(form)))
}

/// A pipe that was read through may even keep a second reader waiting.
fn reads_once(input: &Input) -> bool {
    match input {
        Input::Standard => true,
        Input::Path(path) => !path.is_file(),
    }
}

/// What couldn't be read may be the same as another, whatever the rest is. A refused file is
/// the same as none.
fn status(same: &BTreeMap<usize, Vec<usize>>, formless: &BTreeMap<usize, Verdict>) -> Status {
    let is_unread = |verdict: &Verdict| verdict.status() == Status::Unread;
    if formless.values().any(is_unread) {
        Status::Unread
    } else if same.is_empty() {
        Status::Accepted
    } else {
        Status::Refused
    }
}

/// A line a group, by its first deposit.
fn tell_same(
    entries: &[Entry],
    same: &BTreeMap<usize, Vec<usize>>,
    report: &mut Report,
) -> Result<(), Broken> {
    for group in same.values() {
        let names = group.iter().map(|at| entries[*at].input.name());
        let names: Vec<&OsStr> = names.collect();
        let shown: Vec<String> = names.iter().map(|name| shown(name)).collect();
        report.line(format_args!("same: {}", shown.join(" = ")), || {
            Object::default().names("same", &names)
        })?;
    }
    Ok(())
}

/// What has no normal form: by its code what was refused, then what couldn't be read.
fn tell_formless(
    entries: &[Entry],
    formless: BTreeMap<usize, Verdict>,
    report: &mut Report,
) -> Result<(), Broken> {
    let mut formless: Vec<(usize, Verdict)> = formless.into_iter().collect();
    formless.sort_by_key(|(_, verdict)| rank(verdict));
    for (at, verdict) in formless {
        report.verdict(&entries[at].input, &verdict)?;
    }
    Ok(())
}

fn rank(verdict: &Verdict) -> (Status, Option<Code>) {
    let code = match verdict {
        Verdict::Refused(refusal, _) | Verdict::WouldBe(refusal, _) => Some(refusal.code),
        Verdict::Accepted(_) | Verdict::Unread(_) => None,
    };
    (verdict.status(), code)
}
