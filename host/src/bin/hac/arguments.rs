//! What the program is asked for.

use crate::input::{Input, STANDARD};
use crate::readings::Window;
use crate::shown::shown;
use hac::SoftwareChannel;
use std::ffi::{OsStr, OsString};
use std::mem;
use std::path::{Path, PathBuf};
use std::str::FromStr;
use std::vec;

pub enum Command {
    Help,
    Version,
    Check {
        inputs: Vec<Input>,
    },
    Show {
        inputs: Vec<Input>,
    },
    Same {
        inputs: Vec<Input>,
    },
    Energy {
        inputs: Vec<Input>,
    },
    /// The normal forms of many, to a folder.
    Normals {
        inputs: Vec<Input>,
        folder: PathBuf,
    },
    One {
        input: Input,
        task: Task,
    },
}

/// What is done with one input.
pub enum Task {
    /// To a file, or to standard output.
    Normal {
        out: Option<PathBuf>,
    },
    /// To a file, or to standard output.
    Edit {
        change: Change,
        out: Option<PathBuf>,
    },
    Salvage {
        out: PathBuf,
    },
    Walk {
        back: bool,
    },
    Parents {
        place: usize,
    },
    Samples {
        place: usize,
    },
    Record {
        place: usize,
    },
    Settings,
    Readings {
        place: usize,
        window: Window,
    },
    /// To a file, or to standard output.
    Picture {
        channel: SoftwareChannel,
        out: Option<PathBuf>,
    },
    Ping(Wanted),
}

impl Task {
    /// The file that it writes, if it writes one.
    pub fn out(&self) -> Option<&Path> {
        match self {
            Task::Normal { out } | Task::Edit { out, .. } | Task::Picture { out, .. } => {
                out.as_deref()
            }
            Task::Salvage { out } => Some(out),
            Task::Walk { .. }
            | Task::Parents { .. }
            | Task::Samples { .. }
            | Task::Record { .. }
            | Task::Settings
            | Task::Readings { .. } => None,
            Task::Ping(wanted) => wanted.out.as_deref(),
        }
    }

    /// It writes a file's bytes to standard output.
    pub fn is_streamed(&self) -> bool {
        matches!(
            self,
            Task::Normal { out: None }
                | Task::Edit { out: None, .. }
                | Task::Picture { out: None, .. }
        )
    }

    /// The input that it takes beside its own, if it takes one.
    pub fn beside(&self) -> Option<&Input> {
        match self {
            Task::Ping(wanted) => wanted.corrections.as_ref(),
            Task::Edit {
                change: Change::Append { tuples },
                ..
            } => Some(tuples),
            _ => None,
        }
    }
}

/// What is done to a file before its index is written.
pub enum Change {
    Index,
    Append { tuples: Input },
    Remove { place: usize },
}

/// A ping that is looked for in a deposit, and what is to be told of it.
pub struct Wanted {
    /// The corrections beside the deposit.
    pub corrections: Option<Input>,
    pub channel: SoftwareChannel,
    pub number: u32,
    /// Its samples, too.
    pub samples: bool,
    /// Where its own bytes go.
    pub out: Option<PathBuf>,
}

pub struct Arguments {
    pub command: Command,
    /// Objects are printed in the place of text.
    pub json: bool,
}

impl Arguments {
    /// The arguments, or what is wrong with them.
    pub fn parse(words: impl Iterator<Item = OsString>) -> Result<Arguments, String> {
        let sorted = Sorted::of(words)?;
        let json = sorted.json;
        let command = sorted.command()?;
        Ok(Arguments { command, json })
    }
}

/// The commands that write a file, and those of them that also write one to standard output.
const WRITING: [&str; 7] = [
    "normal", "index", "append", "remove", "salvage", "picture", "ping",
];
const STREAMING: [&str; 5] = ["normal", "index", "append", "remove", "picture"];

/// What is wrong where standard input is named twice.
const READ_ONCE: &str = "standard input can be read but once";

/// The arguments, options apart from the rest.
#[derive(Default)]
struct Sorted {
    rest: Vec<OsString>,
    json: bool,
    back: bool,
    samples: bool,
    corrections: Option<OsString>,
    from: Option<OsString>,
    count: Option<OsString>,
    out: Option<OsString>,
    folder: Option<OsString>,
    help: bool,
    version: bool,
}

impl Sorted {
    fn of(mut words: impl Iterator<Item = OsString>) -> Result<Sorted, String> {
        let mut sorted = Sorted::default();
        while let Some(word) = words.next() {
            match word.to_str() {
                Some("--json") => sorted.json = true,
                Some("--back") => sorted.back = true,
                Some("--help") => sorted.help = true,
                Some("--version") => sorted.version = true,
                Some("--samples") => sorted.samples = true,
                Some("--corrections") => take(&mut sorted.corrections, &word, words.next())?,
                Some("--from") => take(&mut sorted.from, &word, words.next())?,
                Some("--count") => take(&mut sorted.count, &word, words.next())?,
                Some("-o") => take(&mut sorted.out, &word, words.next())?,
                Some("-d") => take(&mut sorted.folder, &word, words.next())?,
                Some("--") => sorted.rest.extend(words.by_ref()),
                Some("-") => sorted.rest.push(word),
                _ if word.as_encoded_bytes().starts_with(b"-") => {
                    return Err(format!("unknown option {}", shown(&word)));
                }
                _ => sorted.rest.push(word),
            }
        }
        Ok(sorted)
    }

    /// Sees to it that a command gets no other's options.
    fn must_fit(&self, command: &str) -> Result<(), String> {
        let is_standard = self.out.as_ref().is_some_and(|out| out == STANDARD);
        let options: [(bool, &str, &[&str]); 8] = [
            (self.back, "--back", &["walk"]),
            (self.out.is_some(), "-o", &WRITING),
            (is_standard, "-o -", &STREAMING),
            (self.folder.is_some(), "-d", &["normal"]),
            (self.samples, "--samples", &["ping"]),
            (self.corrections.is_some(), "--corrections", &["ping"]),
            (self.from.is_some(), "--from", &["readings"]),
            (self.count.is_some(), "--count", &["readings"]),
        ];
        let unfit = |(is_there, _, commands): &&(bool, _, &[&str])| {
            *is_there && !commands.contains(&command)
        };
        match options.iter().find(unfit) {
            None => Ok(()),
            Some((_, option, commands)) => {
                let commands = commands.join(", hac ");
                Err(format!("{option} is for hac {commands} alone"))
            }
        }
    }

    /// Where a file's bytes go: to OUT, or to standard output, where nothing else may go.
    fn bytes_out(self) -> Result<Option<PathBuf>, String> {
        let out = self.out.ok_or("no -o OUT")?;
        match (out == STANDARD, self.json) {
            (true, true) => Err("--json and -o - both take standard output".into()),
            (true, false) => Ok(None),
            (false, _) => Ok(Some(out.into())),
        }
    }

    fn command(mut self) -> Result<Command, String> {
        if self.help {
            return Ok(Command::Help);
        }
        if self.version {
            return Ok(Command::Version);
        }
        let mut rest = Rest(mem::take(&mut self.rest).into_iter());
        let word = rest.0.next().ok_or("no command")?;
        let name = word.to_str().unwrap_or_default();
        self.must_fit(name)?;
        match name {
            "check" => rest.many().map(|inputs| Command::Check { inputs }),
            "show" => rest.many().map(|inputs| Command::Show { inputs }),
            "same" => rest.many().map(|inputs| Command::Same { inputs }),
            "energy" => rest.many().map(|inputs| Command::Energy { inputs }),
            "normal" => rest.normal(self),
            "index" => rest.edit(self, |_| Ok(Change::Index)),
            "append" => rest.edit(self, |rest| {
                let tuples = rest.input("TUPLES")?;
                Ok(Change::Append { tuples })
            }),
            "remove" => rest.edit(self, |rest| {
                rest.place().map(|place| Change::Remove { place })
            }),
            "salvage" => rest.writing(self.out, |out| Task::Salvage { out }),
            "walk" => rest.one(|_| Ok(Task::Walk { back: self.back })),
            "parents" => rest.one(|rest| rest.place().map(|place| Task::Parents { place })),
            "samples" => rest.one(|rest| rest.place().map(|place| Task::Samples { place })),
            "record" => rest.one(|rest| rest.place().map(|place| Task::Record { place })),
            "settings" => rest.one(|_| Ok(Task::Settings)),
            "readings" => rest.readings(self),
            "picture" => rest.picture(self),
            "ping" => rest.ping(self),
            _ => Err(format!("{} is no command", shown(&word))),
        }
    }
}

/// Takes the word behind an option, which may stand there once.
fn take(
    taken: &mut Option<OsString>,
    option: &OsStr,
    word: Option<OsString>,
) -> Result<(), String> {
    let option = shown(option);
    let word = word.ok_or_else(|| format!("nothing behind {option}"))?;
    match taken.replace(word) {
        None => Ok(()),
        Some(_) => Err(format!("more than one {option}")),
    }
}

/// What is left behind a command.
struct Rest(vec::IntoIter<OsString>);

impl Rest {
    /// Inputs alone, at least one.
    fn many(self) -> Result<Vec<Input>, String> {
        let inputs: Vec<Input> = self.0.map(Input::of).collect();
        let standard = inputs.iter().filter(|input| **input == Input::Standard);
        if standard.count() > 1 {
            return Err(READ_ONCE.into());
        }
        if inputs.is_empty() {
            return Err("no FILE".into());
        }
        Ok(inputs)
    }

    /// The next word, as an input.
    fn input(&mut self, missing: &str) -> Result<Input, String> {
        let word = self.0.next().ok_or_else(|| format!("no {missing}"))?;
        Ok(Input::of(word))
    }

    /// A command on one input, or on one and another beside it, with nothing behind its
    /// task.
    fn one(
        mut self,
        task: impl FnOnce(&mut Rest) -> Result<Task, String>,
    ) -> Result<Command, String> {
        let input = self.input("FILE")?;
        let task = task(&mut self)?;
        if let Some(word) = self.0.next() {
            return Err(format!("{} is too much", shown(&word)));
        }
        if input == Input::Standard && task.beside() == Some(&Input::Standard) {
            return Err(READ_ONCE.into());
        }
        Ok(Command::One { input, task })
    }

    /// A command that also writes a file.
    fn writing(
        self,
        out: Option<OsString>,
        task: impl FnOnce(PathBuf) -> Task,
    ) -> Result<Command, String> {
        let out = out.ok_or("no -o OUT")?;
        self.one(|_| Ok(task(out.into())))
    }

    /// The normal form of one input, or those of many.
    fn normal(self, options: Sorted) -> Result<Command, String> {
        match (&options.out, &options.folder) {
            (Some(_), Some(_)) => Err("-o OUT and -d FOLDER exclude each other".into()),
            (None, Some(folder)) => self.normals(folder.into()),
            (_, None) => {
                let out = options.bytes_out()?;
                self.one(|_| Ok(Task::Normal { out }))
            }
        }
    }

    /// A file with its index, and what is done to it before.
    fn edit(
        self,
        options: Sorted,
        change: impl FnOnce(&mut Rest) -> Result<Change, String>,
    ) -> Result<Command, String> {
        let out = options.bytes_out()?;
        self.one(|rest| change(rest).map(|change| Task::Edit { change, out }))
    }

    fn normals(self, folder: PathBuf) -> Result<Command, String> {
        let inputs = self.many()?;
        if inputs.contains(&Input::Standard) {
            return Err("standard input has no file name to write under".into());
        }
        Ok(Command::Normals { inputs, folder })
    }

    /// The ping's command, which may take a second input.
    fn ping(self, options: Sorted) -> Result<Command, String> {
        self.one(|rest| {
            Ok(Task::Ping(Wanted {
                corrections: options.corrections.map(Input::of),
                channel: rest.channel()?,
                number: rest.number("NUMBER", "ping number")?,
                samples: options.samples,
                out: options.out.map(PathBuf::from),
            }))
        })
    }

    /// The readings of a ping, from 0 on where nothing else is said.
    fn readings(self, options: Sorted) -> Result<Command, String> {
        let from = options.from.map(|word| number(&word, "sample number"));
        let count = options.count.map(|word| number(&word, "number of samples"));
        let window = Window {
            from: from.transpose()?.unwrap_or(0),
            count: count.transpose()?,
        };
        self.one(|rest| rest.place().map(|place| Task::Readings { place, window }))
    }

    fn picture(self, options: Sorted) -> Result<Command, String> {
        let out = options.bytes_out()?;
        self.one(|rest| rest.channel().map(|channel| Task::Picture { channel, out }))
    }

    fn place(&mut self) -> Result<usize, String> {
        self.number("PLACE", "place")
    }

    fn channel(&mut self) -> Result<SoftwareChannel, String> {
        self.number("CHANNEL", "channel").map(SoftwareChannel)
    }

    /// The next word, as the number that it has to be.
    fn number<N: FromStr>(&mut self, missing: &str, what: &str) -> Result<N, String> {
        let word = self.0.next().ok_or_else(|| format!("no {missing}"))?;
        number(&word, what)
    }
}

/// A word, as the number that it has to be.
fn number<N: FromStr>(word: &OsStr, what: &str) -> Result<N, String> {
    let number = word.to_str().and_then(|word| word.parse().ok());
    number.ok_or_else(|| format!("{} is no {what}", shown(word)))
}
