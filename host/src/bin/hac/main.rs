//! The command `hac`: HAC recordings checked, shown on a page and in pictures, compared with
//! each other, walked, linked, asked which settings held at each ping, searched for a ping
//! with corrections beside them, read, as values, as readings and as echo energies, brought
//! to their normal form, edited with an index that stays true, and salvaged, by the proved
//! library.

#![forbid(unsafe_code)]

mod arguments;
mod check;
mod contents;
mod decimal;
mod digest;
mod edits;
mod energy;
mod excerpt;
mod files;
mod groups;
mod input;
mod json;
mod moment;
mod normal;
mod normals;
mod one;
mod out;
mod output;
mod page;
mod parents;
mod picture;
mod ping;
mod progress;
mod readings;
mod record;
mod report;
mod salvage;
mod same;
mod samples;
mod settings;
mod show;
mod shown;
mod spread;
mod stop;
mod summary;
mod units;
mod verdict;
mod walk;
mod whole;
mod written;

use arguments::{Arguments, Command};
use output::{say, Broken, Output};
use std::env;
use std::process::ExitCode;
use verdict::Status;

const HELP: &str = "\
HAC fisheries recordings: checked, shown, compared, walked, read, brought to their normal
form, edited, salvaged.

  hac check FILE..          is each file accepted? How many tuples has it, and how
                            many identifiers are compared while it is linked? A
                            folder stands for all files in it and below.
  hac show FILE..           what each file holds: sounders and channels, with their
                            pings and samples, times, positions, its index, true or
                            stale, and how many other tuples; files and folders as
                            hac check takes them
  hac same FILE..           which files have the same content, however they are
                            spelled? A line a group, then what is refused, by code.
  hac normal FILE -o OUT    writes a file's normal form to OUT, whole or not at all;
                            where OUT is - to standard output
  hac normal FILE.. -d FOLDER
                            writes the normal form of each file to FOLDER, under the
                            file's own name, whole or not at all
  hac index FILE -o OUT     writes a file to OUT with its index, the types of its tuples,
                            just before the end of file, and no other index; whole or
                            not at all; where OUT is - to standard output
  hac append FILE TUPLES -o OUT
                            the same, with the tuples of another file before the end of
                            file: framed, in FILE's byte order, without a mark
  hac remove FILE PLACE -o OUT
                            the same, without the tuple at a place
  hac salvage FILE -o OUT   writes the mark and the sound tuples of a damaged file to
                            OUT, whole or not at all, and tells what was lost, how
                            many tuples of each type are kept, and what the check
                            says of OUT, for links aren't judged
  hac walk FILE [--back]    a file's tuples: place, type, name, length
  hac parents FILE PLACE    the channel and the sounder of the ping at a place, with
                            the channel's sampling rate and type of data sample,
                            and who made both
  hac samples FILE PLACE    the samples of the ping at a place: number, value, or of a
                            ping of angles number, alongship, athwartship; behind
                            them the ping's length, runs counted, where it ends in
                            silence
  hac record FILE PLACE     the tuple at a place: each field under TR's name, the stored
                            number, and beside it the value in its unit where TR has
                            one; of an unlisted tuple how many raw bytes it has
  hac settings FILE         the settings that held at each ping: the ping's place,
                            channel and number, then the place of the last threshold
                            before it for its channel and that of the last attitude
                            before it for its channel or for all, - for none
  hac energy FILE..         the echo energy of each ping: the ping's place, channel and
                            number, then its energy in units of 10^-14 and in dB, or
                            why it has none; files and folders as hac check takes
                            them
  hac readings FILE PLACE [--from N] [--count N]
                            what each sample number of the ping at a place reads:
                            number, value, unit, and Sv, TS, volts or silent; from
                            0 on, or from N, up to the ping's end, or so many
  hac picture FILE CHANNEL -o OUT
                            writes an echogram of a software channel to OUT, as a PNG
                            file, whole or not at all: pings across, sample numbers
                            down, in colours by what they read; where OUT is - to
                            standard output
  hac ping DEPOSIT [--corrections FILE] CHANNEL NUMBER
                            the ping of a software channel and a ping number: the
                            first in FILE with attribute 1, else the first in
                            DEPOSIT; which file it is from, its kind, place, bytes
                            and fields; with --samples its samples behind them,
                            as hac samples prints them; with -o OUT its own bytes
                            are written to OUT, whole or not at all

  --json       one object a line
  --help       this page
  --version    the version of program and library, and the toolchain that proved it
  --           no options behind it
  -            as FILE: standard input

Behind the place a refusal of a file says in plain words what it is about; pairs
and words of a ping count from 0. Of hac index, hac append and hac remove it also
says where it is of the file as it would be: the place is one in that.

Exit status: 0 accepted, 1 refused, 2 not a file or bad use; of many files 2 if
any couldn't be read or written, else 1 if any was refused. Of hac same: 2 if any
couldn't be read, else 1 if two are the same, else 0. Of hac salvage: 0 everything
was kept, 3 something was lost; with 1 and 2 OUT isn't written.";

const VERSION: &str = concat!(
    "hac ",
    env!("CARGO_PKG_VERSION"),
    ", proved and made by ",
    env!("HAC_TOOLCHAIN")
);

fn run(command: Command, output: &mut Output) -> Result<(), Broken> {
    match command {
        Command::Help => output.line(HELP)?,
        Command::Version => output.line(VERSION)?,
        Command::Check { inputs } => check::run(inputs, output)?,
        Command::Show { inputs } => show::run(inputs, output)?,
        Command::Same { inputs } => same::run(inputs, output)?,
        Command::Energy { inputs } => energy::run(inputs, output)?,
        Command::Normals { inputs, folder } => normals::run(inputs, &folder, output)?,
        Command::One { input, task } => one::run(&input, &task, output)?,
    }
    output.flush()
}

/// Runs a command, and tells how the program ends.
fn finish(Arguments { command, json }: Arguments) -> Status {
    let mut output = Output::new(json);
    match run(command, &mut output) {
        Ok(()) => output.status(),
        Err(broken) => broken.ends(output.status()),
    }
}

fn main() -> ExitCode {
    let status = match Arguments::parse(env::args_os().skip(1)) {
        Ok(arguments) => finish(arguments),
        Err(fault) => {
            say(format_args!("{fault}; hac --help says more"));
            Status::Unread
        }
    };
    ExitCode::from(status as u8)
}
