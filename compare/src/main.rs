//! Compares every export of the archive with the second program, on the cases
//! of a seed: `compare SEED CASES RUNNER..`, the last being the command that
//! starts the runner. Ends with status 1 where a code handed back, an entry
//! or a byte of lent memory differs, where the runner ends with a fault, where
//! an export gives a code that it can't give and, of cases enough, where something
//! that must be met was not. `compare stack SEED CASES RUNNER..` compares those of the
//! cases that are compared in full, at fewer places, with a runner that measures the
//! stack; it fails where a call takes too much, and not where something was not met.
//! `compare calls` prints the list that the runner is made of.

mod answers;
mod batch;
mod boundary;
mod cases;
mod corrections;
mod echoes;
mod edits;
mod energies;
mod exports;
mod files;
mod found;
mod kinds;
mod lists;
mod moved;
mod partners;
mod pings;
mod private;
mod readings;
mod records;
mod rewritten;
mod runner;
mod salvage;
mod settings;
mod sights;
mod slices;
mod tally;
mod walked;
mod writing;

use batch::Batch;
use cases::{compare_cases, complete, full_cases, given, measure_case};
use runner::Runner;
use std::sync::atomic::{AtomicU64, Ordering};
use std::time::Instant;
use std::{env, io, process, thread};
use tally::Tally;

/// What the workers share: the cases that are compared in full are dealt out.
struct Job<'a> {
    seed: u64,
    full: u64,
    /// The stack is measured, of these alone.
    stack: bool,
    next: AtomicU64,
    command: &'a [String],
}

impl Job<'_> {
    fn compare(&self, batch: &mut Batch, nth: u64) -> io::Result<()> {
        match self.stack {
            true => measure_case(batch, self.seed, nth),
            false => compare_cases(batch, self.seed, nth, self.full),
        }
    }
}

/// What a worker found, and the first difference.
type Found = (Tally, Option<String>);

/// One worker, with a runner of its own.
fn work(job: &Job) -> io::Result<Found> {
    let mut batch = Batch::new(Runner::start(job.command)?);
    while batch.difference.is_none() {
        let nth = job.next.fetch_add(1, Ordering::Relaxed);
        if nth >= job.full {
            break;
        }
        if let Err(error) = job.compare(&mut batch, nth) {
            batch.differ(&format!("the runner broke off: {error}"));
        }
    }
    batch.finish();
    if batch.difference.is_some() {
        // the others stop too
        job.next.store(job.full, Ordering::Relaxed);
    }
    Ok((batch.total, batch.difference))
}

/// As many workers as there are cores.
fn work_all(job: &Job) -> io::Result<Vec<Found>> {
    let workers = thread::available_parallelism().map_or(1, usize::from);
    thread::scope(|scope| {
        let workers: Vec<_> = (0..workers).map(|_| scope.spawn(|| work(job))).collect();
        let ended = workers.into_iter().map(|worker| {
            let ended = worker.join();
            ended.unwrap_or_else(|_| Err(io::Error::other("a worker panicked")))
        });
        ended.collect()
    })
}

/// Prints what was found; says whether it is as it must be.
fn report(job: &Job, found: &[Found], seconds: u64) -> bool {
    let mut tally = Tally::default();
    let mut same = true;
    for (part, difference) in found {
        tally.add(part);
        if let Some(difference) = difference {
            same = false;
            println!("compare: DIFFERENT: {difference}");
        }
    }
    for line in tally.tell() {
        println!("compare: {line}");
    }
    let mut wrong = tally.unsaid(&given());
    if job.stack {
        let (lines, too_deep) = tally.tell_stack();
        for line in lines {
            println!("stack: {line}");
        }
        wrong.extend(too_deep);
    } else {
        let missing = tally.missing(&given());
        if job.full >= complete() {
            wrong.extend(missing);
        } else {
            for line in missing {
                println!("compare: {line}, which is no failure of so few cases");
            }
        }
    }
    for line in &wrong {
        println!("compare: FAILED: {line}");
    }
    let verdict = if same { "the same" } else { "DIFFERENT" };
    println!("compare: seed {}, {verdict} ({seconds} s)", job.seed);
    same && wrong.is_empty()
}

fn main() -> io::Result<()> {
    let arguments: Vec<String> = env::args().skip(1).collect();
    if arguments == ["calls"] {
        print!("{}", exports::list());
        return Ok(());
    }
    let (stack, arguments) = match arguments.split_first() {
        Some((first, rest)) if first == "stack" => (true, rest),
        _ => (false, &arguments[..]),
    };
    let [seed, cases, command @ ..] = arguments else {
        usage()
    };
    let (Ok(seed), Ok(cases)) = (seed.parse(), cases.parse()) else {
        usage()
    };
    let job = Job {
        seed,
        full: full_cases(cases),
        stack,
        next: AtomicU64::new(0),
        command,
    };
    let began = Instant::now();
    let found = work_all(&job)?;
    let good = report(&job, &found, began.elapsed().as_secs());
    process::exit(i32::from(!good))
}

fn usage() -> ! {
    eprintln!("usage: compare [stack] SEED CASES RUNNER.., or compare calls");
    process::exit(2)
}
