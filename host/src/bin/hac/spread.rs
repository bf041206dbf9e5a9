//! Work that is spread over all cores, and handed out in order.

use crate::progress::PAUSE;
use std::collections::BTreeMap;
use std::sync::atomic::{AtomicUsize, Ordering};
use std::sync::mpsc::{sync_channel, Receiver, RecvTimeoutError, SyncSender};
use std::sync::Arc;
use std::thread::{self, JoinHandle};

/// What was made, and its place in the order.
type Placed<T> = (usize, T);

/// So much of what was made may lie in the channel before the workers wait.
const BACKLOG: usize = 1024;

/// Workers, and what they made so far. Where it is dropped before its end nobody
/// waits for a worker, which may itself wait for its input.
pub struct Spread<T> {
    workers: Vec<JoinHandle<()>>,
    made: Receiver<Placed<T>>,
    /// How many were handed out.
    handed: usize,
    /// What is made already, behind something that isn't.
    early: BTreeMap<usize, T>,
}

impl<T: Send + 'static> Spread<T> {
    /// Makes something for each of so many places. A worker makes one at a time, in
    /// memory that it uses again.
    pub fn over<M: Default>(
        count: usize,
        make: impl Fn(usize, &mut M) -> T + Send + Sync + 'static,
    ) -> Spread<T> {
        let make = Arc::new(make);
        let next = Arc::new(AtomicUsize::new(0));
        let cores = thread::available_parallelism().map_or(1, usize::from);
        let (hand, made) = sync_channel(BACKLOG);
        let workers = (0..cores.min(count)).map(|_| {
            let (make, next, hand) = (make.clone(), next.clone(), hand.clone());
            let places =
                move || Some(next.fetch_add(1, Ordering::Relaxed)).filter(|at| *at < count);
            thread::spawn(move || work(places, &*make, &hand))
        });
        Spread {
            workers: workers.collect(),
            made,
            handed: 0,
            early: BTreeMap::new(),
        }
    }

    /// How many are made.
    pub fn done(&self) -> usize {
        self.handed + self.early.len()
    }

    /// What comes next in the order, as far as it is made: maybe nothing, after a pause.
    /// None where all was handed out.
    pub fn due(&mut self) -> Option<Vec<T>> {
        match self.made.recv_timeout(PAUSE) {
            Ok((at, made)) => {
                self.early.insert(at, made);
            }
            Err(RecvTimeoutError::Timeout) => (),
            Err(RecvTimeoutError::Disconnected) => {
                self.join();
                return None;
            }
        }
        let mut due = Vec::new();
        while let Some(made) = self.early.remove(&self.handed) {
            self.handed += 1;
            due.push(made);
        }
        Some(due)
    }

    fn join(&mut self) {
        for worker in self.workers.drain(..) {
            worker.join().expect("a worker comes to its end");
        }
    }
}

/// Makes what no other worker has taken, until nobody asks for more.
fn work<M: Default, T>(
    places: impl Fn() -> Option<usize>,
    make: impl Fn(usize, &mut M) -> T,
    hand: &SyncSender<Placed<T>>,
) {
    let mut memory = M::default();
    while let Some(at) = places() {
        if hand.send((at, make(at, &mut memory))).is_err() {
            return;
        }
    }
}
