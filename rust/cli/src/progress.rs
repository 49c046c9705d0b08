//! What takes long is told on a terminal: how far it is, or for how long it has run.

use std::io::{self, Write};
use std::sync::atomic::{AtomicUsize, Ordering::Relaxed};
use std::sync::mpsc::{channel, Receiver, RecvTimeoutError};
use std::thread;
use std::time::{Duration, Instant};

use crate::streams;

/// Nothing is told of work that is done sooner.
const FIRST: Duration = Duration::from_millis(1000);
const THEN: Duration = Duration::from_millis(250);

/// How much of the work is done.
#[derive(Default)]
pub struct Done(AtomicUsize);

impl Done {
    pub fn one_more(&self) {
        self.0.fetch_add(1, Relaxed);
    }
}

/// Does the work; `total` is how much there is of it, if that can be counted.
pub fn during<T>(what: &str, total: Option<usize>, work: impl FnOnce(&Done) -> T) -> T {
    let done = Done::default();
    if !streams::is_terminal(streams::ERROR) {
        return work(&done);
    }
    let (end, ended) = channel::<()>();
    thread::scope(|scope| {
        // Without the thread the work is the same, and silent.
        let told = || tell(what, total, &done, ended);
        let _ = thread::Builder::new().spawn_scoped(scope, told);
        let result = work(&done);
        drop(end);
        result
    })
}

fn tell(what: &str, total: Option<usize>, done: &Done, ended: Receiver<()>) {
    let began = Instant::now();
    let mut pause = FIRST;
    while ended.recv_timeout(pause) == Err(RecvTimeoutError::Timeout) {
        let how_far = match total {
            Some(total) => format!("{} of {total}", done.0.load(Relaxed)),
            None => format!("{} s", began.elapsed().as_secs()),
        };
        let _ = write!(io::stderr(), "\r\x1b[K{what}: {how_far}");
        pause = THEN;
    }
    if pause == THEN {
        let _ = write!(io::stderr(), "\r\x1b[K");
    }
}
