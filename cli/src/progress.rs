//! How far a run has come, said to somebody who waits.

use std::io::{self, IsTerminal, Write};
use std::sync::atomic::{AtomicU64, Ordering};
use std::sync::mpsc::{channel, Receiver, RecvTimeoutError, Sender};
use std::sync::Arc;
use std::thread::{self, JoinHandle};
use std::time::Duration;

/// How long nothing is said, and how often it is said anew.
const PATIENCE: Duration = Duration::from_secs(1);
const AGAIN: Duration = Duration::from_millis(250);

/// Counts what is done. After a second it is said on standard error, if that is a terminal, and wiped away in the end.
pub struct Progress {
    done: Arc<AtomicU64>,
    /// What says it, and what ends that when it is dropped.
    teller: Option<(Sender<()>, JoinHandle<()>)>,
}

impl Progress {
    /// Nothing is done yet of what is counted; nobody is told who sees or makes it happen.
    pub fn new(counted: &'static str, waiting: bool) -> Progress {
        let done = Arc::new(AtomicU64::new(0));
        let teller = (waiting && io::stderr().is_terminal()).then(|| {
            let (end, ended) = channel();
            let done = Arc::clone(&done);
            (end, thread::spawn(move || tell(&done, counted, &ended)))
        });
        Progress { done, teller }
    }

    /// So much more is done.
    pub fn add(&self, count: u64) {
        self.done.fetch_add(count, Ordering::Relaxed);
    }
}

impl Drop for Progress {
    fn drop(&mut self) {
        if let Some((end, teller)) = self.teller.take() {
            drop(end);
            // what could not be told is no reason to fail
            let _ = teller.join();
        }
    }
}

/// Says the count over and over in one line, until the end.
fn tell(done: &AtomicU64, counted: &str, ended: &Receiver<()>) {
    let mut wait = PATIENCE;
    while ended.recv_timeout(wait) == Err(RecvTimeoutError::Timeout) {
        wait = AGAIN;
        let count = done.load(Ordering::Relaxed);
        put(&format!("\rgulxinett: {count} {counted} so far\x1b[K"));
    }
    if wait == AGAIN {
        put("\r\x1b[K");
    }
}

fn put(text: &str) {
    let mut terminal = io::stderr();
    let _ = terminal
        .write_all(text.as_bytes())
        .and_then(|()| terminal.flush());
}
