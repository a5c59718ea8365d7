//! A line on standard error that says how far long work has come. Only a terminal sees it.

use std::io::{IsTerminal, Write};
use std::sync::mpsc::{RecvTimeoutError, Sender, channel};
use std::thread::{Builder, JoinHandle};
use std::time::{Duration, Instant};

/// How often the line changes.
const PAUSE: Duration = Duration::from_millis(200);

/// Shows a line in the place of the last one.
pub fn say(line: &str) {
    let mut errors = std::io::stderr();
    if errors.is_terminal() {
        // A line that is lost is no loss.
        let _ = write!(errors, "\r\x1b[K{line}").and_then(|()| errors.flush());
    }
}

/// Removes the line.
pub fn clear() {
    say("");
}

/// A line with the seconds that have gone by, until it is dropped: for one call that does not say how far it is.
pub struct Waiting(Option<(Sender<()>, JoinHandle<()>)>);

impl Waiting {
    pub fn new(what: &str) -> Self {
        if !std::io::stderr().is_terminal() {
            return Self(None);
        }
        let (what, start) = (what.to_string(), Instant::now());
        say(&what);
        let (end, ended) = channel();
        let line = Builder::new().spawn(move || {
            while ended.recv_timeout(PAUSE) == Err(RecvTimeoutError::Timeout) {
                say(&format!("{what}, {} s", start.elapsed().as_secs()));
            }
        });
        // Where there is no thread for it, the line stays as it is.
        Self(line.ok().map(|line| (end, line)))
    }
}

impl Drop for Waiting {
    fn drop(&mut self) {
        if let Some((end, line)) = self.0.take() {
            drop(end);
            // A line that ended in a panic is gone all the same.
            let _ = line.join();
            clear();
        }
    }
}

/// Progress towards a number; 0 where that is not known.
pub struct Progress {
    what: &'static str,
    done: u64,
    total: u64,
    shown: Instant,
}

impl Progress {
    pub fn new(what: &'static str, total: u64) -> Self {
        Self {
            what,
            done: 0,
            total,
            shown: Instant::now(),
        }
    }

    /// So many more are done.
    pub fn add(&mut self, more: u64) {
        self.done += more;
        if self.shown.elapsed() >= PAUSE {
            self.shown = Instant::now();
            let Self { what, done, total, .. } = self;
            match total {
                0 => say(&format!("{done} {what}")),
                _ => say(&format!("{done} of {total} {what}")),
            }
        }
    }
}

impl Drop for Progress {
    fn drop(&mut self) {
        clear();
    }
}
