//! How far an audit is, on a terminal.

use crate::streams::Streams;
use std::time::{Duration, Instant};

pub struct Progress {
    all: usize,
    began: Instant,
    shown: Option<Instant>,
}

impl Progress {
    pub fn new(all: usize) -> Progress {
        Progress { all, began: Instant::now(), shown: None }
    }

    /// Shows the line anew, ten times a second at most.
    pub fn show(&mut self, done: usize, streams: &mut Streams) {
        if !streams.terminal || self.shown.is_some_and(|last| last.elapsed() < Duration::from_millis(100)) {
            return;
        }
        self.shown = Some(Instant::now());
        let left = left(self.began.elapsed(), done, self.all);
        let _ = write!(streams.errors, "\r\x1b[Ksheet {} of {}{left}", done + 1, self.all);
        let _ = streams.errors.flush();
    }

    /// Wipes the line away before something is printed.
    pub fn wipe(&mut self, streams: &mut Streams) {
        if self.shown.is_some() && streams.terminal {
            let _ = write!(streams.errors, "\r\x1b[K");
            let _ = streams.errors.flush();
        }
    }
}

/// The time left, by the time that the sheets so far took.
fn left(spent: Duration, done: usize, all: usize) -> String {
    if done == 0 {
        return String::new();
    }
    let seconds = (spent.as_secs_f64() / done as f64 * (all - done) as f64).ceil() as u64;
    match seconds {
        0..=99 => format!(", {seconds} s left"),
        100..=5999 => format!(", {} min left", seconds.div_ceil(60)),
        _ => format!(", {} h left", seconds.div_ceil(3600)),
    }
}

#[cfg(test)]
mod tests {
    use super::*;

    #[test]
    fn time_left() {
        let after = |seconds, done, all| left(Duration::from_secs(seconds), done, all);
        assert_eq!(after(3, 0, 9), "");
        assert_eq!(after(10, 10, 40), ", 30 s left");
        assert_eq!(after(100, 10, 100), ", 15 min left");
        assert_eq!(after(3600, 1, 4), ", 3 h left");
    }
}
