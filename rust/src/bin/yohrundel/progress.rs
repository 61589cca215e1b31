//! A bar on standard error while a command takes longer than a second.

use std::io::{self, IsTerminal, Write};
use std::time::{Duration, Instant};

/// From when on there is a bar.
const PATIENCE: Duration = Duration::from_secs(1);

/// The clock is asked once in so many turns, since asking it takes about as long as a turn.
const INTERVAL: u32 = 1024;

/// The characters of a bar.
const WIDTH: usize = 50;

pub struct Progress {
    begin: Instant,
    /// Nobody watches where standard output or standard error is no terminal.
    watched: bool,
    shown: Option<String>,
}

impl Progress {
    /// The command begins.
    pub fn new() -> Progress {
        Progress {
            begin: Instant::now(),
            watched: io::stdout().is_terminal() && io::stderr().is_terminal(),
            shown: None,
        }
    }

    /// So many turns of a total above 0 are done.
    pub fn show(&mut self, done: u32, total: u32) {
        if done.is_multiple_of(INTERVAL) {
            self.show_now(done, total);
        }
    }

    /// So much of a total above 0 is done, each part of which takes longer than a turn.
    pub fn show_now(&mut self, done: u32, total: u32) {
        if self.watched && self.begin.elapsed() > PATIENCE {
            self.draw(bar(done, total));
        }
    }

    fn draw(&mut self, bar: String) {
        if self.shown.as_ref() != Some(&bar) {
            write(&bar);
            self.shown = Some(bar);
        }
    }
}

impl Drop for Progress {
    /// Takes the bar away.
    fn drop(&mut self) {
        if let Some(bar) = &self.shown {
            write(&" ".repeat(bar.len()));
            write("");
        }
    }
}

/// Writes from the line's begin. A bar that cannot be written is no failure.
fn write(text: &str) {
    let mut terminal = io::stderr();
    let _ = write!(terminal, "\r{text}").and_then(|()| terminal.flush());
}

fn bar(done: u32, total: u32) -> String {
    let part = |of: usize| (of as u64 * u64::from(done) / u64::from(total)) as usize;
    let (filled, percent) = ("#".repeat(part(WIDTH)), part(100));
    format!("[{filled:WIDTH$}] {percent:3} %")
}

#[cfg(test)]
#[test]
fn bars() {
    let (none, half, all) = (bar(0, 7), bar(495_000, 990_000), bar(u32::MAX, u32::MAX));
    assert_eq!(none, format!("[{}]   0 %", " ".repeat(50)));
    assert_eq!(
        half,
        format!("[{}{}]  50 %", "#".repeat(25), " ".repeat(25))
    );
    assert_eq!(all, format!("[{}] 100 %", "#".repeat(50)));
}
