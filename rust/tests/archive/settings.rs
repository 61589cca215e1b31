//! Seeds, counts and the line that a test prints when it has passed.

use std::env;
use std::fmt::Display;
use std::io::Write;
use std::time::Instant;

/// The seed where YOHRUNDEL_SEED gives none.
const SEED: u64 = 1;

/// The random short cases of calls where YOHRUNDEL_CASES gives no number; other tests run a share of it.
const CASES: usize = 300_000;

fn setting<T: std::str::FromStr>(name: &str, default: T) -> T {
    match env::var(name) {
        Ok(text) => match text.parse() {
            Ok(number) => number,
            Err(_) => panic!("{name} is no number: {text}"),
        },
        Err(_) => default,
    }
}

/// A seed for each test.
pub fn seed(test: u64) -> u64 {
    setting("YOHRUNDEL_SEED", SEED).wrapping_mul(100) + test
}

/// How many cases a test runs: one for each `part` short cases of calls.
pub fn cases(part: usize) -> usize {
    setting("YOHRUNDEL_CASES", CASES).div_ceil(part)
}

/// What a test runs, and since when.
pub struct Report {
    begin: Instant,
    text: String,
}

impl Report {
    pub fn new(text: String) -> Report {
        let begin = Instant::now();
        Report { begin, text }
    }

    /// Prints a line that the test harness does not hold back.
    pub fn finish(self, count: impl Display) {
        let seconds = self.begin.elapsed().as_secs_f64();
        let line = format!("{}: {count}, {seconds:.1} seconds\n", self.text);
        // A line that cannot be printed fails no test.
        let _ = std::io::stderr().write_all(line.as_bytes());
    }
}

/// Says, where a test fails, in what it failed.
pub struct Within(pub String);

impl Drop for Within {
    fn drop(&mut self) {
        if std::thread::panicking() {
            eprintln!("{}", self.0);
        }
    }
}
