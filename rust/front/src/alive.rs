//! The line on standard error that says that work goes on.

use std::io::{self, IsTerminal, Write};
use std::time::{Duration, Instant};

/// Work that is done sooner shows no line.
const QUIET: Duration = Duration::from_millis(500);
/// How long a line stands before it is written again.
const STANDS: Duration = Duration::from_millis(200);

pub struct Alive {
    terminal: bool,
    /// Is standard output a terminal, most likely the same one?
    shared: bool,
    started: Instant,
    written: Instant,
    shown: bool,
}

impl Alive {
    pub fn start() -> Alive {
        let now = Instant::now();
        Alive {
            terminal: io::stderr().is_terminal(),
            shared: io::stdout().is_terminal(),
            started: now,
            written: now,
            shown: false,
        }
    }

    /// Writes the line again, when it is time to.
    pub fn show(&mut self, words: impl FnOnce() -> String) {
        if !self.terminal || self.written.elapsed() < STANDS || self.started.elapsed() < QUIET {
            return;
        }
        let seconds = self.started.elapsed().as_secs_f64();
        write(&format!("\r\x1b[K{}, {seconds:.1} s", words()));
        self.written = Instant::now();
        self.shown = true;
    }

    /// Takes the line away.
    pub fn clear(&mut self) {
        if self.shown {
            write("\r\x1b[K");
            self.shown = false;
        }
    }

    /// Takes the line away where standard output would write into it.
    pub fn make_way(&mut self) {
        if self.shared {
            self.clear();
        }
    }
}

impl Drop for Alive {
    fn drop(&mut self) {
        self.clear();
    }
}

fn write(text: &str) {
    let mut terminal = io::stderr();
    let _ = terminal.write_all(text.as_bytes());
    let _ = terminal.flush();
}
