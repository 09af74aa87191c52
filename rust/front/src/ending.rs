//! How a call ends, and what breaks it off.

use crate::output::say;
use std::io;

/// How a call ended; the number is the exit status.
#[derive(Clone, Copy, Debug, PartialEq, Eq)]
pub enum Ending {
    Answered = 0,
    Refused = 1,
    /// Wrong usage, an unreadable file or a missing solver.
    Unusable = 2,
    Spent = 3,
    /// The solver failed or gave a state that is not preferred.
    SolverFailed = 4,
    Interrupted = 130,
}

/// What breaks a command off.
#[derive(Debug)]
pub enum Fault {
    /// Words for standard error.
    Said { ending: Ending, words: String },
    /// Standard output takes no more.
    Output(io::Error),
}

impl Fault {
    pub fn unusable(words: impl Into<String>) -> Fault {
        Fault::Said {
            ending: Ending::Unusable,
            words: words.into(),
        }
    }

    pub fn solver(words: impl Into<String>) -> Fault {
        Fault::Said {
            ending: Ending::SolverFailed,
            words: words.into(),
        }
    }

    /// Says what there is to say. A closed pipe is no fault: whoever read had enough.
    pub fn end(self) -> Ending {
        match self {
            Fault::Said { ending, words } => {
                say(&format!("rigtomato: {words}"));
                ending
            }
            Fault::Output(error) if error.kind() == io::ErrorKind::BrokenPipe => Ending::Answered,
            Fault::Output(error) => {
                say(&format!("rigtomato: standard output: {error}"));
                Ending::Unusable
            }
        }
    }
}

impl From<io::Error> for Fault {
    fn from(error: io::Error) -> Fault {
        Fault::Output(error)
    }
}

pub type Outcome = Result<Ending, Fault>;
