//! Runs an answer-set solver with clingo's options.

use crate::ending::Fault;
use crate::interrupt::interrupted;
use crate::listing::End;
use crate::models::{Models, Reader};
use crate::numbers::counted_in_groups;
use crate::sets::Set;
use crate::watch::{Event, Watch};
use rigtomato::Program;
use std::ffi::OsStr;
use std::io::{self, Read, Write};
use std::process::{Child, ChildStderr, ChildStdin, Command, ExitStatus, Stdio};
use std::sync::mpsc::{channel, Receiver};
use std::thread;
use std::time::Duration;

/// The largest number of models that clingo can be asked for; 0 asks for all.
const MOST_MODELS: u64 = i32::MAX as u64;
/// How long the last words of a solver that has ended are waited for: a process of its own may
/// still hold its pipes.
const LAST_WORDS: Duration = Duration::from_millis(300);
/// How often it is asked whether the solver has ended.
const GLANCE: Duration = Duration::from_micros(200);

/// What a solver found.
pub struct Found {
    /// In the solver's order.
    pub models: Vec<Set>,
    pub end: End,
}

struct Running {
    child: Child,
    models: Models,
    /// How the reading of the output ended.
    output: Watch<Result<(), String>>,
    complaints: Receiver<Vec<u8>>,
}

fn spawn(solver: &OsStr, first: Option<u64>) -> io::Result<Child> {
    let models = first.filter(|first| *first <= MOST_MODELS).unwrap_or(0);
    Command::new(solver)
        .args(["--verbose=0", "--warn=none", &models.to_string(), "-"])
        .stdin(Stdio::piped())
        .stdout(Stdio::piped())
        .stderr(Stdio::piped())
        .spawn()
}

/// A solver that ends without reading its input is judged by its exit status.
fn feed(mut input: ChildStdin, text: &str) {
    let _ = input.write_all(text.as_bytes());
}

fn read_all(mut output: ChildStderr) -> Vec<u8> {
    let mut bytes = Vec::new();
    let _ = output.read_to_end(&mut bytes);
    bytes
}

impl Running {
    fn start(mut child: Child, text: String, program: &Program) -> Running {
        let input = child.stdin.take().expect("it is piped");
        let output = child.stdout.take().expect("it is piped");
        let errors = child.stderr.take().expect("it is piped");
        let models = Models::default();
        let reader = Reader::new(program, models.clone());
        let (sender, complaints) = channel();
        thread::spawn(move || feed(input, &text));
        thread::spawn(move || sender.send(read_all(errors)));
        Running {
            child,
            models,
            output: Watch::over(move |end| drop(end.send(reader.read(output)))),
            complaints,
        }
    }

    /// Waits for the solver's end; none where that is interrupted.
    fn status(&mut self) -> io::Result<Option<ExitStatus>> {
        while !interrupted() {
            if let Some(status) = self.child.try_wait()? {
                return Ok(Some(status));
            }
            thread::sleep(GLANCE);
        }
        Ok(None)
    }

    /// Waits for all models, and says whether they are what was asked for.
    fn end(&mut self, first: Option<u64>) -> Result<End, String> {
        let found = || counted_in_groups(self.models.count() as u64, "state");
        match self.output.next(found) {
            Event::Answer(read) => read?,
            Event::Interrupted => return Ok(End::Interrupted),
            Event::Ended => unreachable!("the reader says how it ended"),
        }
        let status = self.status();
        match status.map_err(|error| format!("the solver's end: {error}"))? {
            Some(status) => judged(status, self.models.count() as u64, first),
            None => Ok(End::Interrupted),
        }
    }

    /// Ends the solver, and lets what it has printed be read.
    fn stop(&mut self) {
        let _ = self.child.kill();
        let _ = self.child.wait();
        self.output.last(LAST_WORDS);
    }

    /// What went wrong, and what the solver itself says about it.
    fn fault(&self, words: &str) -> Fault {
        let complaints = self.complaints.recv_timeout(LAST_WORDS).unwrap_or_default();
        let complaints = String::from_utf8_lossy(complaints.trim_ascii_end()).into_owned();
        let between = if complaints.is_empty() { "" } else { "\n" };
        Fault::solver(format!("{words}{between}{complaints}"))
    }
}

/// What the solver's exit status makes of its models, or what is wrong with them. Clingo ends with
/// 20 where there is no model, with 30 after all of them, with 10 where there may be more.
fn judged(status: ExitStatus, count: u64, first: Option<u64>) -> Result<End, String> {
    let full = first.is_some_and(|first| count >= first);
    match status.code() {
        Some(10 | 30) if count == 0 => Err("the solver found models and gave none".to_string()),
        Some(20) if count > 0 => Err("the solver gave models and found none".to_string()),
        Some(10 | 30) if full => Ok(End::First),
        Some(20 | 30) => Ok(End::Total),
        Some(10) => Err("the solver stopped before it had found all models".to_string()),
        _ => Err(format!("the solver failed ({status})")),
    }
}

fn cannot_start(solver: &OsStr, error: &io::Error) -> Fault {
    let solver = solver.display();
    Fault::unusable(format!(
        "the solver {solver} cannot be run: {error}\n\
         Install clingo (Debian: apt-get install gringo), or name it with --solver PATH."
    ))
}

/// The models of a text, or the first so many that the solver finds.
pub fn solve(
    solver: &OsStr,
    text: String,
    program: &Program,
    first: Option<u64>,
) -> Result<Found, Fault> {
    let child = spawn(solver, first).map_err(|error| cannot_start(solver, &error))?;
    let mut running = Running::start(child, text, program);
    let end = running.end(first);
    if end.is_err() || interrupted() {
        running.stop();
    }
    // A solver that was interrupted with us may have failed for that.
    let end = match end {
        _ if interrupted() => End::Interrupted,
        Ok(end) => end,
        Err(words) => return Err(running.fault(&words)),
    };
    let mut models = running.models.take();
    if let Some(first) = first {
        models.truncate(usize::try_from(first).unwrap_or(usize::MAX));
    }
    Ok(Found { models, end })
}
