//! Work in a thread of its own, watched by the main one.

use crate::alive::Alive;
use crate::interrupt::{interrupted, listen};
use std::sync::mpsc::{sync_channel, Receiver, RecvTimeoutError, SyncSender};
use std::thread;
use std::time::Duration;

/// How long an interruption may go unseen.
const GLANCE: Duration = Duration::from_millis(50);
/// How many answers may wait; a worker that is quicker than the printing waits then.
const WAITING: usize = 256;

pub enum Event<T> {
    Answer(T),
    /// The worker has no more to say.
    Ended,
    Interrupted,
}

pub struct Watch<T> {
    answers: Receiver<T>,
    pub alive: Alive,
}

impl<T: Send + 'static> Watch<T> {
    /// Starts work that hands its answers to the sender, and ends when nobody takes them.
    pub fn over(work: impl FnOnce(SyncSender<T>) + Send + 'static) -> Watch<T> {
        listen();
        let (sender, answers) = sync_channel(WAITING);
        thread::spawn(move || work(sender));
        Watch {
            answers,
            alive: Alive::start(),
        }
    }

    /// Waits for the next event; the words are for the line that says that work goes on.
    pub fn next(&mut self, words: impl Fn() -> String) -> Event<T> {
        loop {
            if interrupted() {
                self.alive.clear();
                return Event::Interrupted;
            }
            self.alive.show(&words);
            match self.answers.recv_timeout(GLANCE) {
                Ok(answer) => return Event::Answer(answer),
                Err(RecvTimeoutError::Disconnected) => {
                    self.alive.clear();
                    return Event::Ended;
                }
                Err(RecvTimeoutError::Timeout) => {}
            }
        }
    }

    /// Answers that were given before an interruption and not yet taken.
    pub fn left(&self) -> impl Iterator<Item = T> + '_ {
        self.answers.try_iter().take(WAITING)
    }

    /// Waits a little longer for an answer that is close.
    pub fn last(&self, within: Duration) -> Option<T> {
        self.answers.recv_timeout(within).ok()
    }
}
