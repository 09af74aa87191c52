//! Ctrl-C, and a request to end: noted at first, and obeyed on the spot where it is insisted on.

use std::sync::atomic::{AtomicU32, Ordering};

const SIGINT: i32 = 2;
const SIGTERM: i32 = 15;

/// One request may come as two signals: `timeout` sends it to the process and to its group.
const PATIENCE: u32 = 2;

static SIGNALS: AtomicU32 = AtomicU32::new(0);

extern "C" {
    fn signal(number: i32, handler: extern "C" fn(i32)) -> usize;
    fn _exit(status: i32) -> !;
}

extern "C" fn note(_number: i32) {
    if SIGNALS.fetch_add(1, Ordering::Relaxed) >= PATIENCE {
        // SAFETY: `_exit` may be called from a signal handler.
        unsafe { _exit(130) }
    }
}

/// From here on an interruption does not end the process: whoever works looks for it.
pub fn listen() {
    for number in [SIGINT, SIGTERM] {
        // SAFETY: the handler does nothing but what a signal handler may do.
        unsafe { signal(number, note) };
    }
}

pub fn interrupted() -> bool {
    SIGNALS.load(Ordering::Relaxed) > 0
}
