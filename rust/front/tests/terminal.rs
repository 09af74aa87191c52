//! On a terminal, a line says that work goes on.

mod common;

use common::{endless, front};
use std::ffi::{c_char, CStr, OsStr};
use std::fs::File;
use std::io::{Read, Write};
use std::os::fd::FromRawFd;
use std::os::unix::ffi::OsStrExt;
use std::process::{Command, Stdio};
use std::thread;
use std::time::{Duration, Instant};

extern "C" {
    fn posix_openpt(flags: i32) -> i32;
    fn grantpt(terminal: i32) -> i32;
    fn unlockpt(terminal: i32) -> i32;
    fn ptsname(terminal: i32) -> *const c_char;
}

const READ_WRITE: i32 = 2;
const NOT_OURS: i32 = 0o400;

/// Both ends of a pseudo terminal: what a person sees, and what a program has.
fn terminal() -> Option<(File, File)> {
    // SAFETY: the numbers are those of an open file, and the name is copied before any other call.
    unsafe {
        let person = posix_openpt(READ_WRITE | NOT_OURS);
        if person < 0 || grantpt(person) != 0 || unlockpt(person) != 0 {
            return None;
        }
        let name = CStr::from_ptr(ptsname(person)).to_bytes().to_vec();
        let mut options = File::options();
        let program = options
            .read(true)
            .write(true)
            .open(OsStr::from_bytes(&name));
        Some((File::from_raw_fd(person), program.ok()?))
    }
}

/// What somebody at a terminal sees of a listing that is interrupted after a second and a half.
#[test]
fn a_line_that_is_taken_away_again() {
    let Some((mut person, program)) = terminal() else {
        println!("no pseudo terminal here: not tried");
        return;
    };
    let started = Instant::now();
    let mut child = front()
        .args(["states", "-"])
        .stdin(Stdio::piped())
        .stdout(Stdio::piped())
        .stderr(program)
        .spawn()
        .unwrap();
    let mut input = child.stdin.take().unwrap();
    input.write_all(endless().as_bytes()).unwrap();
    drop(input);
    let seen = thread::spawn(move || {
        let mut seen = Vec::new();
        let mut bytes = [0; 1024];
        // The last reading fails: the program has gone.
        while let Ok(count @ 1..) = person.read(&mut bytes) {
            seen.extend_from_slice(&bytes[..count]);
        }
        String::from_utf8(seen).unwrap()
    });
    thread::sleep(Duration::from_millis(1_500).saturating_sub(started.elapsed()));
    let kill = format!("kill -INT {}", child.id());
    assert!(Command::new("sh")
        .args(["-c", &kill])
        .status()
        .unwrap()
        .success());
    assert_eq!(child.wait().unwrap().code(), Some(130));

    let seen = seen.join().unwrap();
    let mut lines = seen.split("\r\x1b[K");
    assert_eq!(lines.next(), Some(""));
    let lines: Vec<&str> = lines.collect();
    let (last, lines) = lines.split_last().unwrap();
    assert_eq!(*last, "interrupted: 1 state found so far\r\n");
    assert!(lines.len() >= 2, "{seen:?}");
    for line in lines {
        let seconds = line
            .strip_prefix("1 state, 122 units, ")
            .expect("what was found");
        let seconds: f64 = seconds.strip_suffix(" s").unwrap().parse().unwrap();
        assert!((0.5..5.0).contains(&seconds), "{line}");
    }
}
