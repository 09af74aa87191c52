//! Ctrl-C, and readers that have had enough.

mod common;

use common::{endless, example, fixed, front, names, start, stored, tautology, Json, Temporary};
use std::io::{BufRead, BufReader, Read, Write};
use std::path::Path;
use std::process::{Child, ChildStdout, Command};
use std::time::{Duration, Instant};

/// The walk on a set of this file takes over 2^40 units.
fn wide() -> String {
    let names = names(39);
    let rule = tautology(&format!(" m{names}"));
    format!("(min m)\n(vary{names})\n(fix)\n{rule}")
}

fn feed(child: &mut Child, text: &str) {
    let mut input = child.stdin.take().unwrap();
    input.write_all(text.as_bytes()).unwrap();
}

fn signal(child: &Child, name: &str) {
    let kill = format!("kill -{name} {}", child.id());
    assert!(Command::new("sh")
        .args(["-c", &kill])
        .status()
        .unwrap()
        .success());
}

/// The exit status, within some seconds.
fn ended(child: &mut Child) -> Option<i32> {
    let started = Instant::now();
    while started.elapsed() < Duration::from_secs(5) {
        if let Some(status) = child.try_wait().unwrap() {
            return status.code();
        }
        std::thread::sleep(Duration::from_millis(5));
    }
    child.kill().unwrap();
    panic!("it does not end");
}

/// Whoever waits for an input that does not come is let go. By TERM, since a test that runs in the
/// background of a shell may have INT ignored from the start.
#[test]
fn before_the_work() {
    let mut child = start(front().args(["states", "-"]));
    std::thread::sleep(Duration::from_millis(50));
    signal(&child, "TERM");
    ended(&mut child);
    assert_eq!(rest(child.stdout.as_mut().unwrap()), "");
}

fn rest(from: &mut impl Read) -> String {
    let mut text = String::new();
    from.read_to_string(&mut text).unwrap();
    text
}

fn errors(child: &mut Child) -> String {
    rest(child.stderr.as_mut().unwrap())
}

/// Starts it and waits for the first bytes that it prints, `count` of them.
fn printed(command: &mut Command, input: &str, count: usize) -> (Child, ChildStdout, String) {
    let mut child = start(command);
    feed(&mut child, input);
    let mut out = child.stdout.take().unwrap();
    let mut first = vec![0; count];
    out.read_exact(&mut first).unwrap();
    (child, out, String::from_utf8(first).unwrap())
}

/// `timeout` sends its signal twice.
#[test]
fn a_listing() {
    for names in [&["INT"][..], &["TERM"], &["TERM", "TERM"]] {
        let (mut child, mut out, first) = printed(front().args(["states", "-"]), &endless(), 8);
        assert_eq!(first, "(state)\n");
        names.iter().for_each(|name| signal(&child, name));
        assert_eq!(ended(&mut child), Some(130));
        assert_eq!(rest(&mut out), "");
        assert_eq!(errors(&mut child), "interrupted: 1 state found so far\n");
    }
}

#[test]
fn a_listing_as_json() {
    let mut command = front();
    let first = "{\"states\":[[]".len();
    let (mut child, mut out, first) =
        printed(command.args(["states", "-", "--json"]), &endless(), first);
    signal(&child, "INT");
    assert_eq!(ended(&mut child), Some(130));
    let value = Json::line(&(first + &rest(&mut out)));
    assert_eq!(value.get("states").list(), [Json::List(vec![])]);
    assert_eq!(value.get("end").text(), "interrupted");
    assert_eq!(value.get("count").number(), 1);
}

/// A listing whose states come without a pause.
#[test]
fn a_quick_listing() {
    let (mut child, out, first) = printed(front().args(["states", "-"]), &fixed(60), 8);
    assert_eq!(first, "(state)\n");
    let reader = std::thread::spawn(move || {
        let lines = BufReader::new(out).lines().map(Result::unwrap);
        let lines: Vec<String> = lines.collect();
        assert!(lines.iter().all(|line| line.starts_with("(state ")));
        lines.len()
    });
    signal(&child, "INT");
    assert_eq!(ended(&mut child), Some(130));
    let states = reader.join().unwrap() + 1;
    let said = errors(&mut child);
    assert!(
        said.starts_with(&format!("interrupted: {states} state")),
        "{said}"
    );
}

#[test]
fn a_verdict() {
    let mut child = start(front().args(["preferred", "-"]));
    feed(&mut child, &wide());
    // So long that a terminal would have been told that work goes on.
    std::thread::sleep(Duration::from_millis(700));
    assert_eq!(child.try_wait().unwrap(), None);
    signal(&child, "INT");
    assert_eq!(ended(&mut child), Some(130));
    assert_eq!(rest(child.stdout.as_mut().unwrap()), "");
    assert_eq!(errors(&mut child), "interrupted: no verdict so far\n");
}

/// The models so far are printed in order, and the solver is ended.
#[test]
fn a_solver() {
    let printed = Temporary::new("printed", "");
    for (more, expected) in [
        (None, "(state ab3 b)\n(state ab2 b c)\n(state ab1 c)\n"),
        (
            Some("--json"),
            "{\"states\":[[\"ab3\",\"b\"],[\"ab2\",\"b\",\"c\"],[\"ab1\",\"c\"]],\
             \"end\":\"interrupted\",\"count\":3}\n",
        ),
    ] {
        std::fs::remove_file(&printed.path).unwrap();
        let mut command = front();
        command
            .args([
                "solve",
                &example("inverters.pref"),
                "--solver",
                &stored("solver"),
            ])
            .env("STAND_IN_OUTPUT", stored("inverters.models"))
            .env("STAND_IN_STATUS", "waits")
            .env("STAND_IN_PRINTED", &printed.path);
        let mut child = start(command.args(more));
        while !Path::new(&printed.path).exists() {
            std::thread::sleep(Duration::from_millis(5));
            assert_eq!(child.try_wait().unwrap(), None);
        }
        signal(&child, "INT");
        assert_eq!(ended(&mut child), Some(130));
        assert_eq!(rest(child.stdout.as_mut().unwrap()), expected);
        assert_eq!(errors(&mut child), "interrupted: 3 states found so far\n");
    }
}

/// `| head`: the reader goes away, and that is no fault.
#[test]
fn a_closed_pipe() {
    let file = fixed(60);
    for words in [&["states", "-"][..], &["states", "-", "--json"]] {
        let (mut child, out, _) = printed(front().args(words), &file, 8);
        drop(out);
        assert_eq!(ended(&mut child), Some(0));
        assert_eq!(errors(&mut child), "");
    }
    // Help reads nothing, and may be gone before it could be fed.
    for (words, input) in [
        (&["help"][..], None),
        (&["check", "-"], Some("(vary)\n(fix)\n")),
        (&["translate", "-"], Some("(vary)\n(fix)\n")),
        (&["preferred", "-"], Some("(vary)\n(fix)\n")),
    ] {
        let mut child = start(front().args(words));
        drop(child.stdout.take());
        if let Some(text) = input {
            feed(&mut child, text);
        }
        assert_eq!(ended(&mut child), Some(0), "{words:?}");
        assert_eq!(errors(&mut child), "", "{words:?}");
    }
}
