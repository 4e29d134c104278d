//! Tests that hold on to what a runner waits for.

use std::io::{stdout, Write};
use std::{env, fs, process, process::Command, thread, time::Duration};

extern "C" {
    fn signal(number: i32, handler: usize) -> usize;
}

const SIGINT: i32 = 2;
const SIGTERM: i32 = 15;
const SIG_IGN: usize = 1;

// Children hold the pipes of a test for so many seconds, where nobody ends them.
const HELD: &str = "12";

fn start(words: &[&str]) {
    let child = Command::new(words[0]).args(&words[1..]).spawn().unwrap();
    note(child.id());
}

// Tells the check what has begun.
fn note(pid: u32) {
    if let Some(folder) = env::var_os("AWKWARD_PIDS") {
        fs::write(std::path::Path::new(&folder).join(pid.to_string()), "").unwrap();
    }
}

fn sleeps() {
    note(process::id());
    thread::sleep(Duration::from_secs(60));
}

#[test]
fn zero() {}

#[test]
fn passes_and_leaves_a_child() {
    start(&["sleep", HELD]);
}

#[test]
fn passes_and_leaves_a_session() {
    start(&["setsid", "sleep", HELD]);
}

#[test]
fn fails_and_leaves_a_child() {
    start(&["sleep", HELD]);
    process::exit(3);
}

#[test]
fn is_late_and_leaves_a_session() {
    start(&["setsid", "sleep", HELD]);
    sleeps();
}

#[test]
fn is_ended_with_its_child() {
    start(&["sleep", "60"]);
    sleeps();
}

#[test]
fn ignores_signals() {
    // Sound, since no handler of ours is installed.
    unsafe { (signal(SIGINT, SIG_IGN), signal(SIGTERM, SIG_IGN)) };
    sleeps();
}

#[test]
fn outlives_a_signal() {
    unsafe { signal(SIGINT, SIG_IGN) };
    note(process::id());
    thread::sleep(Duration::from_millis(1500));
}

#[test]
fn writes_much() {
    let piece = b"a line of a log\n".repeat(4096);
    for _ in 0..16_000 {
        stdout().write_all(&piece).unwrap();
    }
}
