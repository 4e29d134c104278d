//! How a test's process can end.

use std::{env, fs, process, thread, time::Duration};

#[test]
fn aborts() {
    process::abort()
}

#[test]
fn exits() {
    println!("bye");
    process::exit(3)
}

#[test]
fn is_slow() {
    thread::sleep(Duration::from_millis(1400));
}

extern "C" {
    fn signal(number: i32, handler: usize) -> usize;
}

// Ctrl-C does not end it either.
#[test]
fn never_ends() {
    const SIGINT: i32 = 2;
    const SIG_IGN: usize = 1;
    // Sound, since no handler of ours is installed.
    unsafe { signal(SIGINT, SIG_IGN) };
    loop {
        thread::sleep(Duration::from_secs(60));
    }
}

// It fails the first time in a folder.
#[test]
fn is_flaky() {
    let mark = env::var_os("MIXED_MARK").map(std::path::PathBuf::from).unwrap_or_else(|| env::temp_dir().join("mixed-mark"));
    if mark.exists() {
        fs::remove_file(mark).unwrap();
    } else {
        fs::write(mark, "").unwrap();
        panic!("the first time");
    }
}

fn of(name: &str) -> String {
    env::var(name).unwrap_or_else(|_| panic!("no {name}"))
}

// What Cargo and nextest tell a test.
#[test]
fn reads_its_environment() {
    assert_eq!((of("CARGO_PKG_NAME"), of("CARGO_PKG_VERSION")), ("mixed".into(), "0.1.0".into()));
    assert_eq!(of("CARGO_MANIFEST_DIR"), env!("CARGO_MANIFEST_DIR"));
    assert_eq!(of("CARGO_BIN_EXE_half"), env!("CARGO_BIN_EXE_half"));
    assert_eq!(fs::read_to_string(format!("{}/made", of("OUT_DIR"))).unwrap(), "by the build script");
    assert_eq!((of("NEXTEST"), of("NEXTEST_TEST_NAME")), ("1".into(), "reads_its_environment".into()));
    assert_eq!((of("NEXTEST_BINARY_ID"), of("NEXTEST_ATTEMPT")), ("mixed::ends".into(), "1".into()));
}

// It returns an error.
#[test]
fn returns_an_error() -> Result<(), String> {
    println!("\nthe run {}", of("NEXTEST_RUN_ID"));
    Err("no luck".into())
}
