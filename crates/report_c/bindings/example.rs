//! An example: prints the report of the scene in the file that its first argument names, by the safe wrapper
//! `norigully.rs`.
//!
//!     example FILE [--color] [--counter] [--replay] [--level N] [--room N]
//!
//! N of `--level` is a number from 0 (none) to 7 (all). With `--room` it makes one call with a buffer of N bytes. The
//! status is 0, or 2 if a line of the scene or a word is wrong, or 3 for any other fault.

mod norigully;

use norigully::{Fit, Options, ReportError, StatusLevel};
use std::io::Write;
use std::process::ExitCode;

const LEVELS: [StatusLevel; 8] = [
    StatusLevel::None,
    StatusLevel::Fail,
    StatusLevel::Retry,
    StatusLevel::Slow,
    StatusLevel::Leak,
    StatusLevel::Pass,
    StatusLevel::Skip,
    StatusLevel::All,
];

fn main() -> ExitCode {
    let (line, status) = match run() {
        Ok(()) => return ExitCode::SUCCESS,
        Err(error) => error,
    };
    eprintln!("example: {line}");
    ExitCode::from(status)
}

// What to say where a report failed, and the status.
type Failure = (String, u8);

fn run() -> Result<(), Failure> {
    let mut words = std::env::args().skip(1);
    let usage = || {
        (
            "usage: example FILE [--color] [--counter] [--replay] [--level N] [--room N]"
                .to_string(),
            2,
        )
    };
    let file = words.next().ok_or_else(usage)?;
    let (mut options, mut room) = (Options::default(), None);
    while let Some(word) = words.next() {
        match word.as_str() {
            "--color" => options.should_colorize = true,
            "--counter" => options.show_counter = true,
            "--replay" => options.is_replay = true,
            "--level" => {
                options.status_level = *LEVELS
                    .get(number(words.next()).ok_or_else(usage)?)
                    .ok_or_else(usage)?
            }
            "--room" => room = Some(number(words.next()).ok_or_else(usage)?),
            _ => return Err(usage()),
        }
    }
    let scene = std::fs::read(&file).map_err(|error| (format!("{file}: {error}"), 3))?;
    let report = match room {
        Some(room) => one_call(&options, &scene, room)?,
        None => norigully::report(&options, &scene).map_err(failure)?,
    };
    std::io::stdout()
        .write_all(&report)
        .map_err(|error| (error.to_string(), 3))
}

fn number(word: Option<String>) -> Option<usize> {
    word?.parse().ok()
}

fn failure(error: ReportError) -> Failure {
    let status = match error {
        ReportError::WrongLine(_) => 2,
        ReportError::OutOfMemory => 3,
    };
    (error.to_string(), status)
}

// The report by one call, with room for so many bytes.
fn one_call(options: &Options, scene: &[u8], room: usize) -> Result<Vec<u8>, Failure> {
    let mut out = vec![0; room];
    match norigully::report_into(options, scene, &mut out).map_err(failure)? {
        Fit::Whole(length) => {
            out.truncate(length);
            Ok(out)
        }
        Fit::Needs(length) => Err((
            format!("the report has {length} bytes, and there is room for {room}"),
            3,
        )),
    }
}
