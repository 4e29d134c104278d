//! The report of a test run for Rust: a safe wrapper of the static library `report_c`, with no dependency.
//!
//! Take this file into a crate as a module, and link `libreport_c.a` and the kit's `liblibc_c.a` (docs/USING.md has
//! the commands).

use std::fmt;

/// From which status level on the lines of tests are shown.
#[derive(Clone, Copy, Debug, PartialEq, Eq)]
pub enum StatusLevel {
    None = 0,
    Fail = 1,
    Retry = 2,
    Slow = 3,
    Leak = 4,
    Pass = 5,
    Skip = 6,
    All = 7,
}

/// How the report of a scene is shown. The default is nextest's.
#[derive(Clone, Copy, Debug, PartialEq, Eq)]
pub struct Options {
    /// Whether the report has colours.
    pub should_colorize: bool,
    /// Whether each line of a test has a counter.
    pub show_counter: bool,
    /// Whether the run was recorded, and is shown again.
    pub is_replay: bool,
    /// From which status level on the lines of tests are shown.
    pub status_level: StatusLevel,
}

impl Default for Options {
    fn default() -> Self {
        Options {
            should_colorize: false,
            show_counter: false,
            is_replay: false,
            status_level: StatusLevel::Pass,
        }
    }
}

/// Why there is no report.
#[derive(Clone, Copy, Debug, PartialEq, Eq)]
pub enum ReportError {
    /// This line of the scene, from 1, is wrong.
    WrongLine(u64),
    /// Memory was refused.
    OutOfMemory,
}

impl fmt::Display for ReportError {
    fn fmt(&self, f: &mut fmt::Formatter<'_>) -> fmt::Result {
        match self {
            ReportError::WrongLine(line) => write!(f, "line {line} is wrong"),
            ReportError::OutOfMemory => f.write_str("out of memory"),
        }
    }
}

impl std::error::Error for ReportError {}

/// The report of the run that the scene spells.
pub fn report(options: &Options, scene: &[u8]) -> Result<Vec<u8>, ReportError> {
    let mut out = vec![0; 64 * 1024];
    loop {
        match report_into(options, scene, &mut out)? {
            Fit::Whole(length) => {
                out.truncate(length);
                return Ok(out);
            }
            Fit::Needs(length) => out.resize(length, 0),
        }
    }
}

/// Whether a report fits a buffer.
#[derive(Clone, Copy, Debug, PartialEq, Eq)]
pub enum Fit {
    /// It does: the buffer begins with so many bytes of it.
    Whole(usize),
    /// It has so many bytes, and the buffer stays as it was.
    Needs(usize),
}

/// Writes the report to the front of a buffer. On an error the buffer stays as it was.
pub fn report_into(options: &Options, scene: &[u8], out: &mut [u8]) -> Result<Fit, ReportError> {
    let options = NorigullyOptions {
        should_colorize: options.should_colorize,
        show_counter: options.show_counter,
        is_replay: options.is_replay,
        status_level: options.status_level as u32,
    };
    // SAFETY: the declaration below is that of norigully.h. The pointers and lengths are those of slices, which are
    // valid for the call, and `out` is lent for it alone.
    let outcome = unsafe {
        norigully_report(
            &options,
            scene.as_ptr(),
            scene.len(),
            out.as_mut_ptr(),
            out.len(),
        )
    };
    match outcome.status {
        0 => Ok(Fit::Whole(outcome.length)),
        1 => Ok(Fit::Needs(outcome.length)),
        2 => Err(ReportError::WrongLine(outcome.line)),
        3 => Err(ReportError::OutOfMemory),
        status => unreachable!("status {status}, and each level is known"),
    }
}

#[repr(C)]
struct NorigullyOptions {
    should_colorize: bool,
    show_counter: bool,
    is_replay: bool,
    status_level: u32,
}

#[repr(C)]
struct NorigullyOutcome {
    length: usize,
    line: u64,
    status: u32,
}

unsafe extern "C" {
    fn norigully_report(
        options: &NorigullyOptions,
        scene: *const u8,
        scene_len: usize,
        out: *mut u8,
        out_len: usize,
    ) -> NorigullyOutcome;
}
