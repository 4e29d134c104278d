//! An example: one run, reported to two outputs at once: in full to standard output, and only what failed to a text,
//! which a build machine could keep.
#![tactic(auto)]

use console_reporter::prelude::*;
use std::alloc::Global;
use std::io;

// Hands each event to two reporters, which may be configured differently and write to different places.
#[derive(Drop)]
struct Tee<'a, V, W> {
    first: ConsoleReporter<'a, V>,
    second: ConsoleReporter<'a, W>,
}

// What each of two reporters returned.
type Answers = (Result<(), WriteEventError>, Result<(), WriteEventError>);

impl<'a, V: WriteStr, W: WriteStr> Tee<'a, V, W> {
    // Writes the event by both: a fault of one output does not keep the other from its report.
    fn write_event(&mut self, event: &TestEvent<'_>) -> Answers {
        let first = self.first.write_event(event);
        let second = self.second.write_event(event);
        (first, second)
    }

    fn finish(&mut self) -> Answers {
        let first = self.first.finish();
        let second = self.second.finish();
        (first, second)
    }
}

fn main(rt: HostRuntime) -> Result<(), ReportError> {
    let failures = report(&rt, rt.alloc())?;
    rt.println("== what failed")?;
    Ok(rt.print(failures)?)
}

// Reports a run of two tests to standard output, in colour, and returns the report of those that failed.
fn report(rt: &HostRuntime, alloc: Global) -> Result<String, ReportError> {
    let binary_id = RustBinaryId::new(alloc, "alpha")?;
    let passed = TestCaseName::new(alloc, "parser::empty_input")?;
    let failed = TestCaseName::new(alloc, "parser::nested")?;
    let mut screen = TextBuffer::new(alloc, io::writer(rt))?;
    let mut failures = String::new(alloc);
    let mut colorful = DisplayReporterBuilder::new(alloc, 2)?;
    colorful.should_colorize = true;
    let mut brief = DisplayReporterBuilder::new(alloc, 2)?;
    brief.display_config.status_level = Some(StatusLevel::Fail);
    let mut tee = Tee {
        first: colorful.build_for(alloc, &mut screen, Surroundings::default()),
        second: brief.build_for(alloc, &mut failures, Surroundings::default()),
    };
    write_run(alloc, &mut tee, &binary_id, &passed, &failed)?;
    let (screen_end, failures_end) = tee.finish();
    screen_end?;
    failures_end?;
    drop(tee);
    Ok(failures)
}

// Writes the events of the run.
fn write_run<'a, V: WriteStr, W: WriteStr>(
    alloc: Global,
    tee: &mut Tee<'a, V, W>,
    binary_id: &'a RustBinaryId,
    passed: &'a TestCaseName,
    failed: &'a TestCaseName,
) -> Result<(), WriteEventError> {
    let time = Nanos::from_millis(20);
    let stats = RunStats {
        finished_count: 1,
        passed: 1,
        ..RunStats::new(2)
    };
    let test = TestInstanceId {
        binary_id,
        test_name: passed,
    };
    let statuses = ExecutionStatuses::single(alloc, ExecuteStatus::passed(time));
    write_event(tee, &TestEvent::test_finished(time, test, statuses, stats))?;

    let stats = RunStats {
        finished_count: 2,
        failed: 1,
        ..stats
    };
    let test = TestInstanceId {
        binary_id,
        test_name: failed,
    };
    let statuses = ExecutionStatuses::single(alloc, ExecuteStatus::failed(101, time));
    write_event(tee, &TestEvent::test_finished(time, test, statuses, stats))?;
    write_event(tee, &TestEvent::run_finished(time, stats))
}

// Writes the event by both reporters; the first fault of either ends the program.
fn write_event<'a, V: WriteStr, W: WriteStr>(
    tee: &mut Tee<'a, V, W>,
    event: &TestEvent<'a>,
) -> Result<(), WriteEventError> {
    let (first, second) = tee.write_event(event);
    first?;
    second
}
