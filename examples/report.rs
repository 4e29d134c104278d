//! An example: a program that ran two tests prints their report as nextest would.
#![tactic(auto)]

use console_reporter::prelude::*;
use std::io;

fn main(rt: HostRuntime) -> Result<(), ReportError> {
    let alloc = rt.alloc();
    let empty = OwnedTestInstanceId::new(alloc, "alpha", "empty")?;
    let nested = OwnedTestInstanceId::new(alloc, "alpha", "nested")?;
    let mut out = TextBuffer::new(alloc, io::writer(&rt))?;
    let builder = DisplayReporterBuilder::new(alloc, 2)?;
    let mut reporter = builder.build_for(alloc, &mut out, Surroundings::default());
    let time = Nanos::from_millis(20);

    let mut stats = RunStats::new(2);
    (stats.finished_count, stats.passed) = (1, 1);
    let passed = ExecutionStatuses::single(alloc, ExecuteStatus::passed(time));
    reporter.write_event(&TestEvent::test_finished(time, empty.as_ref(), passed, stats))?;

    (stats.finished_count, stats.failed) = (2, 1);
    let stderr = Bytes::from_static(b"a bracket is missing\n");
    let output = ChildOutputDescription::split(alloc, Bytes::new(), stderr)?;
    let failed = ExecuteStatus::failed(101, time).with_output(output);
    let failed = ExecutionStatuses::single(alloc, failed);
    reporter.write_event(&TestEvent::test_finished(time, nested.as_ref(), failed, stats))?;

    reporter.write_event(&TestEvent::run_finished(time, stats))?;
    Ok(reporter.finish()?)
}
