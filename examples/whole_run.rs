//! An example: the report of a whole run goes to a file. One of its tests passes, one fails, one passes when it is
//! tried again, and one is skipped.
#![tactic(auto)]

use console_reporter::prelude::*;
use std::alloc::Global;
use std::fs::{self, File};

const FILE: &str = "whole_run.txt";
const TIME: Nanos = Nanos(20_000_000);

fn main(rt: HostRuntime) -> Result<(), ReportError> {
    let alloc = rt.alloc();
    let mut out = TextBuffer::new(alloc, File::create(&rt, FILE)?)?;
    report(alloc, &mut out)?;
    print!(rt; "{}", fs::read_to_string(&rt, FILE)?)?;
    Ok(())
}

// Reports the run. A reporter flushes its writer at the end of each call, so nothing is lost if a later one fails.
fn report<W: WriteStr>(alloc: Global, out: &mut W) -> Result<(), ReportError> {
    let mut builder = DisplayReporterBuilder::new(alloc, 3)?;
    builder.display_config.profile_final_status_level = FinalStatusLevel::Skip;
    let mut reporter: ConsoleReporter<W> = builder.build_for(alloc, out, Surroundings::default());
    let mut stats = RunStats::new(3);
    start(alloc, &mut reporter)?;

    stats.skipped = 1;
    let skipped = OwnedTestInstanceId::new(alloc, "store", "benchmarks::large")?;
    reporter.write_event(&TestEvent::test_skipped(TIME, skipped.as_ref()))?;

    stats.passed = 1;
    let passed = ExecutionStatuses::single(alloc, ExecuteStatus::passed(TIME));
    finish_test(alloc, &mut reporter, &mut stats, "index::insert", passed)?;

    stats.failed = 1;
    let stderr = Bytes::from_static(b"the index has 3 rows, and not 4\n");
    let output = ChildOutputDescription::split(alloc, Bytes::new(), stderr)?;
    let failed = ExecuteStatus::failed(101, TIME).with_output(output);
    let failed = ExecutionStatuses::single(alloc, failed);
    finish_test(alloc, &mut reporter, &mut stats, "index::compact", failed)?;

    (stats.passed, stats.flaky) = (2, 1);
    try_twice(alloc, &mut reporter, &mut stats)?;

    reporter.write_event(&TestEvent::run_finished(Nanos::from_millis(140), stats))?;
    Ok(reporter.finish()?)
}

fn start<W: WriteStr>(
    alloc: Global,
    reporter: &mut ConsoleReporter<W>,
) -> Result<(), ReportError> {
    let test_list = TestCounts {
        run_count: 3,
        listed_binary_count: 1,
        skip_counts: SkipCounts {
            skipped_tests: 1,
            ..SkipCounts::default()
        },
    };
    // A runner makes a random one.
    let run_id = Uuid::from_u128(0x4000_8000_0000_0000_0001);
    let profile = ProfileName::new(alloc, "default")?;
    Ok(reporter.write_event(&TestEvent::run_started(Nanos(0), test_list, run_id, profile))?)
}

// Counts a test, and reports that it has finished.
fn finish_test<W: WriteStr>(
    alloc: Global,
    reporter: &mut ConsoleReporter<W>,
    stats: &mut RunStats,
    name: &str,
    statuses: ExecutionStatuses<LiveSpec>,
) -> Result<(), ReportError> {
    stats.finished_count = stats.finished_count.saturating_add(1);
    let test = OwnedTestInstanceId::new(alloc, "store", name)?;
    let event = TestEvent::test_finished(TIME, test.as_ref(), statuses, *stats);
    Ok(reporter.write_event(&event)?)
}

// Reports a test whose first attempt fails. The event of its end has both attempts.
fn try_twice<W: WriteStr>(
    alloc: Global,
    reporter: &mut ConsoleReporter<W>,
    stats: &mut RunStats,
) -> Result<(), ReportError> {
    let retry_data = |attempt| RetryData { attempt, total_attempts: 2 };
    let first = || ExecuteStatus::failed(101, TIME).with_retry_data(retry_data(1));
    let test = OwnedTestInstanceId::new(alloc, "store", "log::recover")?;
    let delay = Nanos::from_millis(50);
    let event = TestEvent::test_attempt_failed_will_retry(TIME, test.as_ref(), first(), delay);
    reporter.write_event(&event)?;
    let second = ExecuteStatus::passed(TIME).with_retry_data(retry_data(2));
    let earlier = vec![in alloc; first()]?;
    let statuses = ExecutionStatuses::with_last(earlier, second, FlakyResult::Pass);
    finish_test(alloc, reporter, stats, "log::recover", statuses)
}
