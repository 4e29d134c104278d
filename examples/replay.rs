//! An example: a recorded run is shown again, and of what its tests wrote only that is read which the report shows.
#![tactic(auto)]

use console_reporter::prelude::*;
use std::alloc::Global;
use std::io;

// A test of the record. What it wrote stands in an archive, here a constant.
#[derive(Clone, Copy, Debug)]
struct RecordedTest {
    name: &'static str,
    exit_code: i32,
    stderr: &'static [u8],
}

const RECORD: [RecordedTest; 3] = [
    RecordedTest {
        name: "opens",
        exit_code: 0,
        stderr: b"opened store.db\n",
    },
    RecordedTest {
        name: "reads",
        exit_code: 0,
        stderr: b"read 3 rows\n",
    },
    RecordedTest {
        name: "writes",
        exit_code: 101,
        stderr: b"the store is full\n",
    },
];

const TIME: Nanos = Nanos(20_000_000);

fn main(rt: HostRuntime) -> Result<(), ReportError> {
    let alloc = rt.alloc();
    let mut out = TextBuffer::new(alloc, io::writer(&rt))?;
    let mut builder = DisplayReporterBuilder::new(alloc, RECORD.len())?;
    builder.displayer_kind = DisplayerKind::Replay;
    let mut reporter = builder.build_for(alloc, &mut out, Surroundings::default());
    let mut stats = RunStats::new(RECORD.len());
    for test in &RECORD {
        stats = with_test(stats, test);
        replay(alloc, &mut reporter, test, stats)?;
    }
    reporter.write_event(&TestEvent::run_finished(TIME, stats))?;
    Ok(reporter.finish()?)
}

// The counts with one more test.
fn with_test(stats: RunStats, test: &RecordedTest) -> RunStats {
    let has_passed = test.exit_code == 0;
    RunStats {
        finished_count: stats.finished_count.saturating_add(1),
        passed: stats.passed.saturating_add(has_passed as usize),
        failed: stats.failed.saturating_add(!has_passed as usize),
        ..stats
    }
}

// Reports a test of the record. The event is first made without output: by that the reporter's decider says whether it
// is read.
fn replay<W: WriteStr>(
    alloc: Global,
    reporter: &mut DisplayReporter<'_, W, String>,
    test: &RecordedTest,
    stats: RunStats,
) -> Result<(), ReportError> {
    let id = OwnedTestInstanceId::new(alloc, "store", test.name)?;
    let event = event_of(
        alloc,
        id.as_ref(),
        test,
        stats,
        ChildOutputDescription::NotLoaded,
    );
    if !is_shown(alloc, &reporter.output_load_decider(), &event)? {
        return Ok(reporter.write_event(&event)?);
    }
    let stderr = Bytes::from_static(test.stderr);
    let output = ChildOutputDescription::split(alloc, Bytes::new(), stderr)?;
    let event = event_of(alloc, id.as_ref(), test, stats, output);
    Ok(reporter.write_event(&event)?)
}

// Whether the report shows what the test of an event wrote.
fn is_shown(
    alloc: Global,
    decider: &OutputLoadDecider,
    event: &TestEvent<'_>,
) -> Result<bool, OutOfMemory> {
    let Some(recorded) = event.recorded(alloc)? else {
        return Ok(false);
    };
    Ok(decider.should_load_output(&recorded) == LoadOutput::Load)
}

// The event of a test of the record, with this as what it wrote.
fn event_of<'a>(
    alloc: Global,
    id: TestInstanceId<'a>,
    test: &RecordedTest,
    stats: RunStats,
    output: ChildOutputDescription,
) -> TestEvent<'a> {
    let status = match test.exit_code {
        0 => ExecuteStatus::passed(TIME),
        exit_code => ExecuteStatus::failed(exit_code, TIME),
    };
    let statuses = ExecutionStatuses::single(alloc, status.with_output(output));
    TestEvent::test_finished(TIME, id, statuses, stats)
}
