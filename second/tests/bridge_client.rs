//! The client of a bridge, against second's own double of one: it shows no
//! difference, and every fault planted in it is told, in time.

use second::bridge::{Bridge, Fault};
use second::compare::{Asked, COMPARISONS, Desk, Ledger, Lent, Own, Size, Stage};
use std::process::{Command, Output};
use std::sync::LazyLock;
use std::time::{Duration, Instant};

const SECOND: &str = env!("CARGO_BIN_EXE_second");
const LIMIT: Duration = Duration::from_secs(20);

static STAGE: LazyLock<Stage> = LazyLock::new(|| {
    let size = Size {
        tables: 12,
        conversions: 40,
        splits: 1_000,
    };
    Stage::new(11, size)
});

/// Every comparison's ledger, with the double that has this fault.
fn ledgers(fault: &str) -> Vec<Ledger> {
    let run = |comparison: &second::compare::Comparison| {
        let mut bridge = Bridge::start(&[SECOND, "bridge", fault], LIMIT).unwrap();
        comparison.run(&mut bridge, &STAGE)
    };
    COMPARISONS.iter().map(run).collect()
}

#[test]
fn the_double_shows_no_difference_and_meets_what_own_functions_meet() {
    for (ledger, comparison) in ledgers("none").iter().zip(&COMPARISONS) {
        let own = comparison.run(&mut Own::default(), &STAGE);
        let name = comparison.name;
        assert_eq!(ledger.first_differences, [""; 0], "{name}");
        assert_eq!(ledger.summary(), own.summary(), "{name}");
    }
}

/// The fault is a difference in every comparison of these functions, and in no
/// other one.
#[track_caller]
fn is_told(fault: &str, what: &str, in_functions: &[&str]) {
    for (ledger, comparison) in ledgers(fault).iter().zip(&COMPARISONS) {
        let name = comparison.name.trim_start_matches("colliedash_");
        if in_functions
            .iter()
            .any(|function| name.starts_with(function))
        {
            let told = ledger.first_differences.first().expect(name);
            assert!(told.contains(what), "{name}: {told}");
        } else {
            assert_eq!(ledger.different, 0, "{name}");
        }
    }
}

const EVERY: [&str; 11] = [
    "judge",
    "read_table",
    "write_table",
    "compare_tables",
    "write_date",
    "convert_ticks",
    "convert_date",
    "convert_j2000",
    "batch",
    "convert_utc",
    "write_utc",
];

#[test]
fn a_bridge_that_breaks_down_is_told() {
    is_told(
        "ends",
        "the bridge ended early, with exit status: 0",
        &EVERY,
    );
    is_told("ends-in-answer", "the bridge ended early", &EVERY);
    is_told("stray", "nonsense: an answer to another request", &EVERY);
    is_told("wide", "nonsense: fields that no answer has", &EVERY);
    is_told("seen", "nonsense: it has seen what nobody knows", &EVERY);
}

fn dates_of(ticks: std::ops::Range<i64>) -> Vec<Asked> {
    ticks.map(|tick| Asked::WriteDate { tick }).collect()
}

#[test]
fn many_calls_are_answered_in_their_order() {
    let mut bridge = Bridge::start(&[SECOND, "bridge", "none"], LIMIT).unwrap();
    let (mut own, lent) = (Own::default(), Lent::table(&[1, 2, 3]));
    for begin in [0, -1_000, 1 << 60] {
        let asked = dates_of(begin..begin + 300);
        assert_eq!(bridge.calls(&asked, &lent), own.calls(&asked, &lent));
    }
}

/// The 50th request, which is the 49th call, gets no answer.
#[test]
fn a_bridge_that_breaks_down_among_many_calls_tells_at_which() {
    for fault in ["ends", "ends-in-answer", "silent", "stray", "wide", "seen"] {
        let limit = Duration::from_millis(500);
        let mut bridge = Bridge::start(&[SECOND, "bridge", fault], limit).unwrap();
        let outcomes = bridge.calls(&dates_of(0..300), &Lent::default());
        let answered = outcomes.iter().take_while(|outcome| outcome.is_ok());
        assert_eq!((answered.count(), outcomes.len()), (48, 49), "{fault}");
        // What it said since then is no answer to another call.
        assert!(
            bridge
                .call(Asked::WriteDate { tick: 0 }, &Lent::default())
                .is_err()
        );
    }
}

#[test]
fn what_the_bridge_sees_beside_an_answer_is_told() {
    is_told("wrong", "got", &EVERY);
    is_told("changes-table", "the table's bytes were changed", &EVERY);
    is_told(
        "changes-second-table",
        "the second table's bytes were changed",
        &EVERY,
    );
    is_told("changes-list", "the list lent to read was changed", &EVERY);
    is_told("writes-beside", "bytes beside the lent buffer", &EVERY);
    let written = ["read_table", "write_table", "compare_tables", "batch"];
    is_told("wrong-byte", "should be", &written);
}

#[test]
fn a_bridge_that_does_not_answer_is_told_in_time() {
    let begin = Instant::now();
    let limit = Duration::from_millis(300);
    let mut bridge = Bridge::start(&[SECOND, "bridge", "silent"], limit).unwrap();
    let ledger = COMPARISONS[0].run(&mut bridge, &STAGE);
    assert_eq!(ledger.different, 1);
    assert!(ledger.first_differences[0].ends_with("the bridge gave no answer in 300ms"));
    assert!(bridge.call(Asked::Judge, &Lent::default()).is_err());
    assert!(begin.elapsed() < LIMIT);
}

/// What `Bridge::start` says of a command that is no bridge.
fn not_started(command: &[&str]) -> String {
    match Bridge::start(command, Duration::from_millis(500)) {
        Ok(_) => panic!("{command:?} is no bridge"),
        Err(what) => what,
    }
}

#[test]
fn a_command_that_is_no_bridge_is_told() {
    assert!(not_started(&["/nonexistent/bridge"]).contains("cannot be started"));
    assert!(not_started(&["false"]).contains("ended early, with exit status: 1"));
    assert!(not_started(&["sh", "-c", "kill -9 $$"]).contains("signal: 9"));
    assert!(not_started(&["cat"]).contains("an answer to another request"));
    assert!(not_started(&["yes"]).contains("an answer to another request"));
    assert!(not_started(&["sleep", "60"]).contains("no answer in"));
    // Its own child still holds the output when it is gone.
    assert!(not_started(&["sh", "-c", "sleep 5 & exec sleep 5"]).contains("no answer in"));
    assert!(not_started(&["sh", "-c", "exec <&- >&-; sleep 5"]).contains("closed its output"));
    assert!(not_started(&[]).contains("cannot be started"));
}

fn compare(command: &[&str]) -> (Output, String, String) {
    let output = Command::new(SECOND)
        .arg("compare")
        .args(command)
        .output()
        .unwrap();
    let text = |bytes: &[u8]| String::from_utf8_lossy(bytes).into_owned();
    let (out, err) = (text(&output.stdout), text(&output.stderr));
    (output, out, err)
}

#[test]
fn compare_without_a_command_lists_every_comparison() {
    let (output, out, _) = compare(&[]);
    assert!(output.status.success());
    assert!(out.starts_with("No bridge was named, so nothing was compared.\n"));
    for comparison in &COMPARISONS {
        assert!(out.contains(comparison.name));
    }
}

#[test]
fn compare_tells_of_every_comparison_and_of_differences() {
    let (output, out, err) = compare(&[SECOND, "bridge", "ends"]);
    assert_eq!(output.status.code(), Some(1));
    assert_eq!(out.matches("1 differences").count(), COMPARISONS.len());
    assert_eq!(err, "");
    let (output, out, _) = compare(&["false"]);
    assert_eq!((output.status.code(), out), (Some(1), String::new()));
    let (output, _, err) = compare(&["/nonexistent/bridge", "here"]);
    assert_eq!(output.status.code(), Some(1));
    assert!(err.starts_with("/nonexistent/bridge here: the bridge cannot be started"));
    assert!(!err.contains("panicked"));
}

/// A name for every fault, and back.
#[test]
fn faults_are_found_by_their_names() {
    for (name, fault) in Fault::ALL {
        assert_eq!(Fault::named(name), Some(fault));
    }
    assert_eq!(Fault::named("other"), None);
}
