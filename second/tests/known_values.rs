//! The values of 01, all from data/values.txt; that `second values` tells every
//! difference; and 01's easy slips.

mod planted;

use planted::planted;
use second::blocks;
use second::compare::{Asked, Called, Lent, Own, Reply};
use second::dates::Reading;
use second::desk::convert;
use second::refusal::Refusal;
use second::table::{Judged, Table};
use second::values::{PAGE, run};
use std::process::{Command, Output};

const TT: u32 = 3;
const TDB: u32 = 5;
const TCB: u32 = 6;

#[test]
fn second_answers_what_the_page_says() {
    let run = run(PAGE, &mut Own::default()).unwrap();
    assert_eq!(run.differences, [""; 0]);
}

/// "P1 to P13 are one table", and all of them are run too.
#[test]
fn every_p_has_its_row() {
    let mut marks = run(PAGE, &mut Own::default()).unwrap().marks;
    marks.dedup();
    let expected: Vec<String> = (1..=13).map(|p| format!("P{p}")).collect();
    assert_eq!(marks, expected);
}

/// The first of the differences with second's own functions, but for the change
/// of what each call did.
#[track_caller]
fn first_difference(table: &str, change: impl FnMut(Asked, &Lent, &mut Called)) -> String {
    let run = run(table, &mut planted(change)).unwrap();
    run.differences.first().expect("a difference").clone()
}

#[test]
fn a_row_that_says_another_answer_is_told() {
    for wrong in [
        "| TCB 0 to TDB | | -65501, 1 step",
        "| TCB 0 to TDB | | -65500, 2 steps",
        "| TT 0 to TDB | | refused 10 at 1",
        "| TT 0 to TDB | | refused 6 at 0",
        "| date of 0 | | (2443144.5, 0)",
        "| judge | n=0 S=0 H=10^9 G=2 c=0,1025 | passes",
        "| read | n=0 S=0 H=10^9 G=2 c=0,1024 | refused 16 at 1",
        "| write | n=0 S=0 H=10^9 G=1 c=2^40 | refused 14 at 0",
        "| UTC day 41317 0 to TAI | leaps=41317,10 | -157852822184000001, 0 steps",
        "| UTC day 41317 0 to TAI | leaps=41317,10,41318 | -157852822184000000, 0 steps",
        "| TAI 0 to UTC | leaps=real | day 43144 16184000001, 0 steps",
        "| TAI 0 to UTC | leaps=real | day 43144 16184000000, 1 step",
        "| TAI 0 to UTC | leaps=41317,10 | day 43144 16184000000, 0 steps",
        "| UTC day 43144 0 to TDB | leaps=real n=0 S=0 H=10^9 G=1 c=0 | 16*10^9, 2 steps",
    ] {
        let told = first_difference(wrong, |_, _, _| ());
        let line = format!("line 1, {wrong}: the library answers ");
        assert!(told.starts_with(&line), "{told}");
    }
}

/// Every function's answer is looked at, and the buffer that it was lent.
#[test]
fn another_answer_than_the_page_s_is_told() {
    let told = first_difference(PAGE, |_, _, called| {
        if let Reply::Answer(answer) = &mut called.reply {
            answer.tick += i64::from(answer.tick == 250_000_000);
        }
    });
    assert!(told.contains("TT 250000000 to TDB"), "{told}");
    let told = first_difference(PAGE, |_, _, called| {
        if let Reply::Table(table) = &mut called.reply {
            table.number = 0;
        }
    });
    assert!(told.contains("10^9+1"), "{told}");
    let told = first_difference(PAGE, |_, _, called| {
        if let Reply::Date(date) = &mut called.reply {
            date.second = -date.second;
        }
    });
    assert!(told.contains("date of -32184000000"), "{told}");
    // The leap second is taken for the next day's first.
    let told = first_difference(PAGE, |_, _, called| {
        if let Reply::Utc(utc) = &mut called.reply
            && utc.ticks == 86_400_000_000_000
        {
            (utc.day, utc.ticks) = (utc.day + 1, 0);
        }
    });
    assert!(told.contains("TAI 1262304003816000000 to UTC"), "{told}");
    let told = first_difference(PAGE, |_, _, called| {
        if let Some(last) = called.buffer.last_mut() {
            *last ^= 1;
        }
    });
    assert!(told.contains("the lent buffer"), "{told}");
    let told = first_difference(PAGE, |_, _, called| called.beside.push("written beside"));
    assert!(told.contains("written beside"), "{told}");
}

#[test]
fn a_row_that_is_not_understood_ends_the_run() {
    for wrong in [
        "TCB 0 to TDB is -65500",
        "| TCB 0 to TDB | -65500, 1 step",
        "| TCB 0 to TDB | | -65500",
        "| TCB zero to TDB | | -65500, 1 step",
        "| UT1 0 to TDB | | -65500, 1 step",
        "| TCB 0 | | -65500, 1 step",
        "| TCB 0 to TDB | | refused 4",
        "| TCB (0) to TDB | | refused 4 at 0",
        "| judge | | passes",
        "| guess | n=0 S=0 H=10^9 G=1 c=0 | passes",
        "| judge | n=0 S=0 H=10^9 G=1 c=0,0 | passes",
        "| judge | n=0 S=0 H=10^9 G=1 | passes",
        "| judge | n=0 S=0 H=10^9 G=1 c=0 | 0, 1 step",
        "| date of 0 | n=0 S=0 H=10^9 G=1 c=0 | (2443144.5, 0)",
        "| UTC day 41317 to TAI | leaps=41317,10 | refused 5 at 0",
        "| UTC day 41317 0 0 to TAI | leaps=41317,10 | refused 5 at 0",
        "| UTC day 41317 0 to TAI | leaps=41317,ten | refused 5 at 0",
        "| UTC day 41317 0 to TAI | leaps=41317,10 leaps=41317,10 | refused 5 at 0",
        "| UTC day 41317 0 to TAI | 41317,10 | refused 5 at 0",
        "| UTC day 41317 0 to TAI | leaps=41317,10 | day 41317 0, 0 steps",
        "| TAI 0 to UTC | leaps=41317,10 | 0, 0 steps",
        "| judge | leaps=41317,10 n=0 S=0 H=10^9 G=1 c=0 | passes",
    ] {
        let why = run(wrong, &mut Own::default()).unwrap_err();
        assert_eq!(why, format!("line 1, {wrong}: not understood"));
    }
    assert!(run("# no row\n", &mut Own::default()).is_err());
}

/// The command, with second's own double of a bridge that has this fault.
fn values_of(fault: &str) -> Output {
    let second = env!("CARGO_BIN_EXE_second");
    let mut command = Command::new(second);
    command.args(["values", second, "bridge", fault]);
    command.output().unwrap()
}

#[test]
fn the_command_counts_rows_and_fails_with_a_difference() {
    let right = values_of("none");
    let printed = String::from_utf8(right.stdout).unwrap();
    assert!(printed.ends_with(" 0 differences\n"), "{printed}");
    assert!(right.status.success());
    for fault in ["wrong", "wrong-byte", "changes-table", "ends"] {
        assert_eq!(values_of(fault).status.code(), Some(1), "{fault}");
    }
}

/// A table from S = 0 with H = 10^9, written as blocks and judged.
fn table(degree: u32, coefficients: &[i64]) -> Judged {
    let table = Table {
        start: 0,
        length: 1_000_000_000,
        count: coefficients.len() as u32 / (degree + 1),
        degree,
        coefficients: coefficients.to_vec(),
    };
    blocks::judge(&blocks::image(&table))
}

fn tick(from: u32, to: u32, tick: i64, table: &Judged) -> Result<i64, Refusal> {
    let answer = convert(from, to, Reading::Ticks(tick), &[], table)?;
    Ok(answer.tick)
}

/// "Inverting L_B by adding L_B·TDB: wrong by whole ticks at large epochs."
#[test]
fn the_easy_slip_of_the_inverse_differs() {
    let tdb = 5_000_000_000_000_000_000_i64;
    let slip =
        i128::from(tdb) + 65_500 + i128::from(tdb + 65_500) * 1_550_519_768 / 10_i128.pow(17);
    let right = tick(TDB, TCB, tdb, &blocks::judge(&[])).unwrap();
    assert!(i128::from(right) - slip > 1_000);
}

/// "Giving the tick at a join to the earlier granule."
#[test]
fn the_join_belongs_to_the_later_granule() {
    // The earlier granule's value rounds to D 0 and the later's to D 1.
    let table = table(0, &[32_767, 32_768]);
    assert_eq!(tick(TT, TDB, 999_999_999, &table), Ok(999_999_999));
    assert_eq!(tick(TT, TDB, 1_000_000_000, &table), Ok(999_999_999));
    assert_eq!(tick(TDB, TT, 999_999_999, &table), Ok(999_999_999));
    assert_eq!(tick(TDB, TT, 1_000_000_000, &table), Ok(1_000_000_001));
}

/// The table of the readings: a TDB that no TT gives gets the tick after it.
#[test]
fn a_jump_is_answered_with_the_tick_after_it() {
    let table = table(0, &[32_768, 32_767]);
    assert_eq!(tick(TT, TDB, 999_999_999, &table), Ok(999_999_998));
    assert_eq!(tick(TT, TDB, 1_000_000_000, &table), Ok(1_000_000_000));
    assert_eq!(tick(TDB, TT, 999_999_999, &table), Ok(1_000_000_000));
}
