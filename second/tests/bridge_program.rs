//! The bridge itself, built and run with the kit, with an archive whose
//! functions tell what they were called with.

mod archive;

use archive::{WHOLE, archive};
use second::bridge::Bridge;
use second::compare::{
    Answer, Asked, Called, Date, Desk, Lent, Outcome, Reply, TableAnswer, UtcAnswer, bytes_of_ticks,
};
use second::dates::Reading;
use second::generate::{Random, any_double, splits};
use second::utc::Utc;
use std::time::Duration;

const LIMIT: Duration = Duration::from_secs(20);

fn started(limit: Duration) -> Bridge {
    let program = WHOLE.to_str().unwrap();
    Bridge::start(&["bridge/run", program], limit).unwrap()
}

/// What a call did that wrote nothing beside its buffer.
#[track_caller]
fn clean(outcome: Outcome) -> (Reply, Vec<u8>) {
    let called = outcome.expect("an answer");
    assert_eq!(called.beside, [""; 0], "{called:?}");
    (called.reply, called.buffer)
}

/// What the bridge saw beside the answer.
#[track_caller]
fn beside(outcome: Outcome) -> Vec<&'static str> {
    outcome.expect("an answer").beside
}

/// Empty lists go as null.
fn null() -> Lent<'static> {
    Lent {
        null: true,
        ..Lent::default()
    }
}

fn judged(number: u32, count: u32, degree: u32, place: u64) -> (Reply, Vec<u8>) {
    let (start, length) = (-1, i64::MIN);
    let table = TableAnswer {
        number,
        count,
        degree,
        place,
        start,
        length,
    };
    (Reply::Table(table), vec![])
}

#[test]
fn tables_arrive_as_they_were_lent() {
    let mut bridge = started(LIMIT);
    let mut judge = |lent: &Lent| clean(bridge.call(Asked::Judge, lent));
    assert_eq!(judge(&null()), judged(1, 0, 0, 0));
    assert_eq!(judge(&Lent::table(&[])), judged(0, 0, 0, 0));
    assert_eq!(judge(&Lent::table(&[7, 8])), judged(0, 2, 7, 8));
    // The same again, a longer one, a null one in between, a shorter one.
    assert_eq!(judge(&Lent::table(&[7, 8])), judged(0, 2, 7, 8));
    let mut large = vec![1; 1 << 20];
    assert_eq!(judge(&Lent::table(&large)), judged(0, 1 << 20, 1, 1));
    assert_eq!(judge(&null()), judged(1, 0, 0, 0));
    large[(1 << 20) - 1] = 2;
    for _ in 0..2 {
        assert_eq!(judge(&Lent::table(&large)), judged(0, 1 << 20, 1, 2));
    }
    assert_eq!(judge(&Lent::table(&[9])), judged(0, 1, 9, 9));
    assert_eq!(judge(&Lent::table(&[])), judged(0, 0, 0, 0));
}

#[test]
fn lists_are_written() {
    let mut bridge = started(LIMIT);
    let lent = Lent {
        table: &[1, 2],
        buffer: bytes_of_ticks(&[5, -6, 7]),
        ..Lent::default()
    };
    let (number, count, degree, place, start, length) = (0, 3, 2, 7, 2, 3);
    let expected = TableAnswer {
        number,
        count,
        degree,
        place,
        start,
        length,
    };
    let called = clean(bridge.call(Asked::ReadTable, &lent));
    let list = bytes_of_ticks(&[-1, -2, -3]);
    assert_eq!(called, (Reply::Table(expected), list));
    let mut number = |lent: &Lent| clean(bridge.call(Asked::ReadTable, lent)).0.number();
    assert_eq!(number(&null()), 1);
    assert_eq!(number(&Lent::default()), 0);
}

#[test]
fn images_are_written() {
    let mut bridge = started(LIMIT);
    let lent = Lent {
        list: &[1, -2],
        buffer: vec![16; 4],
        ..Lent::default()
    };
    let asked = Asked::WriteTable {
        start: i64::MIN,
        length: -1,
        count: u32::MAX,
        degree: 17,
    };
    let expected = Answer {
        number: u32::MAX,
        steps: 17,
        place: -2_i64 as u64,
        index: 2_004,
        tick: i64::MIN + 1,
    };
    let called = clean(bridge.call(asked, &lent));
    assert_eq!(called, (Reply::Answer(expected), vec![16, 17, 18, 19]));
    let empty = Answer {
        place: 0,
        index: 0,
        ..expected
    };
    let called = clean(bridge.call(asked, &null()));
    assert_eq!(called, (Reply::Answer(empty), vec![]));
}

#[test]
fn dates_arrive_as_they_were_asked() {
    let mut bridge = started(LIMIT);
    let date = Date {
        number: u32::MAX,
        place: u64::MAX,
        first: -0.0,
        second: 0.1,
    };
    let called = clean(bridge.call(Asked::WriteDate { tick: -1 }, &Lent::default()));
    assert_eq!(called, (Reply::Date(date), vec![]));
}

/// What the archive answers to codes 3 and 2^32 − 1.
fn converted(place: u64, index: u64, tick: i64) -> Reply {
    Reply::Answer(Answer {
        number: 3,
        steps: u32::MAX,
        place,
        index,
        tick,
    })
}

#[test]
fn conversions_arrive_as_they_were_asked() {
    let mut bridge = started(LIMIT);
    let mut convert = |reading, lent: &Lent| {
        let (from, to) = (3, u32::MAX);
        clean(bridge.call(Asked::Convert { from, to, reading }, lent)).0
    };
    for tick in [i64::MIN, -1, 0, i64::MAX] {
        let ticks = Reading::Ticks(tick);
        assert_eq!(convert(ticks, &null()), converted(1, 0, tick));
        assert_eq!(convert(ticks, &Lent::default()), converted(0, 0, tick));
        assert_eq!(
            convert(ticks, &Lent::table(&[1; 1024])),
            converted(0, 1024, tick)
        );
    }
    // Doubles pass as their bits, whatever they are.
    let mut random = Random::new(50);
    for _ in 0..200 {
        let (first, second) = (any_double(&mut random), any_double(&mut random));
        let bits = [first, second].map(f64::to_bits);
        assert_eq!(
            convert(Reading::TwoPart(first, second), &Lent::table(&[6])),
            converted(bits[0], bits[1], 6)
        );
        assert_eq!(
            convert(Reading::SinceJ2000(first), &null()),
            converted(bits[0], 0, -1)
        );
    }
}

/// More of them than the bridge reads at a time.
#[test]
fn many_calls_are_answered_in_their_order() {
    let mut bridge = started(LIMIT);
    let (from, to) = (3, u32::MAX);
    let mut random = Random::new(51);
    for table in [&[5; 10][..], &[6; 1024]] {
        let dates: Vec<(f64, f64)> = (0..800).flat_map(|_| splits(&mut random)).collect();
        let readings = dates.iter().map(|date| Reading::TwoPart(date.0, date.1));
        let asked = readings.map(|reading| Asked::Convert { from, to, reading });
        let asked: Vec<Asked> = asked.collect();
        let outcomes = bridge.calls(&asked, &Lent::table(table));
        assert_eq!(outcomes.len(), dates.len());
        for ((first, second), outcome) in dates.into_iter().zip(outcomes) {
            let expected = converted(first.to_bits(), second.to_bits(), table[0].into());
            assert_eq!(clean(outcome).0, expected);
        }
    }
}

#[test]
fn batches_arrive_as_they_were_asked() {
    let mut bridge = started(LIMIT);
    let lent = Lent {
        list: &[4, -5],
        buffer: bytes_of_ticks(&[0; 3]),
        ..Lent::table(&[1, 2, 3])
    };
    let (from, to) = (3, u32::MAX);
    let called = clean(bridge.call(Asked::Batch { from, to }, &lent));
    let answers = bytes_of_ticks(&[8, -10, 0]);
    assert_eq!(called, (converted(2_003, 3, 3), answers));
}

/// A list and a table; the archive tells of both.
fn list_and_table<'a>(list: &'a [i64], table: &'a [u8]) -> Lent<'a> {
    Lent {
        list,
        ..Lent::table(table)
    }
}

#[test]
fn utc_readings_arrive_as_they_were_asked() {
    let mut bridge = started(LIMIT);
    let mut convert = |day, ticks, lent: &Lent| {
        let (from, to) = (3, u32::MAX);
        let reading = Reading::Utc(Utc { day, ticks });
        clean(bridge.call(Asked::Convert { from, to, reading }, lent)).0
    };
    let lent = list_and_table(&[5, -6, 7], &[8, 9]);
    for (day, ticks) in [(i64::MIN, i64::MAX), (-1, 0), (41_317, 86_400_000_000_000)] {
        let [place, index] = [day, ticks].map(i64::cast_unsigned);
        assert_eq!(
            convert(day, ticks, &lent),
            converted(place, index, 7_003_002)
        );
        assert_eq!(convert(day, ticks, &null()), converted(place, index, -1));
        let empty = convert(day, ticks, &Lent::default());
        assert_eq!(empty, converted(place, index, 0));
    }
}

#[test]
fn ticks_to_write_as_utc_arrive_as_they_were_asked() {
    let mut bridge = started(LIMIT);
    let mut write = |tick, lent: &Lent| {
        let (from, to) = (u32::MAX, 7);
        clean(bridge.call(Asked::WriteUtc { from, to, tick }, lent)).0
    };
    let written = |place, day, ticks| {
        Reply::Utc(UtcAnswer {
            number: u32::MAX,
            steps: 7,
            place,
            day,
            ticks,
        })
    };
    let lent = list_and_table(&[5, -6], &[8, 9]);
    for tick in [i64::MIN, -1, 0, i64::MAX] {
        assert_eq!(write(tick, &lent), written(9, tick, -5_997_998));
        assert_eq!(write(tick, &null()), written(256, tick, -1));
        assert_eq!(write(tick, &Lent::default()), written(256, tick, 0));
    }
}

#[test]
fn misdeeds_of_the_functions_of_utc_are_seen() {
    let mut bridge = started(LIMIT);
    let utc = Utc { day: 0, ticks: 0 };
    let convert = Asked::Convert {
        from: 7,
        to: 2,
        reading: Reading::Utc(utc),
    };
    let write = Asked::WriteUtc {
        from: 2,
        to: 7,
        tick: 0,
    };
    let mut seen = |asked, list: &[i64], table: &[u8]| {
        let called = bridge.call(asked, &list_and_table(list, table));
        called.expect("an answer").beside
    };
    let (changes, before) = ([b'c'.into(), 1], [b'<'.into(), 1]);
    let changed = ["the list lent to read was changed"];
    assert_eq!(seen(convert, &changes, b"."), changed);
    let written = ["bytes beside the lent table were written"];
    assert_eq!(seen(convert, &[1, 2], b">"), written);
    let written = ["bytes beside the list lent to read were written"];
    assert_eq!(seen(write, &before, b"."), written);
    assert_eq!(seen(write, &[1, 2], b"."), [""; 0]);
}

#[test]
fn writes_outside_of_what_was_lent_are_seen() {
    let mut bridge = started(LIMIT);
    let written = ["bytes beside the lent table were written"];
    for table in [b"<..", b">.."] {
        let outcome = bridge.call(Asked::Judge, &Lent::table(table));
        assert_eq!(beside(outcome), written);
    }
    let buffer = ["bytes beside the lent buffer were written"];
    for table in [b"<", b">"] {
        let lent = Lent {
            buffer: bytes_of_ticks(&[1, 2]),
            ..Lent::table(table)
        };
        let called = bridge.call(Asked::ReadTable, &lent).expect("an answer");
        assert_eq!(called.beside, buffer);
        assert_eq!(called.buffer, bytes_of_ticks(&[-1, -2]));
    }
    let asked = Asked::WriteTable {
        start: 0,
        length: 0,
        count: 0,
        degree: 0,
    };
    let mut write = |list: &[i64]| {
        let lent = Lent {
            list,
            ..Lent::default()
        };
        beside(bridge.call(asked, &lent))
    };
    let list = ["bytes beside the list lent to read were written"];
    assert_eq!(write(&[i64::from(b'>'), 1]), list);
    assert_eq!(write(&[1]), [""; 0]);
}

#[test]
fn what_was_lent_to_be_read_and_is_changed_is_seen() {
    let mut bridge = started(LIMIT);
    for _ in 0..2 {
        let called = bridge.call(Asked::Judge, &Lent::table(b"c.."));
        let Called { reply, beside, .. } = called.expect("an answer");
        // The table is whole again for the next call.
        assert_eq!((reply, vec![]), judged(0, 3, b'c'.into(), b'.'.into()));
        assert_eq!(beside, ["the table's bytes were changed"]);
    }
    let asked = Asked::WriteTable {
        start: 0,
        length: 0,
        count: 0,
        degree: 0,
    };
    let lent = Lent {
        list: &[i64::from(b'c'), 1],
        ..Lent::default()
    };
    let changed = ["the list lent to read was changed"];
    assert_eq!(beside(bridge.call(asked, &lent)), changed);
}

#[test]
fn a_function_that_breaks_the_bridge_is_told() {
    let lost = |table: &[u8], limit| {
        let outcome = started(limit).call(Asked::Judge, &Lent::table(table));
        outcome.expect_err("the bridge is lost")
    };
    assert!(lost(b"x", LIMIT).contains("the bridge ended early, with signal: 11"));
    assert!(lost(b"e", LIMIT).contains("the bridge ended early, with exit status: 7"));
    let short = Duration::from_secs(2);
    assert_eq!(lost(b"l", short), "the bridge gave no answer in 2s");
}

#[test]
fn an_archive_that_lacks_a_function_makes_no_bridge() {
    let (folder, mut build) = archive("half", &["tables"]);
    let output = build.output().expect("the script");
    let told = String::from_utf8_lossy(&output.stderr);
    assert!(!output.status.success() && told.contains("colliedash_batch"));
    assert!(!folder.join("bridge").exists(), "{told}");
}
