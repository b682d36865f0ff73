//! Two tables over the bridge, built and run with the kit, with an archive whose
//! functions tell what they were called with.

mod archive;

use archive::WHOLE;
use second::bridge::Bridge;
use second::compare::{Asked, Called, ChangesAnswer, Desk, Lent, Reply, bytes_of_ticks};
use second::generate::Random;
use std::time::Duration;

fn started() -> Bridge {
    let program = WHOLE.to_str().unwrap();
    Bridge::start(&["bridge/run", program], Duration::from_secs(20)).unwrap()
}

/// Two tables, and a buffer of so many numbers.
fn two<'a>(table: &'a [u8], second_table: &'a [u8], room: i64) -> Lent<'a> {
    Lent {
        second_table,
        buffer: bytes_of_ticks(&(7..7 + room).collect::<Vec<i64>>()),
        ..Lent::table(table)
    }
}

fn null<'a>(table: &'a [u8], second_table: &'a [u8], room: i64) -> Lent<'a> {
    Lent {
        null: true,
        ..two(table, second_table, room)
    }
}

/// What the archive answers to a table: its length, and its first and last byte.
fn told(lent: &Lent, table: &[u8]) -> u32 {
    match table {
        [] if lent.null => u32::MAX,
        [] => 0,
        [first, ..] => {
            let last = table[table.len() - 1];
            (table.len() as u32) << 16 | u32::from(*first) << 8 | u32::from(last)
        }
    }
}

/// What a call on these does that writes nothing beside its buffer.
fn expected(lent: &Lent) -> Called {
    let room = lent.buffer.len() as i64 / 8;
    let place = match room {
        0 => u64::from(lent.null),
        _ => 6 + room as u64,
    };
    Called {
        reply: Reply::Changes(ChangesAnswer {
            number: told(lent, lent.table),
            which: told(lent, lent.second_table),
            place,
            entries: room as u64,
        }),
        buffer: bytes_of_ticks(&(1..=room).map(|i| -i).collect::<Vec<i64>>()),
        beside: Vec::new(),
    }
}

#[track_caller]
fn compare(bridge: &mut Bridge, lent: &Lent) {
    let called = bridge.call(Asked::CompareTables, lent);
    assert_eq!(called, Ok(expected(lent)));
}

#[test]
fn two_tables_arrive_as_they_were_lent() {
    let mut bridge = started();
    let large = vec![5; 121 * 512];
    let mut other = large.clone();
    other[121 * 512 - 1] = 6;
    let small = [1, 2, 3];
    let tables: [&[u8]; 4] = [&small, &large, &[], &other];
    // As it comes, so that each table follows each in either place.
    let mut random = Random::new(52);
    for _ in 0..200 {
        let (table, second) = (random.pick(&tables), random.pick(&tables));
        let room = random.pick(&[0, 1, 6, 1_087]);
        compare(&mut bridge, &two(table, second, room));
        compare(&mut bridge, &null(table, second, room));
    }
}

/// What is not sent again is what its own place was given last.
#[test]
fn a_table_that_is_not_sent_again_stays_in_its_place() {
    let mut bridge = started();
    let (one, other) = ([1, 10], [2, 20]);
    for lent in [
        two(&one, &other, 3),
        // Both again, exchanged, and the same twice.
        two(&one, &other, 3),
        two(&other, &one, 3),
        two(&other, &other, 3),
        two(&other, &other, 3),
        two(&one, &other, 3),
        // Null pointers between, after which both places have what they had.
        null(&[], &[], 3),
        two(&one, &other, 3),
        null(&one, &[], 3),
        null(&[], &other, 3),
        two(&one, &other, 3),
        // No bytes are another table.
        two(&one, &[], 3),
        two(&[], &other, 3),
        two(&one, &other, 3),
    ] {
        compare(&mut bridge, &lent);
    }
    // Another function in between, which is lent no second table.
    for table in [one, [3, 30]] {
        let judged = bridge.call(Asked::Judge, &Lent::table(&table));
        assert_eq!(judged.expect("an answer").beside, [""; 0]);
        compare(&mut bridge, &two(&one, &other, 3));
    }
}

#[test]
fn many_calls_are_answered_in_their_order() {
    let lent = two(&[1; 600], &[2; 700], 9);
    let outcomes = started().calls(&[Asked::CompareTables; 60], &lent);
    assert_eq!(outcomes, vec![Ok(expected(&lent)); 60]);
}

#[test]
fn misdeeds_are_seen() {
    let mut bridge = started();
    let mut seen = |table: &[u8], second: &[u8]| {
        let lent = two(table, second, 6);
        let right = expected(&lent);
        let called = bridge.call(Asked::CompareTables, &lent).expect("an answer");
        // A table that was changed is whole again for the next call.
        assert_eq!((called.reply, called.buffer), (right.reply, right.buffer));
        called.beside
    };
    let (changed, second_changed) = (
        "the table's bytes were changed",
        "the second table's bytes were changed",
    );
    let (beside, second_beside) = (
        "bytes beside the lent table were written",
        "bytes beside the second lent table were written",
    );
    for _ in 0..2 {
        assert_eq!(seen(b"c..", b"..."), [changed]);
        assert_eq!(seen(b"...", b"c.."), [second_changed]);
        assert_eq!(seen(b"c..", b"c.."), [changed, second_changed]);
        for misdeed in [b"<..", b">.."] {
            assert_eq!(seen(misdeed, b"..."), [beside]);
            assert_eq!(seen(b"...", misdeed), [second_beside]);
        }
        for misdeed in [b"[..", b"].."] {
            let buffer = ["bytes beside the lent buffer were written"];
            assert_eq!(seen(misdeed, b"..."), buffer);
        }
        assert_eq!(seen(b"...", b"..."), [""; 0]);
    }
}
