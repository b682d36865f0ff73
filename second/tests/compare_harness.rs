//! The harness of `second compare` itself: second's own functions show no
//! difference, and a planted one is reported.

mod harness;

use harness::{STAGE, answer, compared, is_reported, planted};
use second::blocks::{BLOCK, image};
use second::compare::{
    Answer, Asked, Called, Date, Desk, Lent, Outcome, Own, Reply, TableAnswer, bytes_of_ticks,
};
use second::dates::Reading;
use std::collections::BTreeSet;

const CONVERSIONS: [u32; 11] = [0, 1, 4, 6, 10, 11, 12, 13, 14, 15, 16];
const READ_AND_CONVERTED: [u32; 13] = [0, 1, 2, 3, 4, 6, 10, 11, 12, 13, 14, 15, 16];
const STEPS: [u32; 10] = [0, 4, 6, 10, 11, 12, 13, 14, 15, 16];
const READINGS: [u32; 4] = [0, 2, 3, 4];
const UTC: [u32; 14] = [0, 1, 4, 5, 6, 7, 8, 10, 11, 12, 13, 14, 15, 16];
const UTC_ALONE: [u32; 5] = [0, 4, 5, 7, 8];

/// Every number that each function can give to what it is asked.
const NUMBERS: [(&str, &[u32]); 20] = [
    ("colliedash_judge", &[0, 10, 11, 12, 13, 14, 15, 16]),
    ("colliedash_read_table", &[0, 8, 10, 11, 12, 13, 14, 15, 16]),
    ("colliedash_write_table", &[0, 8, 13, 14, 15, 16]),
    (
        "colliedash_compare_tables",
        &[0, 8, 10, 11, 12, 13, 14, 15, 16, 20],
    ),
    ("colliedash_write_date", &[0, 4]),
    ("colliedash_convert_ticks", &CONVERSIONS),
    ("colliedash_convert_ticks, TT to TDB", &STEPS),
    ("colliedash_convert_ticks, TDB to TT", &STEPS),
    ("colliedash_convert_ticks, around halves of a tick", &[0, 4]),
    ("colliedash_convert_date", &READ_AND_CONVERTED),
    ("colliedash_convert_date, the reading alone", &READINGS),
    (
        "colliedash_convert_date, around halves of a tick",
        &[0, 3, 4],
    ),
    ("colliedash_convert_j2000", &READ_AND_CONVERTED),
    ("colliedash_convert_j2000, the reading alone", &READINGS),
    (
        "colliedash_batch",
        &[0, 1, 4, 6, 8, 10, 11, 12, 13, 14, 15, 16],
    ),
    ("colliedash_batch, around halves of a tick", &[0]),
    ("colliedash_convert_utc", &UTC),
    ("colliedash_convert_utc, the reading alone", &UTC_ALONE),
    ("colliedash_write_utc", &UTC),
    ("colliedash_write_utc, the writing alone", &UTC_ALONE),
];

#[test]
fn own_functions_show_no_difference_and_meet_every_number() {
    for (name, numbers) in NUMBERS {
        let ledger = compared(name, &mut Own::default());
        assert_eq!(ledger.first_differences, [""; 0], "{name}");
        let met: Vec<u32> = ledger.numbers.keys().copied().collect();
        assert_eq!(met, numbers, "{name}");
        assert!(ledger.cases > 500, "{name}: {}", ledger.cases);
    }
}

/// Codes above 6 count as 7 here.
#[test]
fn every_pair_of_codes_meets_every_kind_of_table() {
    let functions = ["convert_ticks", "convert_date", "convert_j2000", "batch"];
    for function in functions {
        let (mut met, mut none, mut own) = (BTreeSet::new(), BTreeSet::new(), Own::default());
        let note = |asked: Asked, lent: &Lent, _: &mut Called| {
            let (Asked::Convert { from, to, .. } | Asked::Batch { from, to }) = asked else {
                panic!("{asked:?}")
            };
            let table = match lent.table {
                [] => "none",
                bytes if own.judged(bytes).is_ok() => "accepted",
                _ => "refused",
            };
            met.insert((from.min(7), to.min(7), table));
            if lent.table.is_empty() {
                none.insert(lent.null);
            }
        };
        compared(&format!("colliedash_{function}"), &mut planted(note));
        for table in ["none", "accepted", "refused"] {
            let met = |pair: u32| met.contains(&(pair / 7, pair % 7, table));
            assert!((0..49).all(met), "{function}, {table}");
        }
        for (from, to) in [(7, 3), (3, 7), (7, 7)] {
            assert!(met.contains(&(from, to, "accepted")), "{function}");
        }
        assert_eq!(none.len(), 2, "null and not");
    }
}

#[test]
fn batches_come_in_every_length_and_are_refused_at_every_place() {
    let mut lengths = BTreeSet::new();
    let mut large = BTreeSet::new();
    let note = |_: Asked, lent: &Lent, called: &mut Called| {
        let Answer { number, index, .. } = *answer(called);
        let (length, place) = (lent.list.len(), index as usize);
        lengths.insert(length);
        if length > 400 {
            let last = length - 1;
            let place = match place {
                0 => "first",
                _ if place == length / 2 => "middle",
                _ if place == last => "last",
                _ => "elsewhere",
            };
            large.insert((number, place));
        }
    };
    compared("colliedash_batch", &mut planted(note));
    assert!((0..3 * STAGE.accepted.len()).all(|length| lengths.contains(&length)));
    assert!(*lengths.last().unwrap() > 1_000);
    for place in ["middle", "last", "elsewhere"] {
        for number in [4, 6] {
            assert!(large.contains(&(number, place)), "{number} {place}");
        }
    }
    assert!(large.contains(&(0, "first")) && large.contains(&(8, "first")));
}

#[track_caller]
fn table(called: &mut Called) -> &mut TableAnswer {
    match &mut called.reply {
        Reply::Table(table) => table,
        other => panic!("{other:?}"),
    }
}

#[test]
fn planted_differences_in_tables_are_reported() {
    is_reported("colliedash_judge", |_, _, called| {
        let table = table(called);
        table.place -= u64::from(table.number == 16);
    });
    is_reported("colliedash_judge", |_, _, called| {
        called.beside = vec!["bytes beside the lent table were written"];
    });
    is_reported("colliedash_read_table", |_, _, called| {
        if table(called).number == 8 && !called.buffer.is_empty() {
            called.buffer[0] ^= 1;
        }
    });
    is_reported("colliedash_read_table", |_, lent, called| {
        called.buffer = lent.buffer.clone();
    });
    is_reported("colliedash_write_table", |_, lent, called| {
        if answer(called).number == 0 {
            *called.buffer.last_mut().unwrap() = *lent.buffer.last().unwrap();
        }
    });
}

#[track_caller]
fn date(called: &mut Called) -> &mut Date {
    match &mut called.reply {
        Reply::Date(date) => date,
        other => panic!("{other:?}"),
    }
}

#[test]
fn planted_differences_in_written_dates_are_reported() {
    is_reported("colliedash_write_date", |_, _, called| {
        let date = date(called);
        if date.second > 0.9 {
            date.second = date.second.next_up();
        }
    });
    is_reported("colliedash_write_date", |_, _, called| {
        let date = date(called);
        if date.second == 0.0 {
            date.second = -0.0;
        }
    });
}

#[test]
fn planted_differences_in_conversions_are_reported() {
    is_reported("colliedash_convert_ticks", |_, _, called| {
        let answer = answer(called);
        answer.steps = answer.steps.min(3);
    });
    // The sum of the parts is rounded to a double first.
    let mut own = Own::default();
    is_reported("colliedash_convert_date", |asked, lent, called| {
        if let Asked::Convert { from, to, reading } = asked
            && let Reading::TwoPart(first, second) = reading
        {
            let reading = Reading::TwoPart(first + second, 0.0);
            let sum = own.call(Asked::Convert { from, to, reading }, lent);
            *called = sum.unwrap();
        }
    });
    // Halves go to the lesser.
    is_reported("colliedash_convert_j2000", |asked, _, called| {
        let Asked::Convert { reading, .. } = asked else {
            panic!("{asked:?}")
        };
        if let Reading::SinceJ2000(seconds) = reading {
            let is_half = (seconds * 1024.0).fract() == 0.0 && (seconds * 512.0).fract() != 0.0;
            let answer = answer(called);
            answer.tick -= i64::from(is_half && answer.number == 0);
        }
    });
}

/// "a batch that writes nothing, a batch that converts its first entry and
/// copies the rest", and one that writes before the refused entry.
#[test]
fn what_a_batch_writes_wrongly_is_reported() {
    is_reported("colliedash_batch", |_, lent, called| {
        called.buffer = lent.buffer.clone();
    });
    is_reported("colliedash_batch", |_, lent, called| {
        if answer(called).number == 0 && lent.list.len() > 1 {
            called.buffer[8..].copy_from_slice(&bytes_of_ticks(&lent.list[1..]));
        }
    });
    is_reported("colliedash_batch", |_, lent, called| {
        let done = answer(called).index as usize;
        called.buffer[..8 * done].copy_from_slice(&bytes_of_ticks(&lent.list[..done]));
    });
    // Only after many.
    is_reported("colliedash_batch", |_, _, called| {
        if answer(called).index > 1_000 {
            called.buffer[0] ^= 1;
        }
    });
}

#[test]
fn a_batch_that_tells_a_later_refusal_is_reported() {
    let mut own = Own::default();
    is_reported("colliedash_batch", |asked, lent, called| {
        let refused = answer(called);
        if [4, 6].contains(&refused.number) {
            let after = refused.index as usize + 1;
            let rest = Lent {
                list: &lent.list[after..],
                buffer: lent.buffer[8 * after..].to_vec(),
                ..lent.clone()
            };
            let mut called = own.call(asked, &rest).unwrap();
            let later = answer(&mut called);
            if later.number != 0 {
                later.index += after as u64;
                *refused = *later;
            }
        }
    });
}

#[test]
fn a_batch_with_its_checks_out_of_order_is_reported() {
    // The table is told before the lengths.
    let mut own = Own::default();
    is_reported("colliedash_batch", |asked, lent, called| {
        if answer(called).number == 8 {
            let fitting = Lent {
                buffer: bytes_of_ticks(lent.list),
                ..lent.clone()
            };
            let mut fits = own.call(asked, &fitting).unwrap();
            if answer(&mut fits).number >= 10 {
                called.reply = fits.reply;
            }
        }
    });
    // Nothing to convert is nothing to refuse.
    is_reported("colliedash_batch", |_, lent, called| {
        if lent.list.is_empty() && lent.buffer.is_empty() {
            *answer(called) = Answer::default();
        }
    });
}

/// Breaks down at its third call.
#[derive(Default)]
struct BreaksDown {
    own: Own,
    calls: u64,
}

impl Desk for BreaksDown {
    fn call(&mut self, asked: Asked, lent: &Lent) -> Outcome {
        self.calls += 1;
        match self.calls {
            3 => Err("broken".into()),
            _ => self.own.call(asked, lent),
        }
    }
}

#[test]
fn a_desk_that_breaks_down_is_one_difference_and_ends_the_comparison() {
    let ledger = compared("colliedash_judge", &mut BreaksDown::default());
    assert_eq!((ledger.cases, ledger.different), (3, 1));
    let told = &ledger.first_differences[0];
    assert!(
        told.starts_with("case 3, Judge") && told.ends_with(": broken"),
        "{told}"
    );
}

/// The stage holds the real table and both ends of the sizes.
#[test]
fn the_stage_has_small_and_large_images() {
    let sizes = |blocks: usize| {
        STAGE
            .images
            .iter()
            .any(|image| image.len() == blocks * BLOCK)
    };
    assert!(sizes(2) && sizes(121) && sizes(122));
    assert_eq!(
        image(&STAGE.accepted[0]),
        include_bytes!("../data/real.blk")
    );
}
