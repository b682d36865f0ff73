//! What changed between two tables, by hand: entries, refusals and their order,
//! and what is written into the lent buffer.

mod small_tables;

use second::blocks::{BLOCK, image, judge, seal};
use second::changes::{Entry, PairRefusal, compare_tables};
use second::compare::{Asked, ChangesAnswer, Desk, Lent, Own, Reply, blank, bytes_of_ticks};
use second::refusal::Refusal;
use second::table::Table;
use small_tables::{flat, table};

const H: i64 = 1_000_000_000;
const LARGE: i64 = 1 << 40;
/// More than any list needs.
const ROOM: usize = 3 * 360;

/// The list as triples; or the refusal's number, its place, and which table.
type Compared = Result<Vec<[i64; 3]>, (u32, u64, u32)>;

fn bytes_compared(first: &[u8], second: &[u8], room: usize) -> Compared {
    let told = |PairRefusal { refusal, which }| (refusal.number, refusal.place, which);
    let list = compare_tables(&judge(first), &judge(second), room).map_err(told)?;
    Ok(list.iter().map(Entry::numbers).collect())
}

fn compared(first: &Table, second: &Table, room: usize) -> Compared {
    bytes_compared(&image(first), &image(second), room)
}

/// The list of both, the other way round too.
#[track_caller]
fn differ(first: &Table, second: &Table, expected: &[[i64; 3]]) {
    assert_eq!(compared(first, second, ROOM).as_deref(), Ok(expected));
    assert_eq!(compared(second, first, ROOM).as_deref(), Ok(expected));
}

#[test]
fn one_coefficient_of_one_granule() {
    let first = table(2, H, &[&[1, 2, 3], &[4, 5, 6], &[7, 8, 9]]);
    for (k, by) in [(0, 1), (1, -1), (2, 500), (0, -500)] {
        for g in 0..3 {
            let mut second = first.clone();
            second.coefficients[3 * g + k] += by;
            differ(&first, &second, &[[g as i64, by.abs(), by.abs()]]);
        }
    }
}

/// "the largest coefficient difference and the sum of the absolute differences":
/// neither is moved by a sign.
#[test]
fn several_coefficients_of_several_granules() {
    let first = table(2, H, &[&[1, 2, 3], &[4, 5, 6], &[7, 8, 9], &[0, 0, 0]]);
    let second = table(2, H, &[&[1, 5, 1], &[4, 5, 6], &[0, 9, 7], &[2, 2, -2]]);
    differ(&first, &second, &[[0, 3, 5], [2, 7, 10], [3, 2, 6]]);
    // The differences 9 and −9 add up to nothing, but not their sizes.
    let turned = table(2, H, &[&[-8, 2, 12], &[4, 5, 6], &[7, 8, 9], &[0, 0, 0]]);
    differ(&first, &turned, &[[0, 9, 18]]);
}

#[test]
fn a_table_and_itself_have_no_entry() {
    let real = judge(include_bytes!("../data/real.blk")).expect("accepted");
    for table in [real, flat(0, 1), flat(15, 360), table(0, H, &[&[LARGE]])] {
        differ(&table, &table, &[]);
        assert_eq!(compared(&table, &table, 0), Ok(vec![]));
    }
}

/// "a missing coefficient counting as zero"
#[test]
fn degrees_may_differ() {
    let low = table(0, H, &[&[5], &[6]]);
    let same = table(2, H, &[&[5, 0, 0], &[6, 0, 0]]);
    let highest = Table {
        degree: 15,
        coefficients: [
            [vec![5], vec![0; 15]].concat(),
            [vec![6], vec![0; 15]].concat(),
        ]
        .concat(),
        ..low.clone()
    };
    for (first, second) in [(&low, &same), (&low, &highest), (&same, &highest)] {
        differ(first, second, &[]);
    }
    differ(&low, &table(2, H, &[&[5, 0, -2], &[6, 0, 0]]), &[[0, 2, 2]]);
    differ(&low, &table(1, H, &[&[5, 0], &[3, 1]]), &[[1, 3, 4]]);
    let both = table(3, H, &[&[4, 0, 0, 7], &[6, 0, 9, 0]]);
    differ(&same, &both, &[[0, 7, 8], [1, 9, 9]]);
}

/// As far apart as 14 and 15 let two granules be: 2^41 and 2^42.
#[test]
fn the_largest_differences_there_are() {
    differ(
        &table(0, H, &[&[LARGE]]),
        &table(0, H, &[&[-LARGE]]),
        &[[0, 1 << 41, 1 << 41]],
    );
    let above: [&[i64]; 2] = [&[LARGE, LARGE], &[LARGE, -LARGE]];
    let below: [&[i64]; 2] = [&[-LARGE, -LARGE], &[-LARGE, LARGE]];
    let far = [[0, 1 << 41, 1 << 42], [1, 1 << 41, 1 << 42]];
    differ(&table(1, LARGE, &above), &table(1, LARGE, &below), &far);
}

#[test]
fn all_360_granules() {
    let (first, mut second) = (flat(3, 360), flat(3, 360));
    second.coefficients.fill(-7);
    let all: Vec<[i64; 3]> = (0..360).map(|g| [g, 7, 28]).collect();
    differ(&first, &second, &all);
}

/// "20 where S, H or G differ", place 0, neither table's.
#[test]
fn refusal_20_by_each_number() {
    let first = flat(1, 4);
    let (start, length, count) = (first.start, first.length, first.count);
    let other = |start, length, count| Table {
        start,
        length,
        ..flat(1, count)
    };
    for second in [
        other(start + 1, length, count),
        other(start - 1, length, count),
        other(start + (1 << 32), length, count),
        other(start, length + 1, count),
        other(start, length + (1 << 32), count),
        other(start, length, count + 1),
        other(start, length, count - 1),
        other(start, length, count + 256),
        // The same last tick.
        other(start - 4, length + 1, count),
        other(start + length, length, count - 1),
    ] {
        for room in [0, ROOM] {
            assert_eq!(compared(&first, &second, room), Err((20, 0, 0)));
            assert_eq!(compared(&second, &first, room), Err((20, 0, 0)));
        }
    }
    assert_eq!(
        compared(&first, &other(start, length, count), 0),
        Ok(vec![])
    );
    // A degree is none of these.
    assert_eq!(compared(&first, &flat(9, 4), 0), Ok(vec![]));
}

/// Each of 10 to 16, with a place that is not 0 where it can be another; and S
/// moved to where it is asked.
fn refused_tables(start: i64) -> Vec<(Vec<u8>, u32, u64)> {
    let right = Table {
        start,
        ..flat(1, 6)
    };
    let with = |at: usize, c: i64| {
        let mut table = right.clone();
        table.coefficients[at] = c;
        image(&table)
    };
    let spoilt = |block: usize, at: usize, sealed: bool| {
        let mut bytes = image(&right);
        let block = &mut bytes[block * BLOCK..(block + 1) * BLOCK];
        block[at] ^= 16;
        if sealed {
            seal(block);
        }
        bytes
    };
    vec![
        (image(&right)[..3 * BLOCK - 1].to_vec(), 10, 0),
        (spoilt(2, 20, false), 11, 2),
        (spoilt(1, 450, true), 12, 1),
        (spoilt(0, 2, true), 13, 0),
        (with(2 * 5, LARGE + 1), 14, 5),
        (with(2 * 3 + 1, H + 1), 15, 3),
        (with(2 * 4, 1_025), 16, 4),
    ]
}

#[test]
fn each_refusal_of_either_table() {
    let right = image(&flat(1, 6));
    for (wrong, number, place) in refused_tables(0) {
        for room in [0, ROOM] {
            let first = bytes_compared(&wrong, &right, room);
            assert_eq!(first, Err((number, place, 0)));
            let second = bytes_compared(&right, &wrong, room);
            assert_eq!(second, Err((number, place, 1)));
        }
    }
    for (first, second, which) in [(&right[..], &[][..], 1), (&[], &right, 0), (&[], &[], 0)] {
        assert_eq!(bytes_compared(first, second, ROOM), Err((10, 0, which)));
    }
}

/// The first table is judged wholly before the second, and both before 20.
#[test]
fn the_order_of_two_refused_tables() {
    for (first, number, place) in refused_tables(0) {
        for (second, _, _) in refused_tables(1) {
            let told = bytes_compared(&first, &second, 0);
            assert_eq!(told, Err((number, place, 0)));
        }
        let moved = image(&Table {
            start: 1,
            ..flat(1, 6)
        });
        let told = [[&first, &moved], [&moved, &first]].map(|[a, b]| bytes_compared(a, b, 0));
        assert_eq!(told, [Err((number, place, 0)), Err((number, place, 1))]);
    }
}

/// "8 exactly when the buffer is shorter than the list", after 20.
#[test]
fn refusal_8_at_one_number_short() {
    let first = flat(0, 5);
    for many in 0..=5 {
        let mut second = first.clone();
        second.coefficients[5 - many..].fill(1);
        let list: Vec<[i64; 3]> = (5 - many as i64..5).map(|g| [g, 1, 1]).collect();
        for room in 0..3 * many {
            assert_eq!(compared(&first, &second, room), Err((8, 0, 0)), "{room}");
        }
        for room in [0, 1, 2, 3, 1_000].map(|more| 3 * many + more) {
            assert_eq!(compared(&first, &second, room), Ok(list.clone()), "{room}");
        }
        let moved = Table { start: 1, ..second };
        assert_eq!(compared(&first, &moved, 0), Err((20, 0, 0)));
    }
}

/// "The list goes to the front of a lent buffer, all or nothing, its length is
/// returned and the rest of the buffer stays."
#[test]
fn the_buffer_after_the_call() {
    let first = image(&table(1, H, &[&[1, 0], &[2, 0], &[3, 0]]));
    let second = image(&table(0, H, &[&[1], &[9], &[-3]]));
    let list = bytes_of_ticks(&[1, 7, 7, 2, 6, 6]);
    let mut own = Own::default();
    let mut call = |second_table: &[u8], room: usize| {
        let lent = Lent {
            second_table,
            buffer: blank(8 * room),
            ..Lent::table(&first)
        };
        let called = own.call(Asked::CompareTables, &lent).expect("an answer");
        (called.reply, called.buffer)
    };
    let two = Reply::Changes(ChangesAnswer {
        entries: 2,
        ..ChangesAnswer::default()
    });
    for room in [6, 7, 8, 9, 100] {
        let rest = blank(8 * room).split_off(list.len());
        assert_eq!(call(&second, room), (two, [&list[..], &rest].concat()));
    }
    let refused = |number, which| {
        let refusal = Refusal::new(number, 0);
        Reply::Changes(ChangesAnswer::from(Err(PairRefusal { refusal, which })))
    };
    for room in 0..6 {
        assert_eq!(call(&second, room), (refused(8, 0), blank(8 * room)));
    }
    let moved = image(&flat(0, 4));
    for room in [0, 100] {
        assert_eq!(call(&moved, room), (refused(20, 0), blank(8 * room)));
        assert_eq!(call(&[], room), (refused(10, 1), blank(8 * room)));
        let none = Reply::Changes(ChangesAnswer::default());
        assert_eq!(call(&first, room), (none, blank(8 * room)));
    }
}
