//! One tick or ten over a table, a call each on every side. Every call judges the bytes and takes
//! the coefficients out of them, on both sides: for so few ticks that is nearly all of its time.

use super::{ROUNDS, accepted, each, inside, print_row};
use crate::inputs::at_random;
use crate::ours;
use crate::plain::Refusal;
use crate::plain::batch::over_bytes;
use crate::plain::convert::convert_ticks;
use crate::plain::judge::judge;
use crate::plain::table::Table;
use crate::timing::Side;
use std::hint::black_box;

/// Calls at a time.
const MANY: usize = 1000;
/// Ticks of a small batch.
const TEN: usize = 10;
const TT: u32 = 3;
const TCG: u32 = 4;
const TDB: u32 = 5;
const UTC: u32 = 7;
const LATEST: i64 = 6_000_000_000_000_000_000;

/// A path over the table, by its codes.
struct Path {
    name: &'static str,
    from: u32,
    to: u32,
}

const PATHS: [Path; 2] = [
    Path {
        name: "TT to TDB",
        from: TT,
        to: TDB,
    },
    Path {
        name: "TDB to TT",
        from: TDB,
        to: TT,
    },
];

/// Both sides tell the same of a tick: the refusal's number, or 0.
fn compare(from: u32, to: u32, tick: i64, bytes: &[u8]) -> u32 {
    let ours = ours::convert_ticks(from, to, tick, bytes);
    let told = (ours.number, ours.place, ours.index, ours.tick, ours.steps);
    let rust = convert_ticks(from, to, tick, bytes);
    let converted = |(tick, steps)| (0, 0, 0, tick, steps);
    let refused = |r: Refusal| (r.number, r.place, r.index, 0, 0);
    assert_eq!(told, rust.map_or_else(refused, converted));
    ours.number
}

/// Both sides tell the same of a list, the refusal's number and index, or zeros; and they leave the
/// same in a list with so much room, nothing where they refuse.
fn compare_list(from: u32, to: u32, ticks: &[i64], room: usize, bytes: &[u8]) -> (u32, u64) {
    let mut lists = [(); 2].map(|_| vec![-1; room]);
    let [a, b] = &mut lists;
    let ours = ours::batch(from, to, ticks, a, bytes);
    let told = (ours.number, ours.place, ours.index);
    let rust = over_bytes(from, to, ticks, b, bytes).err();
    let rust = rust.map_or((0, 0, 0), |r| (r.number, r.place, r.index));
    assert_eq!(told, rust);
    assert_eq!(lists[0], lists[1]);
    assert!(told.0 == 0 || lists[0].iter().all(|number| *number == -1));
    (ours.number, ours.index)
}

/// Bytes that hold no table, and the number by which they are refused: none, one too few, and one
/// that is spoilt.
fn no_tables(bytes: &[u8]) -> [(Vec<u8>, u32); 3] {
    let mut spoilt = bytes.to_vec();
    spoilt[5 * 512 + 100] ^= 1;
    [(vec![], 10), (bytes[1..].to_vec(), 10), (spoilt, 11)]
}

/// Ticks about the ends of the table and of the range, with the number by which each is refused, or
/// 0.
fn edges(path: &Path, table: &Table) -> [(i64, u32); 8] {
    let read = |tt| if path.from == TT { tt } else { table.tdb(tt) };
    let (first, last) = (read(table.start), read(table.last()));
    [
        (first - 1, 6),
        (first, 0),
        (last, 0),
        (last + 1, 6),
        (LATEST, 6),
        (LATEST + 1, 4),
        (i64::MIN, 4),
        (i64::MAX, 4),
    ]
}

/// Of every tick, and where something is wrong: the codes come first, then the bytes, then the
/// tick. A path that does not cross looks at no bytes.
fn compare_singles(path: &Path, ticks: &[i64], bytes: &[u8], table: &Table) {
    let inside = ticks.iter().map(|tick| (*tick, 0));
    for (tick, number) in inside.chain(edges(path, table)) {
        assert_eq!(compare(path.from, path.to, tick, bytes), number);
    }
    for (none, number) in no_tables(bytes) {
        assert_eq!(compare(UTC, path.to, i64::MAX, &none), 1);
        assert_eq!(compare(path.from, UTC, i64::MAX, &none), 1);
        assert_eq!(compare(path.from, path.to, i64::MAX, &none), number);
        assert_eq!(compare(TT, TCG, ticks[0], &none), 0);
    }
}

/// Of every ten ticks, and where something is wrong: the codes come first, then the lengths, then
/// the bytes, then the ticks.
fn compare_tens(path: &Path, ticks: &[i64], bytes: &[u8], table: &Table) {
    for ten in ticks.chunks_exact(TEN) {
        assert_eq!(compare_list(path.from, path.to, ten, TEN, bytes), (0, 0));
    }
    let mut ten = ticks[..TEN].to_vec();
    for (tick, number) in edges(path, table) {
        ten[7] = tick;
        let index = if number == 0 { 0 } else { 7 };
        let told = compare_list(path.from, path.to, &ten, TEN, bytes);
        assert_eq!(told, (number, index));
    }
    for (none, number) in no_tables(bytes) {
        let compare = |from, to, room| compare_list(from, to, &ten, room, &none);
        assert_eq!(compare(UTC, path.to, TEN - 1), (1, 0));
        assert_eq!(compare(path.from, UTC, TEN - 1), (1, 0));
        assert_eq!(compare(path.from, path.to, TEN - 1), (8, 0));
        assert_eq!(compare(path.from, path.to, TEN), (number, 0));
    }
}

// In what is timed a code and the bytes go through `black_box`, so that no compiler makes a plain
// side for one path or one table, or judges once for all calls.

fn single(path: &Path, bytes: &[u8], table: &Table) {
    let (least, end) = inside(table);
    let ticks = at_random(MANY, least, end);
    compare_singles(path, &ticks, bytes, table);
    let mut kept = [(); 2].map(|_| ticks.clone());
    let [a, b] = &mut kept;
    print_row(
        &format!("a single conversion {} over a table", path.name),
        MANY,
        ROUNDS,
        vec![
            each(&ticks, a, |tick| {
                let from = black_box(path.from);
                let answer = ours::convert_ticks(from, path.to, tick, black_box(bytes));
                accepted(answer.number, answer.tick)
            }),
            each(&ticks, b, |tick| {
                let from = black_box(path.from);
                let answer = convert_ticks(from, path.to, tick, black_box(bytes));
                answer.ok().map(|(tick, _)| tick)
            }),
        ],
    );
}

/// Hands every ten ticks to one side, with room for their answers; it tells whether they were
/// accepted.
fn each_ten<'a>(
    ticks: &'a [i64],
    answers: &'a mut [i64],
    side: impl Fn(&[i64], &mut [i64]) -> bool + 'a,
) -> Side<'a> {
    Box::new(move || {
        let rooms = answers.chunks_exact_mut(TEN);
        for (ticks, answers) in ticks.chunks_exact(TEN).zip(rooms) {
            assert!(side(ticks, answers));
        }
    })
}

/// The figure is of a call, which converts ten.
fn ten(path: &Path, bytes: &[u8], table: &Table) {
    let (least, end) = inside(table);
    let ticks = at_random(MANY * TEN, least, end);
    compare_tens(path, &ticks, bytes, table);
    let mut answers = [(); 2].map(|_| vec![0; ticks.len()]);
    let [a, b] = &mut answers;
    print_row(
        &format!("a batch of {TEN} ticks {} over a table", path.name),
        MANY,
        ROUNDS,
        vec![
            each_ten(&ticks, a, |ticks, answers| {
                let from = black_box(path.from);
                ours::batch(from, path.to, ticks, answers, black_box(bytes)).number == 0
            }),
            each_ten(&ticks, b, |ticks, answers| {
                let from = black_box(path.from);
                over_bytes(from, path.to, ticks, answers, black_box(bytes)).is_ok()
            }),
        ],
    );
}

pub fn rows(bytes: &[u8]) {
    let table = judge(bytes).expect("an accepted table");
    for path in &PATHS {
        single(path, bytes, &table);
    }
    for path in &PATHS {
        ten(path, bytes, &table);
    }
}
