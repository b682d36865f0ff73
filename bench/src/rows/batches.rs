//! Batches of ticks.

use super::{ROUNDS, inside, print_growth, print_row};
use crate::inputs::{at_random, in_order};
use crate::plain::batch::{gps_to_tcb, linear, tdb_to_tt, tt_to_tdb};
use crate::plain::judge::judge;
use crate::plain::scales::{tcb_to_tdb, tcg_to_tt, tdb_to_tcb, tt_to_tcg};
use crate::plain::{Refusal, table::Table};
use crate::{ours, plain_c};

const MANY: usize = 100_000;
const SIZES: [usize; 3] = [10_000, 100_000, 1_000_000];

/// A path, by its codes, and the plain sides of it.
struct Path {
    name: &'static str,
    from: u32,
    to: u32,
    rust: fn(&[i64], &mut [i64], &Table) -> Result<(), Refusal>,
    c: plain_c::Batch,
}

const LINEAR: [Path; 4] = [
    Path {
        name: "TCB to TDB",
        from: 6,
        to: 5,
        rust: |ticks, answers, _| linear(ticks, answers, tcb_to_tdb),
        c: plain_c::plain_tcb_to_tdb,
    },
    Path {
        name: "TDB to TCB",
        from: 5,
        to: 6,
        rust: |ticks, answers, _| linear(ticks, answers, tdb_to_tcb),
        c: plain_c::plain_tdb_to_tcb,
    },
    Path {
        name: "TT to TCG",
        from: 3,
        to: 4,
        rust: |ticks, answers, _| linear(ticks, answers, tt_to_tcg),
        c: plain_c::plain_tt_to_tcg,
    },
    Path {
        name: "TCG to TT",
        from: 4,
        to: 3,
        rust: |ticks, answers, _| linear(ticks, answers, tcg_to_tt),
        c: plain_c::plain_tcg_to_tt,
    },
];

const OVER_THE_TABLE: [Path; 3] = [
    Path {
        name: "TT to TDB",
        from: 3,
        to: 5,
        rust: tt_to_tdb,
        c: plain_c::plain_tt_to_tdb,
    },
    Path {
        name: "TDB to TT",
        from: 5,
        to: 3,
        rust: tdb_to_tt,
        c: plain_c::plain_tdb_to_tt,
    },
    Path {
        name: "GPS to TCB",
        from: 1,
        to: 6,
        rust: gps_to_tcb,
        c: plain_c::plain_gps_to_tcb,
    },
];

/// All sides convert the list and answer the same; and where its middle entry is spoilt they refuse
/// the same, and write nothing.
fn compare(path: &Path, ticks: &[i64], bytes: &[u8], table: &Table) {
    for spoilt in [None, Some(i64::MAX), Some(5_999_999_999_999_999_999)] {
        let mut ticks = ticks.to_vec();
        if let Some(tick) = spoilt {
            ticks[MANY / 2] = tick;
        }
        let mut answers = [(); 3].map(|_| vec![0; ticks.len()]);
        let [a, b, c] = &mut answers;
        let answer = ours::batch(path.from, path.to, &ticks, a, bytes);
        let told = (answer.number, answer.place, answer.index);
        let rust = (path.rust)(&ticks, b, table).err();
        let rust = rust.map_or((0, 0, 0), |r| (r.number, r.place, r.index));
        let c = plain_c::batch(path.c, &ticks, c, table);
        assert_eq!(told, rust, "{}", path.name);
        assert_eq!(told, (c.number, c.place, c.index), "{}", path.name);
        assert!(told.0 == 0 || answers[0].iter().all(|answer| *answer == 0));
        assert!(told.0 == 0 || spoilt.is_some(), "{}", path.name);
        assert_eq!(answers[0], answers[1], "{}", path.name);
        assert_eq!(answers[0], answers[2], "{}", path.name);
    }
}

fn row(path: &Path, order: &str, ticks: &[i64], bytes: &[u8], table: &Table) {
    compare(path, ticks, bytes, table);
    let mut answers = [(); 3].map(|_| vec![0; ticks.len()]);
    let [a, b, c] = &mut answers;
    print_row(
        &format!("batch {}, {order}", path.name),
        ticks.len(),
        ROUNDS,
        vec![
            Box::new(|| assert_eq!(ours::batch(path.from, path.to, ticks, a, bytes).number, 0)),
            Box::new(|| assert!((path.rust)(ticks, b, table).is_ok())),
            Box::new(|| assert_eq!(plain_c::batch(path.c, ticks, c, table).number, 0)),
        ],
    );
}

pub fn rows(bytes: &[u8]) {
    let table = judge(bytes).expect("an accepted table");
    let ticks = at_random(MANY, -5_990_000_000_000_000_000, 5_990_000_000_000_000_000);
    for path in &LINEAR {
        row(path, "at random", &ticks, bytes, &table);
    }
    let (least, end) = inside(&table);
    for path in &OVER_THE_TABLE {
        row(path, "in order", &in_order(MANY, least, end), bytes, &table);
        row(
            path,
            "at random",
            &at_random(MANY, least, end),
            bytes,
            &table,
        );
    }
}

/// A batch over the table, by its length.
pub fn growth(bytes: &[u8]) {
    let table = judge(bytes).expect("an accepted table");
    let (least, end) = inside(&table);
    let lists = SIZES.map(|size| at_random(size, least, end));
    let mut answers = lists.clone();
    print_growth(
        "batch TT to TDB, ticks",
        &SIZES,
        1,
        ROUNDS,
        lists
            .iter()
            .zip(&mut answers)
            .map(|(ticks, answers)| {
                let side = || assert_eq!(ours::batch(3, 5, ticks, answers, bytes).number, 0);
                Box::new(side) as _
            })
            .collect(),
    );
}
