//! Judging a table.

use super::{ROUNDS, print_growth, print_row};
use crate::ours;
use crate::plain::judge::judge;
use std::hint::black_box;

/// Judgements at a time.
const MANY: usize = 100;
/// Granules, three to a block.
const GRANULES: [u32; 3] = [30, 90, 180];

/// Both sides judge the bytes alike, as they are and with any one byte of the first two blocks or
/// the last spoilt.
fn compare(bytes: &[u8]) {
    let mut bytes = bytes.to_vec();
    let length = bytes.len();
    for at in (0..1024).chain(length - 512..length) {
        for spoilt in [0, 1, 128] {
            bytes[at] ^= spoilt;
            let ours = ours::judge(&bytes);
            let rust = match judge(&bytes) {
                Ok(t) => (0, 0, t.start, t.length, t.count, t.degree),
                Err(refusal) => (refusal.number, refusal.place, 0, 0, 0, 0),
            };
            let told = (
                ours.number,
                ours.place,
                ours.start,
                ours.length,
                ours.count,
                ours.degree,
            );
            assert_eq!(told, rust, "byte {at}");
            bytes[at] ^= spoilt;
        }
    }
}

fn judge_ours(bytes: &[u8]) {
    for _ in 0..MANY {
        assert_eq!(ours::judge(black_box(bytes)).number, 0);
    }
}

pub fn row(bytes: &[u8]) {
    compare(bytes);
    print_row(
        "judging the table, 62 blocks",
        MANY,
        ROUNDS,
        vec![
            Box::new(|| judge_ours(bytes)),
            Box::new(|| {
                for _ in 0..MANY {
                    assert!(judge(black_box(bytes)).is_ok());
                }
            }),
        ],
    );
}

/// Judging, by the number of blocks: of tables that have the first granules of the given one.
pub fn growth(bytes: &[u8]) {
    let table = ours::judge(bytes);
    let coefficients = judge(bytes).expect("an accepted table").coefficients;
    let tables = GRANULES.map(|count| {
        let some = (count * (table.degree + 1)) as usize;
        ours::write_table(ours::Table { count, ..table }, &coefficients[..some])
    });
    print_growth(
        "judging, blocks",
        &tables.each_ref().map(|table| table.len() / 512),
        MANY,
        ROUNDS,
        tables
            .iter()
            .map(|table| Box::new(|| judge_ours(table)) as _)
            .collect(),
    );
}
