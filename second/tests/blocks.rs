//! A table as blocks: writing, reading, and refusals 8 and 13 to 16 with their
//! neighbours.

mod common;

use common::{both_refuse, flat, refused, table};
use second::blocks::{self, BLOCK, check, image, judge};
use second::generate::{Random, accepted_tables};
use second::scales::GREATEST_EPOCH;
use second::table::Table;

const REAL: &[u8] = include_bytes!("../data/real.blk");

#[track_caller]
fn both_accept(table: &Table) {
    let size = blocks::blocks_needed(table.count) as usize * BLOCK;
    let written = blocks::write(table, size).expect("accepted");
    assert_eq!(judge(&written).as_ref(), Ok(table));
}

/// The check of a block in which few words are not zero, by hand.
#[test]
fn check_by_hand() {
    let mut block = [0u8; BLOCK];
    block[0] = 1; // w_0 = 1 weighs 254
    block[507] = 1; // w_253 = 256 weighs 1
    assert_eq!(check(&block), [1, 1, (254 + 256 - 256) as u8, 1]);
    // w_0 = 65535 is 0 modulo 65535 in both sums.
    let mut block = [0u8; BLOCK];
    block[0..2].fill(255);
    assert_eq!(check(&block), [0; 4]);
    // w_1 = 65534 gives A = 65534 and B = 253·65534, which is −253.
    let mut block = [0u8; BLOCK];
    block[2..4].copy_from_slice(&65_534u16.to_le_bytes());
    let [a0, a1] = 65_534u16.to_le_bytes();
    let [b0, b1] = (65_535u16 - 253).to_le_bytes();
    assert_eq!(check(&block), [a0, a1, b0, b1]);
}

#[test]
fn the_real_table_has_the_numbers_told_of_it() {
    let table = judge(REAL).expect("accepted");
    assert_eq!(table.start, 1_546_300_767_816_000_000);
    assert_eq!(table.length, 691_200_000_000_000);
    assert_eq!((table.count, table.degree), (183, 11));
    assert_eq!(REAL.len(), 62 * BLOCK);
    let weight = table.granules().map(|g| g.weight()).max().unwrap();
    assert_eq!(
        (weight + 50_000_000) / 100_000_000,
        78,
        "7.8·10^9, {weight}"
    );
    let sum = |g: usize| {
        table
            .granule_coefficients(g)
            .iter()
            .map(|c| c.abs())
            .sum::<i64>()
    };
    let greatest = (0..183).map(sum).max().unwrap();
    assert_eq!(
        (greatest + 50_000_000) / 100_000_000,
        1_094,
        "1.094·10^11, {greatest}"
    );
    let gap = |g: usize| table.granule(g - 1).plain_sum() - table.granule(g).alternating_sum();
    assert_eq!((1..183).map(|g| gap(g).abs()).max(), Some(4));
    assert_eq!(blocks::write(&table, REAL.len()).as_deref(), Ok(REAL));
}

#[test]
fn reading_gives_what_was_written_and_writing_gives_the_same_bytes() {
    let mut random = Random::new(30);
    for table in accepted_tables(&mut random, 200) {
        let bytes = image(&table);
        assert_eq!(
            bytes.len() as u64,
            BLOCK as u64 * blocks::blocks_needed(table.count)
        );
        assert_eq!(blocks::write(&table, bytes.len()).as_ref(), Ok(&bytes));
        let read = blocks::read(&bytes, table.coefficients.len());
        assert_eq!(read.as_ref(), Ok(&table));
    }
}

/// One byte at a time, by the layout of the page.
#[test]
fn the_layout() {
    let mut first = vec![0; 3];
    first[2] = -2;
    let mut table = table(
        2,
        0x2_0304_0506_0708,
        &[&first, &[0; 3], &[0; 3], &[5, 0, 0]],
    );
    table.start = -2;
    let bytes = image(&table);
    assert_eq!(bytes.len(), 3 * BLOCK);
    assert_eq!(bytes[..8], [1, 1, 2, 0, 0, 0, 0, 0]);
    assert_eq!(bytes[8..16], [0xfe, 255, 255, 255, 255, 255, 255, 255]);
    assert_eq!(bytes[16..24], [8, 7, 6, 5, 4, 3, 2, 0]);
    assert_eq!(bytes[24..28], [4, 0, 0, 0]);
    assert_eq!(bytes[512..520], [2, 1, 3, 0, 1, 0, 0, 0]);
    assert_eq!(
        bytes[520 + 16..520 + 24],
        [0xfe, 255, 255, 255, 255, 255, 255, 255]
    );
    assert_eq!(bytes[1024..1032], [2, 1, 1, 0, 2, 0, 0, 0]);
    assert_eq!(bytes[1032..1041], [5, 0, 0, 0, 0, 0, 0, 0, 0]);
}

#[test]
fn bounds_13_with_their_neighbours() {
    both_accept(&flat(15, 2));
    let beyond_degree = flat(16, 2);
    assert_eq!(blocks::write(&beyond_degree, 1024), refused(13, 0));
    for (length, accepted) in [
        (1_000_000_000, true),
        (999_999_999, false),
        (1 << 50, true),
        ((1 << 50) + 1, false),
    ] {
        let table = Table {
            length,
            ..flat(3, 4)
        };
        match accepted {
            true => both_accept(&table),
            false => both_refuse(&table, 13, 0),
        }
    }
    both_accept(&flat(0, 360));
    both_accept(&flat(0, 1));
    assert_eq!(blocks::write(&flat(0, 361), 122 * BLOCK), refused(13, 0));
    assert_eq!(blocks::write(&flat(0, 0), BLOCK), refused(13, 0));
}

#[test]
fn starts_13_with_their_neighbours() {
    let last = GREATEST_EPOCH - 2_000_000_000;
    for start in [-GREATEST_EPOCH, last] {
        both_accept(&Table {
            start,
            ..flat(1, 2)
        });
    }
    for start in [-GREATEST_EPOCH - 1, last + 1, i64::MIN, i64::MAX] {
        both_refuse(
            &Table {
                start,
                ..flat(1, 2)
            },
            13,
            0,
        );
    }
}

#[test]
fn coefficients_14_with_their_neighbours() {
    let most = 1 << 40;
    for c in [most, -most] {
        both_accept(&table(0, 1 << 50, &[&[c]]));
        both_accept(&table(1, 1 << 50, &[&[0, c]]));
    }
    for c in [most + 1, -most - 1, i64::MAX, i64::MIN] {
        both_refuse(&table(0, 1 << 50, &[&[c]]), 14, 0);
        both_refuse(&table(1, 1 << 50, &[&[0, 0], &[0, 0], &[0, c]]), 14, 2);
    }
    // 14 over all granules comes before 15 and 16 over any.
    let weighty = [0, 0, most];
    both_refuse(&table(2, 1 << 50, &[&weighty, &[0, most + 1, 0]]), 14, 1);
}

#[test]
fn weights_15_with_their_neighbours() {
    let long = 1 << 50;
    let most = 1 << 40;
    both_accept(&table(2, long, &[&[0, 0, most / 4]]));
    both_accept(&table(2, long, &[&[0, -3, 1 - most / 4]]));
    both_refuse(&table(2, long, &[&[0, 1, most / 4]]), 15, 0);
    both_refuse(&table(2, long, &[&[0, -1, -most / 4]]), 15, 0);
    // The bound is the lesser of the two.
    both_accept(&table(1, most - 1, &[&[0, most - 1]]));
    both_refuse(&table(1, most - 1, &[&[0, most]]), 15, 0);
    both_accept(&table(1, most + 1, &[&[0, most]]));
    // c_0 weighs nothing, and k = 15 weighs 225.
    let mut top = [0; 16];
    top[0] = most;
    top[15] = 1_000_000_000 / 225;
    both_accept(&table(15, 1_000_000_000, &[&top]));
    top[15] += 1;
    both_refuse(&table(15, 1_000_000_000, &[&top]), 15, 0);
    // 15 over all granules comes before 16 over any.
    both_refuse(
        &table(
            1,
            1_000_000_000,
            &[&[0, 0], &[2000, 0], &[0, 1_000_000_001]],
        ),
        15,
        2,
    );
}

#[test]
fn joins_16_with_their_neighbours() {
    let joined = |gap: i64| table(1, 1_000_000_000, &[&[3, 40], &[43 + gap + 7, 7]]);
    for gap in [0, 1024, -1024] {
        both_accept(&joined(gap));
    }
    for gap in [1025, -1025] {
        both_refuse(&joined(gap), 16, 1);
    }
    // Even terms keep their sign at the join, odd ones change it.
    both_accept(&table(2, 1_000_000_000, &[&[0, 0, 5000], &[0, 0, 5000]]));
    both_refuse(&table(1, 1_000_000_000, &[&[0, 5000], &[0, 5000]]), 16, 1);
    both_accept(&table(1, 1_000_000_000, &[&[0, 5000], &[0, -5000]]));
    // The lowest of two wide joins is told.
    both_refuse(
        &table(0, 1_000_000_000, &[&[0], &[0], &[1025], &[0]]),
        16,
        2,
    );
}

#[test]
fn reading_8_comes_after_the_tables_own_numbers() {
    let bytes = image(&flat(2, 4));
    assert!(blocks::read(&bytes, 12).is_ok());
    for length in [0, 11, 13, 1_000] {
        assert_eq!(blocks::read(&bytes, length), refused(8, 0));
    }
    let mut broken = bytes.clone();
    broken[600] ^= 1;
    assert_eq!(blocks::read(&broken, 0), refused(11, 1));
    let wide = image(&table(0, 1_000_000_000, &[&[0], &[1025]]));
    assert_eq!(blocks::read(&wide, 99), refused(16, 1));
    assert_eq!(blocks::read(&[], 0), refused(10, 0));
}

#[test]
fn writing_8_comes_first_for_any_count_and_degree() {
    let table = flat(2, 4);
    for length in [0, 1024, 3 * BLOCK - 1, 3 * BLOCK + 1, 4 * BLOCK] {
        assert_eq!(blocks::write(&table, length), refused(8, 0));
    }
    let mut short = table.clone();
    short.coefficients.pop();
    assert_eq!(blocks::write(&short, 3 * BLOCK), refused(8, 0));
    let broken = |count, degree, coefficients: usize| Table {
        count,
        degree,
        coefficients: vec![i64::MAX; coefficients],
        ..flat(0, 1)
    };
    // G = 0 wants no coefficients and 512 bytes, and is then 13.
    assert_eq!(blocks::write(&broken(0, 3, 0), BLOCK), refused(13, 0));
    assert_eq!(blocks::write(&broken(0, 3, 0), 2 * BLOCK), refused(8, 0));
    assert_eq!(blocks::write(&broken(0, 3, 1), BLOCK), refused(8, 0));
    assert_eq!(
        blocks::write(&broken(0, u32::MAX, 0), BLOCK),
        refused(13, 0)
    );
    // In 32 bits these products would wrap to the lengths lent.
    assert_eq!(
        blocks::write(&broken(2, u32::MAX, 0), 2 * BLOCK),
        refused(8, 0)
    );
    assert_eq!(
        blocks::write(&broken(2, 1 << 31, 2), 2 * BLOCK),
        refused(8, 0)
    );
    assert_eq!(
        blocks::write(&broken(2, 299, 600), 2 * BLOCK),
        refused(13, 0)
    );
    assert_eq!(
        blocks::write(&broken(2, 299, 599), 2 * BLOCK),
        refused(8, 0)
    );
}
